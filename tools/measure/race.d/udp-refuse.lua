-- One rule refuses every query.
setSecurityPollSuffix("")
setLocal("127.0.0.1:@port@")
newServer("127.0.0.1:@backend@")
addAction(AllRule(), RCodeAction(DNSRCode.REFUSED))
