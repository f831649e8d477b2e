-- One rule of a thousand names, all of which are asked and refused.
setSecurityPollSuffix("")
setLocal("127.0.0.1:@port@")
newServer("127.0.0.1:@backend@")
addAction({@list 1000 "n@n@.set.test"@}, RCodeAction(DNSRCode.REFUSED))
