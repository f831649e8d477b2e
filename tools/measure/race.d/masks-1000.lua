-- A thousand rules of one mask each: the last of them refuses what is asked.
setSecurityPollSuffix("")
setLocal("127.0.0.1:@port@")
newServer("127.0.0.1:@backend@")
@repeat 999 addAction("10.@high@.@low@.0/24", RCodeAction(DNSRCode.REFUSED))
addAction("127.0.0.0/8", RCodeAction(DNSRCode.REFUSED))
