-- So many rules of one suffix each: the last of them refuses what is asked.
setSecurityPollSuffix("")
setLocal("127.0.0.1:@port@")
newServer("127.0.0.1:@backend@")
@repeat 4096 addAction("n@n@.blocked.test", RCodeAction(DNSRCode.REFUSED))
