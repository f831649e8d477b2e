-- Of five queries four are answered from the cache; one has a new name and goes to the server.
setSecurityPollSuffix("")
setLocal("127.0.0.1:@port@")
newServer("127.0.0.1:@backend@")
getPool(""):setCache(newPacketCache(1000000))
