-- Each query has a new name, in no order, whose reply is put into the cache.
setSecurityPollSuffix("")
setLocal("127.0.0.1:@port@")
newServer("127.0.0.1:@backend@")
getPool(""):setCache(newPacketCache(1000000))
