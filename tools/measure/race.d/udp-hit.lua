-- A hundred names, all of them in the cache.
setSecurityPollSuffix("")
setLocal("127.0.0.1:@port@")
newServer("127.0.0.1:@backend@")
getPool(""):setCache(newPacketCache(100000))
