-- Each query has a new name, in no order. The replies fill the cache, which then turns others away.
setSecurityPollSuffix("")
setLocal("127.0.0.1:@port@")
newServer("127.0.0.1:@backend@")
getPool(""):setCache(newPacketCache(100000, {maxTTL=86400}))
