-- A hundred names, all of them in the cache, asked by HTTP without TLS.
setSecurityPollSuffix("")
setLocal("127.0.0.1:@port@")
addDOHLocal("127.0.0.1:@doh@", nil, nil, "/dns-query")
newServer("127.0.0.1:@backend@")
getPool(""):setCache(newPacketCache(100000))
