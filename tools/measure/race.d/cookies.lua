-- A thousand names, all of them in the cache; each query has a fresh cookie.
setSecurityPollSuffix("")
setLocal("127.0.0.1:@port@")
newServer("127.0.0.1:@backend@")
getPool(""):setCache(newPacketCache(100000, {cookieHashing=false}))
