-- Each query goes to the server: there is no cache.
setSecurityPollSuffix("")
setLocal("127.0.0.1:@port@")
newServer("127.0.0.1:@backend@")
