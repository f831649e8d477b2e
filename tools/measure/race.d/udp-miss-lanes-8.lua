-- Each query goes to the server, by one of eight sockets: there is no cache.
setSecurityPollSuffix("")
setLocal("127.0.0.1:@port@")
newServer({address="127.0.0.1:@backend@", sockets=8})
