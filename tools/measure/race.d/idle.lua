-- Nothing is asked; the server is probed every second.
setSecurityPollSuffix("")
setLocal("127.0.0.1:@port@")
newServer("127.0.0.1:@backend@")
