-- The server answers nothing and counts as up: each query ends by its timeout of two seconds.
setSecurityPollSuffix("")
setLocal("127.0.0.1:@port@")
newServer("127.0.0.1:@backend@"):setUp()
