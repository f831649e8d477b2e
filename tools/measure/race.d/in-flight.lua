-- The server answers nothing and counts as up: each query ends by its timeout of two seconds. At
-- 50,000 queries a second 100,000 are out at once, more than one socket has IDs for.
setSecurityPollSuffix("")
setLocal("127.0.0.1:@port@")
newServer({address="127.0.0.1:@backend@", sockets=2}):setUp()
