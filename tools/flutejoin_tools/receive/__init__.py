"""flutejoin-receive: datagrams of the network are kept as datagram files."""
