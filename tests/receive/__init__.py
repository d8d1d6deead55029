"""Tests flutejoin-receive: sends to 127.0.0.1, and to groups on the loopback of a network
namespace, and compares the datagram files and the journals with those of what was sent."""
