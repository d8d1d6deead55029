"""Tests flutejoin-repair: what is missing of files is fetched of servers that are right, wrong and
hostile, and becomes datagrams that flutejoin join takes.

All servers are on the loopback. nginx and TLS are tested where nginx and openssl are installed."""
