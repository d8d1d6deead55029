"""Tests flutejoin-station: what stations keep of what comes, and what becomes of it at a centre."""
