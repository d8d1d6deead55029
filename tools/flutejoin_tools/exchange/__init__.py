"""What a centre and the stations that it asks tell each other."""
