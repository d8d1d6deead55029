"""flutejoin-capture: packet captures become datagram files."""
