"""The forms of bytes: packets, datagram files, journals and source blocks."""
