"""Tests flutejoin-files: sessions with FDT Instances in XML are made into datagram files, joined,
and written as named files, which are compared byte for byte. Each run of the tool has at most 64 MB
of data in memory.
"""
