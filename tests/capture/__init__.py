"""Tests tools/flutejoin-capture and tools/flutejoin-mend as a user would run them: captures become
journals, and files of killed writers are mended. The results are compared with what the program
makes of the datagram files themselves."""
