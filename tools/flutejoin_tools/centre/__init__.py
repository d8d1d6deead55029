"""flutejoin-centre: the files of stations are delivered, and what is missing is repaired."""
