"""flutejoin-files: the files of sessions are written under their names."""
