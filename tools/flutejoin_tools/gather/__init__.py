"""flutejoin-gather: journals are joined by what agrees."""
