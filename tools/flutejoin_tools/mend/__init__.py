"""flutejoin-mend and flutejoin-values: damaged files and wrong values."""
