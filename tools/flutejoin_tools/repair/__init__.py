"""flutejoin-repair: what is missing of files is fetched by HTTP."""
