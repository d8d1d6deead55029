"""flutejoin-map: pictures of what is there and what is missing."""
