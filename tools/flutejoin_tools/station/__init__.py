"""flutejoin-station: a station that receives and joins by itself."""
