"""Tests the picture of what is missing: runs tools/flutejoin-map on journals of several stations.
"""
