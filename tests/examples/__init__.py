"""Tests the examples that join many inputs: levels, reductions, and a tree of make."""
