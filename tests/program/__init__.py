"""Runs the built program as a user would, and compares its output, its faults and its status."""
