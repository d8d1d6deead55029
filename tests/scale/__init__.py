"""Runs the built program on sizes that no other test reaches."""
