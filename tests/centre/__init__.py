"""Tests what a centre delivers of what stations push, tells, repairs and lets go."""
