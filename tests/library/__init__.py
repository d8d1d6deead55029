"""Tests the library for C, and the package for Python over it."""
