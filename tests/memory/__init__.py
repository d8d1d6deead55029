"""Tests commands with little memory: facts that are put aside, and requests that are refused."""
