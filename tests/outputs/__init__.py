"""Tests that outputs are whole or not there: runs the built program as a user would, and looks at
the files after faults, kills and unusual outputs."""
