"""Runs each command of the built program that writes under strace, and looks at its calls of the
system: their order, faults in each of them, and what a power that is lost at any moment may leave.
"""
