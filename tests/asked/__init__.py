"""Tests what a station answers, and a centre that asks stations: what it wants by sums, then by a
program `ssh` of the tests' own, and by a real sshd where there is one."""
