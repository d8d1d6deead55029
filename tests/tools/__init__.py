"""Tests what concerns several tools: forms of FLUTE, wrong values, and inputs of attackers."""
