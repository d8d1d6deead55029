"""Checks the repository itself: its Python, lemmas, links and package, the tool of wrong bodies,
and the helpers of the tests."""
