"""Tests what is written for users: the sessions of pages, pictures, man pages, the completion."""
