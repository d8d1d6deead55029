"""The exception that ends a run of a tool with an exit status, or the part that is at fault."""
from __future__ import annotations


class Fault(Exception):
    """A fault, with the exit status of the run that it ends."""

    def __init__(self, status: int, text: str) -> None:
        super().__init__(text)
        self.status = status
