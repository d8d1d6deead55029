"""Runs in which requests for memory are refused in turn, by tests/support/refuse.c."""
from __future__ import annotations

import os
import pathlib

from tests.outputs.case import library
from tests.support import run

OF_REFUSED = 9  # the stream to which the library writes that it refused a request


def by_rattle(path: pathlib.Path) -> pathlib.Path:
    """The program as the kit's own code generator built it."""
    return path.with_name(f"{path.name}.by-rattle")


class Case(run.Case):
    def setUp(self) -> None:
        super().setUp()
        flags = os.O_RDWR | os.O_CREAT | os.O_APPEND
        file = os.open(self.bin / "refused", flags)
        os.dup2(file, OF_REFUSED, inheritable=True)
        os.close(file)
        self.addCleanup(os.close, OF_REFUSED)

    def refusing(self, words: run.Words, number: int) -> tuple[run.Run, bool]:
        """Runs with this request refused. Returns the run, and whether it made so many requests."""
        os.ftruncate(OF_REFUSED, 0)
        env = {"LD_PRELOAD": str(library("refuse")), "REFUSE": str(number)}
        done = self.command(words, env=env, kept=[OF_REFUSED])
        return done, os.fstat(OF_REFUSED).st_size > 0
