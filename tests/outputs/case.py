"""Files and helpers of the tests of outputs: what two stations received of two files.

The stations `one` and `two` have one of the files each, `content` and `other`; both files are in
`both`.
"""
from __future__ import annotations

import atexit
import functools
import os
import pathlib
import shutil
import stat
import subprocess
import tempfile
from typing import Any

from tests.support import run
from tests.support.run import SUPPORT, Run, until, waits

LINES_OF_TWO = "datagrams 0\nrefused 0\nentries 3\n"
LINES_OF_BOTH = "datagrams 0\nrefused 0\nentries 14\n"
FIRST, SECOND = "--tsi 7 --toi 1", "--tsi 7 --toi 2"
CUT = "--symbol 4 --block 2"
# Transmission information of a third object, as `info` takes it
THIRD = f"--tsi 7 --toi 3 --length 5 {CUT}"
CREATE, WRITE = "cannot create output", "cannot write"
# The fault for disk.c comes first; its lines go to stream 9, which is standard output here.
THROUGH = 'disk=$0 wish=$1; shift; exec env LD_PRELOAD="$disk" DISK="$wish" "$@" 9>&1'


@functools.lru_cache(maxsize=None)
def library(name: str) -> pathlib.Path:
    """Compiles tests/support/NAME.c, to be loaded before a program, and returns its path."""
    folder = pathlib.Path(tempfile.mkdtemp(prefix="flutejoin-test."))
    atexit.register(shutil.rmtree, folder, ignore_errors=True)
    folder.chmod(0o755)
    path = folder / f"{name}.so"
    subprocess.run([SUPPORT / "preload.sh", name, path], check=True)
    return path


class Case(run.Case):
    def setUp(self) -> None:
        super().setUp()
        self.write("content", "a file of some bytes, in many symbols")
        self.write("other", "hello")
        self.made(f"carousel -o sent1 {FIRST} {CUT} content")
        self.made(f"carousel -o sent2 {SECOND} {CUT} other")
        self.made("join -o one sent1")
        self.made("join -o two sent2")
        self.made("join -o both one two")

    def copy(self, name: str, to: str) -> None:
        """Copies the bytes of a file to another, which may exist."""
        self.write(to, self.read(name))

    def part(self, name: str, size: int) -> bytes:
        """The first `size` bytes of a file, or, below zero, all but the last ones."""
        return self.read(name)[:size]

    def mode(self, name: str) -> str:
        return oct(stat.S_IMODE(self.path(name).stat().st_mode))

    def alone(self, name: str, file: str) -> None:
        """Checks that nothing is beside a file."""
        self.absent(f"{name}: nothing beside {file}", f"{file}.partial")

    def through(self, wish: str, words: str, **how: Any) -> Run:
        """Runs the program with disk.c loaded. Its requests to the disk, and then what it
        prints, are the output."""
        command = ["sh", "-c", THROUGH, library("disk"), wish, run.PROGRAM, *run.split(words)]
        return self.command(command, **how)

    def fed(self, name: str) -> int:
        """The write end of a named pipe, once a run reads from it."""
        found: list[int] = []

        def is_read() -> bool:
            try:
                found.append(os.open(self.path(name), os.O_WRONLY | os.O_NONBLOCK))
            except OSError:
                return False
            return True

        self.assertTrue(until(is_read), f"{name} is not read")
        os.set_blocking(found[0], True)
        return found[0]

    def feed(self, pipe: int, content: bytes) -> None:
        """Writes the rest to a pipe, and closes it."""
        with open(pipe, "wb") as out:
            out.write(content)

    def until_there(self, name: str, child: subprocess.Popen[bytes]) -> None:
        """Waits until a run has made a file, and waits for a pipe."""
        is_there = until(lambda: self.exists(name) and waits(child))
        self.assertTrue(is_there, f"{name} does not come")
