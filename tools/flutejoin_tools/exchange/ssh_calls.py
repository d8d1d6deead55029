"""Calls of a station by ssh: a command that gets a request, and whose answer goes to a file.

A call runs beside other work. Its answer has a bound, which the system keeps, and time: one of
which nothing comes any more is ended.
"""
from __future__ import annotations

import os
import resource
import signal
import subprocess
import time
from typing import Callable, Iterable, Optional, Sequence

from flutejoin_tools.common.children import die_with_parent
from flutejoin_tools.common.file_names import PARTIAL
from flutejoin_tools.common.shelves import begin_file, remove
from flutejoin_tools.common.texts import shown

STALL = 60.0  # seconds in which something has to come
MOST_TOLD = 200  # characters of a message
MOST_ERRORS = 1 << 16  # bytes that are looked at for it


class Call:
    """A command that runs, or has ended."""

    def __init__(
        self,
        command: Sequence[str],
        request: Iterable[str],
        path: str,
        most: int,
        seconds: float,
    ) -> None:
        """Begins it. The answer, of at most so many bytes, goes to a file. Raises OSError."""
        self.path, self.most = path + PARTIAL, most
        self.asked, self.errors = f"{path}.asked{PARTIAL}", f"{path}.errors{PARTIAL}"
        self.size, self.status = 0, -1
        self.failure: Optional[str] = None  # why it failed
        now = time.monotonic()
        self.moved_at, self.end_at = now, now + seconds
        with begin_file(self.asked) as file:
            file.writelines(line.encode() for line in request)
        with open(self.asked, "rb") as given, begin_file(self.path) as out:
            with begin_file(self.errors) as errors:
                self.child: Optional[subprocess.Popen[bytes]] = subprocess.Popen(
                    command, stdin=given, stdout=out, stderr=errors, preexec_fn=prepared(most)
                )

    def is_over(self) -> bool:
        """Whether it has ended; `failure` is then why it failed, if it did."""
        if self.child is None:
            return True
        status, now = self.child.poll(), time.monotonic()
        size = os.path.getsize(self.path)
        if size != self.size:
            self.size, self.moved_at = size, now
        if status is None and now >= min(self.end_at, self.moved_at + STALL):
            self.child.kill()
            self.child.wait()
            late = now < self.end_at
            self.failure = f"nothing came for {STALL:.0f} seconds" if late else "it takes too long"
        elif status is None:
            return False
        elif self.is_too_long():
            self.failure = "the answer is too long"
        elif status:
            self.failure = self.message() or ended(status)
        self.child = None
        return True

    def is_too_long(self) -> bool:
        return self.size >= self.most

    def message(self) -> str:
        """The last line that the command printed on standard error."""
        with open(self.errors, "rb") as file:
            file.seek(max(0, os.path.getsize(self.errors) - MOST_ERRORS))
            lines = file.read(MOST_ERRORS).decode(errors="replace").split("\n")
        said = [line.strip() for line in lines if line.strip()]
        return shown(said[-1])[:MOST_TOLD] if said else ""

    def stop(self) -> None:
        """Ends it, if it runs, and removes its files."""
        if self.child:
            self.child.kill()
            self.child.wait()
            self.child = None
        for path in self.path, self.asked, self.errors:
            remove(path)


def ended(status: int) -> str:
    """Why a call failed, by the status of its command."""
    return f"it ended by signal {-status}" if status < 0 else f"it ended with status {status}"


def prepared(most: int) -> Callable[[], None]:
    """Returns what the child calls first: its answer can't become longer than `most` bytes."""
    ask = die_with_parent(signal.SIGTERM)

    def prepare() -> None:
        resource.setrlimit(resource.RLIMIT_FSIZE, (most, most))
        ask()

    return prepare
