"""The lines that services write to standard error while they run.

A stopped terminal (Ctrl-S) or a pipe that nobody reads never blocks the run: lines that cannot be
written wait.
"""
from __future__ import annotations

import collections
import os
import select
import sys
import threading
import time
from typing import Optional

from flutejoin_tools.common.log import INFORMATION
from flutejoin_tools.common.texts import shown

MOST_WAITING = 200  # lines
PIECE = 4096  # bytes that a pipe accepts at once


class WaitingLines:
    """Writes lines to standard error, with the time unless that is a terminal, or the journal of
    systemd, which has times itself and gets a priority in its place."""

    def __init__(self, tool: str) -> None:
        self.tool = tool
        self.lock = threading.Lock()
        self.waiting: collections.deque[bytes] = collections.deque()
        self.missed = 0
        self.terminal: Optional[int] = None
        self.is_in_journal = is_in_journal()

    def add(self, text: str, priority: int = INFORMATION) -> None:
        """Queues a line, and writes as many as standard error takes now."""
        with self.lock:
            if len(self.waiting) < MOST_WAITING:
                self.waiting.append(self.line(text, priority))
            else:
                self.missed += 1
        self.write()

    def line(self, text: str, priority: int) -> bytes:
        """A line as it is printed: with its priority for the journal of systemd, or with the
        time."""
        stamp = ""
        if self.is_in_journal:
            stamp = f"<{priority}>"
        elif sys.stderr is None or not sys.stderr.isatty():
            stamp = time.strftime("%Y-%m-%dT%H:%M:%SZ ", time.gmtime())
        lines = "\n".join(map(shown, text.split("\n")))
        return os.fsencode(f"{stamp}{self.tool}: {lines}\n")

    def write(self) -> None:
        """Writes the lines that standard error accepts now.

        If it is closed, the lines are dropped.
        """
        with self.lock:
            try:
                descriptor = self.descriptor()
                while self.waiting and is_writable(descriptor):
                    rest = self.waiting[0][os.write(descriptor, self.waiting[0][:PIECE]) :]
                    if rest:
                        self.waiting[0] = rest
                        continue
                    self.waiting.popleft()
                    if not self.waiting and self.missed:
                        told = f"{self.missed} lines could not be told"
                        self.waiting.append(self.line(told, INFORMATION))
                        self.missed = 0
            except BlockingIOError:
                pass
            except (OSError, AttributeError, ValueError):
                self.waiting.clear()

    def descriptor(self) -> int:
        """Where lines are written.

        A terminal that takes a byte may take no whole line, and a write to it waits. So it is
        opened again, for writes that don't wait.
        """
        stderr = sys.stderr.fileno()
        if self.terminal is None and os.isatty(stderr):
            flags = os.O_WRONLY | os.O_NONBLOCK | os.O_NOCTTY
            try:
                self.terminal = os.open(f"/dev/fd/{stderr}", flags)
            except OSError:
                self.terminal = stderr
        return stderr if self.terminal is None else self.terminal

    def finish(self) -> None:
        """At the end of a run: waits at most a second for the lines that are left."""
        for _ in range(10):
            self.write()
            if not self.waiting:
                return
            time.sleep(0.1)


def is_in_journal() -> bool:
    """Whether standard error goes to the journal of systemd (systemd.exec(5))."""
    try:
        device, _, inode = os.environ.get("JOURNAL_STREAM", "").partition(":")
        found = os.fstat(sys.stderr.fileno())
        return (int(device), int(inode)) == (found.st_dev, found.st_ino)
    except (ValueError, OSError, AttributeError):
        return False


def is_writable(descriptor: int) -> bool:
    ready = select.poll()
    ready.register(descriptor, select.POLLOUT)
    return bool(ready.poll(0))
