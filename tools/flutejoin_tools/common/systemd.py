"""Tells systemd what a service does: READY, STATUS and WATCHDOG, as sd_notify(3) describes."""
from __future__ import annotations

import contextlib
import os
import socket
import time
from typing import Optional

MOST = 200  # characters of a status


class Systemd:
    """What systemd is told; without it, nothing."""

    def __init__(self) -> None:
        self.address = os.environ.get("NOTIFY_SOCKET", "")
        self.watchdog = watchdog()
        self.next = float("-inf")
        self.status: Optional[str] = None

    def tell(self, text: str) -> None:
        """Sends a message to systemd (sd_notify), if it started this run."""
        if not self.address:
            return
        path = "\0" + self.address[1:] if self.address[0] == "@" else self.address
        with contextlib.suppress(OSError):
            with socket.socket(socket.AF_UNIX, socket.SOCK_DGRAM | socket.SOCK_CLOEXEC) as to:
                to.sendto(text.encode(errors="replace"), path)

    def ready(self) -> None:
        self.tell("READY=1")

    def stopping(self) -> None:
        self.tell("STOPPING=1")

    def say(self, status: str) -> None:
        """Replaces the line that `systemctl status` shows."""
        line = " ".join(status.split())[:MOST]
        if line != self.status:
            self.status = line
            self.tell(f"STATUS={line}")

    def live(self) -> None:
        """Says that the run lives: at least twice in the time of WatchdogSec."""
        now = time.monotonic()
        if self.watchdog and now >= self.next:
            self.next = now + self.watchdog / 4
            self.tell("WATCHDOG=1")


def watchdog() -> Optional[float]:
    """The time of WatchdogSec, in seconds; None if there is none for this process."""
    try:
        of = os.environ.get("WATCHDOG_PID")
        if of and int(of) != os.getpid():
            return None
        return int(os.environ["WATCHDOG_USEC"]) / 1e6
    except (KeyError, ValueError):
        return None
