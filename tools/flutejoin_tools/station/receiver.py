"""Runs flutejoin-receive as a child, and restarts it when it ends."""
from __future__ import annotations

import argparse
import json
import os
import subprocess
import sys
import time
from typing import Any, Optional, Sequence

from flutejoin_tools import TOOLS
from flutejoin_tools.common.children import die_with_parent
from flutejoin_tools.common.faults import Fault
from flutejoin_tools.common.log import Log
from flutejoin_tools.receive.settings import AS_RECEIVED

PATH = os.path.join(TOOLS, "flutejoin-receive")
FIRST_DELAY, LONGEST_DELAY = 1, 60  # seconds until a child that ended is restarted
BEGUN = 10  # seconds; a child that runs so long has begun to receive
WELL = 60  # seconds; a child that ran longer is restarted after FIRST_DELAY
# Options that the receiver takes as they are
OF_RECEIVER = {
    "group": "ADDRESS",
    "port": "N",
    "from": "SENDER",
    "interface": "NAME_OR_ADDRESS",
    "sdp": "FILE",
    "senders": "N",
    "buffer": "BYTES",
    "keep-free": "BYTES",
}


def receiver_words(options: argparse.Namespace) -> list[str]:
    words = ["--split", str(options.window)]
    if options.config:
        words.append(f"--config={options.config}")
    for name in OF_RECEIVER:
        words += [f"--{name}={value}" for value in getattr(options, name) or []]
    return words + [f"--{AS_RECEIVED}"] * options.as_received


class Receiver:
    """Runs a receiver that writes to one folder, and writes its status to a file."""

    def __init__(
        self, words: Sequence[str], folder: str, status_path: str, report: Log
    ) -> None:
        self.words = [sys.executable, PATH, *words, "-o", folder, "--status", status_path]
        self.status_path, self.report = status_path, report
        self.child: Optional[subprocess.Popen[bytes]] = None
        self.delay, self.started_at, self.start_at = FIRST_DELAY, 0.0, float("-inf")
        self.is_stopped, self.has_run, self.status = False, False, 0
        self.has_listened, self.mark = False, self.status_mark()

    def tend(self) -> None:
        """Checks whether the child runs, and starts it when that is due."""
        now = time.monotonic()
        if self.child and self.child.poll() is not None:
            self.end(self.child, now)
        if not self.child and not self.is_stopped and now >= self.start_at:
            self.begin(now)

    def is_listening(self) -> bool:
        """Whether a child of this run began to receive: it writes its status then, unless the disk
        is full; one that can't start ends sooner."""
        if not self.has_listened and self.child:
            runs_long = time.monotonic() >= self.started_at + BEGUN
            self.has_listened = runs_long or self.status_mark() != self.mark
        return self.has_listened

    def status_mark(self) -> Optional[tuple[int, int]]:
        try:
            found = os.stat(self.status_path)
        except OSError:
            return None
        return found.st_ino, found.st_mtime_ns

    def begin(self, now: float) -> None:
        self.started_at = now
        try:
            # Its lines name files that the station joins itself.
            self.child = subprocess.Popen(
                self.words,
                stdin=subprocess.DEVNULL,
                stdout=subprocess.DEVNULL,
                preexec_fn=die_with_parent(),
            )
        except (OSError, subprocess.SubprocessError) as fault:
            self.put_off(now, f"the receiver cannot be run: {fault}")

    def end(self, child: subprocess.Popen[bytes], now: float) -> None:
        has_listened = self.is_listening()
        self.status, self.child = child.returncode, None
        if not self.has_run and not has_listened and not self.is_stopped:
            if self.status == 2:
                raise Fault(2, "the receiver does not take its settings")
            if self.status == 3:
                raise Fault(3, "the receiver cannot start")
        self.has_run = True
        if not self.is_stopped:
            if now >= self.started_at + WELL:
                self.delay = FIRST_DELAY
            self.put_off(now, f"the receiver ended with status {self.status}")

    def put_off(self, now: float, told: str) -> None:
        self.report.warn(f"{told}; it is begun again in {self.delay} seconds")
        self.start_at = now + self.delay
        self.delay = min(2 * self.delay, LONGEST_DELAY)

    def stop(self, at_once: bool) -> None:
        """Ends the child. Unless `at_once`, waits until it has written what it received."""
        self.is_stopped = True
        if self.child:
            self.child.terminate()
            if not at_once:
                self.child.wait()
                self.end(self.child, time.monotonic())

    def told(self) -> Optional[dict[str, Any]]:
        """The last status that the child wrote; None if there is none."""
        try:
            with open(self.status_path, encoding="utf-8") as file:
                told = json.load(file)
            return told if isinstance(told, dict) else None
        except (OSError, ValueError):
            return None
