"""Runs a command for each file that was delivered, one after another."""
from __future__ import annotations

import os
import shlex
import subprocess
import time
from typing import Optional

from flutejoin_tools.centre.ledger import DONE, TOLD, Delivery, Ledger
from flutejoin_tools.common.children import die_with_parent
from flutejoin_tools.common.service_log import ServiceLog
from flutejoin_tools.files.session import address_of

LONGEST = 600  # seconds that a command may take
AGAIN = 60  # seconds until one that failed is run again
TRIES = 5  # after which a file's command is given up


class Hooks:
    """The commands that are still to be run. Without a command there is nothing to do."""

    def __init__(
        self, command: Optional[str], out: str, ledger: Ledger, report: ServiceLog
    ) -> None:
        self.words = shlex.split(command) if command else []
        self.out, self.ledger, self.report = out, ledger, report
        self.child: Optional[subprocess.Popen[bytes]] = None
        self.of: Optional[Delivery] = None
        self.began = self.next_try = float("-inf")
        self.tries = 0

    def tend(self) -> bool:
        """Looks after the command that runs, or begins the next. Returns whether any is left."""
        if self.child is not None and self.child.poll() is None:
            if time.monotonic() > self.began + LONGEST:
                self.child.kill()
            return True
        if self.child is not None:
            self.end(self.child.returncode)
        if time.monotonic() < self.next_try:
            return True
        waiting = self.ledger.at_step(TOLD, 256)
        if waiting and self.words:
            self.start(waiting[0])
        elif waiting:
            self.ledger.step((it.serial for it in waiting), DONE)
        return bool(waiting)

    def start(self, delivery: Delivery) -> None:
        """Starts the command for a file."""
        assert delivery.path
        path = os.path.join(self.out, delivery.path)
        told = {
            "SERIAL": str(delivery.serial),
            "MD5": delivery.told.md5,
            "SENDER": address_of(delivery.key.source),
            "TSI": str(delivery.key.tsi),
            "TOI": str(delivery.key.number),
        }
        more = {f"FLUTEJOIN_{name}": text for name, text in told.items()}
        self.of, self.began = delivery, time.monotonic()
        try:
            self.child = subprocess.Popen(
                [*self.words, path],
                stdin=subprocess.DEVNULL,
                env={**os.environ, **more},
                preexec_fn=die_with_parent(),
            )
        except (OSError, subprocess.SubprocessError) as fault:
            self.fail(delivery, str(fault))

    def end(self, status: int) -> None:
        """Notes how the command ended: its file is done, or the command is run again later."""
        delivery, self.child, self.of = self.of, None, None
        assert delivery
        if status == 0:
            self.ledger.step([delivery.serial], DONE)
            self.tries = 0
            self.report.works("on-file")
        else:
            ended = f"ended by signal {-status}" if status < 0 else f"status {status}"
            self.fail(delivery, ended)

    def fail(self, delivery: Delivery, told: str) -> None:
        """Puts off the next try of a file's command, or gives it up after TRIES of them."""
        self.tries += 1
        what = f"{delivery.path}: the command of on-file: {told}"
        if self.tries < TRIES:
            self.next_try = time.monotonic() + AGAIN
            self.report.fails("on-file", what)
            return
        self.ledger.step([delivery.serial], DONE)
        self.tries = 0
        self.report.fault(1, f"{what}; it is given up after {TRIES} tries")

    def stop(self) -> None:
        """At the end of a run: the command is ended, and is run again by the next one."""
        if self.child is not None and self.child.poll() is None:
            self.child.terminate()
            self.child.wait()
        if self.child is not None:
            self.end(self.child.returncode)
