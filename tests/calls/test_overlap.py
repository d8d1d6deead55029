"""A run that is stopped at each of its calls, while another run has the same output."""
from __future__ import annotations

import contextlib
import os
import re
import signal

from tests.calls.case import Call
from tests.calls.test_order import Writing
from tests.outputs.case import CREATE
from tests.support import run
from tests.support.run import until

OUT = "kept/there"
FIRST = f"join -o {OUT} {OUT} one"
SECOND = f"join -o {OUT} {OUT} two"
STOPPED = re.compile(r"^(\d+) +--- stopped by SIGSTOP", re.M)


class Stopped(Writing):
    """Both add to OUT, so that whatever a run reports as done is in it afterwards."""

    def setUp(self) -> None:
        super().setUp()
        self.made("minus -o base three both")
        self.made("join -o with_one base one")
        self.made("join -o with_two base two")
        self.made("join -o with_both base one two")

    def at(self, call: Call) -> tuple[run.Run, run.Run]:
        """The first run, which stops behind this call, and the second, which runs then."""
        self.begin()
        self.copy("base", OUT)
        log = self.bin / "log"
        log.write_bytes(b"")
        stop = f"inject={call.name}:signal=SIGSTOP:when={call.number}"
        command = [self.strace, "-f", "-o", log, "-e", f"trace={call.name}", "-e", stop]
        child = self.start([*command, run.PROGRAM, *run.split(FIRST)])
        is_stopped = until(lambda: STOPPED.search(log.read_text()) or child.poll() is not None)
        found = STOPPED.search(log.read_text())
        self.assertTrue(is_stopped and found, (call, log.read_text()))
        number = int(found[1]) if found else 0
        try:
            second = self.program(SECOND)
        finally:
            with contextlib.suppress(ProcessLookupError):
                os.kill(number, signal.SIGCONT)
        return self.finish(child), second

    def test_each_call(self) -> None:
        self.copy("base", OUT)
        _, calls = self.traced(FIRST)
        paths = OUT, f"{OUT}.partial", "kept", "one"
        stops = [it for it in calls if it.path in paths]
        self.holds("it makes many", len(stops) > 15, stops)
        left = {(0, 0): "with_both", (0, 3): "with_one", (3, 0): "with_two"}
        ends = set()
        for call in stops:
            name = f"stopped behind {call.name} of {call.path}, {call.number}"
            runs = first, second = self.at(call)
            statuses = first.status, second.status
            self.holds(f"{name}: one of both is done", statuses in left, runs)
            told = {it.err for it in runs if it.status} - {f"{CREATE}\n".encode()}
            self.holds(f"{name}: the other says so", not told, told)
            self.same(f"{name}: what is done is there", OUT, left.get(statuses, "base"))
            self.alone(name, OUT)
            ends.add(statuses)
        self.holds("each of them comes first somewhere", ends == {*left}, ends)
