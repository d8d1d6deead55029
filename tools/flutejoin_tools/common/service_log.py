"""Prints what a service says: bounded, with priorities, and never waiting for who reads it."""
from __future__ import annotations

import time
from typing import Dict, Optional

from flutejoin_tools.common.log import INFORMATION, WARNING, Log
from flutejoin_tools.common.texts import shown
from flutejoin_tools.common.waiting_lines import WaitingLines

EACH = 60  # seconds between two lines about one cause
MOST_LINES = 100  # that are printed in a minute; whoever can send to the port can cause many
LastFault = Dict[str, Optional[str]]  # what is at fault, and when that began and ended


def instant() -> str:
    """The time of now, in UTC, as logs and status have it."""
    return time.strftime("%Y-%m-%dT%H:%M:%SZ", time.gmtime())


class ServiceLog(Log):
    """Says lines with the time, or their priority, unless standard error is a terminal.

    So many lines are said in a minute at most, if there is a bound.
    """

    def __init__(self, tool: str, most: Optional[int] = MOST_LINES) -> None:
        super().__init__(tool)
        self.waiting, self.most = WaitingLines(tool), most
        self.failing: dict[str, str] = {}  # what fails, and why
        self.last: Optional[LastFault] = None  # the last fault: what, when, and when it ended
        self.minute, self.lines, self.missed = float("-inf"), 0, 0

    def print(self, text: str, priority: int = INFORMATION) -> None:
        """Says this, of several lines even, however many were said."""
        self.waiting.add(text, priority)

    def flush(self) -> None:
        """Writes the lines that wait, as far as they are taken now."""
        self.waiting.write()

    def finish(self) -> None:
        """At the end of a run: waits a second at most for the lines that are left."""
        self.waiting.finish()

    def warn(self, text: str, priority: int = INFORMATION) -> None:
        if self.most is None or self.has_room(self.most):
            self.print(shown(text), priority)

    def has_room(self, most: int) -> bool:
        """Whether a further line may be said in this minute."""
        now = time.monotonic()
        if now >= self.minute + EACH:
            missed, self.missed = self.missed, 0
            self.minute, self.lines = now, 0
            if missed:
                self.print(f"{missed} lines more were not told, as too many came in a minute")
        self.lines += 1
        self.missed += self.lines > most
        return self.lines <= most

    def fault(self, status: int, text: str) -> None:
        super().fault(status, text)
        self.begin_fault(text, text)
        self.end_fault(text)

    def fails(self, what: str, told: str) -> None:
        """Reports a failure of what is repeated every few seconds, unless it was the last one."""
        if self.failing.get(what) != told:
            self.failing[what] = told
            self.warn(f"{told}; it is tried again", WARNING)
            self.begin_fault(what, told)

    def works(self, what: str) -> None:
        """Says once that what failed works again."""
        if self.failing.pop(what, None) is not None:
            self.warn(f"{what}: works again")
            self.end_fault(what)

    def begin_fault(self, what: str, told: str) -> None:
        """Notes a fault for the status: the last one is kept there."""
        self.last = {"what": what, "fault": shown(told), "time": instant(), "ended": None}

    def end_fault(self, what: str) -> None:
        """Notes for the status when the last fault ended, if it was about this."""
        if self.last and self.last["what"] == what and self.last["ended"] is None:
            self.last["ended"] = instant()

    def last_fault(self) -> Optional[LastFault]:
        """The last fault as the status has it: its text, when it began, when it ended."""
        return self.last and {key: self.last[key] for key in ("fault", "time", "ended")}
