"""Makes the lines that a station says, and counts what its joins printed of each sender."""
from __future__ import annotations

import collections
import time
from typing import TYPE_CHECKING, Any, Callable, NamedTuple

from flutejoin_tools.common.log import Log
from flutejoin_tools.common.program import Answer, Program
from flutejoin_tools.common.service_log import EACH
from flutejoin_tools.station.room import MOST_TOLD

if TYPE_CHECKING:
    from flutejoin_tools.station.keeping import Keeper

MOST_NAMED = 8  # senders in one line
HOUR = 3600  # seconds


class Refused(NamedTuple):
    """How many datagrams of a sender came since the last line, how many were refused, and why."""

    datagrams: int
    refused: int
    reasons: collections.Counter[str]

    def told(self, stem: str) -> str:
        count = f"all {self.refused}" if self.refused == self.datagrams else str(self.refused)
        of = "" if self.refused == self.datagrams else f" of {self.datagrams}"
        reasons = ", ".join(f"{many}: {reason}" for reason, many in self.reasons.most_common())
        return f"{count}{of} of {stem} ({reasons})"


class Counts:
    """What joins printed, of all senders together, and of each since the last line."""

    def __init__(self, report: Log, program: Program) -> None:
        self.report, self.program = report, program
        self.datagrams = self.refused = 0
        self.reasons: collections.Counter[str] = collections.Counter()
        self.since: dict[str, Refused] = {}
        self.told_at = float("-inf")
        self.hour, self.before = time.monotonic() + HOUR, (0, 0)

    def add(self, stem: str, answer: Answer) -> None:
        """Adds what a join of this sender's datagrams printed."""
        new = Refused(answer.count("datagrams"), answer.count("refused"), answer.reasons())
        self.datagrams += new.datagrams
        self.refused += new.refused
        self.reasons += new.reasons
        before = self.since.get(stem, Refused(0, 0, collections.Counter()))
        self.since[stem] = Refused(
            before.datagrams + new.datagrams,
            before.refused + new.refused,
            before.reasons + new.reasons,
        )

    def tell(self) -> None:
        """Reports refused datagrams: at once, and then once a minute while there are more."""
        now = time.monotonic()
        if now < self.told_at + EACH:
            return
        refused, self.since = {stem: it for stem, it in self.since.items() if it.refused}, {}
        if not refused:
            return
        self.told_at = now
        order = sorted(refused, key=lambda stem: -refused[stem].refused)
        named = [refused[stem].told(stem) for stem in order[:MOST_NAMED]]
        others = order[MOST_NAMED:]
        if others:
            count = sum(refused[stem].refused for stem in others)
            named.append(f"{count} of {len(others)} other senders")
        self.report.warn(f"refused datagrams, which flutejoin does not read: {', '.join(named)}")

    def tell_last(self) -> None:
        """Reports them at once, at the end of a run."""
        self.told_at = float("-inf")
        self.tell()

    def tell_hourly(self, told: Callable[[], str]) -> None:
        """Reports once an hour what was joined and what is kept, if anything was joined."""
        now = time.monotonic()
        if now >= self.hour:
            self.hour = now + HOUR
            if self.before != (self.datagrams, self.refused):
                came = self.datagrams - self.before[0], self.refused - self.before[1]
                self.before = self.datagrams, self.refused
                self.report.warn(f"in an hour {came[0]} datagrams, {came[1]} refused; {told()}")


def others_of(keeper: Keeper) -> int:
    return sum(state.others for state in keeper.states.values())


def line_of(keeper: Keeper) -> str:
    """What a station keeps, for a line."""
    told = f"{others_of(keeper)} other values set aside; {keeper.room.bytes} bytes on the disk"
    if keeper.settings.has_outbox:
        outbox = keeper.room.count("outbox")
        told += f", {outbox.bytes} of them in {outbox.files} journals of the outbox"
    return f"{told}, {keeper.free()} free"


def status_of(keeper: Keeper) -> dict[str, Any]:
    """What a station keeps: the journals with most bytes, and what waits or was removed."""
    journals, others = keeper.room.journals()
    for sender, state in keeper.states.items():
        told = journals.get(sender.stem())
        if told is None and state.refused and len(journals) < MOST_TOLD:  # it has no journal
            told = journals[sender.stem()] = {"entries": 0}
        if told is not None:
            told.update({"refused": state.refused, "other values": state.others})
            told["reasons"] = dict(state.reasons)
    return {
        "journals": journals,
        "other senders": others,
        "bytes to join": keeper.incoming.waiting(),
        "set aside": keeper.room.count("aside").files,
        "datagrams": keeper.counts.datagrams,
        "reasons": dict(keeper.counts.reasons),
        "refused": keeper.counts.refused,
        "other values": others_of(keeper),
        "outbox": keeper.room.count("outbox")._asdict() if keeper.settings.has_outbox else None,
        "disk": keeper.room.bytes,
        "free": keeper.free(),
        "removed": keeper.room.removed._asdict(),
        "last fault": keeper.report.last_fault(),
    }
