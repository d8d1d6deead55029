"""What a centre remembers of its repairs, also after it starts again: bytes of the day, what failed
and when it is asked again, and since when files are known of which nothing came."""
from __future__ import annotations

import json
import time
from typing import Callable, Container, NamedTuple, Optional

from flutejoin_tools.common.outputs import replace_text
from flutejoin_tools.journals.holdings import Key, key_of
from flutejoin_tools.pages.model import read_file

DAY = 86400  # seconds
MOST = 1 << 14  # objects that are remembered
MOST_BYTES = 1 << 23  # of the file
LEAST_PAUSE, LONGEST_PAUSE = 60, DAY  # seconds
COUNTS = "asked", "requests", "fetched", "datagrams"
TOTALS = *COUNTS, "runs", "files", "failed"


class Tried(NamedTuple):
    """An object that was asked for and still lacks something."""

    failures: int
    next: float  # when it may be asked for again
    told: str  # why


class Tries:
    """A file that is replaced whole. If it is lost, more is asked for again, and sooner."""

    def __init__(self, path: str, after: float, clock: Callable[[], float]) -> None:
        self.path, self.after, self.clock = path, after, clock
        self.tried: dict[Key, Tried] = {}
        self.since: dict[Key, float] = {}  # objects of which nothing came, since they are known
        self.totals = dict.fromkeys(TOTALS, 0)
        self.day, self.bytes = 0, 0
        self.read()

    def read(self) -> None:
        """Reads the file; what is damaged counts as lost."""
        told = read_file(self.path, MOST_BYTES)
        try:
            tried = {key_in(key): Tried(*each) for key, each in told["tries"].items()}
            since = {key_in(key): float(at) for key, at in told["since"].items()}
            totals = {name: int(told["totals"][name]) for name in TOTALS}
            day, spent = int(told["day"]), int(told["bytes"])
        except (KeyError, TypeError, ValueError, AttributeError):
            return
        self.tried, self.since, self.totals, self.day, self.bytes = tried, since, totals, day, spent

    def write(self) -> None:
        """Raises OSError."""
        told = {
            "day": self.day,
            "bytes": self.bytes,
            "totals": self.totals,
            "tries": {key.raw().hex(): each for key, each in self.tried.items()},
            "since": {key.raw().hex(): at for key, at in self.since.items()},
        }
        replace_text(self.path, json.dumps(told))

    def today(self) -> int:
        """The bytes that came today, by UTC."""
        day = int(self.clock() // DAY)
        if day != self.day:
            self.day, self.bytes = day, 0
        return self.bytes

    def spend(self, count: int) -> None:
        """Counts bytes; below zero, those that were reserved and did not come."""
        self.bytes = max(0, self.today() + count)

    def known_since(self, key: Key) -> float:
        """Since when an object is known of which nothing came."""
        if key not in self.since and len(self.since) < MOST:
            self.since[key] = self.clock()
        return self.since.get(key, self.clock())

    def may_ask(self, key: Key) -> bool:
        return key not in self.tried or self.clock() >= self.tried[key].next

    def fail(self, key: Key, told: str) -> Optional[float]:
        """Notes that an object still lacks something, and why. Returns the seconds until it is
        asked for again; None if it was so before."""
        before = self.tried.pop(key, None)
        failures = before.failures + 1 if before else 1
        length = pause(max(self.after, LEAST_PAUSE), failures)
        self.tried[key] = Tried(failures, self.clock() + length, told)
        while len(self.tried) > MOST:
            del self.tried[next(iter(self.tried))]
        return None if before and before.told == told else length

    def keep(self, keys: Container[Key]) -> None:
        """Forgets all objects but these."""
        self.tried = {key: each for key, each in self.tried.items() if key in keys}
        self.since = {key: at for key, at in self.since.items() if key in keys}


def pause(least: float, failures: int) -> float:
    """The seconds after so many failures: each time twice as many."""
    return float(min(LONGEST_PAUSE, least * 2 ** min(failures - 1, 40)))


def key_in(text: str) -> Key:
    return key_of(bytes.fromhex(text))


def instant(seconds: float) -> str:
    return time.strftime("%Y-%m-%dT%H:%M:%SZ", time.gmtime(seconds))
