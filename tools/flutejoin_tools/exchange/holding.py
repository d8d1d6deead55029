"""Holds an answer until something is new at a station.

A centre asks for that by the words of its command, which sshd hands on beside the command that it
forces: an older station doesn't read them, and an older centre doesn't send them.
"""
from __future__ import annotations

import os
import re
import select
import time
from typing import Mapping, Optional

from flutejoin_tools.common.shelves import changed_at
from flutejoin_tools.exchange.marks import Mark
from flutejoin_tools.exchange.news import DOCUMENTS, FOLDERS, has_news

VARIABLE = "SSH_ORIGINAL_COMMAND"  # in which sshd hands on what was asked for
ASKED = re.compile(r"flutejoin-station --answer --wait (\d{1,2})", re.ASCII)
MOST_SECONDS = 60  # that an answer may wait
LOOK = 0.25  # seconds between two looks
FRESH = 10**9  # nanoseconds in which a name may change once more at the same time


def seconds_asked(environment: Mapping[str, str]) -> Optional[int]:
    """How long an answer may wait, as the centre asks for; None if it says nothing of it."""
    found = ASKED.fullmatch(environment.get(VARIABLE, ""))
    return min(int(found[1]), MOST_SECONDS) if found else None


class Hold:
    """A wait for what is new since a mark in the folder of a station."""

    def __init__(self, folder: str, old: Mark, out: int, seconds: float) -> None:
        """It takes so many seconds at most. `out` is where the answer goes."""
        began = time.monotonic()
        self.folder, self.old, self.end_at = folder, old, began + seconds
        self.places = [os.path.join(folder, name) for name in (*FOLDERS, DOCUMENTS)]
        self.look_at = began + old.rest()
        self.times: Optional[list[int]] = None  # when they changed, at the last look
        self.reader = select.poll()
        self.reader.register(out, 0)  # for errors alone

    def goes_on(self) -> bool:
        """Whether nothing is new yet, and time is left; then a while has passed.

        Raises BrokenPipeError once nobody reads the answer.
        """
        now = time.monotonic()
        if now >= self.end_at or now >= self.look_at and self.has_news():
            return False
        if self.reader.poll(1000 * min(LOOK, self.end_at - now)):
            raise BrokenPipeError
        return True

    def has_news(self) -> bool:
        """Whether something is new: it is looked at where a name has changed in a folder."""
        times = [*map(changed_at, self.places)]
        has_changed = times != self.times
        is_fresh = abs(time.time_ns() - max(times)) < FRESH
        self.times = None if is_fresh else times
        return has_changed and has_news(self.old, self.folder)
