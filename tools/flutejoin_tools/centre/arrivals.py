"""Joins what belongs to one station of a centre: its folder, and what it brought or told."""
from __future__ import annotations

import contextlib
from typing import AbstractSet, Iterable, Optional

from flutejoin_tools.centre.inbox import Inbox, Station
from flutejoin_tools.centre.pending import Pending, share_of
from flutejoin_tools.centre.rounds import Made
from flutejoin_tools.centre.symbols import Symbols
from flutejoin_tools.exchange.told import Told
from flutejoin_tools.files.session import APART
from flutejoin_tools.formats.partition import Partition
from flutejoin_tools.formats.records import Cut, ReadFault
from flutejoin_tools.journals.holdings import Key
from flutejoin_tools.journals.sums import Sums


class Arrival:
    """A station's inbox, and what it brought that is not delivered; or what it told, if it is
    asked."""

    def __init__(
        self, station: Station, inbox: Inbox, pending: Pending, told: Optional[Told] = None
    ) -> None:
        self.station, self.inbox, self.pending, self.told = station, inbox, pending, told
        self.came_at: Optional[float] = None  # when something of it came last
        self.fault: Optional[str] = None  # why the centre can't ask the station

    def symbols(self) -> dict[Key, Symbols]:
        """The symbols that the station told or brought, of what the centre has not delivered."""
        return self.told.symbols if self.told else self.pending.objects


def shares(arrivals: Iterable[Arrival], key: Key, made: Made) -> dict[str, float]:
    """How much of an object each station has, in percent."""
    if made.contents is None:
        return {}
    partition = Partition(*made.contents.numbers)
    of = key._replace(number=key.number % APART)
    return {
        each.station.name: share_of(each.symbols()[of], partition)
        for each in arrivals
        if of in each.symbols()
    }


def brought(arrivals: Iterable[Arrival], keys: AbstractSet[Key]) -> dict[Key, list[Sums]]:
    """What journals of stations that are not asked have of some objects, as sums.

    What is damaged counts for nothing: the next round sets it aside. Raises OSError.
    """
    found: dict[Key, list[Sums]] = {}
    for pending in (each.pending for each in arrivals if not each.told):
        with contextlib.suppress(ReadFault, Cut):
            for key, sums in pending.sums(keys).items():
                found.setdefault(key, []).extend(sums)
    return found
