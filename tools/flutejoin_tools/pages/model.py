"""What a centre knows of files and stations: rows that are made anew where something changed."""
from __future__ import annotations

import calendar
import json
import shutil
import time
from typing import Any, Collection, Dict, Iterable, Iterator, List, NamedTuple, Optional, Tuple

from flutejoin_tools.centre.arrivals import Arrival
from flutejoin_tools.centre.delivering import Deliverer
from flutejoin_tools.centre.ledger import Delivery, Waited
from flutejoin_tools.centre.pending import share_of
from flutejoin_tools.centre.symbols import Symbols, ranges
from flutejoin_tools.common.texts import shown
from flutejoin_tools.files.session import address_of
from flutejoin_tools.formats.partition import Partition, fault_of, ones_in
from flutejoin_tools.journals.holdings import Key
from flutejoin_tools.receive.status import instant

MOST_RANGES = 6  # of missing bytes, that are told of a file
MOST_UNDESCRIBED = 1 << 12  # rows of files that no FDT Instance describes; the others are counted
MOST_STATUS = 1 << 20  # bytes of a station's status that are read
WAITING, UNDESCRIBED, UNKNOWN, WRONG, EXPIRED = (
    "waiting",
    "no description",
    "length unknown",
    "wrong",
    "expired",
)


# The names of stations, and which symbols each has
Holdings = List[Tuple[str, Dict[Key, Symbols]]]


class Row(NamedTuple):
    """A file that is not delivered."""

    key: Key
    name: Optional[str]
    bytes: Optional[int]
    state: str
    why: str  # of what is wrong
    percent: float  # of its symbols, that any station has
    missing: int  # symbols that none has
    missing_bytes: int
    ranges: list[tuple[int, int]]  # the first ones of the missing bytes
    shares: dict[str, float]  # in percent, of the stations that have any
    only: dict[str, int]  # symbols that one station alone has
    since: Optional[float]
    seen: Optional[float]
    whole_at: Optional[float]  # when it will likely be whole, if it goes on so

    def told(self) -> dict[str, object]:
        """The row as the status has it."""
        return {
            "name": self.name,
            "sender": address_of(self.key.source),
            "tsi": self.key.tsi,
            "toi": self.key.number,
            "bytes": self.bytes,
            "state": self.state,
            "why": self.why or None,
            "percent": self.percent,
            "missing_symbols": self.missing,
            "missing_bytes": self.missing_bytes,
            "ranges": self.ranges,
            "stations": self.shares,
            "only": self.only,
            "since": instant(self.since),
            "last_seen": instant(self.seen),
            "whole_at": instant(self.whole_at),
        }


class StationRow(NamedTuple):
    """A station, by what it pushes and by its own status."""

    name: str
    seen: Optional[float]  # when it received or pushed something last
    is_silent: bool
    told: Optional[str]  # when its status was written
    datagrams: Optional[int]
    dropped: Optional[int]
    refused: Optional[int]
    aside: Optional[int]
    free: Optional[int]
    fault: Optional[str]  # its last fault, unless that ended
    had: Optional[float]  # of what was delivered lately, in percent
    whole: int  # of the files delivered lately, how many it had whole


class Model:
    """The rows of a centre."""

    def __init__(self, deliverer: Deliverer, began: float) -> None:
        self.deliverer, self.began = deliverer, began
        self.rows: dict[Key, Row] = {}
        self.undescribed: set[Key] = set()  # which of them have a row
        self.first: dict[Key, tuple[float, int]] = {}  # when a file was seen first, and its symbols
        self.came: dict[Key, list[tuple[float, int]]] = {}  # when more came last, and what lacked

    def update(self) -> None:
        """Makes the rows anew of which something changed since the last call."""
        dirty, self.deliverer.dirty = self.deliverer.dirty, set()
        shown = {key for key in dirty if not self.is_left(key)}
        stations, waited = self.holdings(), self.deliverer.ledger.waited(shown)
        for key in shown:
            row = self.row(key, stations, waited.get(key))
            if row is not None:
                self.rows[key] = row
                dirty.discard(key)
        every: tuple[dict[Key, Any], ...] = self.rows, self.first, self.came
        for by_object in every:
            for key in by_object.keys() & dirty:  # they have no row any more
                del by_object[key]

    def is_left(self, key: Key) -> bool:
        """Whether an object has no row, as nothing describes it, and many others have one."""
        if key in self.deliverer.described.by_object or key not in self.deliverer.union:
            self.undescribed.discard(key)
            return False
        if key in self.undescribed or len(self.undescribed) < MOST_UNDESCRIBED:
            self.undescribed.add(key)
            return False
        return True

    def left(self) -> int:
        """How many objects have no row."""
        described = self.deliverer.described.by_object.keys()
        return max(0, len(self.deliverer.union.keys() - described - self.rows.keys()))

    def holdings(self) -> Holdings:
        """The symbols that each station has, by the stations' names."""
        return [(each.station.name, each.symbols()) for each in self.deliverer.arrivals]

    def rows_of(self, keys: Collection[Key]) -> Iterator[Row]:
        """Yields the rows of some objects, as they are now."""
        stations, waited = self.holdings(), self.deliverer.ledger.waited(keys)
        for key in sorted(keys):
            row = self.row(key, stations, waited.get(key))
            if row:
                yield row

    def row(self, key: Key, stations: Holdings, waited: Optional[Waited]) -> Optional[Row]:
        """The row of an object; None if it is delivered, or nothing waits."""
        if not self.deliverer.is_open(key):
            return None
        now = self.deliverer.clock()
        symbols, file = self.deliverer.union.get(key, Symbols()), self.deliverer.described.file(key)
        expires = self.deliverer.described.expires(key)
        is_over = expires is not None and expires < now
        if not symbols.blocks and is_over:
            return None
        partition = self.partition(key, symbols)
        missing = [*symbols.missing(partition)] if partition else []
        count = sum(last - first + 1 for first, last in missing)
        every = [*ranges(missing, partition)] if partition else []
        state = UNDESCRIBED if file is None else WAITING if partition else UNKNOWN
        state = WRONG if key in self.deliverer.wrong else EXPIRED if is_over else state
        shares, only = shares_of(key, partition, stations)
        return Row(
            key,
            name=file.location if file else None,
            bytes=partition.numbers[0] if partition else None,
            state=state,
            why=self.deliverer.wrong.get(key, ""),
            percent=share_of(symbols, partition) if partition else 0.0,
            missing=count,
            missing_bytes=sum(end - begin for begin, end in every),
            ranges=every[:MOST_RANGES],
            shares=shares,
            only=only,
            since=waited and waited.since,
            seen=waited and waited.seen,
            whole_at=self.whole_at(key, count, now),
        )

    def partition(self, key: Key, symbols: Symbols) -> Optional[Partition]:
        """How an object is cut, by the transmission information that fits best; None if unknown."""
        known = {*symbols.numbers, *self.deliverer.described.numbers(key)}
        usable = [Partition(*it) for it in known if not fault_of(*it)]
        if len(usable) < 2:
            return usable[0] if usable else None
        return min(usable, key=lambda it: it.symbols - symbols.held(it))

    def whole_at(self, key: Key, missing: int, now: float) -> Optional[float]:
        """When an object will be whole, if its symbols go on to come as they did.

        Where they come in passes, as of a carousel, that is not before the next one.
        """
        begun, before = self.first.setdefault(key, (now, missing))
        came = self.came.setdefault(key, [])
        if missing < (came[-1][1] if came else before):
            came.append((now, missing))
            del came[:-2]
        if not missing or missing >= before or now <= begun:
            return None
        last, period = came[-1][0], came[-1][0] - (came[0][0] if len(came) > 1 else begun)
        at_rate = last + missing * (last - begun) / (before - missing)
        return max(at_rate, last + period)

    def stations(self, newest: Iterable[Delivery]) -> list[StationRow]:
        """The stations, by the files that were delivered lately and by their own status."""
        files = [*newest]
        return [self.station(each, files) for each in self.deliverer.arrivals]

    def station(self, arrival: Arrival, files: list[Delivery]) -> StationRow:
        """The row of a station."""
        name, now = arrival.station.name, self.deliverer.clock()
        told = read_status(self.deliverer.settings.status.get(name, ""))
        receiver = told.get("receiver")
        if not isinstance(receiver, dict):
            receiver = {}
        senders = [it for it in listed(receiver.get("senders")) if isinstance(it, dict)]
        heard = [it.get("last_seen") for it in senders]
        times = [seconds_of(it) for it in heard if isinstance(it, str)]
        times.append(arrival.came_at)
        seen = max((it for it in times if it is not None), default=None)
        unheard = now - (self.began if seen is None else seen)
        is_silent = not arrival.station.is_quiet and unheard > self.deliverer.settings.silent
        shares = [it.shares.get(name, 0.0) for it in files if it.shares]
        dropped = receiver.get("dropped")
        counts = sum_of(it.get("datagrams") for it in senders)
        return StationRow(
            name,
            seen=seen,
            is_silent=is_silent,
            told=text_of(told.get("time")),
            datagrams=counts if senders else number_of(told.get("datagrams")),
            dropped=sum_of(dropped.values()) if isinstance(dropped, dict) else None,
            refused=number_of(told.get("refused")),
            aside=number_of(told.get("set aside")),
            free=number_of(told.get("free")),
            fault=arrival.fault or fault_in(told.get("last fault")),
            had=int(10 * sum(shares) / len(shares)) / 10 if shares else None,
            whole=sum(it >= 100 for it in shares),
        )

    def free(self) -> int:
        """The bytes that are free on the disk of the centre."""
        return shutil.disk_usage(self.deliverer.folder).free


def shares_of(
    key: Key, partition: Optional[Partition], stations: Holdings
) -> tuple[dict[str, float], dict[str, int]]:
    """How much of an object each station has, and how many symbols one of them alone."""
    held = {name: it.blocks for name, of in stations if (it := of.get(key))}
    counts, only = dict.fromkeys(held, 0), dict.fromkeys(held, 0)
    for block in {block for blocks in held.values() for block in blocks}:
        size = partition.size(block) if partition and block < partition.blocks else 0
        having = {name: of[block] for name, of in held.items() if block in of}
        count_block(having, size, counts, only)
    symbols = partition.symbols if partition else 0
    shares = {name: 1000 * count // symbols / 10 for name, count in counts.items() if symbols}
    return shares, {name: count for name, count in only.items() if count}


def count_block(
    held: dict[str, int], size: int, counts: dict[str, int], only: dict[str, int]
) -> None:
    """Adds how many symbols of a block each station has, and how many it has alone."""
    once = more = 0
    mask = (1 << size) - 1
    for name, bits in held.items():
        more |= once & bits
        once |= bits
        counts[name] += ones_in(bits & mask)
    alone = once & ~more
    for name, bits in held.items() if alone else ():
        only[name] += ones_in(bits & alone)


def listed(value: object) -> list[Any]:
    """A value of a station's status, if it is a list."""
    return value if isinstance(value, list) else []


def number_of(value: object) -> Optional[int]:
    """A value of a station's status, if it is a number."""
    return value if isinstance(value, int) and not isinstance(value, bool) else None


def sum_of(values: Iterable[object]) -> int:
    """The sum of those values that are numbers."""
    return sum(number_of(it) or 0 for it in values)


def text_of(value: object) -> Optional[str]:
    """A value of a station's status, if it is text, safe to print."""
    return shown(value)[:200] if isinstance(value, str) else None


def fault_in(value: object) -> Optional[str]:
    """The last fault that a status tells of, unless it ended."""
    if not isinstance(value, dict) or value.get("ended"):
        return None
    return text_of(value.get("fault"))


def seconds_of(text: str) -> Optional[float]:
    """A time of a station's status, in seconds since 1970; None if it is none."""
    try:
        return float(calendar.timegm(time.strptime(text, "%Y-%m-%dT%H:%M:%SZ")))
    except ValueError:
        return None


def read_status(path: str) -> dict[str, Any]:
    """A station's status; nothing if there is none, or it is no JSON object."""
    return read_file(path, MOST_STATUS)


def read_file(path: str, most: int) -> dict[str, Any]:
    """The JSON object in a file of at most so many bytes; nothing if there is none."""
    try:
        with open(path, "rb") as file:
            told = json.loads(file.read(most))
        return told if isinstance(told, dict) else {}
    except (OSError, ValueError, RecursionError):
        return {}
