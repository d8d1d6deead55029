"""The datagram files that a station joins, their senders, and what of them is joined."""
from __future__ import annotations

import collections
import contextlib
import fcntl
import hashlib
import json
import os
import stat
import time
from types import MappingProxyType
from typing import Callable, Iterable, Mapping, NamedTuple, Optional

from flutejoin_tools.common.addresses import IPAddress
from flutejoin_tools.common.file_names import address_in, name_of, stem
from flutejoin_tools.common.joining import Fed
from flutejoin_tools.common.outputs import replace_text
from flutejoin_tools.common.shelves import bring_to_disk
from flutejoin_tools.formats.records import HEADER, last_whole

SHARE = 20  # a look at the files comes at most in each twentieth part of the time
MOST_MARKED = 4096  # bytes before the end of what is joined, by which the file is known again
FIRST_DELAY, LONGEST_DELAY = 10, 300  # seconds until a join that failed is repeated
REMEMBER_EACH = 10  # seconds between two writes of what is joined


class Number(NamedTuple):
    """The number of a datagram file; those of earlier versions had an epoch too."""

    epoch: int
    part: int


class Sender(NamedTuple):
    """The sender of journals."""

    address: IPAddress

    def stem(self) -> str:
        return stem(str(self.address))


def sender_of(name: str) -> Optional[tuple[Sender, Number]]:
    """The sender and the number in the name of a datagram file, or None if it is no such name."""
    found = name_of(name)
    return (Sender(found.address), Number(found.epoch, found.part)) if found else None


def sender_in(name: str) -> Optional[Sender]:
    """The sender of a file of whatever kind in a station's folder, by its name, or None."""
    address = address_in(name)
    return Sender(address) if address else None


class NoDatagramFile(Exception):
    """A file has the name of a datagram file, but is none."""


class Part:
    """A datagram file, and up to where its facts are in a journal on the disk."""

    def __init__(self, path: str, number: Number, sender: Optional[Sender] = None) -> None:
        self.path, self.number, self.sender = path, number, sender
        self.joined_at = float("-inf")
        self.taken = self.end = len(HEADER)
        self.size, self.is_last, self.stays = 0, True, True
        self.inode: Optional[int] = None
        self.changed = 0.0  # when it was written last, in seconds since 1970

    def name(self) -> str:
        return os.path.basename(self.path)

    def look(self) -> None:
        """Reads the file's length, and finds where its last whole record ends.

        Raises NoDatagramFile.
        """
        found = os.lstat(self.path)
        if found.st_ino != self.inode or found.st_size < self.size:
            self.check(found)
            self.inode, self.size = found.st_ino, 0
            self.taken = self.end = len(HEADER)
        if found.st_size > self.size:
            with open(self.path, "rb", buffering=0) as file:
                self.end, _ = last_whole(file, found.st_size, self.taken)
            self.size = found.st_size
        self.changed = found.st_mtime

    def check(self, found: os.stat_result) -> None:
        """Raises NoDatagramFile unless the file is one.

        The receiver would not start beside another.
        """
        head = b""
        if stat.S_ISREG(found.st_mode):
            with open(self.path, "rb") as file:
                head = file.read(len(HEADER))
        if not stat.S_ISREG(found.st_mode) or head != HEADER[: len(head)]:
            raise NoDatagramFile("is no datagram file of version 1")

    def is_finished(self) -> bool:
        """Whether it is there as at the last look, and nobody is writing it anew, with a lock."""
        try:
            descriptor = os.open(self.path, os.O_RDONLY | os.O_NONBLOCK)
        except FileNotFoundError:
            return False
        try:
            fcntl.flock(descriptor, fcntl.LOCK_SH | fcntl.LOCK_NB)
        except BlockingIOError:
            return False
        except OSError:  # a file system without locks
            pass
        finally:
            size = os.fstat(descriptor).st_size
            os.close(descriptor)
        # It is locked before it has a byte.
        return size == self.size > 0

    def is_new(self) -> bool:
        return self.end > self.taken

    def is_plain(self) -> bool:
        """Whether a join may be given its path: it is whole, and nothing of it was joined."""
        return not self.is_last and self.taken == len(HEADER) and self.end == self.size

    def fed(self) -> Fed:
        return Fed(self.path, self.taken, self.end)

    def mark(self, end: int) -> str:
        """A mark of the bytes before a place: files with the same mark have the same bytes."""
        begin = max(0, end - MOST_MARKED)
        with open(self.path, "rb") as file:
            file.seek(begin)
            return hashlib.sha256(file.read(end - begin)).hexdigest()[:32]


class State:
    """When a sender's datagrams were joined last, and when the next try is due after a failure."""

    def __init__(self) -> None:
        self.joined_at = self.next_try = float("-inf")
        self.delay = self.wanted = 0  # free bytes that a failed join needed
        self.reasons: collections.Counter[str] = collections.Counter()  # why datagrams are refused
        self.suspects: set[str] = set()  # paths of datagram files that are joined one by one
        self.joins = self.refused = self.others = 0  # symbols that differed, and are set aside

    def is_due(self, part: Part, now: float, every: float) -> bool:
        return part.is_new() and (not part.is_last or now >= self.joined_at + every)

    def succeed(self, now: float) -> bool:
        """Returns whether tries failed before."""
        has_failed = self.delay > 0
        self.joined_at, self.next_try = now, now
        self.delay = self.wanted = 0
        self.joins += 1
        return has_failed

    def fail(self, now: float) -> int:
        """Puts off the next try after a failure, and returns for how many seconds."""
        self.delay = min(max(2 * self.delay, FIRST_DELAY), LONGEST_DELAY)
        self.next_try = now + self.delay
        return self.delay


class Joined:
    """A file that says of each datagram file how much of it is in a journal on the disk.

    It is replaced whole. If it is lost or old, more is joined again, which changes nothing.
    """

    def __init__(self, path: str) -> None:
        self.path, self.write_at = path, float("-inf")
        self.written: Optional[dict[str, tuple[int, str]]] = None  # by this run, as it stands
        self.before = self.read()  # what an earlier run joined

    def read(self) -> dict[str, tuple[int, str]]:
        try:
            with open(self.path, encoding="utf-8") as file:
                told = json.load(file)
            return {
                name: (int(taken), str(mark))
                for name, (taken, mark) in told.items()
                if taken > len(HEADER)
            }
        except (OSError, ValueError, TypeError, AttributeError, RecursionError):
            return {}

    def apply(self, part: Part) -> None:
        """Takes as joined what an earlier run joined, if the file has the same bytes there."""
        taken, mark = self.before.pop(part.name(), (0, ""))
        if len(HEADER) < taken <= part.end and part.mark(taken) == mark:
            part.taken = taken

    def write(self, parts: Iterable[Part]) -> None:
        """Replaces the file, if anything was joined since, and brings it to the disk."""
        told: dict[str, tuple[int, str]] = {}
        for part in parts:
            of = (self.written or {}).get(part.name(), (0, ""))
            if part.taken > len(HEADER):
                with contextlib.suppress(OSError):  # it may be gone
                    same = of[0] == part.taken
                    told[part.name()] = of if same else (part.taken, part.mark(part.taken))
        if told != self.written:
            replace_text(self.path, json.dumps(told))
            bring_to_disk(self.path)
            self.written = told

    def write_at_times(self, parts: Iterable[Part]) -> None:
        """Writes it every few seconds, and less often if that takes long."""
        began = time.monotonic()
        if began >= self.write_at:
            self.write(parts)
            now = time.monotonic()
            self.write_at = now + max(REMEMBER_EACH, SHARE * (now - began))


class Incoming:
    """The folder into which a receiver writes. `is_kept` tells whether a sender has a journal.

    Many files take long to look at, so the next look is due at `look_at`.
    """

    def __init__(
        self,
        folder: str,
        is_kept: Callable[[Sender], bool],
        same: Mapping[IPAddress, IPAddress] = MappingProxyType({}),
    ) -> None:
        self.path, self.is_kept, self.same = os.path.join(folder, "in"), is_kept, same
        self.joined = Joined(os.path.join(folder, "joined.json"))
        self.parts: dict[str, Part] = {}
        self.found: dict[Sender, list[Part]] = {}
        self.faults: list[tuple[Sender, Part, str]] = []
        self.ends: Optional[dict[str, int]] = None  # where each file ended at the last look
        self.is_receiving = self.has_come = False
        self.look_at = float("-inf")

    def look(self) -> None:
        """Finds the datagram files of each sender, the oldest first.

        Those that cannot be read are `faults`.
        """
        began = time.monotonic()
        found: dict[Sender, list[Part]] = collections.defaultdict(list)
        self.faults = []
        for name in os.listdir(self.path):
            sender, number = sender_of(name) or (None, Number(1, 1))
            part = self.parts.get(name) or Part(os.path.join(self.path, name), number, sender)
            one = sender and Sender(self.same.get(sender.address, sender.address))
            if one and self.can_be_read(one, part):
                found[one].append(part)
        for parts in found.values():
            # Epochs come first, and of the files that grow the one that was joined longest ago.
            parts.sort(key=lambda part: (part.number.epoch == 1, part.number))
            mark_last(parts)
            parts.sort(key=lambda part: part.joined_at if part.is_last else float("-inf"))
        self.found = found
        self.parts = {part.name(): part for parts in found.values() for part in parts}
        ends = {name: part.end for name, part in self.parts.items()}
        # What was there at the first look came in another run.
        if self.ends is not None and any(ends[name] > self.ends.get(name, 0) for name in ends):
            self.has_come = True
        self.ends = ends
        now = time.monotonic()
        self.look_at = now + SHARE * (now - began)

    def can_be_read(self, sender: Sender, part: Part) -> bool:
        """Looks at a datagram file. Returns whether it can be read; if not, a fault is noted."""
        try:
            part.look()
            if part.name() not in self.parts and self.is_kept(sender):
                self.joined.apply(part)
            return True
        except FileNotFoundError:
            pass
        except NoDatagramFile as fault:
            self.faults.append((sender, part, str(fault)))
        except PermissionError as fault:
            self.faults.append((sender, part, f"cannot be read: {fault.strerror}"))
        return False

    def waiting(self) -> int:
        """The bytes of datagrams that are still to be joined, as of the last look."""
        return sum(part.end - part.taken for part in self.parts.values())


def mark_last(parts: list[Part]) -> None:
    """Marks the files that may grow, and those that stay for a receiver that starts again.

    Of each address that is the last one. A file of an earlier version's epoch grows no more.
    """
    last = {part.sender: part for part in parts if part.number.epoch == 1}
    for part in parts:
        part.is_last = part.stays = last.get(part.sender) is part
