"""Which objects may have become whole by datagrams that are not joined yet, so that they are joined
at once, and not at the end of a window.

The headers of new records are read, and of each object it is known which symbols came. Both the
time for that and what is kept are bounded: an object that is not followed waits for the window. Who
took least of the time is looked at first.
"""
from __future__ import annotations

import time
from typing import Callable, NamedTuple, Optional

from flutejoin_tools.common.gaps import GAP, PARTIAL, STATE, Numbers, State
from flutejoin_tools.common.program import Command, Failed, Program
from flutejoin_tools.common.shelves import size_of
from flutejoin_tools.fdt.stems import source_of
from flutejoin_tools.formats.entries import FILE
from flutejoin_tools.formats.packets import numbers_of
from flutejoin_tools.formats.partition import Partition, fault_of, ones_in
from flutejoin_tools.formats.reading import packet_of
from flutejoin_tools.formats.records import ends
from flutejoin_tools.journals.holdings import Key
from flutejoin_tools.station.incoming import SHARE, Part, Sender

PIECE = 1 << 17  # bytes of a datagram file that are read at once: any record at least
MOST_SECONDS = 0.1  # of the processor, that a look takes; the next one goes on
MOST_BEHIND = 1 << 26  # bytes that wait to be looked at; with more no object is followed further
MOST_OBJECTS = 1 << 13  # that are followed, of all senders
MOST_BYTES = 1 << 24  # that note which of their symbols came
BLOCK_BYTES = 128  # what a source block takes beside a bit for each symbol
MOST_HEADS = 1 << 15  # headers that are known again, of all senders
# Of journals of an earlier run, which are read for what they lack: bytes of a sender, and senders
MOST_READ, MOST_READERS = 1 << 30, 64
MOST_GAPS = 1 << 16  # lines
# Between two joins of a sender that an object asks for: seconds, and times what the first one took
LEAST_PAUSE, PAUSE = 1, 4


class Place(NamedTuple):
    """Up to where a file was looked at, and which file of that name it was."""

    inode: Optional[int]
    end: int


class Watched:
    """An object: which of its symbols came, as bits, by source blocks."""

    __slots__ = "numbers", "partition", "blocks", "count", "bytes", "is_open"

    def __init__(self, numbers: Optional[Numbers]) -> None:
        self.numbers: Optional[Numbers] = None
        self.partition: Optional[Partition] = None
        self.blocks: dict[int, int] = {}
        self.count = self.bytes = 0
        self.is_open = True  # until no symbol is missing
        self.inform(numbers)

    def inform(self, numbers: Optional[Numbers]) -> bool:
        """Gives transmission information to an object without. Returns whether it is whole."""
        if numbers is None or fault_of(*numbers):
            return False
        self.numbers, self.partition = numbers, Partition(*numbers)
        before, self.blocks, self.count, self.bytes = self.blocks, {}, 0, 0
        for block, bits in before.items():
            if block < self.partition.blocks:
                self.hold(block, bits & (1 << self.partition.size(block)) - 1)
        return self.is_whole()

    def hold(self, block: int, bits: int) -> None:
        """Adds symbols of a block, as bits."""
        before = self.blocks.get(block)
        after = (before or 0) | bits
        self.bytes += BLOCK_BYTES * (before is None)
        self.bytes += (after.bit_length() - (before or 0).bit_length()) // 8
        self.count += ones_in(after ^ (before or 0))
        self.blocks[block] = after

    def add(self, block: int, number: int) -> bool:
        """Adds a symbol. Returns whether it makes the object whole."""
        if self.blocks.get(block, 0) >> number & 1:
            return False
        of = self.partition
        if of and (block >= of.blocks or number >= of.size(block)):
            return False
        self.hold(block, 1 << number)
        return self.is_whole()

    def is_whole(self) -> bool:
        if self.partition is None or self.count < self.partition.symbols:
            return False
        self.is_open, self.bytes = False, 0
        self.blocks.clear()
        return True


NOTHING = Watched(None)
NOTHING.is_open = False

# Of a sender, a TSI, a TOI, and of an FDT Instance its ID
Name = tuple[Sender, int, int, Optional[int]]
# What journals lack of an object, as bits by source blocks
Lacking = list[dict[int, int]]


class Completing:
    """Follows the datagram files of a station."""

    def __init__(
        self,
        program: Program,
        kept: Callable[[Sender], list[str]],
        known: Callable[[Sender, Key], Optional[Numbers]],
    ) -> None:
        """`kept` are the journals of a sender, and `known` has what FDT Instances tell."""
        self.program, self.kept, self.known = program, kept, known
        self.objects: dict[Name, Watched] = {}
        self.heads: dict[Sender, dict[bytes, Watched]] = {}
        self.lacking: dict[Sender, dict[tuple[int, int], Lacking]] = {}
        self.places: dict[str, Place] = {}
        self.spent: dict[Sender, float] = {}  # seconds of the processor that each took
        self.due: set[Sender] = set()  # of which an object may have become whole
        self.not_before: dict[Sender, float] = {}
        self.bytes = self.known_heads = self.read = 0
        self.look_at = float("-inf")
        self.has_joined = False  # what an object asked for, since somebody looked

    def look(self, found: dict[Sender, list[Part]]) -> None:
        """Looks at what is new in the files of each sender, for some of the time."""
        if time.monotonic() < self.look_at:
            return
        began = time.thread_time()
        for sender in sorted(found, key=lambda it: self.spent.get(it, 0.0)):
            self.follow_all(sender, found[sender], began + MOST_SECONDS)
        for sender in self.heads.keys() - found.keys():
            self.forget(sender)
            del self.heads[sender]
        paths = {part.path for parts in found.values() for part in parts}
        self.places = {path: it for path, it in self.places.items() if path in paths}
        self.spent = {sender: it for sender, it in self.spent.items() if sender in found}
        self.look_at = time.monotonic() + SHARE * (time.thread_time() - began)

    def follow_all(self, sender: Sender, parts: list[Part], until: float) -> None:
        began = time.thread_time()
        for part in parts if began < until else ():
            self.follow(sender, part, until)
        self.spent[sender] = self.spent.get(sender, 0.0) + time.thread_time() - began

    def follow(self, sender: Sender, part: Part, until: float) -> None:
        """Looks at what is new in a datagram file, until a time of the processor."""
        place = self.places.get(part.path, Place(None, 0))
        if place.inode != part.inode or place.end > part.end:
            place = Place(part.inode, part.taken)
        if place.end == part.end:
            self.places[part.path] = place
            return
        if sender not in self.heads:
            self.heads[sender], self.lacking[sender] = {}, self.lacks(sender)
        if part.end - place.end > MOST_BEHIND:
            self.forget(sender)
            place = Place(part.inode, part.end)
        at = place.end
        with open(part.path, "rb", buffering=0) as file:
            while at < part.end and time.thread_time() < until:
                file.seek(at)
                taken = self.take(sender, file.read(min(PIECE, part.end - at)))
                if not taken:
                    break  # it became shorter
                at += taken
        self.places[part.path] = Place(part.inode, at)

    def take(self, sender: Sender, data: bytes) -> int:
        """Takes the whole records in these bytes, and returns where the last one ends."""
        heads, at, size = self.heads[sender], 0, len(data)
        for end in ends(data):
            if end > size:
                break
            begin, at = at + 2, end
            close = begin + 4 * data[begin + 2] if end > begin + 4 else end
            watched = heads.get(data[begin:close]) or self.watched(sender, data[begin:end])
            if watched.is_open and end > close + 4:
                before = watched.bytes
                block, number = data[close] << 8 | data[close + 1], data[close + 2 : close + 4]
                if watched.add(block, number[0] << 8 | number[1]):
                    self.due.add(sender)
                self.bytes += watched.bytes - before
        if self.bytes > MOST_BYTES or len(self.objects) > MOST_OBJECTS:
            self.make_room()
        return at

    def watched(self, sender: Sender, datagram: bytes) -> Watched:
        """The object of a datagram whose header came for the first time."""
        packet = packet_of(datagram)
        if packet is None or self.is_left_out(packet.tsi):
            return NOTHING
        name = sender, packet.tsi, packet.toi, packet.instance
        numbers = numbers_of(packet.information) if packet.information else None
        watched = self.objects.get(name)
        if watched is None or numbers not in (None, watched.numbers):
            watched = self.begin(name, numbers)
        if self.known_heads >= MOST_HEADS:
            self.forget_heads()
        self.heads[sender][datagram[: 4 * datagram[2]]] = watched
        self.known_heads += 1
        return watched

    def forget_heads(self) -> None:
        self.known_heads = 0
        for heads in self.heads.values():
            heads.clear()

    def is_left_out(self, tsi: int) -> bool:
        return bool(self.program.sessions) and tsi not in self.program.sessions

    def begin(self, name: Name, numbers: Optional[Numbers]) -> Watched:
        """Follows an object from now on, or one whose transmission information came only now."""
        watched = self.objects.pop(name, None)
        before = watched.bytes if watched else 0
        if watched is not None and watched.numbers is None:
            if watched.inform(numbers):
                self.due.add(name[0])
        else:
            watched = Watched(numbers or self.told(name))
            self.recall(name, watched)
        self.bytes += watched.bytes - before
        self.objects[name] = watched
        return watched

    def recall(self, name: Name, watched: Watched) -> None:
        """Takes up what journals of an earlier run have of an object, by what these lack."""
        sender, tsi, toi, _ = name
        of = watched.partition
        if of is None or not toi:
            return
        for lacking in self.lacking[sender].pop((tsi, toi), ()):
            for block in range(of.blocks):
                watched.hold(block, (1 << of.size(block)) - 1 & ~lacking.get(block, 0))
        watched.is_whole()

    def told(self, name: Name) -> Optional[Numbers]:
        """The transmission information that FDT Instances have of an object."""
        sender, tsi, toi, _ = name
        source = source_of(sender.stem())
        return self.known(sender, Key(source, tsi, FILE, toi)) if source and toi else None

    def make_room(self) -> None:
        """Forgets the objects that began first."""
        self.bytes = sum(watched.bytes for watched in self.objects.values())
        for name in [*self.objects]:
            if self.bytes <= MOST_BYTES // 2 and len(self.objects) <= MOST_OBJECTS // 2:
                break
            self.bytes -= self.objects.pop(name).bytes
        self.forget_heads()

    def forget(self, sender: Sender) -> None:
        """Forgets the objects of a sender: where not all was looked at, nothing is known."""
        for name in [it for it in self.objects if it[0] == sender]:
            self.bytes -= self.objects.pop(name).bytes
        self.heads[sender], self.lacking[sender] = {}, {}
        self.not_before.pop(sender, None)
        self.due.discard(sender)

    def is_due(self, sender: Sender, now: float) -> bool:
        return sender in self.due and now >= self.not_before.get(sender, now)

    def joined(self, sender: Sender, began: float) -> None:
        """After a join of all that came of a sender: the next one waits, the longer this took."""
        now = time.monotonic()
        self.not_before[sender] = now + max(LEAST_PAUSE, PAUSE * (now - began))
        self.has_joined = self.has_joined or sender in self.due
        self.due.discard(sender)
        for name, watched in self.objects.items():
            if name[0] == sender and watched.numbers is None:
                before = watched.bytes
                watched.inform(self.told(name))
                self.bytes += watched.bytes - before

    def take_news(self) -> bool:
        """Whether anything was joined since the last call because an object asked for it."""
        news, self.has_joined = self.has_joined, False
        return news

    def lacks(self, sender: Sender) -> dict[tuple[int, int], Lacking]:
        """What each journal of a sender lacks of the objects in it, by TSI and TOI."""
        found: dict[tuple[int, int], Lacking] = {}
        paths = self.kept(sender)
        if not paths or self.read >= MOST_READERS or sum(map(size_of, paths)) > MOST_READ:
            return found
        self.read += 1
        count = 0
        gaps: dict[int, int] = {}
        try:
            for line in (line for path in paths for line in self.program.lines(gaps_of(path))):
                count += 1
                if count > MOST_GAPS:
                    return {}
                if line.startswith(b"gap "):
                    add_gap(gaps, line)
                    continue
                name, state = state_of(line)
                gaps = {}
                if name and state.has_information():
                    found.setdefault(name, []).append(gaps)
        except (Failed, OSError):
            return {}
        return found


def gaps_of(path: str) -> Command:
    return Command(["gaps", "--any-size", path])


def add_gap(gaps: dict[int, int], line: bytes) -> None:
    """Adds a gap, as flutejoin prints it, if symbols are missing there."""
    told = GAP.fullmatch(line)
    if told and told[4] == b"missing":
        block, first, last = int(told[1]), int(told[2]), int(told[3])
        gaps[block] = gaps.get(block, 0) | (1 << last + 1) - (1 << first)


def state_of(line: bytes) -> tuple[Optional[tuple[int, int]], State]:
    """TSI and TOI in a line about an object, and its state; None of an FDT Instance."""
    told = STATE.fullmatch(line)
    if not told:
        return None, State(PARTIAL)
    of = told[1].split()[-4:]
    is_file = of[0] == b"session" and of[2] == b"object"
    return (int(of[1]), int(of[3])) if is_file else None, State.of(told)
