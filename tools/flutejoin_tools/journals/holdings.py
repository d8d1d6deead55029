"""What a journal holds of each object, and a journal of some of its objects.

One pass over a journal (docs/FORMATS.md) finds the transmission information and the number of
symbols of each object. It is quick and checks little: flutejoin reads the same journal, and reports
its faults.
"""
from __future__ import annotations

import itertools
from typing import (
    IO,
    BinaryIO,
    Callable,
    Iterable,
    Iterator,
    Mapping,
    NamedTuple,
    Optional,
    Tuple,
    Union,
)

from flutejoin_tools.common.gaps import Numbers
from flutejoin_tools.formats.entries import (
    END,
    FDT_INSTANCE,
    HEADER,
    INFORMATION,
    INFORMATION_CONFLICT,
    SYMBOL,
    SYMBOL_CONFLICT,
    information_of,
)
from flutejoin_tools.formats.packets import packed
from flutejoin_tools.formats.records import Cut, ReadFault

PIECE = 1 << 20  # bytes that are read at once
KEY = 37  # bytes of an entry's sender, TSI, tag and number
TAG = 22  # where the tag is in them
SENDER, SYMBOL_ID, LENGTH, NUMBERS = 16, 4, 2, 12  # bytes
# Bytes after the object's number, of an entry that is no symbol
SIZES = {INFORMATION: NUMBERS, INFORMATION_CONFLICT: 0, SYMBOL_CONFLICT: SYMBOL_ID}
KINDS = [bytes([kind]) for kind in range(256)]  # the first byte of an entry of each kind
LONGEST = 1 + KEY + SYMBOL_ID + LENGTH + (1 << 16)  # bytes of an entry


class Key(NamedTuple):
    """An object of a journal. Keys have the order of a journal."""

    source: bytes
    tsi: int
    tag: int
    number: int

    def text(self) -> str:
        """The name of the object in flutejoin's lines."""
        source = f"source {self.source.hex()} " if any(self.source) else ""
        fdt = "fdt " if self.tag == FDT_INSTANCE else ""
        return f"{source}session {self.tsi} object {fdt}{self.number}"

    def raw(self) -> bytes:
        """The object as it is in an entry of a journal of version 2."""
        tsi, number = self.tsi.to_bytes(6, "big"), self.number.to_bytes(14, "big")
        return self.source + tsi + bytes([self.tag]) + number

    def file_name(self) -> str:
        """The name that `flutejoin extract --all` gives the object's file."""
        fdt = "fdt" if self.tag == FDT_INSTANCE else ""
        return f"{self.source.hex()}-{self.tsi}-{fdt}{self.number}"


def key_of(raw: bytes) -> Key:
    """The object that 37 bytes of a journal name."""
    of = int.from_bytes
    return Key(raw[:SENDER], of(raw[SENDER:TAG], "big"), raw[TAG], of(raw[TAG + 1 :], "big"))


class Held:
    """What a journal holds of an object."""

    __slots__ = "information", "is_disputed", "symbols"

    def __init__(self) -> None:
        self.information: Optional[tuple[int, int, int]] = None  # transfer, symbol and block length
        self.is_disputed = False  # whether its transmission information is in conflict
        self.symbols = 0  # also counts those in conflict

    def add(self, kind: int, more: memoryview) -> None:
        """Counts an entry of the object."""
        if kind == INFORMATION:
            self.information = information_of(more)
        elif kind == INFORMATION_CONFLICT:
            self.is_disputed = True
        else:
            self.symbols += 1


NOTHING = Held()
# Whether an object is chosen
Choice = Callable[[Key], bool]
# Transmission information of an object
Added = Tuple[Key, Numbers]


def entries(file: BinaryIO) -> Iterator[tuple[int, bytes, memoryview]]:
    """Yields each entry of a journal: its kind, its object and the bytes after that.

    Raises ReadFault.
    """
    head = file.read(len(HEADER))
    if head[:4] != HEADER[:4]:
        raise ReadFault("Magic" if len(head) >= 4 else "Cut")
    if head[4:] not in (b"\0\1", b"\0\2"):
        raise ReadFault("Version")
    unnamed = bytes(SENDER if head[4:] == b"\0\1" else 0)  # the sender of version 1
    front = 1 + KEY - len(unnamed)
    data, at, size = b"", 0, 0
    while True:
        if size - at < LONGEST:
            data, at = data[at:] + file.read(PIECE), 0
            view, size = memoryview(data), len(data)
            if not data:
                raise Cut
        kind, begin = data[at], at + front
        if kind == SYMBOL:
            place = begin + SYMBOL_ID
            if place + LENGTH > size:
                raise Cut
            end = place + LENGTH + (data[place] << 8 | data[place + 1])
        elif kind in SIZES:
            end = begin + SIZES[kind]
        elif kind == END:
            return
        else:
            raise ReadFault("Kind")
        if end > size:
            raise Cut
        raw = data[at + 1 : begin]
        yield kind, unnamed + raw if unnamed else raw, view[begin:end]
        at = end


class Copy:
    """Writes a journal of some entries of another."""

    def __init__(self, out: IO[bytes]) -> None:
        self.out, self.count = out, 0
        out.write(HEADER)

    def add(self, kind: int, raw: bytes, more: Union[bytes, memoryview]) -> None:
        """Writes an entry: its kind, its object and the bytes after that."""
        self.out.write(KINDS[kind] + raw + more)
        self.count += 1

    def inform(self, key: Key, numbers: Numbers) -> None:
        """Adds transmission information."""
        self.add(INFORMATION, key.raw(), packed(*numbers))

    def finish(self) -> None:
        """Writes the end of the journal."""
        self.out.write(bytes([END]) + self.count.to_bytes(8, "big"))


def holdings(file: BinaryIO, choice: Choice) -> Iterator[tuple[Key, Held]]:
    """Yields what a journal holds of each chosen object."""
    last, key, held = b"", None, NOTHING
    for kind, raw, more in entries(file):
        if raw != last:
            if key:
                yield key, held
            last, key, held = raw, key_of(raw), Held()
            key = key if choice(key) else None
        if key:
            held.add(kind, more)
    if key:
        yield key, held


def copies(
    file: BinaryIO, choice: Choice, out: IO[bytes], added: Mapping[Key, Numbers]
) -> Iterator[Key]:
    """Writes a journal of each chosen object alone, all to the same file in turn, with transmission
    information that is added, and yields the object then."""
    for raw, of in itertools.groupby(entries(file), lambda entry: entry[1]):
        key = key_of(raw)
        if not choice(key):
            continue
        out.seek(0)
        out.truncate()
        copied = Copy(out)
        if key in added:
            copied.inform(key, added[key])
        for kind, _, more in of:
            copied.add(kind, raw, more)
        copied.finish()
        out.flush()
        yield key


def copy(file: BinaryIO, choice: Choice, out: IO[bytes], added: Iterable[Added]) -> None:
    """Writes a journal of the chosen objects, with transmission information that is added.

    What is added is of objects without it, in the order of a journal.
    """
    copied, last, is_chosen = Copy(out), b"", False
    rest = iter(added)
    wanted = next(rest, None)
    for kind, raw, more in entries(file):
        if raw != last:
            last, is_chosen = raw, choice(key_of(raw))
            while wanted and wanted[0].raw() <= raw:
                copied.inform(*wanted)
                wanted = next(rest, None)
        if is_chosen:
            copied.add(kind, raw, more)
    for each in itertools.chain([wanted] if wanted else [], rest):
        copied.inform(*each)
    copied.finish()
