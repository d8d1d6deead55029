"""What a centre asks a station, and what that answers: the forms of both, and their bounds.

A request is lines. It asks what is new since an answer with a mark (`none`: asks for all), and for
all of some objects again, which are named as flutejoin names them; and says which files were
delivered, by their MD5, so that the station may let them go where it has too many of a TOI:

    flutejoin ask 1
    new MARK
    again [source HEX ]session TSI object TOI
    delivered [source HEX ]session TSI object TOI MD5
    end

or for symbols of journals that an answer told of, by lines of `flutejoin gaps`:

    flutejoin ask 1
    want ID
    [source HEX ]session TSI object TOI partial missing N conflicting 0 misfit 0
    gap SBN/FIRST-LAST missing
    end

An answer is lines too; after each that ends in BYTES so many bytes follow:

    flutejoin answer 1
    wait                                      nothing: the answer takes a while; as the first line:
                                              it waited for what is new, as `holding` has it
    since MARK                                that of the request, if it is known; else none
    status BYTES                              what the station tells of itself
    document SENDER TSI INSTANCE WHEN BYTES   an FDT Instance that is new
    rest SENDER BYTES                         datagrams of those that are not whole
    journal ID SENDER KIND BYTES              changes of what a journal has; KIND is kept, or aside
                                              for other values of symbols
    gone ID                                   a journal that is there no more
    values ID BYTES                           a journal of what was wanted of another
    mark MARK                                 by which the next request asks; none if there is none
    end

SENDER is 32 digits, WHEN seconds since 1970. A change is an object of `sums` with a byte
before it that tells whether it takes the place of what was told before (1) or is more of it (0),
and after its name and transmission information the number of all symbols that are there now.
"""
from __future__ import annotations

import re
import struct
from typing import IO, BinaryIO, Iterable, Iterator, NamedTuple, Optional, Union

from flutejoin_tools.formats.entries import FILE
from flutejoin_tools.formats.records import Cut, ReadFault
from flutejoin_tools.journals.holdings import KEY, NUMBERS, Key, key_of
from flutejoin_tools.journals.states import key_of as key_named
from flutejoin_tools.journals.sums import COUNT, EACH, MOST_SYMBOLS, NO_INFORMATION, SYMBOL_ID, Sums

ASK, ANSWER = b"flutejoin ask 1\n", b"flutejoin answer 1\n"
MOST_LINE = 512  # bytes
MOST_REQUEST = 1 << 22  # bytes
MOST_AGAIN = 1 << 12  # objects
MOST_DELIVERED = 1 << 12  # files
MOST_JOURNALS = 1 << 12  # that a request or an answer names
MOST_BYTES = 1 << 30  # of one part, and of an answer to what is new
MOST_STATUS = 1 << 20  # bytes
MOST_DOCUMENT = 1 << 24  # bytes of an FDT Instance, as `fdt` reads at most
NONE = "none"
KEPT, ASIDE = "kept", "aside"
HEAD = 1 + KEY + NUMBERS + 2 * COUNT  # bytes of a change before its symbols

MARK = r"([0-9a-f]{32}|none)"
ID = r"([0-9a-f]{16})"
OBJECT = r"((?:source [0-9a-f]{32} )?session \d{1,15} object \d{1,34})"
NEW_LINE = re.compile(f"new {MARK}\n", re.ASCII)
AGAIN_LINE = re.compile(f"again {OBJECT}\n", re.ASCII)
DELIVERED_LINE = re.compile(f"delivered {OBJECT} ([0-9a-f]{{32}})\n", re.ASCII)
WANT_LINE = re.compile(f"want {ID}\n", re.ASCII)
STATE_LINE = re.compile(
    f"{OBJECT} partial missing \\d{{1,8}} conflicting 0 misfit 0\n", re.ASCII
)
GAP_LINE = re.compile(r"gap \d{1,5}/\d{1,5}-\d{1,5} missing\n", re.ASCII)
# The lines of an answer, by their first words; the last number of some is that of the bytes after
PARTS = {
    "wait": re.compile("wait\n"),
    "since": re.compile(f"since {MARK}\n"),
    "status": re.compile(r"status (\d{1,7})\n", re.ASCII),
    "document": re.compile(
        r"document ([0-9a-f]{32}) (\d{1,15}) (\d{1,7}) (\d{1,11}) (\d{1,8})\n", re.ASCII
    ),
    "rest": re.compile(r"rest ([0-9a-f]{32}) (\d{1,10})\n", re.ASCII),
    "journal": re.compile(f"journal {ID} ([0-9a-f]{{32}}) (kept|aside) (\\d{{1,10}})\n", re.ASCII),
    "gone": re.compile(f"gone {ID}\n"),
    "values": re.compile(f"values {ID} (\\d{{1,10}})\n", re.ASCII),
    "mark": re.compile(f"mark {MARK}\n"),
    "end": re.compile("end\n"),
}
WITH_BYTES = {
    "status": MOST_STATUS,
    "document": MOST_DOCUMENT,
    "rest": MOST_BYTES,
    "journal": MOST_BYTES,
    "values": MOST_BYTES,
}


class Refused(Exception):
    """What is wrong in a request or an answer."""


class New(NamedTuple):
    """A request for what is new."""

    mark: Optional[str]
    again: frozenset[Key]
    delivered: tuple[tuple[Key, str], ...] = ()  # each with its MD5

    def text(self) -> Iterator[str]:
        """Yields the lines of the request."""
        yield ASK.decode()
        yield f"new {self.mark or NONE}\n"
        for key in sorted(self.again):
            yield f"again {key.text()}\n"
        for key, md5 in self.delivered:
            yield f"delivered {key.text()} {md5}\n"
        yield "end\n"


class Want(NamedTuple):
    """A request for symbols: the lines of `flutejoin gaps`, by journals."""

    lines: dict[str, list[str]]

    def text(self) -> Iterator[str]:
        """Yields the lines of the request."""
        yield ASK.decode()
        for of, lines in self.lines.items():
            yield f"want {of}\n"
            yield from lines
        yield "end\n"


def request_in(data: bytes) -> Union[New, Want]:
    """The request in these bytes, which are all that came. Raises Refused."""
    if len(data) > MOST_REQUEST:
        raise Refused(f"the request has more than {MOST_REQUEST} bytes")
    if not data.startswith(ASK):
        raise Refused("the request is none that is known here, as: flutejoin ask 1")
    try:
        lines = data.decode("ascii").splitlines(keepends=True)
    except UnicodeDecodeError:
        raise Refused("the request is no ASCII") from None
    if lines[-1] != "end\n" or len(lines) < 2:
        raise Refused("the request is cut")
    first = lines[1]
    return new_in(lines[1:-1]) if first.startswith("new ") else want_in(lines[1:-1])


def new_in(lines: list[str]) -> New:
    """The request for what is new in these lines. Raises Refused."""
    found, again, delivered = NEW_LINE.fullmatch(lines[0]), [], []
    if not found:
        raise Refused("line 2 of the request")
    for number, line in enumerate(lines[1:], 3):
        of, is_delivered = AGAIN_LINE.fullmatch(line), DELIVERED_LINE.fullmatch(line)
        if of:
            again.append(valid(key_named(of[1]), number))
        elif is_delivered:
            delivered.append((valid(key_named(is_delivered[1]), number), is_delivered[2]))
        else:
            raise Refused(f"line {number} of the request")
    if len(again) > MOST_AGAIN or len(delivered) > MOST_DELIVERED:
        raise Refused("the request has too many lines")
    return New(None if found[1] == NONE else found[1], frozenset(again), tuple(delivered))


def valid(key: Key, number: int) -> Key:
    """The object, if its numbers are those of FLUTE. Raises Refused, with the line's number."""
    if key.tsi >= 1 << 48 or key.number >= 1 << 112:
        raise Refused(f"line {number} of the request")
    return key


def want_in(lines: list[str]) -> Want:
    """The lines by journals. `flutejoin fill` reads them anew, and takes only what is right."""
    found: dict[str, list[str]] = {}
    of: Optional[list[str]] = None
    for number, line in enumerate(lines, 2):
        begun = WANT_LINE.fullmatch(line)
        if begun and begun[1] not in found and len(found) < MOST_JOURNALS:
            of = found[begun[1]] = []
            continue
        is_one = STATE_LINE.fullmatch(line) or of and GAP_LINE.fullmatch(line)
        if begun or of is None or not is_one:
            raise Refused(f"line {number} of the request")
        of.append(line)
    return Want(found)


class Change(NamedTuple):
    """What is told of an object: all that is there, or only what is new since it was told."""

    key: Key
    sums: Sums
    total: int  # symbols that are there
    is_whole: bool

    def is_complete(self) -> bool:
        """Whether all sums are known."""
        return self.sums.symbol_count() == self.total

    def write(self, out: IO[bytes]) -> None:
        """Writes the change in the form that `read_changes` reads."""
        of = self.sums
        counts = struct.pack(">II", self.total, of.symbol_count())
        out.write(bytes([self.is_whole]) + self.key.raw() + of.information + counts + of.symbols)

    def with_more(self, more: Change) -> Change:
        """What is known of the object after a further change."""
        if more.is_whole:
            return more
        has_own = self.sums.information != NO_INFORMATION
        known = self.sums if has_own else Sums(more.sums.information, self.sums.symbols)
        return Change(self.key, known.with_more(more.sums), more.total, True)


def read_changes(
    file: BinaryIO, size: int, source: Optional[bytes] = None
) -> Iterator[Change]:
    """Yields the changes in so many bytes of a file, of this sender. Raises ReadFault and Cut."""
    last = b""
    while size:
        head = file.read(HEAD)
        if len(head) < HEAD:
            raise Cut
        raw = head[1 : 1 + KEY]
        total, count = struct.unpack(">II", head[-2 * COUNT :])
        key = key_of(raw)
        is_right = head[0] < 2 and key.tag == FILE and raw > last and count <= total <= MOST_SYMBOLS
        size -= HEAD + EACH * count
        if not is_right or size < 0 or source not in (None, key.source):
            raise ReadFault("are no changes of a journal")
        symbols = file.read(EACH * count)
        if len(symbols) < EACH * count:
            raise Cut
        if not are_in_order(symbols):
            raise ReadFault("are no changes of a journal")
        last = raw
        yield Change(key, Sums(head[1 + KEY : -2 * COUNT], symbols), total, bool(head[0]))


def are_in_order(symbols: bytes) -> bool:
    """Whether each symbol comes after the one before it."""
    names = [symbols[at : at + SYMBOL_ID] for at in range(0, len(symbols), EACH)]
    return all(one < other for one, other in zip(names, names[1:]))


class Part(NamedTuple):
    """A line of an answer, and how many bytes follow it."""

    kind: str
    words: tuple[str, ...]
    size: int


def parts_of(file: BinaryIO) -> Iterator[Part]:
    """Yields the parts of an answer, at whose bytes the file is then. Raises Refused."""
    if file.readline(MOST_LINE) != ANSWER:
        raise Refused("it is no answer that is known here, as: flutejoin answer 1")
    while True:
        line = file.readline(MOST_LINE).decode("latin-1")
        kind = line.partition(" ")[0].strip()
        found = PARTS[kind].fullmatch(line) if kind in PARTS else None
        if not found:
            raise Refused("the answer is cut, or at fault" if line else "the answer is cut")
        size = int(found.groups()[-1]) if kind in WITH_BYTES else 0
        if kind in WITH_BYTES and size > WITH_BYTES[kind]:
            raise Refused("the answer has a part that is too long")
        end = file.tell() + size
        yield Part(kind, found.groups(), size)
        if kind == "end":
            if file.read(1):
                raise Refused("the answer goes on after its end")
            return
        file.seek(end)


def changes_between(
    before: Iterable[tuple[Key, Sums]], now: Iterable[tuple[Key, Sums]], again: frozenset[Key]
) -> Iterator[Change]:
    """Yields what changed of what was told of a journal, and all of some objects."""
    old = iter(before)
    last = next(old, None)
    for key, sums in now:
        while last and last[0] < key:
            yield gone(last[0])
            last = next(old, None)
        known = last[1] if last and last[0] == key else None
        if last and last[0] == key:
            last = next(old, None)
        if known != sums or key in again:
            yield change_of(key, None if key in again else known, sums)
    while last:
        yield gone(last[0])
        last = next(old, None)


def gone(key: Key) -> Change:
    """The change by which an object is no longer there."""
    return Change(key, Sums(NO_INFORMATION, b""), 0, True)


def change_of(key: Key, known: Optional[Sums], sums: Sums) -> Change:
    """What is to be told of an object of which `known` was told, and which has these sums now."""
    if known is None:
        return Change(key, sums, sums.symbol_count(), True)
    old, new = known.by_symbol(), sums.by_symbol()
    is_more = known.information in (NO_INFORMATION, sums.information)
    if not is_more or not old.items() <= new.items():
        return Change(key, sums, sums.symbol_count(), True)
    more = {symbol: value for symbol, value in new.items() if symbol not in old}
    return Change(key, Sums.of(sums.information, more), len(new), False)
