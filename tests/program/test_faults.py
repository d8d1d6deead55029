"""Each fault of a journal's bytes, of each command that reads one: it is never a device's fault.

`bad` has the fault, behind the object 1 of session 7, where a fault may be behind something.
"""
from __future__ import annotations

from typing import Iterator

from tests.program.case import (
    FIELDS,
    FIRST,
    HEADER2,
    INFO,
    INFO_LINE,
    KEY,
    NAME,
    SECOND,
    V4,
    WORLD,
    Case,
    conflicts,
    ended,
)
from tests.support.run import version2

THIRD = "--tsi 7 --toi 3"


def commands() -> Iterator[tuple[str, int]]:
    """The words of each command that reads a journal, and which of its inputs `bad` is."""
    yield from (("show bad", 1), ("gaps bad", 1), ("gaps --summary --check bad", 1))
    yield from (("compare bad whole", 1), ("compare whole bad", 2))
    yield from (("compare --summary bad whole", 1), ("compare --json whole bad", 2))
    yield from ((f"extract -o got {NAME} bad", 1), (f"extract -o - {NAME} bad", 1))
    yield from (("extract --all -o got bad", 1), (f"info -o got {THIRD} {FIELDS} bad", 1))
    yield ("info -o got --list lines bad", 1)
    yield from (("show --list keys bad", 1), ("gaps --list keys bad", 1))
    yield ("extract --all -o got --list keys bad", 1)
    yield from (("join -o got bad", 1), ("join -o got sent whole bad", 3))
    yield from (("merge -o got bad whole", 1), ("merge -o got whole bad", 2))
    yield from (("minus -o got bad whole", 1), ("minus -o got whole bad", 2))
    yield from (("fill -o got --gaps /dev/null bad", 1), ("fill -o got --gaps asked bad", 1))
    yield from (("forget -o got --conflicts bad", 1), (f"forget -o got {NAME} bad", 1))


class EachFault(Case):
    def setUp(self) -> None:
        super().setUp()
        self.write("lines", INFO_LINE + "\n")
        self.write("keys", "session 7 object 2\n")
        self.write("asked", f"source {V4.lower()} session 7 object 1 no information\n")

    def each(self, name: str, *text: str, of_join: str | None = None) -> None:
        """Checks that each command tells this fault of `bad`, and makes nothing. `of_join` is what
        `join` tells, where that is something else."""
        self.file("bad", *text)
        for words, number in commands():
            told = of_join if of_join and words.startswith("join") else name
            self.row(f"{name}: {words}", words, 1, None, f"input {number}: {told}")
            self.absent(f"{name}: {words} makes nothing", "got", "got.partial")

    def test_begin(self) -> None:
        self.each("Magic", "464C4A4D 0002", ended(0), of_join="unknown kind")
        self.each("Version", "464C4A4E 0003", ended(0))

    def test_cut(self) -> None:
        """Behind the version, within an entry, between two, and within the end."""
        whole = bytes.fromhex(f"{HEADER2} {version2(V4, WORLD)} {ended(3)}")
        for length in 5, 6, 20, 57, 58, len(whole) - 9, len(whole) - 1:
            self.each("Cut", whole[:length].hex())

    def test_entries(self) -> None:
        begin = f"{HEADER2} {version2(V4, INFO)}"
        self.each("Kind", f"{begin} 05 {V4} {KEY}")
        zero = conflicts("000000000007 01 0000000000000000000000000000")
        self.each("Key", f"{begin} {version2(V4, zero)} {ended(2)}")
        info = f"01 {SECOND} 000000000005 0004 00000000"
        self.each("Information BlockLength", f"{begin} {version2(V4, info)} {ended(2)}")
        empty = f"03 {KEY} 0000 0000 0000"
        self.each("EmptySymbol", f"{begin} {version2(V4, empty)} {ended(2)}")
        self.each("Order", f"{begin} {version2(V4, INFO)} {ended(2)}")
        self.each("Order", f"{HEADER2} {version2(V4, FIRST)} {version2(V4, INFO)} {ended(2)}")

    def test_end(self) -> None:
        entries = version2(V4, WORLD)
        self.each("Count", f"{HEADER2} {entries} {ended(4)}")
        self.each("Trailing", f"{HEADER2} {entries} {ended(3)} 00")

    def test_datagram_files(self) -> None:
        """The faults of a datagram file of `join`, beside others."""
        for name, text in (
            ("Version", "464C4447 0002 0003 10A000"),
            ("Cut", "464C4447 00"),
            ("Cut", "464C4447 0001 0003 10A0"),
            ("Cut", "464C4447 0001 00"),
        ):
            self.file("bad", text)
            for words in "join -o got sent whole bad", "join --memory 1 -o got sent whole bad":
                self.row(f"{name}: {words}", words, 1, "", f"input 3: {name}")
                self.absent(f"{name}: {words} makes nothing", "got", "got.partial")
