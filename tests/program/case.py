"""Journals and datagram files for the tests of the program, in a folder for each test.

Journals are written here in version 1, read so in most checks, and compared in version 2, which the
program writes. Unless noted, they are of object 1 of session 7, "hello".
"""
from __future__ import annotations

from typing import Any

from tests.support import run
from tests.support.run import ZERO, version2

SYMBOL = "10A004000000000000000007000000010000000068656C6C"
HEADER, HEADER2 = "464C4A4E0001", "464C4A4E0002"
KEY = "000000000007 01 0000000000000000000000000001"
SECOND = "000000000007 01 0000000000000000000000000002"
THIRD = "000000000007 01 0000000000000000000000000003"
SESSION_8 = "000000000008 01 0000000000000000000000000001"
INFO = f"01 {KEY} 000000000005 0004 00000002"
FIRST = f"03 {KEY} 0000 0000 0004 68656C6C"
LAST = f"03 {KEY} 0000 0001 0001 6F"
# Senders: 10.0.0.1, and an IPv6 address
V4, V6 = "00000000000000000000FFFF0A000001", "20010DB8000000000000000000000001"
HELLO_OF_ZERO = version2(ZERO, f"{INFO} {FIRST} {LAST}")
# Another object of the same name, "world"
WORLD = f"{INFO} 03 {KEY} 0000 0000 0004 776F726C 03 {KEY} 0000 0001 0001 64"
WORLD_OF_V4 = version2(V4, WORLD)

INFO_LINE = "session 7 object 1 info length 5 symbol 4 block 2"
FIRST_LINE = "session 7 object 1 symbol 0/0 length 4 68656c6c"
LAST_LINE = "session 7 object 1 symbol 0/1 length 1 6f"
CONFLICT_LINE = "session 7 object 1 info conflict"
CONFLICTING = "session 7 object 1 conflicting information"
WHOLE = "session 7 object 1 whole 5"
PART = "session 7 object 1 partial missing 1 conflicting 0 misfit 0\n"

# The options that these commands need besides -o OUT and an input
NAME = "--tsi 7 --toi 1"
FIELDS = "--length 5 --symbol 4 --block 2"
CUT = "--symbol 4 --block 2"


def lines(*of: str) -> str:
    return "".join(f"{line}\n" for line in of)


def joined(datagrams: int, entries: int, refused: int = 0, others: int | None = None) -> str:
    """What `join` prints; `others` only if some are left out."""
    left = [] if others is None else [f"others {others}"]
    return lines(f"datagrams {datagrams}", f"refused {refused}", *left, f"entries {entries}")


def made_by(sender: str) -> str:
    """The beginning of a line about this sender."""
    return f"source {sender.lower()} "


def conflicts(*keys: str) -> str:
    """Entries: the FEC OTI of these objects is in conflict."""
    return " ".join(f"02 {key}" for key in keys)


def ended(entries: int) -> str:
    return f"FF {entries:016X}"


def sessions(numbers: range) -> str:
    """Entries: in each session the FEC OTI of one object is in conflict."""
    return conflicts(*(f"{number:012X} 01 {1:028X}" for number in numbers))


class Case(run.Case):
    def setUp(self) -> None:
        super().setUp()
        self.journal("whole", HEADER, INFO, FIRST, LAST, ended(3))
        self.journal("empty", HEADER, ended(0))
        self.journal("conflict", HEADER, conflicts(KEY), ended(1))
        self.journal("symbol", HEADER, FIRST, ended(1))
        self.journal("symbols", HEADER, FIRST, LAST, ended(2))
        self.journal("part", HEADER, INFO, FIRST, ended(2))
        fdt_3 = "000000000007 00 0000000000000000000000000003"
        self.journal("instance", HEADER, f"03 {fdt_3} 0000 0000 0001 3C", ended(1))
        # A symbol that does not fit, one in conflict with `whole`, and both of them joined
        misfit = f"03 {KEY} 0000 0002 0001 78"
        self.journal("others", HEADER, FIRST, f"03 {KEY} 0000 0001 0004 6F000000", misfit, ended(3))
        self.journal("joined", HEADER, INFO, FIRST, f"04 {KEY} 0000 0001", misfit, ended(4))
        # As many sessions as a store holds
        self.journal("many", HEADER, sessions(range(64)), ended(64))
        self.file("bad", HEADER, INFO, ended(1), "00")
        header = "00000000 00000007 00000001 40040000 00000005 00000004 00000002"
        self.file(
            "sent",
            "464C44470001",
            f"0028 10A00800 {header} 00000000 68656C6C",
            f"0025 10A00800 {header} 00000001 6F",
        )
        self.file("refused", "464C44470001 0003 10A000")
        self.write("content", "hello")
        self.write("nothing", "")
        self.write("cut", self.read("sent")[:20])

    def senders(self) -> None:
        """Makes journals of version 2 with several senders."""
        both = f"{INFO} {FIRST} {LAST}"
        self.write("world_content", "world")
        self.file("world", HEADER2, WORLD_OF_V4, ended(3))
        self.file("two", HEADER2, HELLO_OF_ZERO, WORLD_OF_V4, ended(6))
        self.file(
            "three",
            *(HEADER2, HELLO_OF_ZERO, version2(ZERO, conflicts(THIRD, SESSION_8)), WORLD_OF_V4),
            version2(V4, f"01 {SECOND} 000000000005 0004 00000002"),
            version2(V6, conflicts(KEY)),
            ended(10),
        )
        self.file("hello_v4", HEADER2, version2(V4, both), ended(3))
        self.file("hello_both", HEADER2, HELLO_OF_ZERO, version2(V4, both), ended(6))

    def makes(
        self, name: str, words: run.Words, out: run.Expected, wanted: run.Content, **how: Any
    ) -> None:
        """Checks a run that writes `got`, with these bytes; what the file had before is gone."""
        if self.exists("got"):
            self.write("got", "")
        self.row(name, words, 0, out, **how)
        self.same(f"{name}: what it wrote", "got", wanted)

    def refused_by_parser(self, name: str, words: run.Words, text: str) -> None:
        """Checks that the parser refuses the words, with a text that begins with this line."""
        done = self.program(words)
        first = done.err.partition(b"\n")[0] + b"\n"
        self.check(name, done._replace(err=first), 2, "", f"error: {text}")
