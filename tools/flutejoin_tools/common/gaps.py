"""Reads what flutejoin prints about journals: the state, the gaps and the FEC OTI of each object.

Lines are read as they come, and none is kept.
"""
from __future__ import annotations

import contextlib
import re
import tempfile
from typing import IO, Iterable, Iterator, NamedTuple, Optional, Sequence, Tuple

from flutejoin_tools.common.faults import Fault
from flutejoin_tools.common.program import ALL, Command, Program, argument
from flutejoin_tools.common.texts import shown

HELD, MISSING, CONFLICTING, MISFIT = range(4)
REASONS = {b"missing": MISSING, b"conflicting": CONFLICTING, b"misfit": MISFIT}
WHOLE, PARTIAL = "whole", "partial"
NO_INFORMATION, CONFLICTING_INFORMATION = "no information", "conflicting information"

OBJECT = rb"((?:source [0-9a-f]{32} )?session \d+ object (?:fdt )?\d+) "
STATE = re.compile(
    OBJECT + rb"(?:(whole) \d+|(no information)|(conflicting information)"
    rb"|(partial) missing (\d+) conflicting (\d+) misfit (\d+))\n"
)
GAPS = ["gaps", "--any-size"]
# Reads a journal to its end, and reports its faults: it chooses no object, since to look for what
# is missing of many large ones takes long.
CHECK = [*GAPS, "--summary", "--source", "f" * 32]
MOST_BLOCKS = 1 << 16  # of an object
GAP = re.compile(rb"gap (\d+)/(\d+)-(\d+) (missing|conflicting|misfit)\n")
INFORMATION = re.compile(OBJECT + rb"info length (\d+) symbol (\d+) block (\d+)\n")


class State(NamedTuple):
    """What flutejoin reports about an object.

    `disputed` counts its symbols in conflict and its misfits, and `gaps` the gap lines that follow,
    or more, if there are very many of all objects. `missing` counts its missing symbols.
    """

    words: str
    disputed: int = 0
    gaps: int = 0
    missing: int = 0

    def bound(self, ranges: int) -> State:
        """The state with the most gap lines that so many ranges of missing bytes may have: each gap
        is in one block."""
        return self._replace(gaps=min(self.missing + self.disputed, ranges + MOST_BLOCKS))

    @classmethod
    def of(cls, line: re.Match[bytes]) -> State:
        """The state in a line about an object, as `STATE` matched it."""
        if line[5]:
            return cls(PARTIAL, int(line[7]) + int(line[8]), 0, int(line[6]))
        return cls((line[2] or line[3] or line[4]).decode())

    def has_information(self) -> bool:
        return self.words in (WHOLE, PARTIAL)


# Transmission information: the transfer length, the symbol length and the block length
Numbers = Tuple[int, int, int]


class Gaps:
    """What flutejoin tells of journals. Each is given by its path, and faults name that path."""

    def __init__(self, program: Program) -> None:
        self.program = program
        self.known: Optional[IO[bytes]] = None  # lines of `know`
        self.instead: dict[str, IO[bytes]] = {}  # what is read in place of journals

    def know(self, information: Iterable[Tuple[str, Numbers]]) -> None:
        """Adds transmission information to what `states` and `gaps` read: `(object, numbers)`."""
        self.known = tempfile.TemporaryFile()
        for key, (length, symbol, block) in information:
            line = f"{key} info length {length} symbol {symbol} block {block}\n"
            self.known.write(line.encode())
        self.known.flush()
        self.program.kept += (self.known.fileno(),)

    def read_instead(self, journal: str, file: IO[bytes]) -> None:
        """Has an open file read in place of a journal, which is named in faults as ever."""
        self.instead[journal] = file
        self.program.kept += (file.fileno(),)

    def input(self, journal: str) -> str:
        """The argument by which the program reads a journal, or the file that is read in its
        place."""
        if journal in self.instead:
            return f"/dev/fd/{self.instead[journal].fileno()}"
        return argument(journal)

    def states(self, journals: list[str]) -> Iterator[tuple[str, State]]:
        """Yields each object in these journals together, and its state.

        Objects are named as flutejoin gaps prints them. The gap lines of an object without
        conflicts and misfits are its ranges of bytes.
        """
        for key, state in self.counted(self.commands(journals, ["--ranges"])):
            yield key, state.bound(state.gaps) if state.disputed else state

    def counted(self, commands: list[Command]) -> Iterator[tuple[str, State]]:
        """Yields each object and its state with the number of lines that follow."""
        key, state, begin, number = None, State(""), 0, 0
        with contextlib.closing(self.program.lines(*commands)) as lines:
            for number, line in enumerate(lines):
                if line.startswith((b"gap ", b"bytes ")):
                    continue
                if key is not None:
                    yield key, state._replace(gaps=number - begin - 1)
                told, begin = state_of(line), number
                key, state = told[1].decode(), State.of(told)
        if key is not None:
            yield key, state._replace(gaps=number - begin)

    def commands(self, journals: list[str], more: Sequence[str] = ()) -> list[Command]:
        """The commands that print the gaps of these journals together."""
        paths = [*map(self.input, journals)]
        names = [shown(path) for path in journals]
        found: list[Command] = []
        if len(paths) > 1:
            found.append(Command(["join", "--any-size", "-o", "-", *paths], names))
            paths, names = ["-"], [ALL]
        if self.known:
            lines = f"/dev/fd/{self.known.fileno()}"
            words = ["info", "--any-size", "-o", "-", "--list", lines, *paths]
            found.append(Command(words, [*names, "what the FDT tells"]))
            paths = ["-"]
        return [*found, Command([*GAPS, *more, *paths], names)]

    def information(self, journal: str, keys: set[str]) -> dict[str, Numbers]:
        """The transmission information of those of these objects for which the journal has it.

        It is the transfer length, the symbol length and the block length.
        """
        found: dict[str, Numbers] = {}
        show = Command(["show", self.input(journal)], [shown(journal)])
        with contextlib.closing(self.program.lines(show)) as lines:
            for line in lines:
                if b" info length " not in line[:140]:
                    continue
                information = INFORMATION.fullmatch(line)
                if not information:
                    raise unknown(line)
                key = information[1].decode()
                if key in keys:
                    found[key] = int(information[2]), int(information[3]), int(information[4])
                    if len(found) == len(keys):
                        return found
        raise Fault(3, f"{shown(journal)}: changed while it was read")


def state_of(line: bytes) -> re.Match[bytes]:
    """The parts of a line about an object. Raises Fault if it is no such line."""
    told = STATE.fullmatch(line)
    if not told:
        raise unknown(line)
    return told


def options(key: str) -> list[str]:
    """The options that name an object."""
    words = key.split()
    source = ["--source", words[1]] if words[0] == "source" else []
    words = words[len(source) :]
    number = ["--toi", "0", "--fdt", words[4]] if words[3] == "fdt" else ["--toi", words[3]]
    return [*source, "--tsi", words[1], *number]


def unknown(line: bytes) -> Fault:
    """The fault of a line of flutejoin that no pattern here matches."""
    told = shown(line[:80].decode(errors="replace").strip())
    return Fault(3, f"flutejoin tells a line that is not known here: {told}")
