"""Reads what flutejoin prints of the objects that are drawn, into grids.

A datagram can begin 65,536 source blocks, of which each is a gap, and flutejoin puts the lines of
all gaps aside before it prints the first. So only the objects that are drawn are asked for, and of
those without conflicts and misfits the ranges of bytes that are missing: the lines are not many
more than there are symbols.
"""
from __future__ import annotations

import contextlib
import fcntl
import os
import re
import tempfile
from typing import (
    Callable,
    Collection,
    Dict,
    Generator,
    Iterable,
    Iterator,
    List,
    Optional,
    Sequence,
)

from flutejoin_tools.common import gaps
from flutejoin_tools.common.faults import Fault
from flutejoin_tools.common.gaps import REASONS, State
from flutejoin_tools.common.program import Command
from flutejoin_tools.formats.partition import Partition
from flutejoin_tools.map.grids import Grid

RANGE = re.compile(rb"bytes (\d+)-(\d+)\n")
# The commands of a run of the program; `gaps`, the last of them, has these words more
Commands = Callable[[Sequence[str]], List[Command]]


@contextlib.contextmanager
def passed(told: gaps.Gaps, lines: Iterable[str]) -> Iterator[str]:
    """The path of a file of these lines, which what the program runs meanwhile inherits."""
    program, kept = told.program, told.program.kept
    with tempfile.TemporaryFile() as file:
        file.writelines(f"{line}\n".encode() for line in lines)
        file.flush()
        # Where a standard stream is closed, the file may have its number.
        number = fcntl.fcntl(file.fileno(), fcntl.F_DUPFD_CLOEXEC, 3)
        program.kept = (*kept, number)
        try:
            yield f"/dev/fd/{number}"
        finally:
            program.kept = kept
            os.close(number)


@contextlib.contextmanager
def printed(
    told: gaps.Gaps, commands: Commands, keys: Collection[str], *more: str
) -> Iterator[Iterator[bytes]]:
    """The lines that the program prints of these objects."""
    with passed(told, keys) as path:
        run = told.program.lines(*commands([*more, "--list", path])) if keys else nothing()
        with contextlib.closing(run) as lines:
            yield lines


def nothing() -> Generator[bytes, None, None]:
    yield from ()


def read(line: bytes) -> tuple[str, State]:
    """The object and the state that a line tells."""
    told = gaps.state_of(line)
    return told[1].decode(), State.of(told)


class Filling:
    """Grids of objects with these partitions, that are filled with what the program prints."""

    def __init__(
        self, name: str, make: Callable[[Partition], Grid], partitions: Dict[str, Partition]
    ) -> None:
        self.name, self.make, self.partitions = name, make, partitions
        self.made: dict[str, Grid] = {}

    def fill_with(self, told: gaps.Gaps, journal: str) -> None:
        """Makes and fills the grids of all, of a journal that lacks their information."""
        added = (
            "%s info length %d symbol %d block %d" % (key, *partition.numbers)
            for key, partition in self.partitions.items()
        )
        with passed(told, added) as path:
            words = ["info", "--any-size", "-o", "-", "--list", path, told.input(journal)]
            info = Command(words, [self.name, "what other journals tell"])

            def commands(more: Sequence[str]) -> list[Command]:
                return [info, Command([*gaps.GAPS, *more, "-"], [self.name])]

            self.fill(told, commands, self.partitions)

    def fill(self, told: gaps.Gaps, commands: Commands, keys: Collection[str]) -> None:
        """Makes and fills the grids of these objects."""
        disputed: list[str] = []
        grid: Optional[Grid] = None
        with printed(told, commands, keys, "--ranges") as lines:
            for line in lines:
                if not line.startswith(b"bytes "):
                    key, state = read(line)
                    grid = None if state.disputed else self.begin(key, state)
                    if state.disputed:
                        disputed.append(key)
                elif grid:
                    self.miss(grid, line)
        with printed(told, commands, disputed) as lines:
            for line in lines:
                if not line.startswith(b"gap "):
                    grid = self.begin(*read(line))
                elif grid:
                    self.add(grid, line)

    def begin(self, key: str, state: State) -> Optional[Grid]:
        """Begins the grid of an object; None if it is not to be drawn."""
        if key not in self.partitions:
            return None
        if not state.has_information():
            raise self.changed()
        self.made[key] = self.make(self.partitions[key])
        return self.made[key]

    def miss(self, grid: Grid, line: bytes) -> None:
        """Fills in a range of bytes that are missing."""
        told = RANGE.fullmatch(line)
        if not told:
            raise gaps.unknown(line)
        first, last = int(told[1]), int(told[2])
        length, symbol, _ = grid.partition.numbers
        is_end = (last + 1) % symbol == 0 or last + 1 == length
        if first % symbol or not is_end or not grid.miss(first // symbol, last // symbol):
            raise self.changed()

    def add(self, grid: Grid, line: bytes) -> None:
        """Fills in a gap."""
        told = gaps.GAP.fullmatch(line)
        if not told:
            raise gaps.unknown(line)
        if not grid.add(int(told[1]), int(told[2]), int(told[3]), REASONS[told[4]]):
            raise self.changed()

    def grid_of(self, key: str) -> Grid:
        """The grid of an object that was begun."""
        if key not in self.made:
            raise self.changed()
        return self.made[key]

    def changed(self) -> Fault:
        """The fault of a journal whose second reading differs from the first."""
        return Fault(3, f"{self.name}: changed while it was read")
