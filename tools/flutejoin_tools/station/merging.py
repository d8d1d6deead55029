"""Joins the many journals of a sender into few, beside all else.

What is joined stays until the result is on the disk, and nobody changes it meanwhile, so a kill at
any moment loses nothing. The smallest journals are joined, as long as each becomes part of one that
is at least twice as long: so a byte is written again seldom, and tiny journals cost no large ones.
"""
from __future__ import annotations

import os
import subprocess
import time
from typing import Callable, Generator, NamedTuple, Sequence

from flutejoin_tools.common.file_names import PARTIAL
from flutejoin_tools.common.program import Answer, Program, argument
from flutejoin_tools.common.shell import MOST_INPUTS
from flutejoin_tools.common.shelves import Shelf, bring_to_disk, entries_of, remove, size_of
from flutejoin_tools.formats.records import MOST, Cut, ReadFault
from flutejoin_tools.gather.generations import kept_in
from flutejoin_tools.journals.stretches import Indexes, named

MANY = 48  # journals of a generation from which on some are joined
MORE = 8  # journals that come then until others are joined beside these
MOST_JOINED = 24  # at a time
MOST_RUNNING = 2  # joins, so that a small one doesn't wait for a large one
STEP = 0.1  # seconds in which a journal is looked through at a time
REST = 60  # seconds after a join that failed

# A join that goes on: it yields whether it waits
Steps = Generator[bool, None, None]


class File(NamedTuple):
    """A journal that may be joined. The first are the smallest."""

    size: int
    entries: int
    path: str


def together(sizes: Sequence[int]) -> int:
    """How many of these journals, of which the first are the smallest, are joined.

    At least two; if any can, each becomes part of one that is twice as long.
    """
    total, count = sizes[0], 0
    for number, size in enumerate(sizes[1:], 2):
        if size <= total:
            count = number
        elif count:
            break
        total += size
    return count or 2


def chosen(files: Sequence[File], is_all: bool = False) -> list[File]:
    """Which of several journals are joined, or how many of all may be: of so many entries."""
    small = sorted(files)
    if len(small) < 2:
        return []
    count = min(together([it.size for it in small]), MOST_JOINED)
    found = small[: MOST_INPUTS if is_all else count]
    while sum(it.entries for it in found) > MOST:
        found.pop()
    return found if len(found) > 1 else []


class Merges:
    """The joins of a station that run, and the senders whose journals are to be looked at."""

    def __init__(
        self,
        journals: Shelf,
        work: str,
        program: Program,
        indexes: Indexes,
        room: Callable[[], int],
        at_fault: Callable[[str, Sequence[str], Answer], None],
    ) -> None:
        """`room` is what is free on the disk; `at_fault` is told of journals that join refuses."""
        self.journals, self.work, self.program = journals, work, program
        self.indexes, self.room, self.at_fault = indexes, room, at_fault
        self.running: dict[tuple[str, ...], Steps] = {}
        self.stems: dict[str, bool] = {}  # to be looked at; whether all of each are joined
        self.apart: set[tuple[int, int, int]] = set()  # journals that are left as they are
        self.not_before = float("-inf")

    def ask(self, stem: str, is_all: bool = False) -> None:
        """Has the journals of a sender looked at."""
        self.stems[stem] = is_all or self.stems.get(stem, False)

    def tend(self) -> bool:
        """Goes on for a moment. Returns whether there is more to do at once."""
        has_more = False
        for paths, steps in [*self.running.items()]:
            is_waiting, end = next(steps, None), time.monotonic() + STEP
            while is_waiting is False and time.monotonic() < end:
                is_waiting = next(steps, None)
            has_more = has_more or is_waiting is False
            if is_waiting is None:
                del self.running[paths]
        while self.stems and len(self.running) < MOST_RUNNING:
            if time.monotonic() < self.not_before:
                break
            stem, is_all = self.stems.popitem()
            if self.begin(stem, is_all):
                self.ask(stem, is_all)
        return has_more

    def finish(self) -> None:
        """Goes on until nothing is left to join."""
        while self.running or self.stems and time.monotonic() >= self.not_before:
            if not self.tend():
                time.sleep(STEP / 10)

    def stop(self) -> None:
        """Ends what runs; all journals are as they were."""
        for steps in self.running.values():
            steps.close()
        self.running.clear()

    def begin(self, stem: str, is_all: bool) -> bool:
        """Begins a join of some journals of a sender. Returns whether it did."""
        busy = {path for paths in self.running for path in paths}
        for paths in kept_in(self.journals.path, stem).values():
            small = [
                File(size_of(path), entries_of(path) or 0, path)
                for path in paths
                if named(path) not in self.apart
            ]
            small = [it for it in small if it.entries <= MOST // 2]
            free = [it for it in small if it.path not in busy]
            if len(small) < (2 if is_all else MANY + MORE * (len(free) < len(small))):
                continue
            of = {it.path for it in chosen(free, is_all)}
            joined = tuple(path for path in paths if path in of)
            if joined and sum(map(size_of, joined)) < self.room():
                out = os.path.join(self.work, os.path.basename(joined[0]) + PARTIAL)
                self.running[joined] = self.steps(stem, is_all, joined, out)
                next(self.running[joined], None)
                return True
        return False

    def steps(self, stem: str, is_all: bool, paths: tuple[str, ...], out: str) -> Steps:
        """Joins journals, of which the oldest has the name of all then."""
        before = [*map(named, paths)]
        words = ["join", "--any-size", "-o", out, *map(argument, paths)]
        child = self.program.start(words, subprocess.DEVNULL, subprocess.PIPE)
        try:
            while child.poll() is None:
                yield True
            answer = self.program.answer(child)
            if answer.status:
                self.fail(stem, paths, answer)
                return
            for _ in self.indexes.look(out):
                yield False
            is_right = not self.indexes.of(out).has_conflict
            if is_right and self.is_as_it_was(paths, before):
                os.rename(out, paths[0])
                bring_to_disk(paths[0])
                for path in paths[1:]:
                    remove(path)
                self.ask(stem, is_all)
            else:
                self.apart.update(before)
        except (OSError, ReadFault, Cut):
            self.not_before = time.monotonic() + REST
        finally:
            child.kill()
            with child:  # which waits for its end
                for path in out, out + PARTIAL:  # the second is that of a join which was ended
                    remove(path)

    @staticmethod
    def is_as_it_was(paths: Sequence[str], before: Sequence[tuple[int, int, int]]) -> bool:
        try:
            return [*map(named, paths)] == before
        except FileNotFoundError:
            return False

    def fail(self, stem: str, paths: Sequence[str], answer: Answer) -> None:
        if answer.status != 1:
            self.not_before = time.monotonic() + REST
            self.ask(stem)
            return
        self.apart.update(map(named, paths))
        self.at_fault(stem, paths, answer)
