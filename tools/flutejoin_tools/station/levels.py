"""The journals that a station keeps of a sender: of each generation several.

A journal that comes is compared with what is kept at the same addresses, and no more is read
(`stretches`). What of it is new becomes a journal of its own, which nobody changes; many are joined
later (`merging`). Where nothing is new nothing is written. Journals may have entries in common, as
after a kill: these are no others.
"""
from __future__ import annotations

import os
import tempfile
from typing import IO, Callable, Collection, Iterable, Iterator, Sequence

from flutejoin_tools.common.file_names import PARTIAL
from flutejoin_tools.common.program import Answer, Failed, Program, argument
from flutejoin_tools.common.shelves import (
    Shelf,
    begin_file,
    bring_to_disk,
    copy,
    entries_of,
    remove,
)
from flutejoin_tools.formats.records import Cut, ReadFault
from flutejoin_tools.gather.delivered import Delivered
from flutejoin_tools.gather.generations import (
    ENDING,
    Plan,
    Split,
    Taken,
    contents_of,
    differing,
    generation,
    kept_in,
    split,
)
from flutejoin_tools.gather.layers import Piece
from flutejoin_tools.gather.others import Others
from flutejoin_tools.gather.rows import ASIDE, SAME, SECOND, Row, choose, compared, united
from flutejoin_tools.journals import holdings
from flutejoin_tools.journals.holdings import Key
from flutejoin_tools.journals.stretches import Indexes, Near, Range, ranges_of

FEW = 16  # if fewer entries than one in so many are kept already, they are kept twice


class Spoiled(Exception):
    """A journal that is kept is at fault."""

    def __init__(self, path: str, told: str) -> None:
        super().__init__(told or "Cut")
        self.path = path


def age_of(path: str) -> str:
    """The time in the name of a journal; that of the first one has none."""
    return os.path.basename(path).removesuffix(ENDING).rpartition(".")[2].rjust(20)


class Levels:
    """The journals of a sender."""

    def __init__(
        self,
        journals: Shelf,
        work: str,
        stem: str,
        program: Program,
        indexes: Indexes,
        others: Others,
        delivered: Delivered,
    ) -> None:
        """`work` is a folder for temporary files, on the same disk."""
        self.journals, self.work, self.stem = journals, work, stem
        self.program, self.indexes = program, indexes
        self.others, self.delivered = others, delivered

    def kept(self) -> dict[int, list[str]]:
        return kept_in(self.journals.path, self.stem)

    def near(self, new: str) -> dict[int, list[Near]]:
        """What is kept at the addresses of a journal, by generations. Raises Spoiled."""
        kept, found = self.kept(), {}
        index = self.indexes.of(new)
        # Of several generations it matters too whether an object is there.
        ranges = [*zip(index.firsts, index.lasts)] if len(kept) < 2 else ranges_of(new)
        for number, paths in kept.items() if ranges else ():
            every = [self.near_in(path, ranges, len(kept) > 1) for path in paths]
            of = [near for near in every if near.parts]
            if of:
                found[number] = of
        return found

    def near_in(self, path: str, ranges: Sequence[Range], with_objects: bool = False) -> Near:
        try:
            index = self.indexes.of(path)
        except (ReadFault, Cut) as fault:
            raise Spoiled(path, str(fault)) from None
        return Near(path, index, index.near(ranges, with_objects))

    def run(self, words: list[str], near: Near, out: IO[bytes]) -> None:
        """Runs a command that reads what is near as `-`. Raises Spoiled, or Failed."""
        try:
            self.program.fed(words, near.pieces(), out)
        except Failed as fault:
            if fault.answer.status == 1:
                raise Spoiled(near.path, fault.answer.told) from None
            raise
        except Cut:
            raise Spoiled(near.path, "") from None

    def compared(self, near: Near, new: str) -> Iterator[bytes]:
        """Yields how what is near compares with a journal, as `flutejoin compare` prints it."""
        with tempfile.TemporaryFile(dir=self.work) as out:
            self.run(["compare", "--any-size", "-", argument(new)], near, out)
            out.seek(0)
            yield from out

    def beside(self, new: str, every: Iterable[Near], out: str) -> str:
        """Writes the entries of a journal that others lack, and returns where they are."""
        path = new
        for number, near in enumerate(every):
            before, path = path, f"{out}.less{number}{PARTIAL}"
            with begin_file(path) as file:
                self.run(["minus", "--any-size", "-o", "-", argument(before), "-"], near, file)
            if before != new:
                remove(before)
        return path

    def copied(self, near: Near, path: str) -> str:
        """Writes what is near to a file."""
        with begin_file(path) as out:
            for piece in self.program.tending(near.pieces()):
                out.write(piece)
        return path

    def first_delivered(self, key: Key) -> Iterator[int]:
        """Yields the generations of an object whose file was delivered, the first one first."""
        if not self.delivered.of(key):
            return
        with tempfile.TemporaryDirectory(dir=self.work, suffix=PARTIAL) as folder:
            kept: dict[int, str] = {}
            for number, paths in self.kept().items():
                kept[number] = os.path.join(folder, generation(self.stem, number))
                words = ["--tsi", str(key.tsi), "--toi", str(key.number), *map(argument, paths)]
                self.program.run(["join", "--any-size", "-o", kept[number], *words])
            yield from self.delivered.generations(key, kept)

    def keep(self, number: int, new: str) -> None:
        """Keeps a journal, on the disk, as one more of a generation."""
        name = generation(self.stem, number)
        path = os.path.join(self.journals.path, name)
        if os.path.lexists(path):
            path = self.journals.next(name.removesuffix(ENDING), ENDING)
        copy(new, path)

    def forget(self, number: int, keys: Collection[Key]) -> None:
        """Takes objects out of a generation."""
        ranges = sorted((key.raw(), key.raw() + b"\xff" * holdings.SYMBOL_ID) for key in keys)
        for path in self.kept().get(number, ()):
            if not self.near_in(path, ranges).parts:
                continue
            left = os.path.join(self.work, f"{self.stem}.left{PARTIAL}")
            with open(path, "rb", buffering=0) as file, begin_file(left) as out:
                holdings.copy(file, lambda key: key not in keys, out, ())
            os.rename(left, path)
            bring_to_disk(path)

    def take(
        self, piece: Piece, known: Collection[Key], hand_on: Callable[[str], None]
    ) -> Taken:
        """Keeps what is new in a journal, each object in its generation.

        What is kept is handed on before. All is on the disk when it returns; if it fails in the
        middle, it may be repeated. Raises OSError, Spoiled, ReadFault and Cut.
        """
        found = piece.found or contents_of(piece.path, known)
        taking = Taking(self, piece._replace(found=found))
        try:
            taking.decide()
            taking.keep(hand_on)
        except Failed as fault:
            return Taken(fault.answer)
        finally:
            taking.end()
        plan, informed = taking.plan, frozenset(found.informed)
        return Taken(
            Answer(0, ""), "", taking.others, plan.begun, plan.full, plan.gone, informed
        )


class Taking:
    """A journal that is taken: which of its objects go where, and whether anything is new."""

    def __init__(self, levels: Levels, piece: Piece) -> None:
        self.levels, self.piece = levels, piece
        self.near = levels.near(piece.path)
        self.plan, self.others = Plan(), 0
        self.has_more = not self.near  # whether something is new, as far as rows say
        self.entries = self.known = 0
        self.done: list[Key] = []  # objects of which nothing is new
        self.front = os.path.join(levels.work, levels.stem)
        self.made: list[str] = []  # temporary files
        self.parts = Split(self.front)

    def end(self) -> None:
        self.parts.remove()
        for path in self.made:
            remove(path)

    def temporary(self, path: str) -> str:
        """A path that is removed at the end, unless it is that of the journal itself."""
        if path != self.piece.path:
            self.made.append(path)
        return path

    def decide(self) -> None:
        """Decides for each object where it goes."""
        every = [(number, near) for number, of in self.near.items() for near in of]
        lines = [self.levels.compared(near, self.piece.path) for _, near in every]
        for rows in compared(lines, self.piece.without):
            told = [(number, row) for (number, _), row in zip(every, rows)]
            of = united(told)
            ages = [
                (age_of(near.path), number)
                for (number, near), row in zip(every, rows)
                if row.is_in_first()
            ]
            last = max(ages)[1] if ages else None
            chosen = choose(of, self.levels.first_delivered(rows[0].key), last)
            self.plan.add(chosen, of)
            self.count(rows[0].key, [row for at, row in told if at == chosen.number])

    def count(self, key: Key, rows: Sequence[Row]) -> None:
        """Counts entries of an object that journals of its generation have. Only one journal that
        has all shows that nothing is new, since several may have the same."""
        if any(not row.second and row.information != SECOND for row in rows):
            self.done.append(key)
        else:
            self.has_more = True
        self.known += sum(row.same + (row.information == SAME) for row in rows)
        for row in rows[:1]:
            has_information = row.information in (SAME, SECOND)
            self.entries += row.same + row.differ + row.second + has_information

    def keep(self, hand_on: Callable[[str], None]) -> None:
        """Keeps what is new."""
        found = self.piece.found
        if not self.plan.is_plain() or found and found.disputed:
            self.keep_parts(hand_on)
        elif self.has_more:
            new = self.piece.path
            if self.known * FEW > self.entries:
                rest = self.temporary(self.rest())
                new = self.temporary(self.levels.beside(rest, self.near[1], self.front))
            if entries_of(new):
                hand_on(new)
                self.levels.keep(1, new)

    def rest(self) -> str:
        """The journal without objects of which nothing is new."""
        path, names = self.piece.path, (f"{key.text()}\n".encode() for key in self.done)
        if not self.done:
            return path
        with begin_file(f"{self.front}.rest{PARTIAL}") as out:
            words = ["join", "--any-size", "--without", "-", "-o", "-", argument(path)]
            self.levels.program.fed(words, names, out)
            return out.name

    def keep_parts(self, hand_on: Callable[[str], None]) -> None:
        """The same where not all goes to the first generation."""
        levels, path = self.levels, self.piece.path
        others: dict[bytes, set[bytes]] = {}
        for number, keys in self.plan.with_others.items():
            of = [
                self.temporary(levels.copied(near, f"{self.front}.near{at}{PARTIAL}"))
                for at, near in enumerate(self.near[number])
            ]
            others.update(differing([*of, path], keys))
        self.parts = split(path, self.plan, others, self.front, self.piece.without)
        for number, keys in self.plan.replaced.items():
            levels.forget(number, keys)
        new = {number: self.new_in(number) for number in self.parts.paths if number != ASIDE}
        new = {number: path for number, path in new.items() if entries_of(path)}
        aside = self.parts.paths.get(ASIDE)
        if aside and levels.others.has(aside):
            aside = None
        if new or aside:
            hand_on(path)
        if aside:
            self.others = self.plan.others
            os.makedirs(os.path.dirname(levels.others.path_of(1)), exist_ok=True)
            levels.others.take(aside)
        for number in sorted(new):
            levels.keep(number, new[number])

    def new_in(self, number: int) -> str:
        """The journal of what is new of a part."""
        part = self.parts.paths[number]
        near = self.levels.near(part).get(number, ())
        out = f"{self.front}.{number}"
        found = self.levels.beside(part, near, out)
        return self.temporary(found) if found != part else part
