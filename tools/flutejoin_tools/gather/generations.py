"""What is joined with what: decided for each object by how many symbols agree.

A sender that is started anew, or that uses a TOI again, sends other bytes under the same name, and
a join can't be taken back. So before anything is joined into what is kept, it is compared. An
object of which more symbols agree than differ is joined, without those that differ; these are
`others`, of which the MD5 of a file may still show that they were sent. One of which as many
differ, or whose transmission information differs, is another generation of that TOI, and goes to
the next journal, where the same is done.
"""
from __future__ import annotations

import collections
import contextlib
import os
import re
from typing import Callable, Collection, Container, Iterable, Iterator, Mapping, NamedTuple
from typing import Optional, Sequence

from flutejoin_tools.common.file_names import PARTIAL
from flutejoin_tools.common.program import Answer, Failed
from flutejoin_tools.common.shelves import begin_file, bring_to_disk
from flutejoin_tools.formats import records
from flutejoin_tools.formats.entries import (
    INFORMATION,
    INFORMATION_CONFLICT,
    SYMBOL,
    SYMBOL_CONFLICT,
)
from flutejoin_tools.gather.rows import (
    ASIDE,
    MOST_GENERATIONS,
    Chosen,
    Row,
    choose,
    compared,
    may_matter,
)
from flutejoin_tools.journals import holdings
from flutejoin_tools.journals.holdings import Copy, Key, key_of
from flutejoin_tools.journals.merged import merged
from flutejoin_tools.journals.stretches import stretches

MOST_NAMED = 3  # objects of a kind
ENDING = ".journal"

# Yields the lines of `flutejoin compare` of two journals; raises Failed
Compare = Callable[[str, str], Iterator[bytes]]
# The generations of an object, of these journals by their numbers, whose file was delivered: the
# first one first
Delivered = Callable[[Key, Mapping[int, str]], Iterable[int]]


def nothing_delivered(_key: Key, _kept: Mapping[int, str]) -> Iterable[int]:
    return ()


class Named:
    """How many objects there are of a kind, and some of them."""

    def __init__(self) -> None:
        self.count, self.some = 0, []  # type: int, list[Key]

    def add(self, key: Key) -> None:
        self.count += 1
        if len(self.some) < MOST_NAMED:
            self.some.append(key)


class Plan:
    """Where the objects of a journal go, and of which some symbols go aside."""

    def __init__(self) -> None:
        self.to: dict[bytes, int] = {}  # the number of the generation, unless it is the first
        self.with_others: dict[int, set[Key]] = collections.defaultdict(set)
        self.others = 0  # how many symbols go aside
        self.replaced: dict[int, set[Key]] = collections.defaultdict(set)
        self.full, self.begun, self.gone = Named(), Named(), Named()

    def is_plain(self) -> bool:
        """Whether all goes to the first generation."""
        return not (self.with_others or self.to or self.replaced)

    def add(self, chosen: Chosen, rows: dict[int, Row]) -> None:
        """Adds where an object goes, by its rows."""
        number, row = chosen.number, rows.get(chosen.number)
        key = next(iter(rows.values())).key
        if number != 1:
            self.to[key.raw()] = number
        if number == ASIDE:
            self.full.add(key)
        elif chosen.replaces:
            self.replaced[number].add(key)
            self.gone.add(key)
        elif row and row.is_in_first():
            self.others += row.differ
            if row.differ:
                self.with_others[number].add(key)
        elif any(it.is_in_first() for it in rows.values()):
            self.begun.add(key)


def plan_of(
    kept: dict[int, str],
    new: str,
    compare: Compare,
    without: Container[Key] = (),
    delivered: Delivered = nothing_delivered,
) -> Plan:
    """Decides by the generations that are kept, by their numbers, where a journal's objects go."""
    plan = Plan()
    every: list[Iterable[bytes]] = [compare(path, new) for path in kept.values()]
    if [*kept] == [1]:
        every = [filter(may_matter, every[0])]
    for rows in compared(every, without):
        of = dict(zip(kept, rows))
        plan.add(choose(of, delivered(rows[0].key, kept)), of)
    return plan


def differing(journals: Sequence[str], keys: set[Key]) -> dict[bytes, set[bytes]]:
    """The symbols of these objects of which the journals have several values."""
    found: dict[bytes, set[bytes]] = collections.defaultdict(set)
    for _, raw, of in merged(journals, keys.__contains__):
        found[raw].update(each.symbol for each in of if len(set(each.values_alone())) > 1)
    return found


class Split:
    """Writes journals of parts of one: of each generation, and what goes aside."""

    def __init__(self, front: str) -> None:
        self.front = front
        self.paths: dict[int, str] = {}
        self.copies: dict[int, Copy] = {}
        self.stack = contextlib.ExitStack()

    def copy_of(self, number: int) -> Copy:
        if number not in self.copies:
            self.paths[number] = path = f"{self.front}.{number}{PARTIAL}"
            self.copies[number] = Copy(self.stack.enter_context(begin_file(path)))
        return self.copies[number]

    def finish(self) -> None:
        with self.stack:
            for copy in self.copies.values():
                copy.finish()

    def remove(self) -> None:
        self.stack.close()
        for path in self.paths.values():
            with contextlib.suppress(FileNotFoundError):
                os.unlink(path)


def split(
    new: str, plan: Plan, others: Mapping[bytes, set[bytes]], front: str, without: Container[Key]
) -> Split:
    """Writes the objects of a plan to journals of their generations, and other symbols aside.

    An entry in conflict has no value, and would spoil one that is kept: it goes nowhere.
    """
    found, last, is_taken, to = Split(front), b"", False, 1
    aside: Optional[set[bytes]] = None
    try:
        with open(new, "rb", buffering=0) as file:
            for kind, raw, more in holdings.entries(file):
                if raw != last:
                    last, is_taken = raw, key_of(raw) not in without
                    to, aside = plan.to.get(raw, 1), others.get(raw)
                if not is_taken or kind in (INFORMATION_CONFLICT, SYMBOL_CONFLICT):
                    continue
                is_aside = aside and kind == SYMBOL and bytes(more[:4]) in aside
                found.copy_of(ASIDE if is_aside else to).add(kind, raw, more)
        found.finish()
    except BaseException:
        found.remove()
        raise
    return found


class Contents(NamedTuple):
    """Objects of a journal: those in which something is in conflict, and of some those that have
    transmission information."""

    disputed: set[Key]
    informed: set[Key]


def contents_of(journal: str, known: Collection[Key] = ()) -> Contents:
    """Looks through a journal. `known` are the objects whose transmission information is told."""
    found = Contents(set(), set())
    with open(journal, "rb", buffering=0) as file:
        for each in stretches(file):
            if each.kind in (INFORMATION_CONFLICT, SYMBOL_CONFLICT):
                found.disputed.add(key_of(each.raw))
            elif each.kind == INFORMATION and known:
                key = key_of(each.raw)
                if key in known:
                    found.informed.add(key)
    return found


def generation(stem: str, number: int) -> str:
    """The name of the journal of a generation: 10.0.0.1.journal, then 10.0.0.1.g2.journal."""
    return stem + (f".g{number}" if number > 1 else "") + ".journal"


def kept_in(folder: str, stem: str) -> dict[int, list[str]]:
    """The journals of a sender in a folder, by the numbers of their generations: the first one, and
    those with a time in their names, the oldest first."""
    found: dict[int, list[tuple[str, str]]] = collections.defaultdict(list)
    form = re.compile(re.escape(stem) + r"(?:\.g([2-8]))?(?:\.(\d{20}))?\.journal", re.ASCII)
    for name in os.listdir(folder) if os.path.isdir(folder) else ():
        of = form.fullmatch(name) if name.startswith(f"{stem}.") else None
        if of:
            found[int(of[1] or 1)].append((of[2] or "", os.path.join(folder, name)))
    return {number: [path for _, path in sorted(of)] for number, of in sorted(found.items())}


class Taken(NamedTuple):
    """What became of a journal that was taken: how a join of it failed, if one did."""

    answer: Answer
    path: str = ""  # of the generation at which it failed
    others: int = 0  # symbols that went aside
    begun: Named = Named()  # objects of which another generation began
    full: Named = Named()  # objects of which there are too many
    gone: Named = Named()  # objects of which one that was delivered went
    informed: frozenset[Key] = frozenset()  # known objects that have transmission information


# Joins a journal into another, which may not be there yet
Join = Callable[[str, str], Answer]


class Generations:
    """The journals of a sender in a folder, one for each generation."""

    def __init__(
        self,
        path_of: Callable[[int], str],
        put_aside: Callable[[str], None],
        compare: Compare,
        delivered: Delivered = nothing_delivered,
    ) -> None:
        self.path_of, self.put_aside = path_of, put_aside
        self.compare, self.delivered = compare, delivered

    def kept(self) -> dict[int, str]:
        """The paths of those that are there, by their numbers."""
        paths = {number: self.path_of(number) for number in range(1, MOST_GENERATIONS + 1)}
        return {number: path for number, path in paths.items() if os.path.exists(path)}

    def take(
        self,
        new: str,
        join: Join,
        without: Container[Key] = frozenset(),
        known: Collection[Key] = (),
        found: Optional[Contents] = None,
    ) -> Taken:
        """Joins a journal, `without` some objects of it, each object into its generation.

        `found` is what it contains, if somebody looked. All is on the disk when it returns. If it
        fails in the middle, it may be repeated. Raises OSError, and records.ReadFault or Cut if a
        journal is damaged.
        """
        kept = self.kept()
        found = found or contents_of(new, known)
        try:
            plan = plan_of(kept, new, self.compare, without, self.delivered)
        except Failed as fault:
            if fault.answer.status == 1:
                raise records.ReadFault(fault.answer.told) from None
            return Taken(fault.answer)
        told = Taken(
            Answer(0, ""),
            "",
            plan.others,
            plan.begun,
            plan.full,
            plan.gone,
            frozenset(found.informed),
        )
        if plan.is_plain() and not found.disputed:
            path = self.path_of(1)
            return told._replace(answer=self.bring(new, path, join), path=path)
        others: dict[bytes, set[bytes]] = {}
        for number, keys in plan.with_others.items():
            others.update(differing([kept[number], new], keys))
        parts = split(new, plan, others, self.path_of(1), without)
        return self.bring_parts(parts, plan.replaced, join, told)

    def bring_parts(
        self, parts: Split, replaced: Mapping[int, Container[Key]], join: Join, told: Taken
    ) -> Taken:
        """Joins parts, each into its generation, which forgets the objects that are replaced.

        Returns what is `told` of them, or at which generation a join failed.
        """
        try:
            for generation, keys in replaced.items():
                self.forget(generation, keys)
            if ASIDE in parts.paths:
                self.put_aside(parts.paths[ASIDE])
            for generation in sorted(parts.paths.keys() - {ASIDE}):
                path = self.path_of(generation)
                answer = self.bring(parts.paths[generation], path, join)
                if answer.status:
                    return Taken(answer, path)
            return told
        finally:
            parts.remove()

    def forget(self, number: int, keys: Container[Key]) -> None:
        """Takes objects out of a generation."""
        path = self.path_of(number)
        with open(path, "rb", buffering=0) as file, begin_file(path + PARTIAL) as out:
            holdings.copy(file, lambda key: key not in keys, out, ())
        os.rename(path + PARTIAL, path)
        bring_to_disk(path)

    @staticmethod
    def bring(new: str, path: str, join: Join) -> Answer:
        answer = Answer(0, "")
        if os.path.exists(path) or not has_linked(new, path):
            answer = join(path, new)
        if answer.status == 0:
            bring_to_disk(path)
        return answer


def has_linked(new: str, path: str) -> bool:
    """Gives a journal a second name, which takes no room: neither is ever written in place."""
    try:
        os.link(new, path)
    except OSError:  # a file system without hard links
        return False
    return True
