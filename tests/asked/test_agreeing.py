"""Tests the decisions of a centre by sums: what a station has of an object, where it belongs, and
what is wanted of it. Journals are made here, and no program is run."""
from __future__ import annotations

import io
import os
import pathlib
import random
import re
import struct
import tempfile
import unittest
from typing import Dict, Iterable, Iterator, Mapping, Optional, Tuple

from flutejoin_tools.common.gaps import Numbers
from flutejoin_tools.common.program import Answer
from flutejoin_tools.exchange.agreeing import Held, Wants
from flutejoin_tools.formats.records import Cut, ReadFault
from flutejoin_tools.gather.generations import Generations, plan_of
from flutejoin_tools.gather.rows import ASIDE, MOST_GENERATIONS
from flutejoin_tools.journals import sums
from flutejoin_tools.journals.holdings import Copy, Key
from flutejoin_tools.journals.merged import merged

NEEDS_PROGRAM = False
SENDER = bytes(10) + b"\xff\xff\x0a\x09\0\1"
INFORMATION, SYMBOL, SYMBOL_CONFLICT = 1, 3, 4  # kinds of entries

# The contents of a journal: by object its transmission information and the values of its symbols,
# by block and number; None is a conflict
Symbols = Mapping[Tuple[int, int], Optional[bytes]]
Contents = Mapping[Key, Tuple[Optional[Numbers], Symbols]]


def key(toi: int, tsi: int = 7) -> Key:
    return Key(SENDER, tsi, 1, toi)


def write(path: str, contents: Contents) -> str:
    """Writes a journal with these contents, and returns its path."""
    with open(path, "wb") as out:
        copy = Copy(out)
        for of in sorted(contents):
            information, symbols = contents[of]
            if information is not None:
                length, size, block = information
                more = struct.pack(">QHI", length, size, block)[2:]
                copy.add(INFORMATION, of.raw(), more)
            for (block, number), value in sorted(symbols.items()):
                place = struct.pack(">HH", block, number)
                more = b"" if value is None else len(value).to_bytes(2, "big") + value
                kind = SYMBOL_CONFLICT if value is None else SYMBOL
                copy.add(kind, of.raw(), place + more)
        copy.finish()
    return path


def read(path: str) -> Contents:
    """The contents of a journal, by object: its information and its symbols."""
    found: Dict[Key, Tuple[Optional[Numbers], Symbols]] = {}
    for of, _, every in merged([path], lambda _: True):
        information: Optional[Numbers] = None
        symbols: Dict[Tuple[int, int], Optional[bytes]] = {}
        for each in every:
            ((_, value),) = each.values
            if each.symbol:
                block, number = struct.unpack(">HH", each.symbol)
                symbols[block, number] = value or None
            else:
                length, size, most = struct.unpack(">QHI", bytes(2) + value)
                information = length, size, most
        found[of] = information, symbols
    return found


def drawn(draw: random.Random, versions: int = 3) -> Contents:
    """Some symbols of some objects, each of one version, and a few of another one."""
    found: Dict[Key, Tuple[Optional[Numbers], Symbols]] = {}
    for toi in range(1, 9):
        if draw.random() < 0.3:
            continue
        version = draw.randrange(versions)
        symbols: Dict[Tuple[int, int], Optional[bytes]] = {}
        for place in range(draw.choice((1, 2, 5, 20))):
            if draw.random() < 0.4:
                continue
            other = draw.randrange(versions) if draw.random() < 0.1 else version
            symbols[divmod(place, 8)] = b"%d of %d" % (place, other) * 3
        information = (1000 + version * draw.randrange(2), 100, 8) if draw.random() < 0.7 else None
        if information or symbols:
            found[key(toi)] = information, symbols
    return found


def join(path: str, part: str) -> Answer:
    """Joins journals that do not differ."""
    every = [each for each in (path, part) if os.path.exists(each)]
    found: Dict[Key, Tuple[Optional[Numbers], Symbols]] = {}
    for contents in map(read, every):
        for of, (information, symbols) in contents.items():
            before, kept = found.get(of, (None, {}))
            assert before in (None, information) or information is None, of
            assert all(symbols[it] == kept[it] for it in symbols.keys() & kept.keys()), of
            found[of] = before or information, {**kept, **symbols}
    write(path, found)
    return Answer(0, "")


def compare(kept: str, new: str) -> Iterator[bytes]:
    """The lines of `flutejoin compare`."""
    first, second = read(kept), read(new)
    for of in sorted(first.keys() | second.keys()):
        one, other = first.get(of, (None, {})), second.get(of, (None, {}))
        both = one[1].keys() & other[1].keys()
        same = sum(one[1][it] == other[1][it] for it in both)
        told = {(True, False): "first", (False, True): "second", (False, False): "none"}
        has = one[0] is not None, other[0] is not None
        information = told.get(has, "same" if one[0] == other[0] else "differ")
        yield (
            f"{of.text()} same {same} differ {len(both) - same} first {len(one[1]) - len(both)} "
            f"second {len(other[1]) - len(both)} information {information}\n"
        ).encode()


class Case(unittest.TestCase):
    def setUp(self) -> None:
        kept = tempfile.TemporaryDirectory()
        self.addCleanup(kept.cleanup)
        self.folder = pathlib.Path(kept.name)
        self.aside: list[Contents] = []

    def path(self, name: str) -> str:
        return str(self.folder / name)

    def generations(self) -> Generations:
        """Generations in journals g1, g2 and so on of the test's folder."""
        return Generations(
            lambda number: self.path(f"g{number}"),
            lambda path: self.aside.append(read(path)),
            compare,
        )

    def held(self, *contents: Contents) -> Held:
        """What generations have, the first one first; their journals are written too."""
        for path in self.generations().kept().values():
            os.unlink(path)
        held = Held()
        for number, of in enumerate(contents, 1):
            held.read(number, sums.sums_of(write(self.path(f"g{number}"), of)))
        return held

    def wants(self, held: Held, contents: Contents) -> Wants:
        return Wants.of(held, sums.sums_of(write(self.path("told"), contents)))

    def answer(self, wants: Wants, contents: Contents) -> str:
        """What `fill --only` answers of a journal."""
        picked = picked_by(wants.lines())
        found: Dict[Key, Tuple[Optional[Numbers], Symbols]] = {}
        for of, (_, symbols) in contents.items():
            some = {it: symbols[it] for it in symbols if (of.text(), *it) in picked}
            if some:
                found[of] = None, some
        return write(self.path("answer"), found)


def picked_by(lines: Iterable[str]) -> set[tuple[str, int, int]]:
    """The symbols that lines of gaps name; the lines are in order, and their numbers are right."""
    found: set[tuple[str, int, int]] = set()
    name, wanted, last = "", 0, (-1, -1)
    for line in lines:
        of = re.fullmatch(r"(.+) partial missing (\d+) conflicting 0 misfit 0\n", line)
        if of:
            assert not wanted and int(of[2]) > 0, line
            name, wanted, last = of[1], int(of[2]), (-1, -1)
            continue
        gap = re.fullmatch(r"gap (\d+)/(\d+)-(\d+) missing\n", line)
        assert gap, line
        block, begin, end = map(int, gap.groups())
        assert (block, begin) > last and begin <= end and (block, begin - 1) != last, line
        last, wanted = (block, end), wanted - (end - begin + 1)
        found.update((name, block, number) for number in range(begin, end + 1))
    assert not wanted
    return found


class Deciding(Case):
    def test_as_with_values(self) -> None:
        """Each object goes where it goes if the values are compared."""
        for seed in range(300):
            draw = random.Random(seed)
            kept = [drawn(draw) for _ in range(draw.randrange(4))]
            held, new = self.held(*kept), drawn(draw)
            paths = {number: self.path(f"g{number}") for number in range(1, len(kept) + 1)}
            plan = plan_of(paths, write(self.path("new"), new), compare)
            decided = {of: held.decide(of, told) for of, told in sums.sums_of(self.path("new"))}
            for of, wanted in decided.items():
                self.assertEqual(wanted.chosen.number, plan.to.get(of.raw(), 1), (seed, of))
            others = sum(len(it.others) for it in decided.values() if it.chosen.number != ASIDE)
            self.assertEqual(others, plan.others, seed)
            begun = sum(wanted.begins for wanted in decided.values())
            self.assertEqual(begun, plan.begun.count, seed)

    def test_what_is_brought(self) -> None:
        """After an answer each generation is as if the whole journal had been compared and joined,
        and nothing more is wanted."""
        for seed in range(60):
            draw = random.Random(seed)
            kept, new = [drawn(draw) for _ in range(draw.randrange(4))], drawn(draw)
            self.held(*kept)
            self.aside = []
            whole = self.generations().take(write(self.path("new"), new), join)
            expected = {path: read(path) for path in self.generations().kept().values()}, self.aside
            self.aside, held = [], self.held(*kept)
            wants = self.wants(held, new)
            taken = wants.take(self.answer(wants, new), self.generations(), join)
            found = {path: read(path) for path in self.generations().kept().values()}, self.aside
            self.assertEqual(found, expected, seed)
            self.assertEqual(
                (taken.others, taken.begun.count, taken.full.count, wants.strange),
                (whole.others, whole.begun.count, whole.full.count, 0),
            )
            self.assertEqual([*self.wants(held, new).by_raw], [], seed)
            again = Held()
            for number, path in self.generations().kept().items():
                again.read(number, sums.sums_of(path))
            self.assertEqual(
                {of: of_key for of, of_key in held.sums.items() if of_key},
                {of: of_key for of, of_key in again.sums.items() if of_key},
            )

    def test_an_object_that_is_whole(self) -> None:
        """Another file under its TOI is seen, and the same one isn't asked for again."""
        one = {key(1): ((300, 100, 8), {(0, at): b"one %d" % at for at in range(3)})}
        other = {key(1): ((300, 100, 8), {(0, at): b"other %d" % at for at in (0, 2)})}
        held = self.held(one)
        self.assertEqual([*self.wants(held, one).lines()], [])
        wants = self.wants(held, other)
        front = "source 00000000000000000000ffff0a090001 session 7 object 1"
        self.assertEqual(
            [*wants.lines()],
            [
                f"{front} partial missing 2 conflicting 0 misfit 0\n",
                "gap 0/0-0 missing\n",
                "gap 0/2-2 missing\n",
            ],
        )
        wants.take(self.answer(wants, other), self.generations(), join)
        self.assertEqual(read(self.path("g2")), other)
        self.assertEqual(read(self.path("g1")), one)

    def test_what_was_let_go(self) -> None:
        """It is not wanted again, and another file is; once it is forgotten it is wanted."""
        one = {key(1): ((300, 100, 8), {(0, at): b"one %d" % at for at in range(3)})}
        other = {key(1): ((300, 100, 8), {(0, at): b"other %d" % at for at in range(3)})}
        held = self.held(one)
        held.let_go(key(1), 1)
        self.generations().forget(1, {key(1)})
        self.assertEqual(read(self.path("g1")), {})
        self.assertEqual([*self.wants(held, one).by_raw], [])
        self.assertEqual(self.wants(held, other).by_raw[key(1).raw()].chosen.number, 2)
        held.forget(key(1), 1)
        self.assertEqual(len(self.wants(held, one).by_raw[key(1).raw()].missing), 3)

    def test_an_answer_that_is_not_as_it_was_told(self) -> None:
        """It has other values, symbols that nobody asked for, and other objects: none is taken."""
        held = self.held({})
        told = {key(1): ((300, 100, 8), {(0, at): b"one %d" % at for at in range(3)})}
        wants = self.wants(held, told)
        symbols = {(0, 0): b"one 0", (0, 1): b"two 1", (0, 5): b"one 5"}
        answer = {key(1): ((700, 100, 8), symbols), key(2): (None, {(0, 0): b"none"})}
        wants.take(write(self.path("answer"), answer), self.generations(), join)
        self.assertEqual(wants.strange, 3)
        self.assertEqual(read(self.path("g1")), {key(1): ((300, 100, 8), {(0, 0): b"one 0"})})
        missing = self.wants(held, told).by_raw[key(1).raw()].missing
        self.assertEqual([*missing], [b"\0\0\0\1", b"\0\0\0\2"])

    def test_values_aside(self) -> None:
        """A few that differ are wanted once."""
        right = {key(1): ((900, 100, 9), {(0, at): b"one %d" % at for at in range(9)})}
        wrong = {key(1): ((900, 100, 9), {**right[key(1)][1], (0, 4): b"wrong"})}
        held = self.held(right)
        wants = self.wants(held, wrong)
        taken = wants.take(self.answer(wants, wrong), self.generations(), join)
        self.assertEqual((taken.others, taken.begun.count), (1, 0))
        self.assertEqual(self.aside, [{key(1): (None, {(0, 4): b"wrong"})}])
        self.assertEqual([*self.wants(held, wrong).by_raw], [])
        self.assertEqual(read(self.path("g1")), right)

    def test_what_another_side_keeps_aside(self) -> None:
        """What no generation has goes aside here too, once, and begins no generation."""
        one = {key(1): ((300, 100, 3), {(0, at): b"one %d" % at for at in range(3)})}
        symbols = {(0, 0): b"one 0", (0, 1): b"two 1"}
        told = {key(1): (None, symbols), key(2): (None, {(0, 0): b"x"})}
        held = self.held(one)
        of = Wants.of_aside(held, sums.sums_of(write(self.path("told"), told)))
        taken = of.take(self.answer(of, told), self.generations(), join)
        self.assertEqual((taken.begun.count, taken.full.count, of.strange), (0, 0, 0))
        self.assertEqual(
            self.aside, [{key(1): (None, {(0, 1): b"two 1"}), key(2): (None, {(0, 0): b"x"})}]
        )
        self.assertEqual(read(self.path("g1")), one)
        of = Wants.of_aside(held, sums.sums_of(self.path("told")))
        self.assertEqual([*of.lines()], [])

    def test_generations_that_are_full(self) -> None:
        """The one that was delivered first goes; without one the values go aside."""
        every = [{key(1): ((100, 100, 1), {(0, 0): b"%d" % at})} for at in range(MOST_GENERATIONS)]
        new = {key(1): ((100, 100, 1), {(0, 0): b"new"})}
        held = self.held(*every)
        wants = self.wants(held, new)
        taken = wants.take(self.answer(wants, new), self.generations(), join)
        self.assertEqual((taken.full.count, taken.gone.count), (1, 0))
        self.assertEqual(self.aside, [{key(1): (None, {(0, 0): b"new"})}])
        held = self.held(*every)
        held.deliver(key(1), 5)
        held.deliver(key(1), 3)
        wants = self.wants(held, new)
        write(self.path("nothing"), {})
        taken = wants.take(self.path("nothing"), self.generations(), join)
        self.assertEqual(read(self.path("g5")), every[4])
        taken = wants.take(self.answer(wants, new), self.generations(), join)
        self.assertEqual((taken.full.count, taken.gone.count), (0, 1))
        self.assertEqual(read(self.path("g5")), new)
        self.assertEqual(read(self.path("g3")), every[2])
        self.assertEqual([*self.wants(held, new).by_raw], [])

    def test_an_answer_that_fails(self) -> None:
        """Taking it may be repeated: nothing of it counts yet."""
        told = {key(1): ((100, 100, 1), {(0, 0): b"one"})}
        held = self.held({key(2): (None, {(0, 0): b"two"})})
        wants = self.wants(held, told)
        answer = self.answer(wants, told)
        taken = wants.take(answer, self.generations(), lambda *_: Answer(3, "cannot write"))
        self.assertEqual(taken.answer.status, 3)
        self.assertEqual(len(self.wants(held, told).by_raw), 1)
        taken = wants.take(answer, self.generations(), join)
        self.assertEqual((taken.answer.status, len(self.wants(held, told).by_raw)), (0, 0))
        self.assertEqual([name for name in os.listdir(self.folder) if "partial" in name], [])


class Sums(Case):
    def line(self, rest: str) -> bytes:
        return f"source {SENDER.hex()} session 7 object 1 {rest}\n".encode()

    def test_lines(self) -> None:
        """What flutejoin show --sums prints is what is read of the journal."""
        contents: Contents = {
            key(1): ((1 << 33, 1400, 64), {(0, 0): b"abc", (0, 1): None, (300, 65535): b"x"}),
            key(2): (None, {(1, 2): b"abc"}),
        }
        write(self.path("journal"), contents)
        front = f"source {SENDER.hex()} session 7 object"
        told = [
            f"{front} 1 info length {1 << 33} symbol 1400 block 64",
            f"{front} 1 symbol 0/0 length 3 sum ba7816bf8f01cfea",
            f"{front} 1 symbol 0/1 conflict",
            f"{front} 1 symbol 300/65535 length 1 sum 2d711642b726b044",
            f"{front} 2 symbol 1/2 length 3 sum ba7816bf8f01cfea",
            "entries 5",
        ]
        every = [*sums.read_lines(f"{line}\n".encode() for line in told)]
        self.assertEqual(every, [*sums.sums_of(self.path("journal"))])
        self.assertEqual([it.symbol_count() for _, it in every], [3, 1])
        disputed = [front.encode() + b" 1 info conflict\n", b"entries 1\n"]
        ((_, of),) = sums.read_lines(disputed)
        self.assertEqual((of.information, of.symbols), (sums.DISPUTED, b""))

    def test_a_file(self) -> None:
        for seed in range(20):
            every = [*sums.sums_of(write(self.path("journal"), drawn(random.Random(seed))))]
            out = io.BytesIO()
            sums.write(out, every)
            self.assertEqual([*sums.read(io.BytesIO(out.getvalue()))], every)
            for end in {1, 40, len(out.getvalue()) - 1} if every else ():
                with self.assertRaises(Cut):
                    [*sums.read(io.BytesIO(out.getvalue()[:end]))]
        with self.assertRaises(ReadFault):
            [*sums.read(io.BytesIO(b"\xff" * 100))]

    def test_faults(self) -> None:
        good = self.line("symbol 0/0 length 3 sum ba7816bf8f01cfea")
        for wrong in (b"\n", good[:-1], good[:-2] + b"g\n", b"entries\n", self.line("whole 3")):
            with self.assertRaisesRegex(ReadFault, "line 2"):
                [*sums.read_lines([good, wrong, b"entries 2\n"])]
        with self.assertRaises(Cut):
            [*sums.read_lines([good])]
