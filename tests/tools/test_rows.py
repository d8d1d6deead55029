"""Tests that lines of `flutejoin compare` that are passed over change nothing in a plan."""
from __future__ import annotations

import random
from typing import Iterator

from flutejoin_tools.formats.records import ReadFault
from flutejoin_tools.gather import generations
from flutejoin_tools.gather.rows import choose, compared, may_matter
from tests.support import run

NEEDS_PROGRAM = False
WORDS = "same", "differ", "first", "second", "none"


def drawn(draw: random.Random, count: int) -> Iterator[bytes]:
    """Lines of objects, of which half differ in nothing."""
    for number in range(1, count + 1):
        counts = [draw.choice((0, 0, 1, 2, 9)) for _ in range(4)]
        counts[1] *= draw.randint(0, 1)
        told = "same %d differ %d first %d second %d" % tuple(counts)
        source = draw.choice(("", "source 00000000000000000000ffff0a000001 "))
        name = draw.choice((f"object {number}", f"object fdt {number}"))
        yield f"{source}session 7 {name} {told} information {draw.choice(WORDS)}\n".encode()


class Rows(run.Case):
    def test_plan(self) -> None:
        """The plan by all lines is that by the lines that may matter."""
        draw = random.Random(66)
        passed = 0
        for _ in range(200):
            lines = [*drawn(draw, 30)]
            passed += sum(not may_matter(line) for line in lines)
            whole = generations.Plan()
            for rows in compared([lines], ()):
                whole.add(choose({1: rows[0]}), {1: rows[0]})
            plan = generations.plan_of({1: "kept"}, "new", lambda kept, new: iter(lines))
            for name in ("to", "with_others", "others", "replaced"):
                self.assertEqual(getattr(plan, name), getattr(whole, name), lines)
            for name in ("full", "begun", "gone"):
                left, right = vars(getattr(plan, name)), vars(getattr(whole, name))
                self.assertEqual(left, right, lines)
        self.holds("many lines are passed over", passed > 1000, passed)

    def test_several_generations(self) -> None:
        """Where several are kept, or another than the first, all lines count."""
        line = b"session 7 object 1 same %d differ 0 first 0 second %d information same\n"
        told = {"one": line % (0, 1), "two": line % (5, 0)}
        plan = generations.plan_of({1: "one", 2: "two"}, "new", lambda kept, _: iter([told[kept]]))
        self.holds("it goes where most agree", [*plan.to.values()] == [2], plan.to)
        plan = generations.plan_of({2: "two"}, "new", lambda kept, _: iter([told[kept]]))
        self.holds("to the second", [*plan.to.values()] == [2], plan.to)

    def test_unknown(self) -> None:
        """A line that is none of `compare` is reported."""
        good = b"session 7 object 1 same 0 differ 0 first 0 second 1 information none\n"
        generations.plan_of({1: "kept"}, "new", lambda kept, new: iter([good]))
        for line in (good[:-1], good + b" ", good[1:], b"\n", good.replace(b"second", b"third")):
            with self.subTest(line), self.assertRaises((ReadFault, AssertionError)):
                generations.plan_of({1: "kept"}, "new", lambda kept, new: iter([line]))
