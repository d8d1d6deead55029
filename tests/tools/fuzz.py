"""Fuzzes the parsers of the tools, guided by the lines that inputs reach.

An input that reaches what none did before is kept, and others are made of it. What a parser does
not answer as its users expect, or what takes it too many steps, is a fault: its input is kept.

usage: python3 -m tests.tools.fuzz [--seconds S] [--runs N] [--seed N] [--keep FOLDER] [PARSER..]
       python3 -m tests.tools.fuzz --input FILE PARSER
"""
from __future__ import annotations

import argparse
import contextlib
import os
import random
import signal
import sys
import time
import traceback
from types import CodeType, FrameType
from typing import Any, Callable, Iterator, Optional

from tests.tools.parsers import PARSERS, TOOLS, Parser

MOST_BYTES = 1 << 14  # of an input
MOST_KEPT = 2000  # inputs of a parser
MOST_STEPS, STEPS_EACH = 1 << 20, 400  # lines of the tools, in all and for each byte
MOST_FAULTS = 8  # that are told of a parser
LONGEST = 300  # seconds of an input; only what hangs takes so long
TURN = 50  # inputs of a parser, before those of the next one
EDGES = 0, 1, 2, 3, 4, 7, 8, 0x7F, 0x80, 0xFE, 0xFF, 0x7FFF, 0x8000, 0xFFFF, 0x7FFFFFFF, 0xFFFFFFFF

Trace = Callable[[FrameType, str, Any], Any]  # what is told of a frame


class TooMany(BaseException):
    """A parser took too many steps. No parser catches this."""


class Coverage:
    """Which lines of the code in a folder come after which ones."""

    def __init__(self, folder: str) -> None:
        self.folder = folder + os.sep
        self.seen: set[tuple[CodeType, int, int]] = set()
        self.run: set[tuple[CodeType, int, int]] = set()
        self.is_ours: dict[CodeType, bool] = {}
        self.last = self.steps = self.most = 0

    def called(self, frame: FrameType, _event: str, _: Any) -> Optional[Trace]:
        """What Python calls at each call of a function: follows those of the tools."""
        code = frame.f_code
        is_ours = self.is_ours.get(code)
        if is_ours is None:
            is_ours = self.is_ours[code] = code.co_filename.startswith(self.folder)
        return self.stepped if is_ours else None

    def stepped(self, frame: FrameType, event: str, _: Any) -> Optional[Trace]:
        """What Python calls at each step of such a function: notes it, and counts."""
        if event == "line":
            self.run.add((frame.f_code, self.last, frame.f_lineno))
            self.last = frame.f_lineno
            self.steps += 1
            if self.steps > self.most:
                raise TooMany(f"more than {self.most} steps")
        return self.stepped

    @contextlib.contextmanager
    def of(self, size: int) -> Iterator[None]:
        """Follows a call that is given so many bytes."""
        self.run, self.last, self.steps = set(), 0, 0
        self.most = MOST_STEPS + STEPS_EACH * size
        sys.settrace(self.called)
        try:
            yield
        finally:
            sys.settrace(None)

    def is_new(self) -> bool:
        before = len(self.seen)
        self.seen |= self.run
        return len(self.seen) > before


def changed(draw: random.Random, kept: list[bytes], words: tuple[bytes, ...]) -> bytes:
    """An input that is made of others."""
    data = bytearray(draw.choice(kept))
    for _ in range(1 << draw.randrange(5)):
        change(draw, data, kept, words)
    return bytes(data[:MOST_BYTES])


def change(
    draw: random.Random, data: bytearray, kept: list[bytes], words: tuple[bytes, ...]
) -> None:
    """Changes a few bytes, or takes some from elsewhere."""
    at = draw.randrange(len(data) + 1)
    end = min(len(data), at + 1 + int(draw.expovariate(0.1)))
    what = draw.randrange(9)
    if what == 0 and at < len(data):
        data[at] ^= 1 << draw.randrange(8)
    elif what == 1 and at < len(data):
        data[at] = draw.randrange(256)
    elif what == 2:
        del data[at:end]
    elif what == 3:
        data[at:at] = draw.randbytes(end - at)
    elif what == 4:
        size, is_big = draw.choice((1, 2, 4)), draw.choice((True, False))
        number = draw.choice(EDGES) % (1 << 8 * size)
        data[at : at + size] = number.to_bytes(size, "big" if is_big else "little")
    elif what == 5:
        data[at:at] = draw.choice(words)
    elif what == 6:
        other = draw.choice(kept)
        begin = draw.randrange(len(other) + 1)
        data[at:end] = other[begin : begin + draw.randrange(1, 200)]
    elif what == 7:
        data[at:at] = data[at:end] * draw.randrange(1, 4)
    elif draw.random() < 0.2:
        del data[at:]


class Fuzzed:
    """A parser, the inputs that are kept of it, and its faults."""

    code = TOOLS  # the folder of the code that is followed

    def __init__(self, name: str, parser: Parser, seed: int, folder: str) -> None:
        self.name, self.parser, self.folder = name, parser, folder
        self.draw, self.coverage = random.Random(f"{name} {seed}"), Coverage(self.code)
        self.kept: list[bytes] = []
        self.inputs = self.faults = self.steps = 0
        self.told: set[str] = set()
        for data in parser.corpus():
            self.kept.append(data[:MOST_BYTES])
            self.take(self.kept[-1])

    def take(self, data: bytes) -> bool:
        """Calls the parser. Returns whether it did what none did before."""
        self.inputs += 1
        signal.alarm(LONGEST)
        try:
            with self.coverage.of(len(data)):
                self.parser.call(data)
        except (Exception, TooMany) as fault:
            self.tell(data, fault)
        finally:
            signal.alarm(0)
        self.steps = max(self.steps, self.coverage.steps)
        return self.coverage.is_new()

    def tell(self, data: bytes, fault: BaseException) -> None:
        """Keeps an input at fault, and tells it, if no other one had its fault."""
        places = traceback.extract_tb(fault.__traceback__)
        place = f"{type(fault).__name__} {places[-1].name}:{places[-1].lineno}"
        if place in self.told or len(self.told) >= MOST_FAULTS:
            return
        self.told.add(place)
        self.faults += 1
        path = os.path.join(self.folder, f"{self.name}.{self.faults}.input")
        with open(path, "wb") as file:
            file.write(data)
        told = traceback.format_exception(type(fault), fault, fault.__traceback__)
        text = "".join(told[-4:])
        print(f"fuzz: {self.name}: a fault, by {path} of {len(data)} bytes:\n{text}", flush=True)

    def turn(self, count: int) -> None:
        """Gives the parser so many further inputs."""
        for _ in range(count):
            data = changed(self.draw, self.kept, tuple(self.parser.words))
            if self.take(data) and len(self.kept) < MOST_KEPT:
                self.kept.append(data)

    def line(self) -> str:
        """What is printed of the parser."""
        told = f"{self.inputs} inputs, {len(self.kept)} kept, {len(self.coverage.seen)} steps seen"
        return f"fuzz: {self.name}: {told}, at most {self.steps} taken; {self.faults} faults"


def arguments() -> argparse.Namespace:
    parser = argparse.ArgumentParser(description=__doc__.partition("\n")[0])
    parser.add_argument("--seconds", type=float, default=600, help="for all parsers together")
    parser.add_argument("--runs", type=int, help="inputs of each parser, in the place of seconds")
    parser.add_argument("--seed", type=int, default=1)
    parser.add_argument("--keep", default=".", metavar="FOLDER", help="for inputs at fault")
    parser.add_argument("--input", metavar="FILE", help="gives this one alone, and no tracing")
    parser.add_argument("parsers", nargs="*", choices=[[], *PARSERS], metavar="PARSER")
    return parser.parse_args()


def main() -> int:
    options = arguments()
    names = options.parsers or list(PARSERS)
    if options.input:
        with open(options.input, "rb") as file:
            data = file.read()
        for name in names:
            PARSERS[name].call(data)
        return 0
    end = time.monotonic() + options.seconds
    fuzzed = [Fuzzed(name, PARSERS[name], options.seed, options.keep) for name in names]
    left = options.runs
    while left is None and time.monotonic() < end or left:
        count = TURN if left is None else min(TURN, left)
        for each in fuzzed:
            each.turn(count)
        left = left and left - count
    for each in fuzzed:
        print(each.line())
    return int(any(each.faults for each in fuzzed))


if __name__ == "__main__":
    sys.exit(main())
