"""Runs each command of the built program again and again, each time with another of its requests
for memory refused, up to the run that makes no more. A run that was refused one has to end

- with status 3 and one line, `out of memory` or `input N: OutOfMemory`, with nothing on standard
  output (of `show` the lines of first entries), and with OUT as it was;
- or just as with ample memory.

And so it runs crates/reception_sample and each proved test, for the calls of the libraries that no
command makes. A run of these that was refused a request has to end with an error, that of memory or
of a device over memory, behind the first of its lines, or just as with ample memory.

What the kit's own code generator built is beside the program. If that is what `rt ci` left, all
that is run has to be there.
"""
from __future__ import annotations

import pathlib
import re
import unittest

from tests.memory.case import Case, by_rattle
from tests.program.case import FIELDS, FIRST, HEADER, INFO, KEY, LAST, NAME, SYMBOL, ended
from tests.support import run
from tests.support.run import PROGRAM, ROOT, Run

CRATES = ROOT / "crates"
ARE_NEEDED = CRATES in PROGRAM.parents
FAULT = re.compile(rb"out of memory\n|input [12]: OutOfMemory\n")
# `Start` is the fault of a run whose replicas find no memory.
OF_MEMORY = "OutOfMemory|out of memory|AllocError|AllocFailed|memory allocation failed|Start"
# Faults of sinks that keep their bytes in memory.
OF_DEVICES = "DeviceFault|(Cannot)?Write|CannotPutAside"
ERROR = re.compile(rf"error: (.*\W)?({OF_MEMORY}|{OF_DEVICES})[\W\d]*$", re.I | re.M)
MOST = 10_000  # runs of a command
PRINTS = (
    "--help",
    f"packet {SYMBOL}",
    f"packet --json {SYMBOL}",
    "show whole",
    "show --sums --json whole",
    "gaps whole",
    "gaps --ranges --json whole",
    "compare whole others",
    "compare --summary whole others",
    "compare --json whole others",
)
OUTPUTS = (
    f"extract -o made {NAME} whole",
    f"info -o made {NAME} {FIELDS} others",
    f"info -o made --source 0a000001 {NAME} {FIELDS} others",
    "join -o made sent others",
    "join -o made --source 0a000001 sent others",
    "merge -o made whole others",
    "minus -o made others whole",
    "fill -o made --gaps lines whole",
    f"forget -o made {NAME} --symbol 0/1 whole",
    f"carousel -o made {NAME} --symbol 4 --block 2 content",
    f"carousel -o made {NAME} --symbol 4 --block 2 /dev/null",
)


class Sweeps(Case):
    built = PROGRAM

    def setUp(self) -> None:
        super().setUp()
        self.file("whole", HEADER, INFO, FIRST, LAST, ended(3))
        misfit = f"03 {KEY} 0000 0002 0001 78"
        self.file("others", HEADER, FIRST, f"03 {KEY} 0000 0001 0004 6F000000", misfit, ended(3))
        header = "00000000 00000007 00000001 40040000 00000005 00000004 00000002"
        self.file(
            "sent",
            "464C44470001",
            f"0028 10A00800 {header} 00000000 68656C6C",
            f"0025 10A00800 {header} 00000001 6F",
        )
        self.write("content", "hello")
        self.write("lines", "session 7 object 1 partial missing 1 conflicting 0 misfit 0\n")

    def begin(self, before: bytes | None) -> None:
        """Makes OUT as it was before, or removes it."""
        if before is not None:
            self.write("made", before)
        elif self.exists("made"):
            self.remove("made")

    def left(self) -> bytes | None:
        """The bytes of OUT. Nothing may be beside it."""
        self.assertFalse(self.exists("made.partial"))
        return self.bytes_of("made")

    def sweep(self, words: str, status: int = 0, before: bytes | None = None) -> None:
        """Runs a command with each of its requests for memory refused in turn."""
        self.begin(before)
        command = [self.built, *run.split(words)]
        ample = self.command(command), self.left()
        self.holds(f"{words}: with ample memory", ample[0].status == status, ample[0])
        told, as_ample, wrong = 0, 0, []
        for number in range(1, MOST):
            self.begin(before)
            done, was_refused = self.refusing(command, number)
            if (done, self.left()) == ample:
                as_ample += was_refused
            elif was_refused and self.left() == before and self.is_told(words, done, ample[0]):
                told += 1
            else:
                wrong.append((number, done))
            if not was_refused:
                break
        self.holds(f"{words}: each run", not wrong, wrong[:3])
        self.holds(f"{words}: faults of memory", told and number < MOST - 1, (told, number))
        print(f"refused: {words}: {told} refused requests told, {as_ample} as with ample memory")

    def is_told(self, words: str, done: Run, ample: Run) -> bool:
        """Whether a run ended with a fault of memory and printed only first lines, if any."""
        is_part = done.out.endswith(b"\n") and ample.out.startswith(done.out)
        is_quiet = not done.out or words.startswith("show") and is_part
        return done.status == 3 and bool(FAULT.fullmatch(done.err)) and is_quiet

    def test_prints(self) -> None:
        for words in PRINTS:
            self.sweep(words)
        self.sweep("frob", 2)

    def test_new_outputs(self) -> None:
        for words in OUTPUTS:
            self.sweep(words)

    def test_outputs_over_a_file(self) -> None:
        for words in OUTPUTS:
            self.sweep(words, before=b"what was there before")


@unittest.skipUnless(ARE_NEEDED or by_rattle(PROGRAM).exists(), "since it is not built")
class SweepsByRattle(Sweeps):
    built = by_rattle(PROGRAM)


def tested_crates() -> list[str]:
    """The crates with proved tests, each of which is built as a program."""
    files = CRATES.glob("*/src/**/*.rt")
    return sorted({it.relative_to(CRATES).parts[0] for it in files if "#[test]" in it.read_text()})


class Libraries(Case):
    def sweep(self, path: pathlib.Path, words: list[str]) -> tuple[int, int]:
        """How many refused requests end in an error, and how many just as with ample memory."""
        command = [path, *words]
        ample = self.command(command)
        told, as_ample, wrong = 0, 0, []
        for number in range(1, MOST):
            done, was_refused = self.refusing(command, number)
            if done == ample:
                as_ample += was_refused
            elif was_refused and self.is_told(done, ample):
                told += 1
            else:
                wrong.append((number, done))
            if not was_refused:
                break
        what = " ".join([path.name, *words])
        self.holds(f"{what}: with ample memory", ample.status == 0, ample)
        self.holds(f"{what}: each run", not wrong and number < MOST - 1, wrong[:3])
        return told, as_ample

    def is_told(self, done: Run, ample: Run) -> bool:
        is_error = done.status in (1, 101) and ERROR.search(done.err.decode())
        return bool(is_error) and ample.out.startswith(done.out)

    def built(self, name: str, path: pathlib.Path) -> pathlib.Path:
        if not ARE_NEEDED and not path.exists():
            self.skipTest(f"since there is no {name}")
        return path

    def tell(self, name: str, sums: list[tuple[int, int]]) -> None:
        """Checks that faults of memory came, and prints how many."""
        told, as_ample = (sum(numbers) for numbers in zip(*sums))
        self.holds(f"{name}: faults of memory", told, sums)
        print(f"refused: {name}: {told} refused requests told, {as_ample} as with ample memory")

    def test_sample(self) -> None:
        path = CRATES / "reception_sample" / "out" / "reception_sample"
        for built in (path, by_rattle(path)):
            self.tell(built.name, [self.sweep(self.built(built.name, built), [])])

    def test_tests(self) -> None:
        for name in tested_crates():
            with self.subTest(name):
                path = self.built(name, CRATES / name / "out" / f"{name}_tests")
                listed = self.command([path, "--list"]).lines()
                tests = [it[: -len(": test")] for it in listed if it.endswith(": test")]
                self.tell(name, [self.sweep(path, [it]) for it in tests])
