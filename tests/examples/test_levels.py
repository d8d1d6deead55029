"""Tests the examples that join many inputs: levels.sh and reduce.sh."""
from __future__ import annotations

import os
import random
import shlex
import signal
import sys
import time

from tests.support import run
from tests.support.run import ROOT, Run

EXAMPLES = ROOT / "examples"
FOLDER = "the stations"
HERE = "xargs -d '\\n' -n 1 -P 4 sh -c"
# Runs each line twice, at the same time
TWICE = (
    'while read -r line; do printf "%s\\n" "$line" "$line"; done | '
    "xargs -d '\\n' -n 1 -P 8 sh -c\n"
)


class Stations(run.Case):
    """200 stations, each with a thirtieth of 40,000 bytes: their journals, and that of all."""

    def setUp(self) -> None:
        super().setUp()
        self.write("file", "".join(f"{number:07}\n" for number in range(1, 5001)))
        self.made("carousel -o sent --tsi 7 --toi 1 --symbol 1000 --block 16 file")
        words = [sys.executable, EXAMPLES / "stations.py", "sent", FOLDER, 200, 97]
        self.check("the stations", self.command(words), 0, None, None)
        self.names = [f"{FOLDER}/{name}" for name in sorted(os.listdir(self.path(FOLDER)))]
        for name in self.names:
            self.made(["join", "-f", "-o", name, name])
        self.write("list", "".join(f"{name}\n" for name in self.names))
        self.once(*self.names)

    def once(self, *names: str) -> None:
        """Makes `once`, the journal of these inputs."""
        self.file("once", "464C4A4E0002 FF 0000000000000000")
        for at in range(0, len(names), 63):
            self.made(["join", "-o", "once", "once", *names[at : at + 63]])

    def refused(self, name: str, done: Run, text: str) -> None:
        """Checks that a run failed, and printed this text."""
        is_told = text.encode() in done.out + done.err
        self.holds(name, done.status != 0 and is_told, done)


class Reduce(Stations):
    def reduce(self, inputs: str, by: str = HERE) -> Run:
        """Runs reduce.sh over the inputs that a pattern names."""
        words = [EXAMPLES / "reduce.sh", inputs, "reduced", *shlex.split(by)]
        return self.command(words)

    def nothing_left(self, name: str) -> None:
        """Checks that no file of a part of the work is left."""
        parts = [it for it in os.listdir(self.folder) if ".parts." in it]
        self.holds(f"{name}: nothing is left", not parts, parts)

    def reduced(self, name: str, done: Run, wanted: run.Content = "once") -> None:
        """Checks that reduce.sh made the wanted journal, and left nothing else."""
        self.check(name, done, 0, None, None)
        self.same(f"{name}: the journal", "reduced", wanted)
        self.nothing_left(name)

    def test_stations(self) -> None:
        done = self.program(["join", "-o", "first", *self.names])
        self.check("more than 64 inputs of one join are refused", done, 2, "", "too many inputs")
        self.reduced("200 inputs", self.reduce("list"))
        self.write("many", "".join(f"{name}\n" for name in (self.names * 21)[:4097]))
        self.reduced("4,097 inputs", self.reduce("many"))

    def test_one_and_none(self) -> None:
        self.write("one", f"{self.names[0]}\n")
        self.reduced("one input", self.reduce("one"), self.names[0])
        self.write("empty", "")
        self.refused("no inputs", self.reduce("empty"), "there are no inputs")
        self.same("no inputs: OUT stays", "reduced", self.names[0])

    def test_fault(self) -> None:
        self.write("reduced", "before")
        self.write(self.names[69], "no journal\n")
        self.refused("an input at fault", self.reduce("list"), "a group failed")
        self.same("an input at fault: OUT stays", "reduced", b"before")
        self.nothing_left("an input at fault")

    def test_lines_twice_or_lost(self) -> None:
        self.write("twice", TWICE)
        self.reduced("each line twice at once", self.reduce("list", "sh twice"))
        lost = self.reduce("list", "sh -c 'head -n 3 | sh'")
        self.refused("a line that is lost", lost, "a group was not joined")


class Levels(Stations):
    def level(self, *words: str) -> Run:
        return self.command([EXAMPLES / "levels.sh", "store", *words])

    def grow(self, *names: str) -> None:
        """Adds inputs to the levels, one after another."""
        for name in names:
            done = self.level(name)
            self.assertEqual(done.status, 0, done)

    def stored(self, level: str = "*") -> list[str]:
        """The journals in the levels."""
        paths = self.path("store").glob(f"{level}/*")
        return [str(path.relative_to(self.folder)) for path in sorted(paths)]

    def as_once(self, name: str) -> None:
        """Checks that levels have at most seven journals, which join to that of all inputs."""
        for folder in self.path("store").iterdir():
            count = len(os.listdir(folder))
            self.holds(f"{name}: seven at most of level {folder.name}", count <= 7, count)
        self.made(["join", "-f", "-o", "grown", *self.stored()])
        self.same(f"{name}: all at once", "grown", "once")

    def test_stations(self) -> None:
        self.grow(*self.names)
        self.as_once("200 inputs")
        self.holds("three of the third level", len(self.stored("2")) == 3, self.stored())
        done = self.level("sent", "--source", "0a000001")
        self.check("a datagram file", done, 0, None, None)
        self.holds("a file at fault", self.level("list").status != 0)
        half = [*self.path("store").rglob("*.partial")]
        self.holds("nothing half done", not half, half)

    def test_too_many_entries(self) -> None:
        """What would be a journal that flutejoin doesn't read stays in several."""
        self.grow(*self.names[:7])
        more = f'echo full >&2; exit 1 ;; *) exec "{run.PROGRAM}" "$@" ;; esac'
        self.write("more", f'#!/bin/sh\ncase "$*" in *"-o store/"*" store/0/"*) {more}\n')
        self.path("more").chmod(0o755)
        environment = {"FLUTEJOIN": str(self.path("more"))}
        done = self.command([EXAMPLES / "levels.sh", "store", self.names[7]], env=environment)
        self.refused("too many entries", done, "full")
        stored = len(self.stored("0")), self.stored("1")
        self.holds("too many entries: all stays", stored == (8, []), stored)
        self.grow(self.names[8])
        self.once(*self.names[:9])
        self.as_once("behind too many entries")

    def test_killed(self) -> None:
        """A kill between the join and the removal leaves some journals twice."""
        self.grow(*self.names[:15])
        kept = {name: self.read(name) for name in self.stored("0")}
        self.grow(self.names[15])
        for name, journal in kept.items():
            self.write(name, journal)
        self.check("behind a kill", self.level(self.names[16]), 0, None, None)
        self.grow(*self.names[17:])
        self.as_once("behind a kill")

    def test_kills(self) -> None:
        """Kills at any moment, each followed by the same input again."""
        for name in self.names[:60]:
            words = ["setsid", EXAMPLES / "levels.sh", "store", name]
            child = self.start(words)
            time.sleep(random.random() / 10)
            try:
                os.killpg(child.pid, signal.SIGKILL)
            except ProcessLookupError:
                child.kill()  # It has no process group of its own yet, or has ended.
            self.finish(child)
            self.grow(name)
        self.once(*self.names[:60])
        self.as_once("behind 60 kills")
