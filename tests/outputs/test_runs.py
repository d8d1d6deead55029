"""Runs that overlap, and runs that are killed."""
from __future__ import annotations

import os
import random
import subprocess
import time

from tests.outputs.case import CREATE, FIRST, LINES_OF_BOTH, THIRD, WRITE, Case
from tests.support import run

MERGE = "merge -o {} pipe two"


class Runs(Case):
    def setUp(self) -> None:
        super().setUp()
        os.mkfifo(self.path("pipe"))

    def begun(self, words: str) -> tuple[subprocess.Popen[bytes], int]:
        """Starts a run that reads from `pipe`, and returns it with the pipe's write end."""
        child = self.start([run.PROGRAM, *run.split(words)])
        return child, self.fed("pipe")

    def killed(self, child: subprocess.Popen[bytes], pipe: int) -> None:
        child.kill()
        self.finish(child)
        os.close(pipe)


class Waiting(Runs):
    """Runs that have made their output and wait for an input from a pipe."""

    def test_two_merges(self) -> None:
        self.copy("one", "all")
        child, pipe = self.begun(MERGE.format("all"))
        self.until_there("all.partial", child)
        mode = self.mode("all.partial")
        self.holds("what is beside a file has its mode", mode == self.mode("all"), mode)
        self.row("a second run on one output", "join -o all one two", 3, "", CREATE)
        self.same("the output stays meanwhile", "all", "one")
        self.feed(pipe, self.read("one"))
        self.check("the first run ends well", self.finish(child), 0, None)
        self.same("what the first run wrote", "all", "both")
        self.alone("two runs", "all")

    def test_killed_merge(self) -> None:
        child, pipe = self.begun(MERGE.format("fresh"))
        self.until_there("fresh.partial", child)
        self.killed(child, pipe)
        self.absent("it leaves no output", "fresh")
        self.row("what it leaves is no journal", "show fresh.partial", 1, None, None)
        self.row("the run after it", "join -o fresh two", 0, None)
        self.same("its output", "fresh", "two")
        self.alone("the leftover is gone", "fresh")

    def test_two_joins(self) -> None:
        """Two joins that have read the first bytes of their inputs."""
        self.copy("one", "all")
        child, pipe = self.begun("join -o all sent2 pipe")
        one = self.read("one")
        os.write(pipe, one[:100])
        self.until_there("all.partial", child)
        self.row("a second join on one output", "join -o all one two", 3, "", CREATE)
        self.same("the output stays meanwhile", "all", "one")
        self.feed(pipe, one[100:])
        self.check("the first join ends well", self.finish(child), 0, None)
        self.same("what the first join wrote", "all", "both")
        self.alone("two joins", "all")

    def test_killed_join_and_info(self) -> None:
        child, pipe = self.begun("join -o fresh two pipe")
        os.write(pipe, self.part("one", 100))
        self.until_there("fresh.partial", child)
        self.killed(child, pipe)
        self.absent("a killed join leaves no output", "fresh")
        self.row("what it leaves is no journal", "show fresh.partial", 1, None, None)
        child, pipe = self.begun(f"info -o fresh {THIRD} pipe")
        self.until_there("fresh.partial", child)
        self.feed(pipe, self.read("two"))
        self.check("info of a pipe", self.finish(child), 0, "entries 4")
        self.made(f"info -o informed {THIRD} two")
        self.same("what was added to it", "fresh", "informed")
        self.alone("the leftover is gone", "fresh")

    def test_killed_extract(self) -> None:
        """A part of the object is beside OUT while the journal is read."""
        child, pipe = self.begun(f"extract -o fresh {FIRST} pipe")
        os.write(pipe, self.part("one", 100))
        self.until_there("fresh.partial", child)
        words = f"extract -o fresh {FIRST} one"
        self.row("a second extract to one output", words, 3, "", CREATE)
        self.killed(child, pipe)
        self.absent("it leaves no output", "fresh")
        self.row("the extract after it", words, 0, "bytes 37")
        self.same("its object", "fresh", "content")
        self.alone("the leftover is gone", "fresh")

    def test_name_that_is_taken(self) -> None:
        child, pipe = self.begun(MERGE.format("taken"))
        self.until_there("taken.partial", child)
        self.path("taken/full").mkdir(parents=True)
        self.feed(pipe, self.read("one"))
        self.check("by a folder", self.finish(child), 3, "", WRITE)
        self.alone("that folder", "taken")

    def test_file_beside_that_is_moved(self) -> None:
        self.copy("one", "all")
        child, pipe = self.begun(MERGE.format("all"))
        self.until_there("all.partial", child)
        self.path("all.partial").rename(self.path("moved"))
        self.write("all.partial", "else")
        self.feed(pipe, self.read("one"))
        self.check("it is moved away", self.finish(child), 3, "", WRITE)
        self.same("the output is what it was", "all", "one")
        self.same("what another put beside it stays", "all.partial", b"else")


class Overlap(Runs):
    """The first run opens its inputs, waits for the first bytes of the last one, and makes its
    output after another run has put its own in place. The other run's output stays."""

    def overlap(self, name: str, target: str, words: str) -> None:
        """The first run has these words, and `pipe` as its last input."""
        child, pipe = self.begun(f"{words} pipe")
        self.row(f"{name}: the second run", f"join -o {target} one two", 0, LINES_OF_BOTH)
        self.feed(pipe, self.read("two"))
        self.check(f"{name}: the first run", self.finish(child), 3, "", CREATE)
        self.same(f"{name}: what the second run wrote stays", target, "both")
        self.alone(name, target)

    def test_two_joins(self) -> None:
        self.copy("one", "all")
        self.overlap("into one of their inputs", "all", "join -o all all")
        self.overlap("into a new file", "new_all", "join -o new_all one")
        self.path("store").mkdir()
        self.copy("one", "store/all")
        self.path("link").symlink_to("store/all")
        self.overlap("through a link", "store/all", "join -o link link")

    def test_copy_that_takes_its_place(self) -> None:
        self.copy("one", "all")
        child, pipe = self.begun("join -o all all pipe")
        self.path("all").rename(self.path("moved"))
        self.copy("moved", "all")
        self.feed(pipe, self.read("two"))
        self.check("a copy", self.finish(child), 3, "", CREATE)
        self.same("the copy stays", "all", "one")

    def test_no_other_run(self) -> None:
        self.copy("one", "all")
        child, pipe = self.begun("join -o all all pipe")
        self.feed(pipe, self.read("two"))
        self.check("no other run meanwhile", self.finish(child), 0, LINES_OF_BOTH)
        self.same("its output", "all", "both")


class Killed(Case):
    """Whenever a run is killed, OUT is what it was before, or the run's whole output."""

    def setUp(self) -> None:
        super().setUp()
        self.write("large", os.urandom(25_000_000))
        for number in 4, 5:
            of = f"--tsi 7 --toi {number} --symbol 1400 --block 64"
            self.made(f"carousel -o sent{number} {of} large")
        self.made("join -o old sent4")
        self.made("join -o new old sent5")
        self.old, self.new = self.read("old"), self.read("new")

    def killed(self, words: str, seconds: float) -> bytes:
        """What `place` contains after a run of these words was killed after so many seconds."""
        child = self.start([run.PROGRAM, *run.split(words)])
        time.sleep(seconds)
        child.kill()
        self.finish(child)
        return self.read("place")

    def test_join_in_place(self) -> None:
        """Kills at 20 moments of a join of 50 MB."""
        self.write("place", self.old)
        words = "join -o place place sent5"
        begun = time.monotonic()
        self.row("a join in place", words, 0, None)
        whole = time.monotonic() - begun
        self.same("50 MB", "place", self.new)
        kept = []
        for moment in range(1, 21):
            self.write("place", self.old)
            found = self.killed(words, whole * moment / 18)
            kept.append("new" if found == self.new else "old" if found == self.old else "neither")
        self.holds("the old journal or the new one", "neither" not in kept, kept)
        print(f"outputs: of 20 runs that were killed, {kept.count('old')} left the old journal and",
              f"{kept.count('new')} the new one")
        self.row("the join after the killed ones", words, 0, None)
        self.same("it has all", "place", self.new)
        self.alone("it took the leftover over", "place")

    def test_forget_in_place(self) -> None:
        """Kills every 5 ms while half of the journal is forgotten."""
        words = "forget -o place --tsi 7 --toi 5 place"
        for moment in range(1, 21):
            self.write("place", self.new)
            found = self.killed(words, moment * 0.005 + random.random() / 1000)
            self.holds(f"behind {moment} times 5 ms", found in (self.old, self.new))
        self.write("place", self.new)
        self.row("the forget after the killed ones", words, 0, None)
        self.same("it has the others", "place", self.old)
        self.alone("it took the leftover over", "place")
