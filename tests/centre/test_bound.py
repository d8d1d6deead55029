"""Tests of a bound of a centre's disk, and of what is delivered where the disk is full."""
from __future__ import annotations

import json
import os
import sys

from flutejoin_tools.centre.bound import Bound
from flutejoin_tools.centre.house import House
from flutejoin_tools.pages.model import Model
from tests.centre.case import TSI, CentreCase, announced, file_of, packets
from tests.support import run
from tests.support.flute_sender import Sent

SIZE = 140_000  # bytes of a file


class Bounded(CentreCase):
    """What a centre lets go of, by its clock."""

    def bound(self, most: int) -> Bound:
        """Has the centre keep to a bound once."""
        house = House(self.centre, Model(self.centre, self.clock.now), self.told)
        bound = Bound(self.centre, house, self.told)
        bound.keep(most)
        return bound

    def held(self, folder: str) -> list[str]:
        """The names of what is in a folder of the centre."""
        path = self.path(f"centre/{folder}")
        return sorted(os.listdir(path)) if path.exists() else []

    def fill(self) -> list[Sent]:
        """Two files that are delivered, and three that are not whole, an hour after another."""
        files = [file_of(toi, SIZE) for toi in range(1, 6)]
        self.push("north", announced(files))
        for file in files:
            sent = file.packets(TSI)
            self.push("north", sent if file.toi < 3 else sent[:-1])
            self.work()
            self.clock.now += 3600
        aside = self.path("centre/aside")
        aside.mkdir()
        for at in range(2):
            (aside / f"north.{at:020}.journal").write_bytes(bytes(SIZE))
            os.utime(aside / f"north.{at:020}.journal", (at + 1, at + 1))
        return files

    def waiting(self) -> list[int]:
        return sorted(key.number for key in self.centre.union)

    def test_order(self) -> None:
        self.fill()
        size = self.bound(1 << 40).bytes
        self.holds("nothing goes within a bound", len(self.held("kept")) == 2, self.held("kept"))
        first = self.held("kept")[0]
        self.bound(size - 1)
        self.holds("what would go soonest", first not in self.held("kept"), self.held("kept"))
        self.holds("and no more", len(self.held("kept")) == 1, self.held("kept"))
        self.bound(size - 2 * SIZE - 30_000)
        aside = self.held("aside")
        self.holds("then what is aside", not self.held("kept") and len(aside) == 1, aside)
        self.holds("the oldest", aside == ["north.00000000000000000001.journal"], aside)
        self.holds("nothing that waits", self.waiting() == [3, 4, 5], self.waiting())
        self.bound(size - 4 * SIZE - 30_000)
        self.holds("what is silent for longest", self.waiting() == [4, 5], self.waiting())
        told = [it for it in self.told.printed if "more is kept than" in it]
        self.holds("each is told", len(told) == 3, self.told.printed)
        self.holds("with what goes", "1 journals of kept" in told[0], told)
        lost = [it for it in self.told.printed if "00003.bin: never became whole, 99.0 %" in it]
        self.holds("and what it lacked", len(lost) == 1, self.told.printed)
        lines = self.path("centre/let-go.jsonl").read_text().splitlines()
        self.holds("in a log", [json.loads(it)["toi"] for it in lines] == [3], lines)
        self.holds("files stay", len(self.files()) == 2, [*self.files()])

    def test_it_comes_again(self) -> None:
        """What was let go waits again once it comes, and what was delivered is known still."""
        files = self.fill()
        self.bound(1)
        self.holds("all goes that may", self.waiting() == [] and not self.held("kept"))
        over = [it for it in self.told.printed if "nothing can be let go" in it]
        self.holds("that it is not enough is told", len(over) == 1, self.told.printed)
        self.push("south", announced(files) + packets(files[:3]))
        self.holds("one is delivered", self.work() == 1, [*self.files()])
        names = [it["toi"] for it in self.lines()]
        self.holds("each once", sorted(names) == [1, 2, 3], names)

    def test_settings(self) -> None:
        self.more = {"most": "100G"}
        self.holds("a bound", self.settings().most == 100 << 30, self.settings())
        self.more = {"most": "much"}
        with self.assertRaises(ValueError) as fault:
            self.settings()
        self.holds("no bound", "'much' is not a number of bytes" in str(fault.exception))


class Full(CentreCase):
    """A disk that is full: the centre's folder is a small file system."""

    def run_twice(self, size: str) -> tuple[bytes, bytes, run.Run]:
        """Runs a centre on a disk of this size, and then on a larger one, and returns what it
        delivered after each."""
        config = self.write_settings()
        tool = f"{sys.executable} {run.ROOT}/tools/flutejoin-centre --config {config} --once"
        script = f"""
            mount -t tmpfs -o size={size} none centre 2> /dev/null || exit 9
            {tool}; echo $? > statuses; cat centre/delivered.jsonl > first
            mount -o remount,size=60m centre
            {tool}; echo $? >> statuses; cat centre/delivered.jsonl > second
            cp -r centre after"""
        done = self.command(["unshare", "-m", "sh", "-c", script])
        if done.status == 9 or self.command(["unshare", "-m", "true"]).status:
            self.skipTest("since nothing can be mounted here")
        return self.read("first"), self.read("second"), done

    @staticmethod
    def tois(lines: bytes) -> list[int]:
        return sorted(json.loads(it)["toi"] for it in lines.splitlines())

    def test_what_can_be_delivered(self) -> None:
        """A file of another station is delivered beside one that has no room."""
        large, small = file_of(1, 4_000_000), file_of(2, 50_000)
        self.push("north", announced([large, small]) + large.packets(TSI))
        self.push("south", small.packets(TSI))
        first, second, done = self.run_twice("3m")
        self.holds("the small one", self.tois(first) == [2], (first, done))
        self.holds("both, each once", self.tois(second) == [1, 2], second)
        self.holds("the statuses", self.read("statuses") == b"3\n0\n", done)
        self.holds("it is told", b"No space left" in done.err or b"annot write" in done.err, done)
        for file in large, small:
            name = f"after/files/data.example/day/{file.toi:05}.bin"
            self.same(file.location, name, file.content)

    def test_fewer_at_a_time(self) -> None:
        """Where there is no room for all files of a round at once, those are delivered that fit."""
        files = [file_of(toi, 300_000) for toi in range(1, 9)]
        self.push("north", announced(files) + packets(files))
        first, second, done = self.run_twice("9m")
        self.holds("some", 0 < len(self.tois(first)), (first, done))
        self.holds("all, each once", self.tois(second) == [*range(1, 9)], second)
        for file in files:
            name = f"after/files/data.example/day/{file.toi:05}.bin"
            self.same(file.location, name, file.content)
