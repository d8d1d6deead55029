"""Tests flutejoin-mend on journals with wrong bytes, and that new outputs are on the disk."""
from __future__ import annotations

import random
import sys

from tests.capture.test_mended import TOOL, Mended, said
from tests.support.run import ROOT

# Tells what is brought to the disk.
TELLS = """
import os, runpy, stat, sys
synced = os.fsync
def told(file):
    synced(file)
    what = "folder" if stat.S_ISDIR(os.fstat(file).st_mode) else "file"
    os.write(2, f"{what}\\n".encode())
os.fsync = told
sys.path.insert(0, os.path.dirname(sys.argv[1]))
sys.argv = sys.argv[1:]
runpy.run_path(sys.argv[0], run_name="__main__")
"""


class Spoiled(Mended):
    """Journals with a wrong byte: what is saved of them is right, and little is lost."""

    def journal_of(self, objects: int) -> bytes:
        """Makes a journal of several objects of ten symbols."""
        for toi in range(1, objects + 1):
            self.write("file", random.Random(toi).randbytes(1000))
            self.made(f"carousel -f -o sent --tsi 7 --toi {toi} --symbol 100 --block 5 file")
            self.made(f"join -f -o all {'all' if toi > 1 else ''} sent")
        return self.read("all")

    def parts(self, journal: bytes) -> list[tuple[int, int]]:
        """Where each entry begins, and where its key ends."""
        places, at = [], 6
        while journal[at] != 0xFF:
            end = at + 38
            places.append((at, end))
            size = int.from_bytes(journal[end + 4 : end + 6], "big")
            at = end + (12 if journal[at] == 1 else 6 + size)
        return places

    def entries(self, name: str) -> set[str]:
        return set(self.made(f"show {name}").lines())

    def test_a_wrong_byte(self) -> None:
        whole = self.journal_of(4)
        every, places = self.entries("all"), self.parts(whole)
        draw = random.Random(7)
        for number in range(60):
            begin, end = draw.choice(places)
            # Its kind, its object, its symbol's number and the length of its value
            at = draw.randrange(begin, end + (6 if whole[begin] == 3 else 0))
            data = bytearray(whole)
            data[at] ^= draw.choice((1, 2, 0x40, 0xFF))
            self.write("damaged", bytes(data))
            fault = self.program("join -f -o tried damaged").err.decode()
            done = self.mend(f"-o mended{number} damaged")
            if not fault:  # it is another key in the same order, which nothing shows
                continue
            self.check(f"byte {at}", done, 0, None)
            kept = self.entries(f"mended{number}")
            others = len(kept - every)
            self.holds(f"byte {at}: at most one is another", others <= 1, kept - every)
            self.holds(f"byte {at}: few are lost", len(every - kept) <= 3, every - kept)

    def test_what_is_told(self) -> None:
        whole = self.journal_of(2)
        begin, _ = self.parts(whole)[5]
        data = bytearray(whole)
        data[begin] = 9
        self.write("damaged", bytes(data))
        self.check("the program", self.program("show damaged"), 1, None, "input 1: Kind")
        # The entry before it may have a wrong length, and is lost too.
        told = "mended: 20 entries; Kind: 288 damaged or doubtful bytes were left"
        self.check("a wrong kind", self.mend("-o mended damaged"), 0, told)
        self.made("join -o healed mended sent")
        self.write("count", whole[:-1] + b"\0")
        count = len(self.parts(whole))
        told = f"counted: {count} entries; Count: 0 damaged or doubtful bytes were left"
        self.check("a wrong number of entries", self.mend("-o counted count"), 0, told)
        self.same("all of them", "counted", "all")
        self.write("nothing", whole[:6] + b"\x07" * 500)
        self.check("nothing right", self.mend("-o no nothing"), 1, "", said("nothing: Kind"))
        self.absent("nothing is written", "no", "no.mending")


class Names(Mended):
    """New files are on the disk with their names."""

    def test_folders_are_synced(self) -> None:
        self.write("cut.fldg", self.read("got1")[:3000])
        self.small()
        command = [sys.executable, "-c", TELLS]
        one = "--tsi 7 --toi 1 --symbol 0/0 --without"
        values = self.tool("flutejoin-values", "--tsi 7 --toi 1 --symbol 0/0 small").lines()
        value = values[0].split()[1]
        for tool, words in (
            (TOOL, ["-o", "mended", "cut.fldg"]),
            (ROOT / "tools" / "flutejoin-map", ["-o", "page.svg", "journal"]),
            (
                ROOT / "tools" / "flutejoin-values",
                [*one.split(), value, "-o", "without", "small"],
            ),
        ):
            done = self.command([*command, tool, *words])
            told = done.err.decode().split()
            self.holds(tool.name, done.status == 0 and told == ["file", "folder"], done)
