"""Tests what flutejoin-map and flutejoin-files do with many objects of which next to nothing came:
flutejoin alone would look at their gaps for minutes."""
from __future__ import annotations

import json
import struct
from typing import Iterable

import datagram_files
from flutejoin_tools.common.gaps import Gaps, Numbers
from flutejoin_tools.common.program import Program
from flutejoin_tools.journals import sparse
from flutejoin_tools.journals.holdings import Key
from tests.support import run
from tests.support.flute_sender import Sent, fdt, header, instance

SENDER, MANY = "10.0.0.1", 320
NUMBERS: Numbers = ((1 << 16), 1, 1)  # an object of 65,536 blocks


class Sparse(run.Case):
    def sent(self, tois: Iterable[int]) -> list[bytes]:
        """One symbol of each of these objects, of 65,536 source blocks."""
        length, symbol, block = NUMBERS
        lengths = struct.pack(">BB6sHHI", 64, 4, length.to_bytes(6, "big"), 0, symbol, block)
        return [header(7, toi, lengths) + b"\0\1\0\0x" for toi in tois]

    def sparse_journal(self, *more: bytes) -> None:
        """Makes a journal with many objects of one symbol each, and of these datagrams."""
        datagram_files.write(str(self.path("sent")), [*self.sent(range(1, MANY + 1)), *more])
        self.made(f"join --any-size --source {SENDER} -o journal sent")

    def map(self, words: str, status: int = 0) -> run.Run:
        done = self.tool("flutejoin-map", f"--flutejoin {run.PROGRAM} {words}")
        self.holds(words, done.status == status, done)
        return done

    def test_left_out(self) -> None:
        """As many are drawn as have room, and those of which more came; the others are told."""
        whole = Sent(1000, bytes(50_000), "whole")
        self.sparse_journal(*whole.packets(7))
        done = self.map("--text journal")
        told = "journal: 15 objects are left out, of which it has one symbol in 200 source blocks"
        self.holds("the others are told", told in done.err.decode(), done.err)
        text = done.out.decode()
        self.holds("one of which more came is drawn", text.count("\njournal: whole: ") == 1)
        drawn = text.count("\njournal: partial: held 1, missing 65535, ")
        self.holds("as many of the others as have room", drawn == 305, drawn)
        self.holds("the picture tells it too", told in text)

    def test_one(self) -> None:
        """The object that is named is drawn, whatever else there is."""
        self.sparse_journal()
        name = f"--source {SENDER} --tsi 7 --toi {MANY}"
        text = self.map(f"--text {name} journal").out.decode()
        self.holds("it is drawn", "65536 symbols" in text.replace(",", ""), text[:400])

    def test_faults(self) -> None:
        """What is at fault is told, though less is read."""
        self.sparse_journal()
        data = self.read("journal")
        self.write("journal", data[:-1] + bytes([data[-1] ^ 1]))
        done = self.map("--text journal", 1)
        self.holds("it is told", b"flutejoin-map: journal: " in done.err, done.err)

    def test_budget(self) -> None:
        """What is sparse, and what a budget leaves."""
        key = Key(bytes(16), 7, 1, 1)
        self.holds("65,536 blocks for one symbol", sparse.sparse_blocks(NUMBERS, 1) == 65_536)
        self.holds("not for 400", sparse.sparse_blocks(NUMBERS, 400) == 0)
        self.holds("nor one of few blocks", sparse.sparse_blocks((10_000, 1, 64), 1) == 0)
        self.holds("nor without information", sparse.sparse_blocks(None, 1) == 0)
        thinning = sparse.Thinning(lambda key: False)
        left = [thinning.is_left(key, NUMBERS, 1) for _ in range(MANY)]
        self.holds("the first ones have room", left == [False] * 305 + [True] * 15, sum(left))
        self.holds("one of few gaps always", not thinning.is_left(key, (10, 1, 1), 1))

    def test_journal_without_such(self) -> None:
        """It is read as it is."""
        datagram_files.write(str(self.path("sent")), Sent(1, bytes(9000), "a").packets(7)[:3])
        self.made(f"join --source {SENDER} -o journal sent")
        found, journal = Gaps(Program(str(run.PROGRAM))), str(self.path("journal"))
        self.holds("nothing is told", [*sparse.thin(found, [journal], lambda _: False)] == [])
        self.holds("nothing takes its place", found.input(journal) == journal)

    def test_files(self) -> None:
        """flutejoin-files lists those that flutejoin does not look at by what is held of them."""
        files = [Sent(toi, b"", f"http://h/{toi}", symbol=1, block=1) for toi in range(1, MANY + 1)]
        for file in files:
            file.more = {"Content-Length": 1 << 16, "Transfer-Length": 1 << 16}
        self.sparse_journal(*instance(7, 1, fdt(files)))
        done = self.tool("flutejoin-files", f"--flutejoin {run.PROGRAM} --list journal")
        lines = [line.split() for line in done.lines()]
        partial = [it for it in lines if it[3:5] == ["partial", "65535"]]
        self.holds("each is partial", len(partial) == MANY, (len(partial), done.lines()[:4]))
        done = self.tool("flutejoin-files", f"--flutejoin {run.PROGRAM} --json -o files journal")
        told = [json.loads(line) for line in done.lines()]
        self.holds("no file is written", not any(it.get("path") for it in told), told[:1])
