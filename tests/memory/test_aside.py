"""Tests `join --memory`, which puts facts aside, against the same join in memory; also with full
disks and kills."""
from __future__ import annotations

import os
import random
import struct
import time

from tests.outputs.test_faults import Mounted
from tests.support import run

GROUPS = 300  # of inputs that are drawn
HEADER = b"FLDG\0\1"
KILLS = 40  # one each 5 ms
FAULT = "cannot write what is put aside"


def records_of(file: bytes) -> list[bytes]:
    """The records of a datagram file, each with its length before it (docs/FORMATS.md)."""
    records, at = [], len(HEADER)
    while at < len(file):
        end = at + 2 + int.from_bytes(file[at : at + 2], "big")
        records.append(file[at:end])
        at = end
    return records


class Sent(run.Case):
    def records(self, content: bytes, toi: int, symbol: int, block: int) -> list[bytes]:
        """The records of an object of this content."""
        self.write("content", content)
        words = f"carousel -f -o sent --tsi 7 --toi {toi} --symbol {symbol} --block {block} content"
        self.made(words)
        return records_of(self.read("sent"))

    def datagrams(self, name: str, records: list[bytes]) -> None:
        self.write(name, HEADER + b"".join(records))


class Groups(Sent):
    """Random groups of inputs, each joined in memory, and again with room for few symbols."""

    def setUp(self) -> None:
        super().setUp()
        self.draw = random.Random(44)
        draw = self.draw
        self.objects = [
            self.records(draw.randbytes(draw.choice([300, 4_000, 40_000])), toi, symbol, 8)
            for toi, symbol in [(1, 16), (2, 100), (3, 1_400), (3, 1_400), (4, 700)]
        ]

    def input(self, name: str) -> None:
        """Makes a datagram file with losses, repeats and damage, out of order; or its journal."""
        draw = self.draw
        records = []
        for each in draw.sample(self.objects, draw.randint(1, len(self.objects))):
            records += [record for record in each if draw.random() < 0.7]
        records += draw.choices(records, k=len(records) // 3) if records else []
        damaged = []
        for record in records:
            if draw.random() < 0.03:
                at = draw.randrange(2, len(record))
                record = record[:at] + draw.randbytes(1) + record[at + 1 :]
            damaged.append(record)
        if draw.random() < 0.8:
            draw.shuffle(damaged)
        self.datagrams(name, damaged)
        if draw.random() < 0.3:
            self.made(f"join --any-size -f -o journal {name}")
            self.path("journal").rename(self.path(name))

    def test_groups(self) -> None:
        for number in range(GROUPS):
            names = [f"input{k}" for k in range(self.draw.randint(1, 4))]
            for name in names:
                self.input(name)
            size = self.draw.choice(["1", "1K", "1K", "5000", "64K"])
            scope = self.draw.choice(["", "", "--tsi 7 --toi 3", "--tsi 9"])
            words = f"{scope} {' '.join(names)}"
            whole = self.program(f"join --any-size -f -o whole {words}")
            apart = self.program(f"join --any-size --memory {size} -f -o apart {words}")
            self.check(f"group {number}", apart, whole.status, whole.out, whole.err)
            self.same(f"group {number}: its journal", "apart", "whole")
            left = [name for name in os.listdir(self.folder) if "aside" in name]
            self.holds(f"group {number}: nothing is left", not left, left)

    def test_faults_are_those_of_memory(self) -> None:
        self.datagrams("good", self.objects[2])
        self.write("cut", self.read("good")[:-1])
        self.write("neither", b"neither")
        for names in ["good cut", "cut good", "good neither", "good absent", "neither cut"]:
            whole = self.program(f"join -o whole {names}")
            apart = self.program(f"join --memory 1K -o apart {names}")
            self.check(names, apart, whole.status, whole.out, whole.err)
            self.absent(f"{names}: no output", "apart", "apart.partial")

    def test_pipes(self) -> None:
        self.datagrams("good", self.objects[2])
        self.made("join -o whole good")
        script = "cat good | flutejoin join --memory 1K -o - - | cat > apart"
        self.check("through pipes", self.shell(script), 0, "", None)
        self.same("the same journal", "apart", "whole")


class Runs(Sent):
    """As many journals are put aside as there are datagrams, before the last 63 are merged."""

    def setUp(self) -> None:
        super().setUp()
        self.sent = self.records(os.urandom(3_000), 1, 16, 8)  # 189 datagrams
        self.datagrams("all", self.sent)
        self.made("join -o whole all")

    def test_as_many_as_streams(self) -> None:
        """Beside 63 further inputs, of which each has some of the same facts."""
        further = []
        for number in range(63):
            further.append(f"further{number}")
            self.datagrams(further[-1], self.sent[number : number + 2])
            if number % 2:
                self.made(f"join -f -o journal {further[-1]}")
                self.path("journal").rename(self.path(further[-1]))
        for count in 1, 2, 61, 62, 63, 64, 65, 125, 126, 127, 189:
            self.datagrams("some", self.sent[:count])
            for names in "some", f"{' '.join(further)} some":
                in_memory = self.program(f"join -f -o whole {names}")
                apart = self.program(f"join --memory 1 -f -o apart {names}")
                told = f"{count} datagrams, {names[:8]}"
                self.check(told, apart, 0, in_memory.out, in_memory.err)
                self.same(f"{told}: its journal", "apart", "whole")

    def test_fault_of_an_input(self) -> None:
        """The fault of a journal has its number, however much was put aside."""
        self.write("cut", self.read("whole")[:-1])
        for count in 1, 62, 64, 130:
            self.datagrams("some", self.sent[:count])
            for names in "some cut", "cut some", "whole cut some", "some whole whole cut":
                in_memory = self.program(f"join -o out {names}")
                apart = self.program(f"join --memory 1 -o out {names}")
                self.check(f"{count}, {names}", apart, 1, in_memory.out, in_memory.err)
                self.absent(f"{count}, {names}: no output", "out", "out.partial")

    def test_few_files(self) -> None:
        """Where a process may have few files open, it says so, and leaves nothing."""
        self.datagrams("large", self.records(os.urandom(2_000_000), 2, 1_400, 64))
        self.made("join -f -o whole large")
        words = "flutejoin join --memory 250K -f -o out large"
        self.check("few files", self.shell(f"ulimit -n 8; exec {words}"), 3, "", FAULT)
        self.holds("nothing is left", not [it for it in os.listdir(self.folder) if "out" in it])
        self.check("a hundred", self.shell(f"ulimit -n 100; exec {words}"), 0, None)
        self.same("its journal", "out", "whole")

    def test_cut_while_they_wait(self) -> None:
        """What was put aside is cut by another before it is read again."""
        self.datagrams("large", self.records(os.urandom(2_000_000), 2, 1_400, 64))
        content = self.read("large")
        self.made("join -o before all")
        for which in 0, -1:
            self.made("join -f -o out all")
            os.mkfifo(self.path("fifo"))
            words = ["join", "--memory", "300K", "-o", "out", "fifo", "whole"]
            child = self.start([run.PROGRAM, *words])
            with self.path("fifo").open("wb") as pipe:
                pipe.write(content[:-100])
                pipe.flush()
                aside = self.asides_of(child.pid)
                with open(aside[which], "r+b") as file:
                    file.truncate(os.fstat(file.fileno()).st_size // 2)
                pipe.write(content[-100:])
            self.check(f"run {which} of {len(aside)}", self.finish(child), 3, "", FAULT)
            self.same(f"run {which}: the output is what it was", "out", "before")
            self.path("fifo").unlink()

    def asides_of(self, process: int) -> list[str]:
        """Paths of the files without names that the process has written, oldest first."""
        found: list[str] = []
        end = time.monotonic() + run.LONGEST
        while len(found) < 3 and time.monotonic() < end:
            time.sleep(0.05)
            folder = f"/proc/{process}/fd"
            every = [f"{folder}/{name}" for name in sorted(os.listdir(folder), key=int)]
            deleted = [it for it in every if os.readlink(it).endswith(" (deleted)")]
            found = [it for it in deleted if os.stat(it).st_size > 0]
        self.assertGreaterEqual(len(found), 3)
        return found


class Hostile(Sent):
    """Datagrams of very many objects or sessions, which a few bytes each make."""

    def test_bound(self) -> None:
        """With room for 8 MiB the program takes no more than 32 MiB."""
        for name, datagrams in (
            ("objects of one symbol", (datagram(7, toi) for toi in range(1, 100_001))),
            ("sessions of one object", (datagram(tsi, 1) for tsi in range(1, 32_001))),
            ("sessions of few", (datagram(1 + n // 4, 1 + n % 4) for n in range(100_000))),
            ("objects of no symbol", (datagram(7, toi, None) for toi in range(1, 100_001))),
            ("small symbols", (datagram(7, n % 4, n // 4) for n in range(200_000))),
            ("one after another", (datagram(7, n % 50_000, n % 2) for n in range(150_000))),
        ):
            self.datagrams("hostile", [len(each).to_bytes(2, "big") + each for each in datagrams])
            self.made("join --any-size --memory 1G -f -o whole hostile")
            words = "flutejoin join --any-size --memory 8M -f -o apart hostile"
            done = self.shell(f"ulimit -v 32768; exec {words}")
            self.check(name, done, 0, None)
            self.same(f"{name}: its journal", "apart", "whole")


def datagram(tsi: int, toi: int, symbol: int | None = 0) -> bytes:
    """A datagram of one small symbol, or, without one, of transmission information."""
    names = struct.pack(">III", 0, tsi, toi)
    if symbol is None:
        info = struct.pack(">HHIHHI", 0x4004, 0, 5, 0, 4, 2)
        return bytes.fromhex("10A00800") + names + info + bytes(4)
    return bytes.fromhex("10A00400") + names + symbol.to_bytes(4, "big") + b"abcd"


class Full(Mounted, Sent):
    """A disk that fills while bytes are put aside."""

    def setUp(self) -> None:
        super().setUp()
        self.datagrams("large", self.records(os.urandom(3_000_000), 1, 1_400, 64))

    def test_beside_the_output(self) -> None:
        self.mount("small", "-o", "size=1m")
        self.datagrams("few", self.records(b"abc", 2, 16, 64))
        self.made("join -o small/all few")
        before = self.read("small/all")
        self.row("a full disk", "join --memory 200K -o small/all large", 3, "", FAULT)
        self.same("the output is what it was", "small/all", before)
        self.row("a new output", "join --memory 200K -o small/fresh large", 3, "", FAULT)
        left = os.listdir(self.path("small"))
        self.holds("nothing else is left", left == ["all"], left)

    def test_temporary_files(self) -> None:
        self.mount("small", "-o", "size=1m")
        env = {"TMPDIR": str(self.path("small"))}
        done = self.program("join --memory 200K -o - large", env=env)
        self.check("no room for temporary files", done, 3, b"", FAULT)
        left = os.listdir(self.path("small"))
        self.holds("nothing is left", not left, left)
        done = self.program("join --memory 200K -o beside large", env=env)
        self.check("there is room beside the output", done, 0, None)


class Killed(Sent):
    def setUp(self) -> None:
        super().setUp()
        self.datagrams("large", self.records(os.urandom(6_000_000), 1, 1_400, 64))
        self.path("out").mkdir()
        self.path("tmp").mkdir()

    def left_aside(self) -> list[int]:
        """The sizes of files beside the output: a kill may leave one that just got its name."""
        names = {*os.listdir(self.path("out"))} - {"all", "all.partial"}
        return [self.path(f"out/{name}").stat().st_size for name in names]

    def test_names_that_were_left(self) -> None:
        self.made("join -o whole large")
        for name in ["out/all.aside.0", "out/all.aside.2", "tmp/flutejoin.0"]:
            self.write(name, b"")
        self.write("out/all.aside.1", b"of a user")
        self.path("out/all.aside.3").symlink_to("../large")
        env = {"TMPDIR": str(self.path("tmp"))}
        for output in ["-o out/all", "-o - > all"]:
            done = self.shell(f"flutejoin join --memory 100K {output} large", env=env)
            self.check(f"{output} where names were left", done, 0, None, None)
        self.same("beside the output", "out/all", "whole")
        self.same("in the folder for temporary files", "all", "whole")
        self.same("a file that is not empty stays", "out/all.aside.1", b"of a user")
        kept = {"out": ["all", "all.aside.1", "all.aside.3"], "tmp": []}
        for folder, names in kept.items():
            found = sorted(os.listdir(self.path(folder)))
            self.holds(f"what is in {folder}", found == names, found)

    def test_kills(self) -> None:
        env = {"TMPDIR": str(self.path("tmp"))}
        for number in range(KILLS):
            size = ["100K", "200K"][number % 2]  # most in memory, or each in a file
            child = self.start(
                [run.PROGRAM, *run.split(f"join --memory {size} -f -o out/all large")], env=env
            )
            time.sleep(0.005 * number)
            child.kill()
            self.finish(child)
            left = self.left_aside()
            self.holds(f"after {5 * number} ms no bytes are left aside", not any(left), left)
        self.made("join --memory 200K -f -o out/all large")
        self.made("join -o whole large")
        self.same("the run after them", "out/all", "whole")
        names = [*os.listdir(self.path("tmp")), *os.listdir(self.path("out"))]
        self.holds("nothing is left", names == ["all"], names)
