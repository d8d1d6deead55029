"""Tests the library for C, and the package for Python over it: that they give the bytes and the
faults of the program, on inputs that are drawn; and each call with each argument at its edges, by
a program in C, also under valgrind where that is installed.

STATIC in the environment is the static library that was proved: without it that is built first.
DRAWN (400) is how many inputs are drawn, and SEED (7) chooses which.
"""
from __future__ import annotations

import ctypes
import json
import os
import random
import shutil
import subprocess
import sys
from typing import Callable, Optional, Union

import datagram_files
from tests.library.case import EMPTY, NUMBER, SENDER, Case, built, compiled
from tests.support.drawn_journals import drawn_journal
from tests.support.run import ROOT

import flutejoin
import pathlib
from flutejoin import Entry, Fault, Journal, Object, Status

DRAWN = int(os.environ.get("DRAWN", "400"))
SEED = int(os.environ.get("SEED", "7"))
Answer = Union[bytes, str]
ALL_RIGHT = "all right"  # the last line of library_edges.c
# Two that are sent, others that are not, and what names none
OBJECTS = (
    *(Object(NUMBER, 7, toi) for toi in (1, 2, 3, 0)),
    *(Object(0, 7, 1), Object(NUMBER, 8, 1), Object(NUMBER, 7, 0, 4), Object(NUMBER, 7, 1, 4)),
    *(Object(0, 1, 1), Object(NUMBER, 1, 0, 1), Object(2**128 - 1, 2, 0, 2)),
)


def bytes_or_fault(
    call: Callable[..., Union[bytes, Journal]], *arguments: object, **options: object
) -> Answer:
    """What a call of the library gives, or the line of its fault."""
    try:
        return bytes(call(*arguments, **options))
    except Fault as fault:
        return f"{fault}\n"


# What else is done to a journal: no information of an object, or two values of it
CHANGES = (
    *("", "", "", f"forget -o journal --info --source {SENDER} --tsi 7 --toi 1"),
    f"info -o journal --source {SENDER} --tsi 7 --toi 2 --length 46 --symbol 16 --block 64",
)


class Drawn(Case):
    """What the program makes of drawn inputs, the library makes of them too."""

    def setUp(self) -> None:
        super().setUp()
        self.draw = random.Random(SEED)
        self.datagrams = self.sent()

    def sent(self) -> list[bytes]:
        """The datagrams of two objects, one of several blocks."""
        found: list[bytes] = []
        for toi, size, symbol, block in (1, 260, 10, 8), (2, 45, 16, 64):
            self.write("file", self.draw.randbytes(size))
            cut = f"--symbol {symbol} --block {block}"
            self.made(f"carousel -o sent --force --tsi 7 --toi {toi} {cut} file")
            found += datagram_files.read(str(self.path("sent")))
        return found

    def spoiled(self, data: bytes) -> bytes:
        """The bytes, of which some may be others."""
        place = self.draw.randrange(len(data) + 1)
        how = self.draw.randrange(12)
        if how == 0:
            return data[:place]
        if how == 1:
            return data[:place] + self.draw.randbytes(1) + data[place + 1 :]
        return data + b"\0" if how == 2 else data

    def changed(self, datagram: bytes) -> bytes:
        """A datagram, of which the last byte may be another: a conflict."""
        if self.draw.randrange(20):
            return datagram
        return datagram[:-1] + self.draw.randbytes(1)

    def drawn_journal(self) -> bytes:
        """A journal that the program made of drawn datagrams, of which some have wrong bytes, and
        perhaps spoiled itself; or a journal of any kind."""
        if self.draw.randrange(2):
            return drawn_journal(self.draw)
        count = self.draw.randrange(len(self.datagrams))
        kept = [self.changed(each) for each in self.draw.sample(self.datagrams, count)]
        self.write("station", datagram_files.content(kept))
        self.made(f"join -o journal --source {SENDER} station")
        change = self.draw.choice(CHANGES)
        if change:
            self.made(f"{change} journal")
        return self.spoiled(self.read("journal"))

    def answer(self, words: str, is_told: bool = False) -> Answer:
        """What the program leaves in the file `out`, or prints if it leaves none; or its fault. Or
        both, if it `is_told`."""
        if self.exists("out"):
            self.remove("out")
        done = self.program(words)
        if done.status:
            return done.err.decode()
        if not self.exists("out"):
            return done.out
        return (done.out if is_told else b"") + self.read("out")

    def agree(self, name: str, words: str, answer: Answer, is_told: bool = False) -> None:
        """Checks that a call's answer is that of the command in these words."""
        wanted = self.answer(words, is_told)
        self.holds(f"{name}: {words}", answer == wanted, f"{answer!r:.300} and not {wanted!r:.300}")

    def test_pairs(self) -> None:
        for turn in range(DRAWN // 4):
            first, second = self.drawn_journal(), self.drawn_journal()
            self.write("first", first)
            self.write("second", second)
            pair = "first second"
            answer = bytes_or_fault(flutejoin.merge, first, second)
            self.agree(f"{turn}", f"merge -o out {pair}", answer)
            answer = bytes_or_fault(flutejoin.minus, first, second)
            self.agree(f"{turn}", f"minus -o out {pair}", answer)
            answer = bytes_or_fault(flutejoin.compare_lines, first, second)
            self.agree(f"{turn}", f"compare {pair}", answer)
            lines = bytes_or_fault(flutejoin.gap_lines, second)
            self.agree(f"{turn}", "gaps second", lines)
            if isinstance(lines, bytes):
                self.write("lines", lines)
                answer = bytes_or_fault(flutejoin.fill, first, lines)
                self.agree(f"{turn}", "fill -o out --gaps lines first", answer)

    def datagram_file(self) -> bytes:
        """A file of some datagrams, of which one in twenty is refused."""
        count = self.draw.randrange(len(self.datagrams))
        kept = [self.changed(each) for each in self.draw.sample(self.datagrams, count)]
        sent = [each if self.draw.randrange(20) else b"\x20" + each[1:] for each in kept]
        return self.spoiled(datagram_files.content(sent))

    def test_joins(self) -> None:
        for turn in range(DRAWN // 4):
            inputs = [
                self.drawn_journal() if self.draw.randrange(2) else self.datagram_file()
                for _ in range(self.draw.choice((1, 2, 2)))
            ]
            if len(inputs) == 2 and not inputs[0]:
                continue  # the second alone
            for number, data in enumerate(inputs):
                self.write(f"input{number}", data)
            names = " ".join(f"input{number}" for number in range(len(inputs)))
            answer = bytes_or_fault(joined, *inputs)
            words = f"join -o out --source {SENDER} {names}"
            self.agree(f"{turn}", words, answer, is_told=True)

    def test_entries(self) -> None:
        for turn in range(DRAWN // 4):
            journal = self.drawn_journal()
            self.write("journal", journal)
            self.agree(f"{turn}", "show journal", bytes_or_fault(shown, journal))

    def test_json(self) -> None:
        for turn in range(DRAWN // 4):
            first, second = self.drawn_journal(), self.drawn_journal()
            self.write("first", first)
            self.write("second", second)
            answer = bytes_or_fault(flutejoin.gap_lines, first, as_json=True)
            self.agree(f"{turn}", "gaps --json first", answer)
            answer = bytes_or_fault(flutejoin.compare_lines, first, second, as_json=True)
            self.agree(f"{turn}", "compare --json first second", answer)

    def test_objects(self) -> None:
        for turn in range(DRAWN // 4):
            journal, named = self.drawn_journal(), self.draw.choice(OBJECTS[:2] + OBJECTS)
            self.write("journal", journal)
            key = f"--source {named.sender:032x} --tsi {named.tsi} --toi {named.toi}"
            if named.instance is not None:
                key += f" --fdt {named.instance}"
            answer = bytes_or_fault(flutejoin.extract, journal, named)
            self.agree(f"{turn}", f"extract -o out {key} journal", answer)
            answer = bytes_or_fault(status_line, journal, named)
            lines = self.answer(f"gaps --json {key} journal")
            wanted = status_in(lines) if isinstance(lines, bytes) else lines
            self.holds(f"{turn}: status {key}", answer == wanted, f"{answer!r} and not {wanted!r}")

    def test_packets(self) -> None:
        for turn in range(DRAWN):
            datagram = bytearray(self.draw.choice(self.datagrams))
            for _ in range(self.draw.randrange(3)):
                datagram[self.draw.randrange(min(len(datagram), 36))] = self.draw.randrange(256)
            data = bytes(datagram[: self.draw.choice((len(datagram), 3, 20, 31, 33))])
            wanted = self.answer(f"packet {data.hex()}")
            answer = bytes_or_fault(lambda: lines_of(flutejoin.read(data)))
            self.holds(f"packet {turn}", answer == wanted, f"{data.hex()}: {answer!r}, {wanted!r}")


def joined(*inputs: bytes) -> bytes:
    """The lines that the program prints of a join, and the journal."""
    found = flutejoin.join(*inputs, sender=NUMBER)
    names = "datagrams", "refused", "entries"
    lines = "".join(f"{name} {getattr(found, name)}\n" for name in names)
    return lines.encode() + bytes(found.journal)


def shown(journal: bytes) -> bytes:
    """The lines that the program prints of the entries of a journal."""
    lines = [line_of(entry) for entry in flutejoin.entries(journal)]
    return "".join(f"{line}\n" for line in (*lines, f"entries {len(lines)}")).encode()


def line_of(entry: Entry) -> str:
    """The line that `flutejoin show` prints of an entry."""
    of, info, symbol = entry.object, entry.information, entry.symbol
    words = [f"source {of.sender:032x}"] if of.sender else []
    words.append(f"session {of.tsi} object")
    words.append(f"{of.toi}" if of.instance is None else f"fdt {of.instance}")
    if symbol is None:
        words.append("info")
    else:
        words.append(f"symbol {symbol.sbn}/{symbol.esi}")
    if entry.is_conflict:
        words.append("conflict")
    elif info:
        words.append(f"length {info.length} symbol {info.symbol} block {info.block}")
    elif symbol:
        words.append(f"length {len(symbol.data)} {symbol.data.hex()}")
    return " ".join(words)


def status_in(lines: bytes) -> Answer:
    """The status in the first of the lines that `gaps --json` prints of an object."""
    if not lines:
        return "no object\n"
    line = json.loads(lines.splitlines()[0])
    numbers = [line.get(name, 0) for name in ("missing", "conflicting", "misfit")]
    return repr(Status(line["status"], line.get("length"), *numbers)).encode()


def status_line(journal: bytes, named: Object) -> bytes:
    return repr(flutejoin.status(journal, named)).encode()


def lines_of(packet: flutejoin.Packet) -> bytes:
    """The lines that the program prints of a packet."""
    info, symbol = packet.information, packet.symbol
    named = f"fdt {packet.instance}" if packet.instance is not None else packet.toi
    told = f"length {info.length} symbol {info.symbol} block {info.block}" if info else "none"
    lines = [f"session {packet.tsi}", f"object {named}", f"info {told}"]
    if symbol:
        size = f"length {len(symbol.data)} {symbol.data.hex()}"
        lines.append(f"symbol {symbol.sbn}/{symbol.esi} {size}")
    else:
        lines.append("symbol none")
    return "".join(f"{line}\n" for line in lines).encode()


class InC(Case):
    """Programs in C."""

    def compiled(self, name: str, *words: str, library: Optional[pathlib.Path] = None) -> None:
        source = ROOT / "tests" / "library" / f"{name}.c"
        compiled(source, self.path(name), "-g", *words, library=library)

    def test_joins(self) -> None:
        self.compiled("library")
        self.write("file", bytes(range(100)))
        self.made("carousel -o sent --tsi 7 --toi 1 --symbol 10 --block 4 file")
        datagrams = [*datagram_files.read(str(self.path("sent")))]
        for at in range(3):
            self.write(f"part{at}", datagram_files.content(datagrams[at : at + 3]))
        self.made("join -o journal part1")
        inputs = "part0 journal part2"
        self.made(f"join -o all {inputs}")
        lines = self.made("gaps all")
        self.check("as the program", self.command(f"./library {inputs}"), 0, lines.out)
        self.write("journal", b"FLDG")
        self.check("a fault", self.command(f"./library {inputs}"), 5, "", "input 2: Cut")
        self.write("part0", b"")
        told = "input 1: unknown kind"
        self.check("no input", self.command(f"./library {inputs}"), 6, "", told)

    def test_edges(self) -> None:
        self.compiled("library_edges")
        self.check("edges", self.command("./library_edges"), 0, ALL_RIGHT)
        if not shutil.which("valgrind"):
            self.skipTest("valgrind is not installed")
        checked = "valgrind --quiet --leak-check=full --error-exitcode=90 ./library_edges"
        self.check("under valgrind", self.command(checked), 0, ALL_RIGHT)

    def test_sanitized(self) -> None:
        """With AddressSanitizer and UndefinedBehaviorSanitizer in what is in C. It also sees what
        the proved calls copy and give back."""
        flags = "-fsanitize=address,undefined", "-fno-sanitize-recover=all"
        self.write("empty.c", "int main(void) { return 0; }\n")
        if self.command([os.environ.get("CC", "cc"), *flags, "empty.c"]).status:
            self.skipTest("the compiler has no sanitizers")
        env = {"CFLAGS": " ".join(flags), "STATIC": os.environ.get("STATIC", "")}
        done = self.command([ROOT / "library" / "build.sh", self.path("sanitized")], env=env)
        # Clang links no shared library so, whose sanitizers are in the program.
        self.holds("built", self.exists("sanitized/libflutejoin.a"), done)
        self.compiled("library_edges", *flags, library=self.path("sanitized"))
        self.check("edges", self.command("./library_edges"), 0, ALL_RIGHT)

    def test_threads(self) -> None:
        self.compiled("library_threads", "-pthread")
        self.write("file", b"hello, all of you")
        self.made("carousel -o sent --tsi 7 --toi 1 --symbol 4 --block 2 file")
        told = "hello, all of you: 0"
        self.check("as one alone", self.command("./library_threads sent"), 0, told)
        if not shutil.which("valgrind"):
            self.skipTest("valgrind is not installed")
        checked = "valgrind --quiet --tool=helgrind --error-exitcode=90 ./library_threads sent"
        self.check("without races", self.command(checked), 0, told)

    def test_names(self) -> None:
        """Others see what flutejoin.h declares, and nothing else."""
        header = (ROOT / "include" / "flutejoin.h").read_text()
        shared: list[str | pathlib.Path] = ["nm", "--dynamic", "--defined-only"]
        whole: list[str | pathlib.Path] = ["nm", "--extern-only", "--defined-only"]
        shared.append(built() / "libflutejoin.so")
        whole.append(built() / "libflutejoin.a")
        for command in shared, whole:
            done = subprocess.run(command, capture_output=True, text=True, check=True)
            names = {line.split()[2] for line in done.stdout.splitlines() if " T " in line}
            self.holds("as declared", names and all(f" {it}(" in header for it in names), names)
        loaded = ctypes.CDLL(str(built() / "libflutejoin.so"))
        self.holds("it is there", loaded.flutejoin_read)


class Package(Case):
    def test_installed(self) -> None:
        """By pip, without a network."""
        shutil.copytree(ROOT / "python", self.path("source"))
        words = "-m pip install --no-index --quiet --target into"
        done = self.command([sys.executable, *words.split(), "./source"])
        if b"No module named" in done.err:
            self.skipTest("there is no pip")
        self.holds("installed", done.status == 0, done.err)
        script = f"import flutejoin; print(flutejoin.gap_lines({EMPTY!r}))"
        env = {"PYTHONPATH": str(self.path("into"))}
        env["FLUTEJOIN_LIBRARY"] = str(built() / "libflutejoin.so")
        done = self.command([sys.executable, "-c", script], env=env)
        self.check("and called", done, 0, "b''")
        self.holds("with its types", self.path("into/flutejoin/py.typed").exists())
        for library, told in ("/missing.so", "is not there"), ("libc.so.6", "lacks a call"):
            env["FLUTEJOIN_LIBRARY"] = library
            done = self.command([sys.executable, "-c", script], env=env)
            self.holds("no library", f"NoLibrary: libflutejoin {told}".encode() in done.err, done)
