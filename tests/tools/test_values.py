"""Tests a wrong datagram with a right checksum, and its repair: which values of a symbol came, and
a datagram file without one of them. Runs tools/flutejoin-values as a user would."""
from __future__ import annotations

import hashlib
import os
import resource
from typing import Any

from tests.support import run
from tests.support.run import Run

SYMBOL = "--tsi 7 --toi 1 --symbol 1/2"
ONE = "one/10.0.0.1.fldg"
RECORD = 1038  # bytes of a record, in a datagram file with symbols of 1,000 bytes
BEFORE = 6 + 16 * RECORD  # bytes before symbol 1/2: 14 symbols of block 0, and two of block 1
CUT = "Cut: flutejoin-mend makes a right file of what is whole in it"
JOURNAL = "is a journal, and not a datagram file"
NO_VALUE = "flutejoin-values: no value of this symbol"


def digits(content: bytes) -> str:
    """All digits of SHA-256 of symbol 1/2 of a file."""
    return hashlib.sha256(content[16_000:17_000]).hexdigest()


def value(of: str, *files: tuple[int, str], length: str = " length 1000") -> str:
    """The lines that flutejoin-values prints of a value, with how often each file has it."""
    times = sum(count for count, _ in files)
    inside = "".join(f"in {count} {name}\n" for count, name in files)
    return f"{of}{length} times {times}\n{inside}"


def said(text: str) -> str:
    return f"flutejoin-values: {text}\n"


class Values(run.Case):
    """The first station received both values of symbol 1/2, the second the wrong one, the third the
    right one."""

    def setUp(self) -> None:
        super().setUp()
        content = "".join(f"{number:07}\n" for number in range(1, 5001)).encode()
        wrong = content.translate(bytes.maketrans(b"01234", b"56789"))
        for name, of in ("file", content), ("wrong_file", wrong):
            self.write(name, of)
            to = name.replace("file", "sent")
            self.made(f"carousel -o {to} --tsi 7 --toi 1 --symbol 1000 --block 16 {name}")
        sent, other = self.read("sent"), self.read("wrong_sent")
        self.wrong = other[BEFORE : BEFORE + RECORD]
        self.station("one", sent + self.wrong + sent[BEFORE : BEFORE + RECORD])
        self.station("two", sent[:BEFORE] + self.wrong)
        self.station("three", sent)
        self.made("join -o all one/journal two/journal three/journal")
        self.right_digits, self.bad_digits = digits(content), digits(wrong)
        self.right, self.bad = self.right_digits[:8], self.bad_digits[:8]

    def station(self, name: str, received: bytes) -> None:
        """Makes a station's folder: its datagram file and its journal."""
        self.path(name).mkdir()
        self.write(f"{name}/10.0.0.1.fldg", received)
        of = f"{name}/10.0.0.1.fldg"
        self.made(f"join -o {name}/journal --source 0a000001 {of}")

    def values(self, words: str, **how: Any) -> Run:
        return self.tool("flutejoin-values", words, **how)

    def values_row(self, name: str, words: str, *wanted: Any, **how: Any) -> Run:
        """Runs flutejoin-values, and checks its status and outputs."""
        done = self.values(words, **how)
        self.check(name, done, *wanted)
        return done


class Listed(Values):
    def test_datagram_files(self) -> None:
        files = "one/10.0.0.1.fldg three/10.0.0.1.fldg two/10.0.0.1.fldg"
        right = value(f"value {self.right}", (2, ONE), (1, "three/10.0.0.1.fldg"))
        bad = value(f"value {self.bad}", (1, ONE), (1, "two/10.0.0.1.fldg"))
        self.values_row("datagram files", f"{SYMBOL} {files}", 0, right + bad)

    def test_journals(self) -> None:
        last = self.made("gaps all").lines()[-1]
        self.holds("the joined journal is in conflict", last == "gap 1/2-2 conflicting", last)
        right = value(f"value {self.right}", (1, "three/journal"))
        bad = value(f"value {self.bad}", (1, "two/journal"))
        conflict = value("conflict", (1, "all"), (1, "one/journal"), length="")
        words = f"{SYMBOL} all one/journal two/journal three/journal"
        self.values_row("journals", words, 0, right + bad + conflict)

    def test_senders(self) -> None:
        files = "three/journal three/10.0.0.1.fldg"
        both = value(f"value {self.right}", (1, "three/journal"), (1, "three/10.0.0.1.fldg"))
        self.values_row("a sender", f"--source 10.0.0.1 {SYMBOL} {files}", 0, both)
        left_out = "left out three/10.0.0.1.fldg: of another sender by its name"
        for sender in "10.0.0.2", "0A000002", "2001:db8::1":
            words = f"--source {sender} {SYMBOL} {files}"
            self.values_row(f"another, {sender}", words, 1, left_out, NO_VALUE)

    def test_other_objects(self) -> None:
        files = f"--symbol 1/2 {ONE} one/journal"
        for name, key in (
            ("another session", "--tsi 8 --toi 1"),
            ("another object", "--tsi 7 --toi 2"),
            ("an FDT Instance", "--tsi 7 --fdt 1"),
        ):
            self.values_row(name, f"{key} {files}", 1, "", NO_VALUE)

    def test_instances(self) -> None:
        """FDT Instances, and IPv6 senders in names and journals."""
        sent = "2001-db8--1.e2.7.fldg"
        self.made(f"carousel -o {sent} --tsi 7 --toi 0 --fdt 3 --symbol 1000 --block 16 file")
        source = "20010db8000000000000000000000001"
        self.made(f"join -o fdt_journal --source {source} {sent}")
        wanted = value(f"value {self.right}", (1, sent), (1, "fdt_journal"))
        for key in "--fdt 3", "--toi 0 --fdt 3":
            words = f"--source 2001:db8::1 --tsi 7 {key} --symbol 1/2 {sent} fdt_journal all"
            self.values_row(key, words, 0, wanted)
        files = f"--symbol 1/2 {sent} fdt_journal"
        self.values_row("another Instance", f"--tsi 7 --fdt 4 {files}", 1, "", NO_VALUE)
        self.values_row("an object of its number", f"--tsi 7 --toi 3 {files}", 1, "", NO_VALUE)


class Without(Values):
    """The repair: a datagram file without the wrong value."""

    def test_without_the_wrong_value(self) -> None:
        for name, left in ("one", 41), ("two", 16):
            words = f"{SYMBOL} --without {self.bad} -o {name}/good.fldg {name}/10.0.0.1.fldg"
            wanted = f"{name}/good.fldg: {left} datagrams, without 1"
            self.values_row(f"station {name}", words, 0, wanted)
        others = self.read(ONE).replace(self.wrong, b"")
        self.same("all others are there as they were", "one/good.fldg", others)
        files = "one/good.fldg two/good.fldg three/10.0.0.1.fldg"
        self.made(f"join -o clean --source 0a000001 {files}")
        self.made("extract -o whole --source 0a000001 --tsi 7 --toi 1 clean")
        self.same("the file comes out", "whole", "file")

    def test_digits(self) -> None:
        words = f"{SYMBOL} --without {self.right} -o left.fldg {ONE}"
        self.values_row("the right value", words, 0, "left.fldg: 40 datagrams, without 2")
        words = f"{SYMBOL} --without {self.bad_digits} -o long.fldg {ONE}"
        self.values_row("all digits", words, 0, "long.fldg: 41 datagrams, without 1")
        self.same("by all digits", "long.fldg", self.read(ONE).replace(self.wrong, b""))

    def test_standard_output(self) -> None:
        words = f"{SYMBOL} --without {self.bad} -o - {ONE}"
        others = self.read(ONE).replace(self.wrong, b"")
        self.values_row("its bytes", words, 0, others, "41 datagrams, without 1")
        self.absent("no file has the name -", "-")

    def test_inputs_at_fault(self) -> None:
        self.write("cut.fldg", self.read(ONE)[: BEFORE + RECORD + 9])
        of = f"{SYMBOL} --without {self.bad} -o out.fldg"
        no_value = f"{SYMBOL} --without 12345678 -o out.fldg {ONE}"
        other = f"--source 10.0.0.2 {of} {ONE}"
        for name, words, text in (
            ("a datagram file that is cut", f"{of} cut.fldg", f"cut.fldg: {CUT}"),
            ("a journal", f"{of} one/journal", f"one/journal: {JOURNAL}"),
            ("no value", no_value, f"{ONE}: the digits 12345678 begin no value of its symbol"),
            ("another sender", other, f"{ONE}: of another sender by its name"),
        ):
            self.values_row(name, words, 1, "", said(text))
        self.absent("nothing was written", "out.fldg", "out.fldg.partial")

    def test_outputs_at_fault(self) -> None:
        of = f"{SYMBOL} --without {self.bad} -o"
        there = "three/journal: is there already, and is left as it is"
        self.values_row("one that is there", f"{of} three/journal {ONE}", 3, "", said(there))
        nowhere = "not/there.partial: No such file or directory"
        self.values_row("in no folder", f"{of} not/there {ONE}", 3, "", said(nowhere))
        limits = {resource.RLIMIT_FSIZE: 4096}
        full = said("full: File too large")
        self.values_row("a full disk", f"{of} full {ONE}", 3, "", full, limits=limits)
        left = [name for name in os.listdir(self.folder) if name.startswith("full")]
        self.holds("nothing is left", not left, left)


class Faults(Values):
    def test_beside_others(self) -> None:
        self.write("cut.fldg", self.read(ONE)[: BEFORE + RECORD + 9])
        self.write("cut_journal", self.read("one/journal")[:30_000])
        self.path("folder").mkdir()
        right = value(f"value {self.right}", (1, "cut.fldg"), (1, "three/journal"))
        conflict = value("conflict", (1, "cut_journal"), length="")
        told = (
            *(f"cut.fldg: {CUT}", f"cut_journal: {CUT}"),
            "file: is neither a datagram file nor a journal",
            *("missing: No such file or directory", "folder: Is a directory"),
        )
        words = f"{SYMBOL} cut.fldg cut_journal file missing folder three/journal"
        self.values_row("files at fault", words, 3, right + conflict, "".join(map(said, told)))

    def test_pipe(self) -> None:
        os.mkfifo(self.path("pipe"))
        text = said("pipe: is no regular file")
        self.values_row("a pipe", f"{SYMBOL} pipe", 3, "", text)

    def test_words(self) -> None:
        bad = self.bad
        for words in (
            *("", SYMBOL, "--tsi 7 --toi 1 one/journal", "--tsi 7 --symbol 1/2 one/journal"),
            "--tsi 7 --toi 0 --symbol 1/2 one/journal",
            "--tsi 7 --toi 1 --fdt 1 --symbol 1/2 one/journal",
            "--tsi 7 --toi 1 --symbol 1 one/journal",
            "--tsi 7 --toi 1 --symbol 1/65536 one/journal",
            *(f"{SYMBOL} --without {bad} one/journal", f"{SYMBOL} -o x one/journal"),
            f"{SYMBOL} --without 1234567 -o x one/journal",
            f"{SYMBOL} --without {bad} -o x one/journal all",
            f"{SYMBOL} --without {bad} -o one/journal one/journal",
            f"--source 10.0.0 {SYMBOL} one/journal",
        ):
            self.values_row(f"'{words}'", words, 2, "", None)

    def test_streams(self) -> None:
        self.values_row("help", "--help", 0, None)
        words = f"{SYMBOL} one/journal"
        text = said("cannot write")
        self.values_row("a full standard output", words, 3, "", text, to="/dev/full")
