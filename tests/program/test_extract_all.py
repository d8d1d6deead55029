"""Runs `extract --all` of the built program: on random journals beside `extract` and `gaps`, on
journals cut and changed at each byte, on a full disk, killed at many moments, and where the folder
is there before."""
from __future__ import annotations

import os
import random
import shutil
import signal
import struct
import subprocess
import tempfile
import time
import unittest
from dataclasses import dataclass, field
from pathlib import Path
from typing import Any

from tests.support.flute_sender import partition
from tests.support.run import PROGRAM, until, waits

SENDERS = [0, 0xFFFF0A090001, (0x20010DB8 << 96) + 1]


@dataclass(frozen=True, order=True)
class Name:
    """An object's name. The tag is 0 for an FDT Instance, and 1 for a file."""

    sender: int
    tsi: int
    tag: int
    number: int

    def file(self) -> str:
        """The name of the file that `extract --all` writes for the object."""
        object_name = f"fdt{self.number}" if self.tag == 0 else str(self.number)
        return f"{self.sender:032x}-{self.tsi}-{object_name}"

    def key(self) -> bytes:
        tsi, number = self.tsi.to_bytes(6, "big"), self.number.to_bytes(14, "big")
        return self.sender.to_bytes(16, "big") + tsi + bytes([self.tag]) + number

    def words(self) -> list[str]:
        """The options that name the object."""
        words = ["--source", f"{self.sender:032x}", "--tsi", str(self.tsi)]
        if self.tag == 0:
            return [*words, "--toi", "0", "--fdt", str(self.number)]
        return [*words, "--toi", str(self.number)]


@dataclass
class Object:
    """What a journal contains of an object. A symbol without a value is in conflict."""

    information: tuple[int, int, int] | None = None
    is_in_conflict: bool = False
    symbols: dict[tuple[int, int], bytes | None] = field(default_factory=dict)


def entries_of(name: Name, told: Object) -> list[bytes]:
    """The entries of an object in a journal."""
    entries = []
    if told.is_in_conflict:
        entries.append(b"\x02" + name.key())
    elif told.information:
        length, symbol, block = told.information
        numbers = length.to_bytes(6, "big") + struct.pack(">HI", symbol, block)
        entries.append(b"\x01" + name.key() + numbers)
    for (sbn, esi), value in sorted(told.symbols.items()):
        place = struct.pack(">HH", sbn, esi)
        if value is None:
            entries.append(b"\x04" + name.key() + place)
        else:
            entries.append(b"\x03" + name.key() + place + struct.pack(">H", len(value)) + value)
    return entries


def journal_of(objects: dict[Name, Object]) -> bytes:
    """A journal of these objects."""
    entries = [entry for name in sorted(objects) for entry in entries_of(name, objects[name])]
    return b"FLJN\x00\x02" + b"".join(entries) + b"\xff" + struct.pack(">Q", len(entries))


def whole(length: int, symbol: int, block: int) -> Object:
    """An object of these lengths with all of its symbols, of drawn bytes."""
    values: dict[tuple[int, int], bytes | None] = {
        place: os.urandom(min(symbol, length - at * symbol))
        for at, place in enumerate(partition(length, symbol, block))
    }
    return Object((length, symbol, block), False, values)


def random_object(chance: random.Random) -> Object:
    """A random object: whole, or with one or two faults."""
    length, symbol = chance.choice([0, 1, 7, 8, 40, 123]), chance.choice([1, 4, 8])
    told = whole(length, symbol, chance.choice([1, 2, 5]))
    places = sorted(told.symbols)
    for _ in range(chance.choice([0, 0, 0, 1, 2])):
        wrong = chance.randrange(6)
        if wrong == 0:
            told.information = None
        elif wrong == 1:
            told.is_in_conflict = True
        elif wrong == 2:
            told.symbols[(chance.randrange(9), chance.randrange(9))] = b"stray"
        elif places:
            place = chance.choice(places)
            if wrong == 3:
                told.symbols.pop(place, None)
            elif wrong == 4:
                told.symbols[place] = None
            else:
                told.symbols[place] = b"misfit of another length"
    if not told.symbols and told.information is None and not told.is_in_conflict:
        told.information = (0, 1, 1)
    return told


def random_journal(chance: random.Random) -> dict[Name, Object]:
    """Objects that are drawn: whole, partial, in conflict, of several senders."""
    objects = {}
    for _ in range(chance.randrange(12)):
        tag = chance.randrange(2)
        number = chance.choice([0, 1, 1_048_575] if tag == 0 else [1, 2, 5, (1 << 112) - 1])
        name = Name(chance.choice(SENDERS), chance.choice([0, 7, 8, (1 << 48) - 1]), tag, number)
        objects[name] = random_object(chance)
    return objects


def run(*words: str | Path, **options: Any) -> subprocess.CompletedProcess[bytes]:
    return subprocess.run([PROGRAM, *words], capture_output=True, check=False, **options)


def is_whole(line: str) -> bool:
    return " whole " in line


class ExtractAll(unittest.TestCase):
    def setUp(self) -> None:
        room = tempfile.TemporaryDirectory(prefix="extract-all-")
        self.addCleanup(room.cleanup)
        self.room = Path(room.name)
        self.journal, self.out = self.room / "journal", self.room / "out"
        self.beside = self.room / "out.partial"

    def files(self) -> dict[str, bytes]:
        return {path.name: path.read_bytes() for path in self.out.iterdir()}

    def extract(self, *words: str, status: int = 0) -> str:
        """Runs `extract --all` with this status, and returns what it prints."""
        ran = run("extract", "--all", "-o", self.out, *words, self.journal)
        self.assertEqual(ran.returncode, status, ran.stderr)
        told: bytes = ran.stdout
        return told.decode()

    def first_lines(self) -> list[str]:
        """The first line that `gaps` prints for each object."""
        told = run("gaps", self.journal).stdout.decode().splitlines()
        return [line for line in told if not line.startswith("gap ")]

    def expect(self, objects: dict[Name, Object], names: list[Name], *words: str) -> None:
        """Compares the files and lines of these objects with those of `extract` and `gaps`."""
        lines = dict(zip(sorted(objects), self.first_lines(), strict=True))
        files = {}
        for name in names:
            one = self.room / "one"
            ran = run("extract", "-f", "-o", one, *name.words(), self.journal)
            self.assertEqual(ran.returncode == 0, is_whole(lines[name]))
            if ran.returncode == 0:
                files[name.file()] = one.read_bytes()
        told = "".join(f"{lines[name]}\n" for name in names) + f"written {len(files)}\n"
        self.assertEqual(self.extract(*words), told)
        self.assertEqual(self.files(), files)
        self.assertFalse(self.beside.exists())
        shutil.rmtree(self.out)

    def test_random_journals(self) -> None:
        chance = random.Random(41)
        for _ in range(300):
            objects = random_journal(chance)
            self.journal.write_bytes(journal_of(objects))
            names = sorted(objects)
            self.expect(objects, names)
            sender = chance.choice(SENDERS)
            words = ["--source", f"{sender:032x}"]
            self.expect(objects, [name for name in names if name.sender == sender], *words)
            words += ["--tsi", "7", "--tsi", "8"]
            some = [name for name in names if name.sender == sender and name.tsi in (7, 8)]
            self.expect(objects, some, *words)
            self.expect(objects, [name for name in names if name.tsi == 0], "--tsi", "0")

    def test_objects_of_all_kinds(self) -> None:
        broken = whole(40, 8, 2)
        del broken.symbols[(1, 0)]
        objects = {
            Name(0xFFFF0A090001, 7, 0, 2): whole(9, 4, 2),
            Name(0xFFFF0A090001, 7, 1, 20): whole(0, 1, 1),
            Name(0xFFFF0A090001, 7, 1, 21): broken,
            Name(0xFFFF0A090001, 7, 1, 22): Object(None, False, {(0, 0): b"a"}),
            Name(0xFFFF0A090001, 7, 1, 23): Object(None, True, {(0, 0): b"a"}),
        }
        self.journal.write_bytes(journal_of(objects))
        before = "source 00000000000000000000ffff0a090001 session 7 object "
        self.assertEqual(
            self.extract(),
            f"{before}fdt 2 whole 9\n{before}20 whole 0\n"
            f"{before}21 partial missing 1 conflicting 0 misfit 0\n"
            f"{before}22 no information\n{before}23 conflicting information\nwritten 2\n",
        )
        name = "00000000000000000000ffff0a090001-7-"
        self.assertEqual(sorted(self.files()), [f"{name}20", f"{name}fdt2"])

    def test_4096_objects(self) -> None:
        objects = {Name(0, 7, 1, toi): whole(toi % 50, 8, 4) for toi in range(1, 4097)}
        self.journal.write_bytes(journal_of(objects))
        told = self.extract().splitlines()
        self.assertEqual(told[:-1], self.first_lines())
        self.assertEqual(told[-1], "written 4096")
        for name, told_of in objects.items():
            content = b"".join(value or b"" for _, value in sorted(told_of.symbols.items()))
            self.assertEqual((self.out / name.file()).read_bytes(), content)

    def no_folder(self, *words: str, journal: bytes, status: int = 1) -> None:
        """Checks that `extract --all` of this journal fails, and leaves no folder."""
        self.journal.write_bytes(journal)
        self.extract(*words, status=status)
        self.assertFalse(self.out.exists())
        self.assertFalse(self.beside.exists())

    def test_a_fault_at_each_byte(self) -> None:
        objects = {Name(0, 7, 1, 1): whole(9, 4, 2), Name(0, 7, 1, 2): whole(5, 4, 2)}
        bytes_of = journal_of(objects)
        for end in range(len(bytes_of)):
            self.no_folder(journal=bytes_of[:end])
        self.no_folder(journal=bytes_of + b"x")
        self.no_folder(journal=bytes_of[:-1] + b"\x00")
        many = {Name(0, 7, 1, toi): whole(1, 1, 1) for toi in range(1, 4098)}
        self.no_folder(journal=journal_of(many))

    def test_there_before(self) -> None:
        objects = {Name(0, 7, 1, 1): whole(9, 4, 2)}
        self.journal.write_bytes(journal_of(objects))
        self.out.mkdir()
        self.extract(status=3)
        self.assertEqual(self.files(), {})
        self.out.rmdir()
        self.out.write_bytes(b"a file")
        self.extract(status=3)
        self.assertEqual(self.out.read_bytes(), b"a file")
        self.out.unlink()
        self.out.symlink_to("nowhere")
        self.extract(status=3)
        self.assertTrue(self.out.is_symlink())
        self.out.unlink()
        self.assertFalse(self.beside.exists())
        for path in ("", "-", "/", f"{self.room}/none/out"):
            ran = run("extract", "--all", "-o", path, self.journal)
            self.assertEqual((ran.returncode, ran.stderr), (3, b"cannot create output\n"), path)
        ran = run("extract", "--all", "-o", f"{self.out}//", self.journal)
        self.assertEqual(ran.returncode, 0, ran.stderr)
        self.assertEqual(len(self.files()), 1)

    def test_there_before_the_journal_is_read(self) -> None:
        """That OUT is there is told at once, and nothing is made beside it."""
        self.out.mkdir()
        self.journal.write_bytes(b"no journal")
        ran = run("extract", "--all", "-o", self.out, self.journal)
        self.assertEqual((ran.returncode, ran.stderr), (3, b"cannot create output\n"))
        self.assertEqual(ran.stdout, b"")
        self.assertFalse(self.beside.exists())

    def test_there_meanwhile(self) -> None:
        """What gets OUT's name while the journal is read stays: a file, and an empty folder."""
        content = journal_of({Name(0, 7, 1, 1): whole(9, 4, 2)})
        slow = self.room / "slow"
        os.mkfifo(slow)
        for is_folder in True, False:
            command: list[str | Path] = [PROGRAM, "extract", "--all", "-o", self.out, slow]
            running = subprocess.Popen(command, stdout=subprocess.PIPE, stderr=subprocess.PIPE)
            with slow.open("wb") as journal:
                self.assertTrue(until(lambda: self.beside.exists() and waits(running)))
                if is_folder:
                    self.out.mkdir()
                else:
                    self.out.write_bytes(b"a file")
                journal.write(content)
            _, told = running.communicate()
            self.assertEqual((running.returncode, told), (3, b"cannot write\n"))
            self.assertFalse(self.beside.exists())
            if is_folder:
                self.assertEqual(os.listdir(self.out), [])
                self.out.rmdir()
            else:
                self.assertEqual(self.out.read_bytes(), b"a file")

    def test_what_stands_beside(self) -> None:
        objects = {Name(0, 7, 1, 1): whole(9, 4, 2)}
        self.journal.write_bytes(journal_of(objects))
        self.beside.mkdir()
        (self.beside / "left by a kill").write_bytes(b"left")
        self.extract()
        self.assertEqual(list(self.files()), [f"{0:032x}-7-1"])
        shutil.rmtree(self.out)
        self.beside.write_bytes(b"a file")
        self.extract(status=3)
        self.assertEqual(self.beside.read_bytes(), b"a file")
        self.beside.unlink()
        (self.beside / "folder").mkdir(parents=True)
        (self.beside / "file").write_bytes(b"a file")
        self.extract(status=3)
        self.assertEqual(sorted(os.listdir(self.beside)), ["file", "folder"])

    def test_two_runs(self) -> None:
        objects = {Name(0, 7, 1, 1): whole(9, 4, 2)}
        self.journal.write_bytes(journal_of(objects))
        slow = self.room / "slow"
        os.mkfifo(slow)
        first = subprocess.Popen([PROGRAM, "extract", "--all", "-o", self.out, slow])
        with slow.open("wb") as journal:
            # It has the folder once it waits for its journal.
            self.assertTrue(until(lambda: self.beside.exists() and waits(first)))
            self.extract(status=3)
            journal.write(journal_of(objects))
        self.assertEqual(first.wait(), 0)
        self.assertEqual(len(self.files()), 1)

    def test_killed(self) -> None:
        objects = {Name(0, 7, 1, toi): whole(4000, 500, 4) for toi in range(1, 60)}
        self.journal.write_bytes(journal_of(objects))
        began = time.monotonic()
        self.extract()
        took = time.monotonic() - began
        files = self.files()
        shutil.rmtree(self.out)
        command: list[str | Path] = [PROGRAM, "extract", "--all", "-o", self.out, self.journal]
        for step in range(min(200, int(took / 0.005) + 2)):
            with subprocess.Popen(command, stdout=subprocess.DEVNULL) as running:
                time.sleep(step * 0.005)
                running.send_signal(signal.SIGKILL)
            if self.out.exists():
                self.assertEqual(self.files(), files)
                shutil.rmtree(self.out)
        self.extract()
        self.assertEqual(self.files(), files)

    def test_full(self) -> None:
        """A file may have at most some 1,024 bytes, so a write fails."""
        objects = {Name(0, 7, 1, toi): whole(700 * toi, 500, 4) for toi in range(1, 4)}
        self.journal.write_bytes(journal_of(objects))
        limit = f"ulimit -f 1; trap '' XFSZ; exec '{PROGRAM}' extract --all -o '{self.out}' "
        ran = subprocess.run(
            ["bash", "-c", f"{limit} '{self.journal}' | cat; exit ${{PIPESTATUS[0]}}"],
            capture_output=True,
            check=False,
        )
        self.assertEqual((ran.returncode, ran.stderr), (3, b"cannot write\n"))
        self.assertFalse(self.out.exists())
        self.assertFalse(self.beside.exists())

    def test_report_fails(self) -> None:
        objects = {Name(0, 7, 1, 1): whole(9, 4, 2)}
        self.journal.write_bytes(journal_of(objects))
        with open("/dev/full", "wb") as full:
            ran = subprocess.run(
                [PROGRAM, "extract", "--all", "-o", self.out, self.journal],
                stdout=full,
                stderr=subprocess.PIPE,
                check=False,
            )
        self.assertEqual((ran.returncode, ran.stderr), (3, b"cannot write\n"))
        self.assertFalse(self.out.exists())
