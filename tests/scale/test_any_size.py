"""Tests sizes beyond a store's limits: `full` without `--any-size`, and the right result with it,
up to its own limits."""
from __future__ import annotations

import os
import shutil
import struct

import datagram_files
from tests.support import run

SESSIONS, OBJECTS = 64, 4096  # as many as a store holds
ANY_SESSIONS = 32_767  # that the program takes with --any-size
NUMBERS = (5, 4, 2)  # an object of five bytes, in a block of two symbols
CONTENT = b"hello"
ANY = "--any-size"
ANY_SIZES: list[list[str]] = [[], [ANY]]  # without the option, and with it


def key_of(tsi: int, toi: int) -> bytes:
    """The key of an object of sender 0, a file, in a journal (docs/FORMATS.md)."""
    return bytes(16) + tsi.to_bytes(6, "big") + b"\1" + toi.to_bytes(14, "big")


def information_of(tsi: int, toi: int) -> bytes:
    length, symbol, block = NUMBERS
    return (
        b"\1" + key_of(tsi, toi) + length.to_bytes(6, "big") + struct.pack(">HI", symbol, block)
    )


def whole_of(tsi: int, toi: int) -> list[bytes]:
    """The entries of a whole object, whose last symbol is not padded."""
    symbol = b"\3" + key_of(tsi, toi)
    return [
        information_of(tsi, toi),
        symbol + struct.pack(">HHH", 0, 0, 4) + CONTENT[:4],
        symbol + struct.pack(">HHH", 0, 1, 1) + CONTENT[4:],
    ]


def journal_of(entries: list[bytes]) -> bytes:
    return b"FLJN\0\2" + b"".join(entries) + b"\xff" + struct.pack(">Q", len(entries))


def joined(datagrams: int, entries: int) -> str:
    return f"datagrams {datagrams}\nrefused 0\nentries {entries}\n"


class AnySize(run.Case):
    def is_full(self, *words: str) -> None:
        done = self.program(words)
        # `extract --all` reports the objects before the first one beyond the limits.
        self.check(f"{words}", done, 1, None if "--all" in words else "", "full\n")
        self.absent(f"{words}: OUT", "out")

    def prints(self, told: str, *words: str) -> None:
        self.row(f"{words}", words, 0, told)

    def leaves(self, told: str, out: bytes, *words: str) -> None:
        """Checks that a command prints this, and leaves this output."""
        self.prints(told, *words)
        self.same(f"{words}: OUT", "out", out)
        self.remove("out")

    def test_objects_of_a_session(self) -> None:
        count = 5000
        entries = [entry for toi in range(1, count + 1) for entry in whole_of(7, toi)]
        whole = journal_of(entries)
        self.write("odd", journal_of([e for t in range(1, count + 1, 2) for e in whole_of(7, t)]))
        self.write("even", journal_of([e for t in range(2, count + 1, 2) for e in whole_of(7, t)]))
        self.write("all", whole)
        for any_size in ANY_SIZES:
            told = f"entries {len(entries)}\n"
            self.leaves(told, whole, "merge", *any_size, "-o", "out", "odd", "even")
            told = f"forgotten {len(entries)}\nentries 0\n"
            words = ["forget", *any_size, "-o", "out", "--tsi", "7", "all"]
            self.leaves(told, journal_of([]), *words)
            self.prints("entries 0\n", "show", *any_size, "--conflicts", "all")
        told = joined(0, len(entries))
        for inputs in ["all"], ["odd", "even"]:
            self.is_full("join", "-o", "out", *inputs)
            self.leaves(told, whole, "join", ANY, "-o", "out", *inputs)
        words = ["-o", "out", "--tsi", "7", "--toi", str(count)]
        self.is_full("extract", *words, "all")
        self.leaves("bytes 5\n", CONTENT, "extract", ANY, *words, "all")
        lines = "".join(f"session 7 object {toi} whole 5\n" for toi in range(1, count + 1))
        self.is_full("gaps", "all")
        self.prints(lines, "gaps", ANY, "all")
        self.is_full("extract", "--all", "-o", "out", "all")
        self.prints(f"{lines}written {count}\n", "extract", "--all", ANY, "-o", "out", "all")
        names = os.listdir(self.path("out"))
        self.holds("the number of files", len(names) == count)
        self.holds("the files", {self.read(f"out/{name}") for name in names} == {CONTENT})
        shutil.rmtree(self.path("out"))
        more = journal_of([*entries, information_of(7, count + 1)])
        told = f"entries {len(entries) + 1}\n"
        words = ["-o", "out", "--tsi", "7", "--toi", str(count + 1), "--length", "5"]
        words += ["--symbol", "4", "--block", "2", "all"]
        self.is_full("info", *words)
        self.leaves(told, more, "info", ANY, *words)
        self.write("lines", b"session 7 object 5001 info length 5 symbol 4 block 2\n")
        self.is_full("info", "-o", "out", "--list", "lines", "all")
        self.leaves(told, more, "info", ANY, "-o", "out", "--list", "lines", "all")

    def test_a_list_of_many_objects(self) -> None:
        """The list alone has more objects than a store holds; the journal has none."""
        numbers = range(1, OBJECTS + 2)
        line = "session 7 object {} info length 5 symbol 4 block 2\n"
        self.write("lines", "".join(map(line.format, numbers)).encode())
        self.write("none", journal_of([]))
        self.is_full("info", "-o", "out", "--list", "lines", "none")
        wanted = journal_of([information_of(7, toi) for toi in numbers])
        words = ["-o", "out", "--list", "lines", "none"]
        self.leaves(f"entries {len(numbers)}\n", wanted, "info", ANY, *words)

    def test_datagrams_of_many_objects(self) -> None:
        """Datagram files that are joined in memory, with one object more than a store holds."""
        self.write("content", CONTENT)
        datagrams = b""
        for toi in range(1, 3):
            words = ["--tsi", "7", "--toi", str(toi), "--symbol", "4", "--block", "2", "content"]
            self.prints("datagrams 2\n", "carousel", "-f", "-o", "sent", *words)
            datagrams += self.read("sent")[6:]
        half = len(datagrams) // 2
        first, second = datagrams[:half], datagrams[half:]
        differ = [at for at in range(half) if first[at] != second[at]]
        self.assertTrue(differ)
        # A TOI has 4 bytes in these datagrams, at the same places in both.
        first_toi = (1).to_bytes(4, "big")
        places = [at for at in range(half) if first.startswith(first_toi, at) and at + 3 in differ]
        self.assertEqual(len(places), len(differ))
        for count, is_within in (OBJECTS, True), (OBJECTS + 1, False):
            sent = [datagram_files.HEADER]
            for number in range(1, count + 1):
                datagram = bytearray(first)
                for at in places:
                    datagram[at : at + 4] = number.to_bytes(4, "big")
                sent.append(bytes(datagram))
            self.write("many", b"".join(sent))
            entries = [entry for number in range(1, count + 1) for entry in whole_of(7, number)]
            words = ["-o", "out", "many"]
            if not is_within:
                self.is_full("join", *words)
            told = joined(2 * count, len(entries))
            for any_size in ANY_SIZES if is_within else ANY_SIZES[1:]:
                self.leaves(told, journal_of(entries), "join", *any_size, *words)

    def test_sessions(self) -> None:
        for count in SESSIONS, SESSIONS + 1, ANY_SESSIONS, ANY_SESSIONS + 1:
            entries = [information_of(tsi, 1) for tsi in range(count)]
            journal = journal_of(entries)
            self.write("many", journal)
            key = ["--tsi", str(count - 1), "--toi", "1"]
            numbers = ["--length", "5", "--symbol", "4", "--block", "2"]
            for any_size, most in zip(ANY_SIZES, (SESSIONS, ANY_SESSIONS)):
                if count > most:
                    self.is_full("join", *any_size, "-o", "out", "many")
                    self.is_full("gaps", *any_size, "many")
                    self.is_full("extract", *any_size, "-o", "out", *key, "many")
                    self.is_full("extract", *any_size, "--all", "-o", "out", "many")
                    self.is_full("info", *any_size, "-o", "out", *key, *numbers, "many")
                    continue
                told = joined(0, count)
                self.leaves(told, journal, "join", *any_size, "-o", "out", "many")
                words = ["-o", "out", *key, *numbers, "many"]
                self.leaves(f"entries {count}\n", journal, "info", *any_size, *words)
                lines = "".join(
                    f"session {tsi} object 1 partial missing 2 conflicting 0 misfit 0\n"
                    "gap 0/0-1 missing\n"
                    for tsi in range(count)
                )
                self.prints(lines, "gaps", *any_size, "many")
                words = ["extract", *any_size, "-o", "out", *key, "many"]
                self.row(f"{words}", words, 1, "", "not whole: 0/0\n")

    def test_symbols_of_an_object(self) -> None:
        """One symbol more than a store holds, of two journals together."""
        most = 1 << 20
        self.write("content", bytes(most + 1))
        words = ["--tsi", "7", "--toi", "1", "--symbol", "1", "--block", "65536", "content"]
        self.prints(f"datagrams {most + 1}\n", "carousel", "-o", "sent", *words)
        self.is_full("join", "-o", "out", "sent")
        self.prints(joined(most + 1, most + 2), "join", ANY, "-o", "all", "sent")
        self.is_full("gaps", "all")
        self.prints(f"session 7 object 1 whole {most + 1}\n", "gaps", ANY, "all")
        words = ["-o", "out", "--tsi", "7", "--toi", "1", "all"]
        self.is_full("extract", *words)
        self.leaves(f"bytes {most + 1}\n", bytes(most + 1), "extract", ANY, *words)
