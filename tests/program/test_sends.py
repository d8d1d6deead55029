"""Tests of `carousel` as a stream: from files, pipes and files that change meanwhile."""
from __future__ import annotations

import os
import resource
import struct
import subprocess

import datagram_files
from tests.program.case import NAME, Case
from tests.support import run
from tests.support.flute_sender import packets

MEBIBYTE = 1 << 20  # bytes
LITTLE = {resource.RLIMIT_AS: 16 * MEBIBYTE}  # memory for a run


def datagrams(content: bytes, symbol: int, block: int) -> bytes:
    """The datagram file of the object 1 of the session 7."""
    return datagram_files.content(packets(7, 1, content, symbol, block))


def counted(number: int) -> bytes:
    """Bytes that differ from place to place."""
    return b"".join(struct.pack(">I", place) for place in range(-(-number // 4)))[:number]


class Sending(Case):
    def test_lengths(self) -> None:
        """Lengths around those at which a file is believed, held, or read at once."""
        for length in (1, 1400, 65_535, 65_536, 131_072, 131_073, MEBIBYTE, MEBIBYTE + 1):
            content = counted(length)
            self.write("content", content)
            of = f"{NAME} --symbol 1400 --block 64"
            wanted = datagrams(content, 1400, 64)
            told = f"datagrams {-(-length // 1400)}"
            self.makes(f"{length} bytes", f"carousel -f -o got {of} content", told, wanted)
            piped = f"carousel -f -o got {of} -"
            self.makes(f"{length} bytes of a pipe", piped, told, wanted, stdin=content)

    def test_memory(self) -> None:
        """400 MB from a file, and 40 MB from a pipe, in 16 MiB of address space."""
        with self.path("large").open("wb") as file:
            file.truncate(400_000_000)
        of = f"carousel -o /dev/null {NAME} --symbol 1400 --block 1024"
        self.row("a file", f"{of} large", 0, "datagrams 285715", limits=LITTLE)
        content = bytes(40_000_000)
        self.row("a pipe", f"{of} -", 0, "datagrams 28572", stdin=content, limits=LITTLE)

    def test_nothing_put_aside(self) -> None:
        """Without a temporary folder, a pipe can be sent to standard output only if it fits in
        memory; to an OUT it can be sent, since the temporary file is beside OUT."""
        of = f"carousel -o - {NAME} --symbol 1400 --block 64 -"
        nowhere = {"TMPDIR": "missing"}
        large = counted(3 * MEBIBYTE)
        self.row("too much", of, 3, "", "cannot write", stdin=large, env=nowhere)
        small = counted(MEBIBYTE // 10)
        sent = datagrams(small, 1400, 64)
        self.row("what memory holds", of, 0, sent, "datagrams 75", stdin=small, env=nowhere)
        self.write("got", "old")
        beside = of.replace("-o -", "-f -o got")
        self.row("beside OUT", beside, 0, "datagrams 2247", stdin=large, env=nowhere)
        self.same("its datagrams", "got", datagrams(large, 1400, 64))
        self.absent("nothing beside it", "got.partial", "got.aside.0")

    def test_no_file_is_left(self) -> None:
        os.mkdir(self.path("aside"))
        of = f"carousel -o got {NAME} --symbol 1400 --block 64 -"
        self.row("a pipe", of, 0, None, stdin=counted(3 * MEBIBYTE), env={"TMPDIR": "aside"})
        self.holds("nothing aside", not os.listdir(self.path("aside")))

    def test_files_of_the_system(self) -> None:
        """The length that the system gives for its own files is wrong."""
        content = self.path("/proc/version").read_bytes()
        of = f"carousel -o got {NAME} --symbol 1400 --block 64 /proc/version"
        self.makes("a file of /proc", of, "datagrams 1", datagrams(content, 1400, 64))

    def test_a_length_that_changes(self) -> None:
        """The program waits for the reader of its output while the file is cut, or gets longer."""
        for name, length in (("shorter", 2 * MEBIBYTE), ("longer", 8 * MEBIBYTE + 1)):
            self.write("content", bytes(8 * MEBIBYTE))
            words = ["carousel", "-o", "-", *run.split(NAME), "--symbol", "1400", "--block", "64"]
            with subprocess.Popen(
                [run.PROGRAM, *words, "content"],
                stdout=subprocess.PIPE,
                stderr=subprocess.PIPE,
                cwd=self.folder,
            ) as sending:
                assert sending.stdout
                begun = sending.stdout.read(1)
                os.truncate(self.path("content"), length)
                rest, told = sending.communicate(timeout=run.LONGEST)
            done = run.Run(sending.returncode, b"", told)
            self.check(f"a file that gets {name}", done, 3, "", "input 1: Read")
            self.holds(f"{name}: not all was written", len(begun + rest) < 9 * MEBIBYTE)
