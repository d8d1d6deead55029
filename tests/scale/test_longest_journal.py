"""Measures the longest possible journal, 16,777,216 entries in 755 MB, through a pipe.

It prints how long each command takes in 16 MiB of address space. `gaps` and `extract` must print
what is in the journal. `join` writes as many entries, and no command writes one more: it ends with
`full`. The journal is made while it is read, so that no disk is needed. That takes about a minute.
"""
from __future__ import annotations

import os
import struct
import subprocess
from typing import BinaryIO

from tests.support import run
from tests.support.flute_sender import block_sizes
from tests.support.run import PROGRAM

OBJECTS = 16
SYMBOLS = 1_048_575  # with the entry of its FEC OTI an object has 1,048,576 entries
BLOCK = 65_536  # symbols
MOST_MEMORY = 16 << 20  # bytes of address space
BYTE = b"x"
ENTRIES = OBJECTS * (SYMBOLS + 1)  # the most that a command reads or writes
TOO_LONG = "status 1: full\n"


def key(toi: int) -> bytes:
    """The bytes of an object's name: sender 0, TSI 7, a file (docs/FORMATS.md)."""
    return bytes(16) + (7).to_bytes(6, "big") + b"\1" + toi.to_bytes(14, "big")


def write_journal(out: BinaryIO) -> None:
    """Writes the journal, a block of entries at a time."""
    out.write(b"FLJN" + struct.pack(">H", 2))
    sizes = block_sizes(SYMBOLS, 1, BLOCK)
    for toi in range(1, OBJECTS + 1):
        name = key(toi)
        out.write(b"\1" + name + SYMBOLS.to_bytes(6, "big") + struct.pack(">HI", 1, BLOCK))
        behind = struct.pack(">H", 1) + BYTE
        for sbn, size in enumerate(sizes):
            before = b"\3" + name + struct.pack(">H", sbn)
            entries = [before + struct.pack(">H", esi) + behind for esi in range(size)]
            out.write(b"".join(entries))
    out.write(b"\xff" + ENTRIES.to_bytes(8, "big"))


def piped(*words: object) -> str:
    """What a command prints that reads the journal from standard input, and its status if not 0.

    Its memory is limited, and its processor time is printed.
    """
    read_end, write_end = os.pipe()
    maker = os.fork()
    if maker == 0:
        os.close(read_end)
        try:
            with open(write_end, "wb", buffering=1 << 20) as out:
                write_journal(out)
        except BrokenPipeError:
            pass  # the command ended before it read everything; its status is checked below
        finally:
            os._exit(0)
    os.close(write_end)
    limited = ["sh", "-c", f'ulimit -v {MOST_MEMORY >> 10}; exec "$@"', "sh", str(PROGRAM)]
    command = subprocess.Popen(
        [*limited, *map(str, words)],
        stdin=read_end,
        stdout=subprocess.PIPE,
        stderr=subprocess.STDOUT,
    )
    os.close(read_end)
    assert command.stdout
    with command.stdout as out:
        printed = out.read()
    _, status, used = os.wait4(command.pid, 0)
    os.waitpid(maker, 0)
    if status:
        return f"status {os.waitstatus_to_exitcode(status)}: {printed.decode()}"
    seconds = used.ru_utime + used.ru_stime
    entries = f"{ENTRIES:,} entries"
    used_time = f"{seconds:.2f} s of processor time"
    print(f"{words[0]}: {entries}, {used_time}, within {MOST_MEMORY >> 20} MiB of memory")
    return printed.decode()


class Longest(run.Case):
    def test_what_is_printed(self) -> None:
        of_each = (f"session 7 object {toi} whole {SYMBOLS}\n" for toi in range(1, OBJECTS + 1))
        self.is_printed("gaps", "".join(of_each), "gaps", "-")
        out = self.path("out")
        words = "extract", "-o", out, "--tsi", 7, "--toi", OBJECTS, "-"
        self.is_printed("extract", f"bytes {SYMBOLS}\n", *words)
        self.holds("extract: the file", self.bytes_of(out) == BYTE * SYMBOLS)

    def test_as_many_entries_as_can_be_are_written(self) -> None:
        counts = f"datagrams 0\nrefused 0\nentries {ENTRIES}\n"
        self.is_printed("join", counts, "join", "-o", "/dev/null", "-")

    def test_one_more(self) -> None:
        one, sent = self.path("one"), self.path("sent")
        conflict = b"\2" + key(OBJECTS + 1)
        one.write_bytes(b"FLJN\0\2" + conflict + b"\xff" + (1).to_bytes(8, "big"))
        for command in "join", "merge":
            self.is_printed(command, TOO_LONG, command, "-o", "/dev/null", "-", one)
        numbers = "--length", 1, "--symbol", 1, "--block", 1
        words = "info", "-o", "/dev/null", "--tsi", 7, "--toi", OBJECTS + 1, *numbers, "-"
        self.is_printed("info", TOO_LONG, *words)
        with sent.open("wb") as file:
            file.write(bytes(ENTRIES + 1))
        key_and_block = "--tsi", 7, "--toi", 1, "--symbol", 1, "--block", BLOCK
        self.is_printed("carousel", TOO_LONG, "carousel", "-o", "/dev/null", *key_and_block, sent)

    def is_printed(self, name: str, wanted: str, *words: object) -> None:
        printed = piped(*words)
        self.holds(name, printed == wanted, printed[:200])
