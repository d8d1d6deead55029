"""A list of files that were delivered, the first one first: so that their objects may go.

Each line is a JSON object with the file's `sender`, `tsi` and `toi`, and its `md5` in hexadecimal
digits, as flutejoin-files --json and flutejoin-centre write it.
"""
from __future__ import annotations

import json
import os
from typing import BinaryIO, Iterable, Iterator, Mapping, Optional

from flutejoin_tools.common.addresses import sender_bytes
from flutejoin_tools.common.file_names import PARTIAL
from flutejoin_tools.common.gaps import options
from flutejoin_tools.common.program import Command, Failed, Program, argument
from flutejoin_tools.fdt.content import ENCODINGS, Sums, Verdict
from flutejoin_tools.formats.entries import FILE
from flutejoin_tools.journals.holdings import Key
from flutejoin_tools.journals.resolving import Budget

NAME = "delivered.jsonl"
MOST_BYTES = 1 << 24  # of a list that others add to; of a longer one the newer half stays
MOST_HASHED = 1 << 30  # bytes by which a run finds what was delivered
MOST_DECODED = 1 << 26  # bytes of an object that is decoded


def read(path: str) -> Iterator[tuple[Key, bytes]]:
    """Yields the files of a list. A line that tells of none is passed over: a kill may cut one."""
    with open(path, "rb") as file:
        for line in file:
            found = told_in(line)
            if found:
                yield found


def told_in(line: bytes) -> Optional[tuple[Key, bytes]]:
    try:
        of = json.loads(line)
        source = sender_bytes(of["sender"])
        if of.get("state", Verdict.VERIFIED.value) == Verdict.VERIFIED.value:
            return Key(source, int(of["tsi"]), FILE, int(of["toi"])), bytes.fromhex(of["md5"])
    except (ValueError, KeyError, TypeError, AttributeError):
        pass
    return None


def add(path: str, lines: Iterable[str]) -> None:
    """Adds lines to a list that tell of files which it lacks, and brings it to the disk."""
    known = {*read(path)} if os.path.exists(path) else set()
    with open(path, "a+b") as file:
        if not ends_a_line(file):
            file.write(b"\n")
        for line in lines:
            found = told_in(line.encode())
            if found and found not in known:
                known.add(found)
                file.write(f"{line}\n".encode())
        file.flush()
        os.fsync(file.fileno())


def trim(path: str) -> None:
    """Removes the older half of a list that is long, in one step."""
    if os.path.exists(path) and os.path.getsize(path) > MOST_BYTES:
        with open(path, "rb") as file, open(path + PARTIAL, "wb") as out:
            file.seek(-MOST_BYTES // 2, os.SEEK_END)
            file.readline()
            out.write(file.read())
        os.rename(path + PARTIAL, path)


def ends_a_line(file: BinaryIO) -> bool:
    """Whether a file is empty, or ends in a line feed; a kill may have cut its last line."""
    if not file.seek(0, os.SEEK_END):
        return True
    file.seek(-1, os.SEEK_END)
    return file.read(1) == b"\n"


class Delivered:
    """What a list says of the generations of objects."""

    def __init__(self, path: str, program: Program) -> None:
        self.path, self.program = path, program
        self.md5s: Optional[dict[Key, list[bytes]]] = None  # in order, once anybody asks
        self.budget = Budget(MOST_HASHED)

    def of(self, key: Key) -> list[bytes]:
        if self.md5s is None:
            self.md5s = {}
            for each, md5 in read(self.path) if os.path.exists(self.path) else ():
                self.md5s.setdefault(each, []).append(md5)
        return self.md5s.get(key, [])

    def generations(self, key: Key, kept: Mapping[int, str]) -> Iterator[int]:
        """Yields the generations of an object whose file was delivered, the first one first."""
        md5s, found = self.of(key), []
        for number, path in kept.items() if md5s else ():
            sums = Sums(md5s, [*ENCODINGS], MOST_DECODED, self.budget)
            words = ["extract", "--any-size", "-o", "-", *options(key.text()), argument(path)]
            try:
                for piece in self.program.pieces(Command(words)):
                    if not self.budget.spend(len(piece)):
                        return
                    sums.update(piece)
            except Failed:  # it is not whole
                continue
            if sums.is_right():
                found.append((sums.age(), number))
        yield from (number for _, number in sorted(found))
