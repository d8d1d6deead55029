"""A fault in each call of a command on its files, under strace."""
from __future__ import annotations

import os
import pathlib
from typing import Iterator

from tests.calls.case import Call
from tests.calls.disk import Disk, Left, first_loss
from tests.calls.test_order import ALL, COMMANDS, MODE, OLD, Writing
from tests.outputs.case import CREATE, WRITE
from tests.support.run import Run

NOT_ON_DISK = "output may not be on the disk"
# The commands of which a new OUT is tried too, and a fault in each call that only looks
WHOLLY = "join", "extract"

PRINTS: dict[str, dict[str, int]] = {
    "show both": {"both": 1},
    "gaps both": {"both": 1},
    "gaps --summary --json both": {"both": 1},
    "compare both one": {"both": 1, "one": 2},
    "packet 10A004000000000000000007000000010000000068656C6C": {},
}


def runs() -> Iterator[tuple[str, str, dict[str, int]]]:
    """Each command over a file, and some to a new one, with OUT and the inputs' numbers."""
    for words, inputs in COMMANDS.items():
        for target in "there", "new":
            if target == "there" or words.startswith(WHOLLY):
                yield words.format(f"kept/{target}"), f"kept/{target}", inputs


def is_expected(call: Call, out: str, inputs: dict[str, int]) -> bool:
    """Whether a call is one of a command on its inputs, its output or standard output."""
    paths = out, f"{out}.partial", "kept", *inputs
    inner = call.path.startswith(f"{out}.partial/")
    return call.path in paths or inner or call.stream == 1 and call.name == "write"


class Faults(Writing):
    """After a fault OUT is what it was, or, if it already has its name, the new file."""

    def each(self, words: str, out: str, inputs: dict[str, int]) -> Iterator[tuple[Call, str]]:
        """Makes a run without a fault, and gives each of its calls, and what may be told if that
        fails; "" if nothing need be."""
        self.begin()
        done, calls = self.traced(words)
        self.check(words, done, 0, None)
        beside = f"{out}.partial"
        made = next(at for at, it in enumerate(calls) if self.is_made(it, beside))
        for at, call in enumerate(calls):
            if self.may_be_none(call) and not words.startswith(WHOLLY):
                continue
            if is_expected(call, out, inputs):
                yield call, self.told(call, out, inputs, WRITE if at >= made else CREATE)

    def is_made(self, call: Call, beside: str) -> bool:
        """Whether this is the first call for which what is beside OUT is there and locked."""
        is_new = call.plain() == "open" and "O_CREAT" in call.flags and "/" in call.path
        return call.path == beside and call.name == "write" or (
            is_new and call.path.startswith(f"{beside}/")
        )

    def told(self, call: Call, out: str, inputs: dict[str, int], of_output: str) -> str:
        """The fault that the failure of a call is told as."""
        name = call.plain()
        if call.path in inputs:
            number = inputs[call.path]
            return f"input {number}: Read" if name == "read" else f"cannot open input {number}"
        if call.stream == 1:
            return WRITE
        if call.path == "kept":
            return NOT_ON_DISK if name == "fsync" else CREATE
        # OUT's first bytes may not be read, locks may not be there, and a limit may be unknown.
        is_guard = call.path == out and (name == "read" or "O_RDONLY" in call.flags)
        return "" if is_guard or name == "flock" else of_output

    def may_be_none(self, call: Call) -> bool:
        """Whether the failure of such a call may also have no effect: it only looks."""
        return call.name in ("statx", "fstat", "newfstatat", "readlink", "lseek")

    def fault(self, words: str, call: Call, error: str = "EIO") -> tuple[Run, Disk, list[Call]]:
        """Makes the run with a fault in this call."""
        self.begin()
        disk = Disk(self.folder)
        done, calls = self.traced(words, f"{call.name}:error={error}:when={call.number}")
        injected = [(it.name, it.path) for it in calls if it.is_injected]
        self.assertEqual(injected, [(call.name, call.path)], words)
        return done, disk, calls

    def stays(self, name: str, out: str, call: Call) -> None:
        """OUT is what it was, and nothing is beside it but an empty folder that could not be looked
        at."""
        if out == "kept/there":
            is_same = self.read(out) == OLD and self.mode(out) == oct(MODE)
            self.holds(f"{name}: OUT is what it was", is_same)
        beside = self.path(f"{out}.partial")
        if call.path == f"{out}.partial" and not call.changes() and beside.is_dir():
            self.holds(f"{name}: the folder beside it is empty", not os.listdir(beside))
        else:
            left = os.listdir(self.path("kept"))
            self.holds(f"{name}: nothing else is there", left == ["there"], left)

    def test_files(self) -> None:
        for words, out, inputs in runs():
            found = [*self.each(words, out, inputs)]
            new = self.read(out)
            for call, text in found:
                name = f"{words}: {call.name} of {call.path or 'standard output'}, {call.number}"
                done, disk, calls = self.fault(words, call)
                lost = first_loss(disk, calls, out, new)
                self.holds(f"{name}: a lost power leaves one of both", lost is None, lost)
                if self.may_be_none(call) and done.status == 0:
                    text = ""
                is_printed = not text or call.stream == 1
                self.check(name, done, 3 if text else 0, None if is_printed else "", text)
                if not text or text == NOT_ON_DISK or call.stream == 1:
                    self.same(f"{name}: OUT is new", out, new)
                    self.alone(name, out)
                else:
                    self.stays(name, out, call)

    def test_folder(self) -> None:
        words, out, inputs = ALL.format("kept/out"), "kept/out", {"three": 1}
        found = [*self.each(words, out, inputs)]
        files = self.files(out)
        new: Left = {name: [content] for name, content in files.items()}
        last = max(call.number for call, _ in found if call.stream == 1)
        for call, text in found:
            name = f"{words}: {call.name} of {call.path or 'standard output'}, {call.number}"
            done, disk, calls = self.fault(words, call)
            lost = first_loss(disk, calls, out, new)
            self.holds(f"{name}: a lost power leaves one of both", lost is None, lost)
            if self.may_be_none(call) and done.status == 0:
                text = ""
            self.check(name, done, 3 if text else 0, None, text)
            is_last = call.stream == 1 and call.number == last
            if not text or text == NOT_ON_DISK or is_last:
                self.holds(f"{name}: OUT is new", self.files(out) == files)
                self.alone(name, out)
            else:
                self.stays(name, out, call)

    def test_prints(self) -> None:
        """What only prints reports its inputs and standard output in the same words."""
        for words, inputs in PRINTS.items():
            done, calls = self.traced(words)
            self.check(words, done, 0, None)
            for call in calls:
                if not is_expected(call, "kept/none", inputs) or call.plain() == "flock":
                    continue
                name = f"{words}: {call.name} of {call.path or 'standard output'}, {call.number}"
                failed, _, _ = self.fault(words, call)
                self.check(name, failed, 3, None, self.told(call, "", inputs, ""))

    def test_put_aside(self) -> None:
        """A fault of what is put aside, once of each kind of call, and at its last."""
        self.write("none", b"")
        self.write("large", os.urandom(300_000))
        self.made("carousel -o many --tsi 7 --toi 9 --symbol 100 --block 64 large")
        of = "--tsi 7 --toi 9 --symbol 1400 --block 64 -"
        joining = "join --any-size --memory 500K -o kept/there many"
        for words, given, text in (
            (joining, pathlib.Path("none"), f"{WRITE} what is put aside"),
            (f"carousel -o kept/there {of}", pathlib.Path("large"), WRITE),  # each read is full
        ):
            self.begin()
            done, calls = self.traced(words, stdin=given)
            self.check(words, done, 0, None)
            aside = [it for it in calls if it.path.startswith("kept/there.aside.0")]
            tried = {it.name: it for it in reversed(aside)} | {"last": aside[-1]}
            self.holds(f"{words}: kinds of calls", len(tried) > 4, tried)
            for call in tried.values():
                name = f"{words}: {call.name}, {call.number}"
                self.begin()
                fault = f"{call.name}:error=EIO:when={call.number}"
                done, _ = self.traced(words, fault, stdin=given)
                is_source = call.name == "read" and words.startswith("carousel")
                self.check(name, done, 3, "", "input 1: Read" if is_source else text)
                self.same(f"{name}: OUT is what it was", "kept/there", OLD)
                left = [it for it in os.listdir(self.path("kept")) if it != "there"]
                is_kept = call.name == "unlink"
                self.holds(f"{name}: nothing is left", not left or is_kept, left)

    def test_interrupted(self) -> None:
        """A call that a signal interrupts is made again."""
        words, out, inputs = next(runs())
        found = [call for call, _ in self.each(words, out, inputs)]
        new = self.read(out)
        for call in found:
            if call.name in ("read", "write", "fsync", "openat"):
                name = f"{call.name} of {call.path}, {call.number}"
                done, _, _ = self.fault(words, call, "EINTR")
                self.check(name, done, 0, None)
                self.same(f"{name}: OUT is new", out, new)

    def test_not_removed(self) -> None:
        """What is beside OUT stays only if it can't be removed, and the fault before is told."""
        words = "join -o kept/there one two"
        done, _ = self.traced(words, "fsync:error=EIO:when=1", "unlink:error=EIO")
        self.check("the file beside OUT", done, 3, "", WRITE)
        self.same("OUT stays", "kept/there", OLD)
        self.same("it is left", "kept/there.partial", "both")
        self.check("the next run", self.program(words), 0, None)
        self.alone("the next run", "kept/there")
        self.write("kept/there.partial", "left")
        done, _ = self.traced(words, "unlink:error=EIO")
        self.check("a leftover", done, 3, "", CREATE)
        self.same("it stays", "kept/there.partial", b"left")
        done, _ = self.traced(ALL.format("kept/out"), "rename:error=EIO", "rmdir:error=EIO")
        self.check("a folder", done, 3, None, WRITE)
        left = os.listdir(self.path("kept/out.partial"))
        self.holds("the folder beside OUT is left, without files", not left, left)
        self.absent("there is no OUT", "kept/out")
