"""Tests flutejoin-mend on files that killed writers left."""
from __future__ import annotations

import os
import resource
import signal
import sys
from signal import SIG_DFL, SIG_IGN, SIGHUP, SIGINT, SIGTERM
from typing import Any

from tests.capture.case import Case
from tests.support import run
from tests.support.run import ROOT, Run, until

TOOL = ROOT / "tools" / "flutejoin-mend"
WHOLE = "got1 is whole: 23 datagrams; nothing is written, use it as it is"
NEITHER = "is neither a datagram file nor a journal"
THERE = "is there already: left by a run that was killed, or being written"
# A mend waits until its bytes are on the disk, which never happens here.
WAITS = """
import os, runpy, sys, time
os.fsync = lambda _file: time.sleep(600)
sys.path.insert(0, os.path.dirname(sys.argv[1]))
sys.argv = sys.argv[1:]
runpy.run_path(sys.argv[0], run_name="__main__")
"""

# A signal comes as soon as the file is there.
AT_ONCE = """
import builtins, os, runpy, signal, sys
opened = builtins.open
def opened_and_stopped(name, mode="r", *more, **how):
    file = opened(name, mode, *more, **how)
    if mode == "xb":
        signal.raise_signal(signal.SIGTERM)
    return file
builtins.open = opened_and_stopped
sys.path.insert(0, os.path.dirname(sys.argv[1]))
sys.argv = sys.argv[1:]
runpy.run_path(sys.argv[0], run_name="__main__")
"""


def said(text: str) -> str:
    return f"flutejoin-mend: {text}\n"


class Mended(Case):
    def mend(self, words: run.Words, **how: Any) -> Run:
        return self.tool("flutejoin-mend", words, **how)

    def mend_row(self, name: str, words: run.Words, *wanted: Any, **how: Any) -> Run:
        """Runs flutejoin-mend, and checks its status and outputs."""
        done = self.mend(words, **how)
        self.check(name, done, *wanted)
        return done

    def runs(self, words: list[str]) -> list[str]:
        """The status and standard error of each run of the tool."""
        self.write("lines", "".join(f"{line}\n" for line in words))
        return self.helper("run", TOOL, "lines").out.decode().splitlines()

    def small(self) -> None:
        """Makes a datagram file, a journal with each kind of entry, and its version 1."""
        self.write("hello", "hello")
        self.write("help", "help!")
        of = "--tsi 7 --toi 1 --symbol 2 --block 2"
        self.made(f"carousel -o small {of} hello")
        self.made(f"carousel -o other_small {of} help")
        self.made("join -o journal small other_small")
        of = "--tsi 7 --toi 2 --symbol 3 --block 2"
        self.made(f"info -o other {of} --length 9 journal")
        self.made(f"info -o more {of} --length 8 other")
        self.helper("version1", "more", "old")
        self.made("merge -o version2 old old")
        self.same("the journal of version 1", "version2", "more")


class EachByte(Mended):
    """Mends files that are cut at each byte."""

    def test_cuts(self) -> None:
        self.small()
        for file in "small", "more", "old":
            for folder in "cuts", "mended":
                self.path(f"{folder}.{file}").mkdir()
            self.helper("cuts", file, f"cuts.{file}")
            size = len(self.read(file))
            told = self.runs([f"-o mended.{file}/{n} cuts.{file}/{n}" for n in range(size)])
            self.holds(f"{file}: each cut was tried", len(told) == size, len(told))
            kinds = "".join(line[0] for line in told[:4])
            self.holds(f"{file}: a kind is told from four bytes on", kinds == "1111", kinds)
            self.holds(f"{file}: others are mended", {*told[4:]} == {"0 "}, {*told[4:]})
            self.helper("mended", file, f"mended.{file}")
            self.taken(file)

    def taken(self, file: str) -> None:
        """Checks that what was mended of a file are datagrams or entries of the whole file."""
        self.made(f"join -f -o wanted {file}")
        self.write("merged", self.read("wanted"))
        files = [str(path) for path in sorted(self.path(f"mended.{file}").iterdir())]
        for at in range(0, len(files), 60):
            done = self.program(["join", "-o", "merged", "merged", *files[at : at + 60]])
            is_taken = done.status == 0 and b"refused 0\n" in done.out
            self.holds(f"{file}: what was mended is taken, from {at} on", is_taken, done)
        self.same(f"{file}: it is part of the whole", "merged", "wanted")

    def test_other_faults(self) -> None:
        """Other faults are reported by the names that the program gives them.

        Of a journal that has one the entries are saved that are not in doubt.
        """
        self.small()
        self.path("faults").mkdir()
        self.helper("damage", "faults", 90, "more", "old", "small")
        told = self.runs([f"-o faults/{n}.mended faults/{n}" for n in range(90)])
        for number, text in enumerate(told):
            name = f"faults/{number}"
            err = self.program(f"join -f -o journal {name}").err.decode()
            fault = err.removeprefix("input 1: ").strip()
            wanted = f"1 flutejoin-mend: {name}: {fault}"
            if fault in ("", "Cut"):
                wanted = "0 "
            elif fault == "unknown kind":
                wanted = f"1 flutejoin-mend: {name}: {NEITHER}"
            is_written = bool(self.exists(f"{name}.mended"))
            is_saved = text == "0 " and fault not in ("", "Version", "unknown kind")
            is_right = is_written == is_saved and (is_saved or text == wanted)
            self.holds(f"fault {number}", is_right, (text, fault, is_written))
            if is_written:
                self.made(f"join -f -o journal {name}.mended")


class Mend(Mended):
    def setUp(self) -> None:
        super().setUp()
        self.write("cut.fldg", self.read("got1")[:3000])

    def test_datagram_file(self) -> None:
        left = "2 datagrams; 918 bytes behind them were left"
        self.mend_row("a datagram file", "-o mended cut.fldg", 0, f"mended: {left}")
        done = self.made("join -o journal mended")
        self.holds("what it holds", done.lines()[0] == "datagrams 2", done)
        printed = self.mend_row("to standard output", "-o - cut.fldg", 0, None, left)
        self.same("what is written there", printed.out, "mended")
        self.absent("no file has the name -", "-")
        self.mend_row("a whole file to standard output", "-o - got1", 0, "", WHOLE)
        self.mend_row("a whole file", "-o whole got1", 0, WHOLE)
        self.absent("nothing was written", "whole")

    def test_journal(self) -> None:
        self.made("join -o journal --source 0a000001 got1")
        self.write("all.partial", self.read("journal")[:3000])
        left = "all: 3 entries; 856 bytes behind them were left"
        self.mend_row("a journal", "-o all all.partial", 0, left)
        self.made("merge -o merged all journal")
        self.same("it is part of the whole", "merged", "journal")
        whole = "journal is whole: 24 entries; nothing is written, use it as it is"
        self.mend_row("a whole journal", "-o whole journal", 0, whole)
        self.absent("nothing was written", "whole")

    def test_streams(self) -> None:
        out = "standard output: No space left on device"
        self.mend_row("full", "-o - cut.fldg", 3, "", said(out), to="/dev/full")
        out = "standard output: Bad file descriptor"
        self.mend_row("closed", "-o - cut.fldg", 3, "", said(out), closed=[1])
        text = said("cannot write")
        self.mend_row("help, full", "--help", 3, "", text, to="/dev/full")
        self.mend_row("help, closed", "--help", 3, "", text, closed=[1])
        self.mend_row("help", "--help", 0, None)

    def test_outputs(self) -> None:
        self.write("there", "before")
        there = said("there: is there already, and is left as it is")
        nowhere = said("not/there.mending: No such file or directory")
        self.path("link").symlink_to("cut.fldg")
        for name, words, status, text in (
            ("one that is there", "-o there cut.fldg", 3, there),
            ("in place", "-o cut.fldg cut.fldg", 2, None),
            ("in place by another name", "-o link cut.fldg", 2, None),
            ("in no folder", "-o not/there cut.fldg", 3, nowhere),
            ("none", "cut.fldg", 2, None),
        ):
            self.mend_row(name, words, status, "", text)
        self.same("the file that was there", "there", b"before")
        size = len(self.read("cut.fldg"))
        self.holds("the input stays", size == 3000, size)
        limits = {resource.RLIMIT_FSIZE: 1024}
        text = said("whole: File too large")
        self.mend_row("a full disk", "-o whole cut.fldg", 3, "", text, limits=limits)
        self.absent("nothing is left", "whole", "whole.mending")
        self.write("whole.mending", "before")
        text = said(f"whole.mending: {THERE}")
        self.mend_row("what a killed run left", "-o whole cut.fldg", 3, "", text)
        self.same("that stays", "whole.mending", b"before")
        self.absent("nothing was written", "whole")

    def test_inputs(self) -> None:
        self.write("empty", "")
        for name, status, text in (
            ("file1", 1, f"file1: {NEITHER}"),
            ("empty", 1, f"empty: {NEITHER}"),
            ("missing", 3, "missing: No such file or directory"),
            ("made", 3, "made: Is a directory"),
        ):
            self.mend_row(name, f"-o whole {name}", status, "", said(text))
        self.absent("nothing was written", "whole", "whole.mending")


class MendSignals(Mended):
    """A mend that a signal ends leaves nothing."""

    def ended(
        self, name: str, status: int | None, *sent: signal.Signals, hangup: signal.Handlers
    ) -> None:
        """The signals end the run; `hangup` is its handler of SIGHUP at the start."""
        words = [sys.executable, "-c", WAITS, TOOL, "-o", "whole", "cut.fldg"]
        child = self.start(words, signals={SIGHUP: hangup, SIGINT: SIG_DFL})
        self.assertTrue(until(lambda: self.exists("whole.mending")), name)
        for number in sent:
            child.send_signal(number)
        self.check(f"signal {name}", self.finish(child), status)
        left = [name for name in os.listdir(self.folder) if name.startswith("whole")]
        self.holds(f"nothing is left, {name}", not left, left)

    def test_signals(self) -> None:
        self.write("cut.fldg", self.read("got1")[:3000])
        self.ended("INT", 130, SIGINT, hangup=SIG_DFL)
        self.ended("TERM", 143, SIGTERM, hangup=SIG_DFL)
        self.ended("HUP", 129, SIGHUP, hangup=SIG_DFL)
        self.ended("nohup", 143, SIGHUP, SIGTERM, hangup=SIG_IGN)
        self.ended("several", None, SIGHUP, SIGTERM, SIGINT, hangup=SIG_DFL)

    def test_a_signal_at_once(self) -> None:
        self.write("cut.fldg", self.read("got1")[:3000])
        done = self.command([sys.executable, "-c", AT_ONCE, TOOL, "-o", "whole", "cut.fldg"])
        self.check("a signal", done, 143)
        self.absent("nothing is left", "whole", "whole.mending")
