"""Tests what flutejoin-map leaves: its output, its faults, and a run that a signal ends."""
from __future__ import annotations

import os
import resource
import shutil
import signal
import sys
from signal import SIG_DFL, SIG_IGN, SIGHUP, SIGINT, SIGKILL, SIGTERM

from tests.map.test_drawn import Case
from tests.support import run
from tests.support.run import ROOT, Run, until

TOOL = ROOT / "tools" / "flutejoin-map"
CANNOT = "flutejoin-map: cannot write"


def cannot_write(name: str, why: str) -> str:
    return f"flutejoin-map: {name}: cannot write: {why}"


class OneStation(Case):
    def setUp(self) -> None:
        super().setUp()
        self.sent("one", "--toi 1", 1000, 64, 40_000)
        self.station("one1", "one", 30, 1)


class Outputs(OneStation):
    def setUp(self) -> None:
        super().setUp()
        self.station("one2", "one", 40, 2)

    def test_file(self) -> None:
        printed = self.map_row("standard output", "-o - one1 one2", 0, None).out
        self.map_row("a file", "-o page.svg one1 one2", 0)
        self.same("is the same page", "page.svg", printed)
        self.path("page.svg").chmod(0o640)
        self.map_row("again", "-o page.svg one1", 0)
        mode = self.path("page.svg").stat().st_mode & 0o777
        self.holds("its mode stays", mode == 0o640, oct(mode))
        self.path("link.svg").symlink_to("page.svg")
        self.map_row("a link", "-o link.svg one1", 0)
        self.holds("a link stays", self.path("link.svg").is_symlink())

    def test_beside(self) -> None:
        self.map_row("a page", "-o page.svg one1 one2", 0)
        self.write("page.svg.partial", "left")
        self.map_row("what a killed run left", "-o page.svg one1", 0)
        self.absent("it is gone", "page.svg.partial")
        before = self.read("page.svg")
        self.path("page.svg.partial").mkdir()
        text = cannot_write("page.svg", "page.svg.partial beside it is in the way")
        self.map_row("a folder beside", "-o page.svg one2", 3, "", text)
        self.same("OUT is what it was", "page.svg", before)

    def test_folders(self) -> None:
        nothing = "No such file or directory"
        self.path("folder").mkdir()
        for name, out, why in (
            ("a folder that is not there", "not/there.svg", nothing),
            ("a folder that takes no files", "/proc/page.svg", nothing),
            ("a folder as OUT", "folder", "Is a directory"),
        ):
            self.map_row(name, f"-o {out} one1", 3, "", cannot_write(out, why))

    def test_folder_without_leave(self) -> None:
        self.path("locked").mkdir(mode=0o555)
        self.folder.chmod(0o755)
        self.folder.parent.chmod(0o755)
        try:
            tried = self.shell(f"'{TOOL}' --help && flutejoin --version", nobody=True)
        except OSError:
            self.skipTest("no other user can be had here")
        if tried.status != 0:
            self.skipTest("the tool is not another user's to run")
        done = self.command([TOOL, "-o", "locked/page.svg", "one1"], nobody=True)
        text = cannot_write("locked/page.svg", "Permission denied")
        self.check("a folder without leave to write", done, 3, "", text)

    def test_full(self) -> None:
        text = cannot_write("/dev/full", "No space left on device")
        self.map_row("a full device", "-o /dev/full one1", 3, "", text)
        self.map_row("a page", "-o page.svg one1", 0)
        before = self.read("page.svg")
        limits = {resource.RLIMIT_FSIZE: 2048}
        text = cannot_write("page.svg", "File too large")
        self.map_row("a full disk", "-o page.svg one2", 3, "", text, limits=limits)
        self.same("OUT is what it was", "page.svg", before)
        self.absent("nothing beside", "page.svg.partial")

    def test_inputs_stay(self) -> None:
        self.map_row("OUT is a journal", "-o ./one1 one1", 2, "", None)
        for magic in b"FLJN", b"FLDG":
            self.write("given", magic + b"\0\2")
            self.map_row(f"OUT begins with {magic!r}", "-o given one1", 2, "", None)
            self.same(f"OUT that begins with {magic!r} stays", "given", magic + b"\0\2")


class Streams(OneStation):
    def test_standard_output(self) -> None:
        for words in "--text one1", "-o - one1", "--help":
            self.map_row(f"full, {words}", words, 3, "", CANNOT, to="/dev/full")
            self.map_row(f"closed, {words}", words, 3, "", CANNOT, closed=[1])

    def test_input_and_error(self) -> None:
        self.map_row("closed input and error", "--text one1", 0, None, closed=[0, 2])


class Signals(OneStation):
    """A run that a signal ends while the program reads leaves nothing."""

    def setUp(self) -> None:
        super().setUp()
        self.write("slow", "#!/bin/sh\necho $$ > begun\nmv begun started\nexec sleep 600\n")
        self.path("slow").chmod(0o755)

    def ended(
        self, name: str, status: int | None, *sent: signal.Signals, hangup: signal.Handlers
    ) -> None:
        """The signals end the run; `hangup` is its handler of SIGHUP at the start."""
        words = [sys.executable, TOOL, "--flutejoin", "./slow", "-o", "ended.svg", "one1"]
        child = self.start(words, signals={SIGINT: SIG_DFL, SIGHUP: hangup})
        self.assertTrue(until(lambda: self.exists("started")), name)
        for number in sent:
            child.send_signal(number)
        child.wait(run.LONGEST)
        program = int(self.read("started"))
        ends = until(lambda: not os.path.exists(f"/proc/{program}"), 60)
        self.holds(f"its program ends, {name}", ends)
        if not ends:
            os.kill(program, SIGKILL)
        self.check(f"signal {name}", self.finish(child), status)
        left = [name for name in os.listdir(self.folder) if "ended" in name]
        self.holds(f"no page is left, {name}", not left, left)
        self.remove("started")

    def test_signals(self) -> None:
        self.ended("INT", 130, SIGINT, hangup=SIG_DFL)
        self.ended("TERM", 143, SIGTERM, hangup=SIG_DFL)
        self.ended("HUP", 129, SIGHUP, hangup=SIG_DFL)
        self.ended("HUP under nohup, and TERM", 143, SIGHUP, SIGTERM, hangup=SIG_IGN)
        self.ended("several", None, SIGHUP, SIGTERM, SIGINT, hangup=SIG_DFL)


class Faults(OneStation):
    def test_journals(self) -> None:
        self.write("cut", self.read("one1")[:3000])
        self.write("words", "hello, world")
        self.path("folder").mkdir()
        os.mkfifo(self.path("pipe"))
        cannot = "cannot be read"
        for name, journals, status, text in (
            ("one that is cut", "one1 cut", 1, "cut: Cut"),
            ("one that is cut, alone", "cut", 1, "cut: Cut"),
            ("a datagram file", "one", 1, "one: Magic"),
            ("another file", "words", 1, "words: Magic"),
            ("another file, second", "one1 words", 1, "words: unknown kind"),
            ("none", "missing", 3, f"missing: {cannot}: No such file or directory"),
            ("a folder", "folder", 3, f"folder: {cannot}: is no regular file"),
            ("a pipe", "pipe", 3, f"pipe: {cannot}: is no regular file"),
        ):
            self.map_row(name, f"-o bad.svg {journals}", status, "", f"flutejoin-map: {text}")
        self.absent("no page", "bad.svg", "bad.svg.partial")

    def test_program(self) -> None:
        none = "flutejoin-map: there is no program"
        other = "flutejoin-map: one1: flutejoin ended with status 1"
        line = "flutejoin-map: flutejoin tells a line that is not known here: "
        line += "gaps --any-size --ranges one1"
        of = "--text one1"
        text = f"{none} flutejoin; --flutejoin names it"
        self.map_row("none on the PATH", of, 3, "", text, env={"PATH": "/nowhere"})
        self.map_row("none", f"--flutejoin ./missing {of}", 3, "", f"{none} ./missing")
        self.map_row("named", f"--flutejoin '{self.bin}/flutejoin' {of}", 0, None)
        self.map_row("another", f"--flutejoin false {of}", 1, "", other)
        self.map_row("one that prints other lines", f"--flutejoin echo {of}", 3, "", line)

    def test_program_beside_the_tool(self) -> None:
        for folder in "lib", "installed":
            self.path(folder).mkdir()
        shutil.copy(TOOL, self.path("lib"))
        shutil.copytree(ROOT / "tools/flutejoin_tools", self.path("lib/flutejoin_tools"))
        self.path("installed/flutejoin-map").symlink_to("../lib/flutejoin-map")
        self.path("installed/flutejoin").symlink_to(run.PROGRAM)
        given = {"PATH": os.environ["PATH"]}
        done: Run = self.command(["installed/flutejoin-map", "--text", "one1"], env=given)
        self.check("the program beside the tool", done, 0, None)

    def test_words(self) -> None:
        for words in (
            *("", "--text", "-o x", "one1", "--text -o x one1", "--text --tsi 7 one1"),
            *("--text --toi 7 one1", "--text --fdt 1 one1", "--text --tsi 7 --toi 0 one1"),
            *("--text --tsi 7 --toi 1 --fdt 1 one1", "--text --tsi x --toi 1 one1"),
            "--text --tsi 281474976710656 --toi 1 one1",
            "--text --source 0a one1",
            "--text --tsi 7 --toi 1 --source 0x00000a one1",
            *("--text -", "--tex one1"),
        ):
            self.map_row(f"'{words}'", words, 2, "", None)

    def test_help(self) -> None:
        done = self.map_row("help", "--help", 0, None)
        example = b"flutejoin-map -o map.svg --tsi 7 --toi 1 station1"
        self.holds("it has an example", example in done.out, done)
