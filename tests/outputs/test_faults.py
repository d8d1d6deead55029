"""Faults after the output was created: it stays as it was, and nothing is left beside it."""
from __future__ import annotations

import os
import resource
from signal import SIG_IGN, SIGXFSZ
from typing import Any

from tests.outputs.case import (
    CREATE,
    FIRST,
    LINES_OF_BOTH,
    LINES_OF_TWO,
    SECOND,
    THIRD,
    WRITE,
    Case,
)
from tests.support.run import Run

TARGETS = "all", "fresh"
LARGE = "--tsi 7 --toi 3 --symbol 1400 --block 64"


class Stays(Case):
    """`all` is there, and `fresh` isn't."""

    def stays(self, name: str, done: Run, target: str, before: str, *wanted: Any) -> None:
        """Checks that a run failed as wanted, and left the output as it was."""
        self.check(f"{name}, to {target}", done, *wanted)
        self.alone(name, target)
        if target == "all":
            self.same(f"{name}: the output is what it was", "all", before)
        else:
            self.absent(f"{name}: there is no new output", "fresh")


class Inputs(Stays):
    def test_merge_minus_join_and_info(self) -> None:
        self.write("cut", self.part("one", 100))
        self.write("cut_end", self.part("one", -1))
        self.write("lines", "session 7 object 1 whole 5\n" * 2)
        for target in TARGETS:
            for name, words, text in (
                ("merge with a cut journal", f"merge -o {target} two cut", "input 2: Cut"),
                ("minus of a cut journal", f"minus -o {target} cut two", "input 1: Cut"),
                ("minus, the other cut", f"minus -o {target} two cut", "input 2: Cut"),
                ("fill of a cut journal", f"fill -o {target} --gaps /dev/null cut", "input 1: Cut"),
                ("fill, a bad line", f"fill -o {target} --gaps lines two", "bad line 2"),
                ("join, cut at its end", f"join -o {target} two sent2 cut_end", "input 3: Cut"),
                ("info, cut at its end", f"info -o {target} {THIRD} cut_end", "input 1: Cut"),
            ):
                self.copy("one", "all")
                self.stays(name, self.program(words), target, "one", 1, "", text)

    def test_extract(self) -> None:
        """The journal is cut after a whole object, or the object is not whole."""
        self.write("cut_both", self.part("both", -1))
        first = 8 + int.from_bytes(self.read("sent1")[6:8], "big")
        self.write("sent_part", self.part("sent1", first))
        self.made("join -o part sent_part")
        for target in TARGETS:
            for name, journal, text in (
                ("a journal that is cut behind the object", "cut_both", "input 1: Cut"),
                ("a part", "part", "not whole: 0/1"),
            ):
                self.copy("other", "all")
                done = self.program(f"extract -o {target} {FIRST} {journal}")
                self.stays(name, done, target, "other", 1, "", text)
        words = f"extract -o nowhere/out {FIRST} cut_both"
        self.row("before an output that cannot be created", words, 1, "", "input 1: Cut")


class Limits(Stays):
    """No file becomes longer than `ulimit -f` allows, and no signal ends the program for it."""

    LIMIT = 300_000

    def setUp(self) -> None:
        super().setUp()
        self.write("large", os.urandom(1_000_000))
        self.made(f"carousel -o sent3 {LARGE} large")
        self.made("join -o three sent3")

    def limited(self, words: str, most: int = LIMIT, **how: Any) -> Run:
        return self.program(words, limits={resource.RLIMIT_FSIZE: most}, **how)

    def test_file_that_may_not_grow(self) -> None:
        """A write fails after some bytes."""
        for target in TARGETS:
            for words in (
                "join -o {} three one",
                "merge -o {} three one",
                "minus -o {} three one",
                "fill -o {} --gaps /dev/null three",
                "forget --conflicts -o {} three",
                f"info -o {{}} {THIRD} three",
                "extract -f --tsi 7 --toi 3 -o {} three",
                f"carousel -f -o {{}} {LARGE} large",
            ):
                self.copy("one", "all")
                done = self.limited(words.format(target))
                self.stays(f"a limit, {words}", done, target, "one", 3, "", WRITE)
        self.copy("one", "all")
        done = self.limited("join -o all three one", signals={SIGXFSZ: SIG_IGN})
        self.stays("without the signal", done, "all", "one", 3, "", WRITE)

    def test_every_length(self) -> None:
        """A file may become just as long as the limit."""
        for words, wanted in (
            ("extract --tsi 7 --toi 3 -o {} three", "large"),
            ("join -o {} three", "three"),
            ("extract --tsi 7 --toi 2 -o {} two", "other"),
        ):
            most = len(self.read(wanted))
            for less in 1, most // 2, most:
                done = self.limited(words.format("got"), most - less)
                self.check(f"{less} bytes too long, {words}", done, 3, "", WRITE)
                self.absent("nothing is left", "got", "got.partial")
            self.check(f"a limit that is met, {words}", self.limited(words.format("got"), most),
                       0, None)
            self.same(f"all of it, {words}", "got", wanted)
            self.remove("got")

    def test_folder(self) -> None:
        self.made("merge -o each three two")
        done = self.limited("extract --all -o found each")
        self.check("one object is too long", done, 3, None, WRITE)
        self.absent("no folder", "found", "found.partial")
        done = self.limited("extract --all -o found each", 1_000_000)
        self.check("each is short enough", done, 0, None)

    def test_put_aside(self) -> None:
        """What is put aside, in files without names, has the limit too."""
        for target in TARGETS:
            self.copy("one", "all")
            done = self.limited(f"join --memory 1K -o {target} sent3 one", 150_000)
            self.stays("facts", done, target, "one", 3, "", f"{WRITE} what is put aside")
        words = f"carousel -o got {LARGE} -"
        done = self.limited(words, stdin=self.read("large"))
        self.check("a content", done, 3, "", WRITE)
        self.absent("nothing is left of it", "got", "got.partial", "got.aside.0")
        self.check("a content that is no longer",
                   self.limited(words, 1_100_000, stdin=self.read("large")), 0, None)

    def test_standard_output(self) -> None:
        for out in "-", "/dev/stdout":
            done = self.limited(f"join -o {out} three", to="got")
            self.check(f"a journal to {out}", done, 3, None, WRITE)
            got = self.read("got")
            is_begin = len(got) <= self.LIMIT and self.read("three").startswith(got)
            self.holds(f"it has at most the first bytes, {out}", is_begin)
        self.write("got", bytes(self.LIMIT - 5))
        for most, status, behind in (self.LIMIT - 1, 3, b""), (self.LIMIT, 0, b"hello"):
            with self.path("got").open("ab") as file:
                done = self.limited(f"extract -o - {SECOND} two", most, to=file)
            self.check(f"behind what is there, {most}", done, status, None, None)
            self.same(f"what is behind it, {most}", self.read("got")[self.LIMIT - 5:], behind)
        self.check("lines", self.limited("show three", 4096, to="got"), 3, None, WRITE)
        self.check("help", self.limited("--help", 100, to="got"), 3, None, WRITE)
        self.same("nothing of the help", "got", b"")
        self.check("a pipe has no limit", self.limited("join -o - two", 0), 0, self.read("two"),
                   LINES_OF_TWO)

    def test_standard_error(self) -> None:
        """A fault that can't be told is the status all the same."""
        for words, status in ("show nowhere", 3), ("show", 2), ("join -o /dev/full two", 3):
            self.check(words, self.limited(words, 5, err="told"), status, "", "")
            self.same(f"nothing is told, {words}", "told", b"")


class Mounted(Case):
    def mount(self, folder: str, *options: str) -> None:
        """Mounts a file system at a folder, if that is permitted."""
        self.path(folder).mkdir()
        words = ["mount", "-t", "tmpfs", *options, "none", self.path(folder)]
        if self.command(words).status != 0:
            self.skipTest("no file system can be mounted here")
        self.addCleanup(self.command, ["umount", self.path(folder)], folder="/")


class SmallDisk(Mounted):
    def test_full_disk(self) -> None:
        self.write("large", os.urandom(3_000_000))
        self.made(f"carousel -o sent3 {LARGE} large")
        self.made("join -o three sent3")
        self.mount("small", "-o", "size=1m")
        self.copy("one", "small/all")
        self.row("a full disk", "join -o small/all small/all three", 3, "", WRITE)
        self.same("the output is what it was", "small/all", "one")
        self.alone("a full disk", "small/all")
        words = "extract -o small/object --tsi 7 --toi 3 three"
        self.row("a new output", words, 3, "", WRITE)
        self.absent("no new output", "small/object", "small/object.partial")


class TwoDisks(Mounted):
    """Files on two disks may have the same number, and are still different files."""

    def test_numbers(self) -> None:
        self.mount("disk1")
        self.mount("disk2")
        self.copy("one", "disk1/all")
        self.write("disk2/all.partial", "garbage")
        numbers = {self.path(name).stat().st_ino for name in ("disk1/all", "disk2/all.partial")}
        self.holds("the files have one number", len(numbers) == 1, numbers)
        self.row("a leftover", "join -o disk2/all disk1/all two", 0, None)
        self.same("the journal in its place", "disk2/all", "both")


class Disk(Case):
    """The requests to the disk before success is reported, in this order; and a disk that fails."""

    def setUp(self) -> None:
        super().setUp()
        self.path("kept").mkdir()

    def asked(self, target: str, wish: str, *wanted: Any) -> Run:
        """A join of both stations to a file that exists, or to a new one."""
        self.copy("one", "kept/there")
        done = self.through(wish, f"join -o kept/{target} one two")
        self.check(f"{wish or 'all'}, {target}", done, *wanted)
        return done

    def test_order(self) -> None:
        for target in "there", "new":
            asked = (
                f"fsync {target}.partial\nrename {target}.partial to {target}\nfsync kept\n"
                f"{LINES_OF_BOTH}"
            )
            self.asked(target, "", 0, asked)
        asked = "fsync object.partial\nrename object.partial to object\nfsync kept\nbytes 5\n"
        done = self.through("", f"extract -o object {SECOND} ../two", folder="kept")
        self.check("without a folder in the name", done, 0, asked)

    def test_folder(self) -> None:
        """Of `extract --all`: each file, their names, and then FOLDER's name."""
        files = "".join(f"fsync {0:032x}-7-{toi}\n" for toi in (1, 2))
        lines = "session 7 object 1 whole 37\nsession 7 object 2 whole 5\n"
        beside, words = "fsync all.partial\n", "extract --all -o kept/all both"
        done = self.through("", words)
        named = f"{beside}rename all.partial to all\nfsync kept\n"
        self.check("a folder", done, 0, f"{files}{lines}{named}written 2\n")
        self.shell("rm -r kept/all")
        self.check("a file that fails", self.through("lost", words), 3, None, WRITE)
        self.absent("nothing is left of it", "kept/all", "kept/all.partial")
        done = self.through("unnamed", words)
        self.check("names that fail", done, 3, f"{files}{lines}{beside}", WRITE)
        self.absent("nothing is left of them", "kept/all", "kept/all.partial")
        self.check("no folder is synced", self.through("unnameable", words), 0, None)

    def test_disk_that_fails(self) -> None:
        self.asked("there", "lost", 3, "fsync there.partial\n", WRITE)
        self.alone("the disk failed", "kept/there")
        self.same("the file stays", "kept/there", "one")
        self.asked("new", "lost", 3, "fsync new.partial\n", WRITE)
        self.alone("the disk failed", "kept/new")
        self.absent("there is no new file", "kept/new")

    def test_names(self) -> None:
        for target in "there", "new":
            text = "output may not be on the disk"
            self.asked(target, "unnamed", 3, None, text)
            self.same(f"it is the new one all the same, {target}", f"kept/{target}", "both")
            self.alone("a name that fails", f"kept/{target}")
            done = self.through("unnameable", f"join -o kept/{target} two")
            self.holds(f"no folder is synced, {target}", is_success(done), done)
            self.same(f"its file, {target}", f"kept/{target}", "two")

    def test_mode(self) -> None:
        self.asked("there", "modeless", 3, None, CREATE)
        self.alone("a file that cannot get its mode", "kept/there")
        self.same("what was there stays", "kept/there", "one")

    def test_name_that_is_taken(self) -> None:
        """Another run takes the name beside OUT."""
        for target in "there", "new":
            self.asked(target, "taken", 3, None, CREATE)
            stays = self.exists(f"kept/{target}.partial")
            self.holds(f"the file of that run stays, {target}", stays)
            self.remove(f"kept/{target}.partial", f"kept/{target}.partial.moved")
        self.same("what was there stays", "kept/there", "one")
        self.write("kept/new.partial", "garbage")
        self.asked("new", "taken", 3, None, CREATE)
        self.holds("it is not removed in a leftover's place", self.exists("kept/new.partial"))


def is_success(done: Run) -> bool:
    return done.status == 0 and done.err == b""


class WithoutLeave(Case):
    """What only missing permissions prevent."""

    def setUp(self) -> None:
        super().setUp()
        for folder in self.folder.parent, self.folder, self.bin:
            folder.chmod(0o755)
        try:
            tried = self.other("--version").status
        except OSError:
            tried = 1
        if tried != 0:
            self.skipTest("no other user can be had here")
        for name, mode in ("locked", 0o755), ("open", 0o777):
            self.path(name).mkdir()
            self.path(name).chmod(mode)

    def other(self, words: str) -> Run:
        return self.program(words, nobody=True)

    def test_folder(self) -> None:
        self.copy("one", "locked/all")
        self.path("locked/all").chmod(0o666)
        self.path("locked").chmod(0o555)
        done = self.other("join -o locked/all one two")
        self.check("a folder without leave to write", done, 3, "", CREATE)
        self.same("the file in it stays", "locked/all", "one")
        self.path("locked").chmod(0o755)

    def test_file(self) -> None:
        self.copy("one", "open/all")
        self.path("open/all").chmod(0o444)
        done = self.other("join -o open/all one two")
        self.check("a file without leave to write", done, 3, "", CREATE)
        self.same("that file stays", "open/all", "one")
        self.alone("a file without leave", "open/all")

    def test_file_that_cannot_be_read(self) -> None:
        self.copy("sent2", "open/all")
        self.path("open/all").chmod(0o222)
        done = self.other("join -o open/all one two")
        self.check("a file that cannot be read", done, 3, "", CREATE)
        self.same("it may be a datagram file", "open/all", "sent2")
        self.alone("a file that cannot be read", "open/all")
        done = self.other("join --force -o open/all one two")
        self.check("forced", done, 3, "", CREATE)

    def test_folder_that_cannot_be_read(self) -> None:
        self.path("open").chmod(0o333)
        done = self.other("join -o open/all one two")
        self.check("a folder that cannot be read", done, 0, LINES_OF_BOTH)
        self.same("the file in it", "open/all", "both")
