"""Folders, outputs and command lines of flutejoin-receive that are refused."""
from __future__ import annotations

import re
import resource
from signal import SIG_DFL, SIGINT

from tests.receive.case import PYTHON, TOOL, Case, said
from tests.support.run import until

CANNOT = "cannot use the folder"
ONE = "127.0.0.1.fldg"


class Folders(Case):
    def test_folders(self) -> None:
        nothing = "No such file or directory"
        for name, folder, why in (
            ("a file", "file", "Not a directory"),
            ("one in none", "missing/folder", nothing),
            ("one that cannot be made", "/proc/folder", nothing),
        ):
            text = said(f"{CANNOT} {folder}: {why}")
            self.tried(name, f"-o {folder}", 3, "", text)

    def test_without_leave(self) -> None:
        self.path("locked").mkdir(mode=0o555)
        for folder in self.folder.parent, self.folder:
            folder.chmod(0o755)
        try:
            is_theirs = self.command([*PYTHON, TOOL, "--help"], nobody=True).status == 0
        except OSError:
            is_theirs = False
        if not is_theirs:
            self.skipTest("no other user can be had here, or the tool is not theirs to run")
        locked = self.path("locked")
        text = said(f"{CANNOT} {locked}: it cannot be written")
        self.tried("no leave to write", f"-o {locked}", 3, "", text, nobody=True)


class Outputs(Case):
    def test_limit(self) -> None:
        """A limit on the length of files: the file ends after a whole record."""
        limits = {resource.RLIMIT_FSIZE: 10_240}
        receiver = self.receive("-o limited", limits=limits, signals={SIGINT: SIG_DFL})
        self.send("sent")
        text = f"flutejoin-receive: cannot write limited/{ONE}: File too large;".encode()
        came = until(lambda: text in receiver.told())
        receiver.child.send_signal(SIGINT)
        done = receiver.ended()
        self.holds("it is told", came, done)
        self.check("a limit", done, 3, None, None)
        told = done.out.decode()
        kept = re.search(r"fldg: (\d+) datagrams from ", told)
        lost = re.search(r"^left out (\d+): not written, after a fault$", told, re.MULTILINE)
        expected = self.records_of("sent", 0, int(kept[1]) if kept else 0)
        self.same("whole records alone", f"limited/{ONE}", expected)
        self.holds("what was not written is told", lost and int(lost[1]) > 0, done)

    def test_standard_output(self) -> None:
        receiver = self.receive("--count 2 -o unheard", to="/dev/full")
        self.send("sent2")
        self.check("full", receiver.ended(), 3, "", said("cannot write"))
        self.same("the datagrams are kept", f"unheard/{ONE}", "sent2")


class Words(Case):
    def test_words(self) -> None:
        for words in (
            *("", "-o folder", "--port 0", "--port 65536", "--port x"),
            *("--port 4001 --group 10.0.0.1", "--port 4001 --group nowhere"),
            "--port 4001 --group 239.1.1.1 --from 2001:db8::1",
            "--port 4001 --group 239.1.1.1 --from 239.1.1.2",
            "--port 4001 --group ff3e::8000:1 --interface 127.0.0.1",
            *("--port 4001 --group ff02::1%lo", "--port 4001 --count 0"),
            *("--port 4001 --seconds -1", "--port 4001 --seconds nan", "--port 4001 --senders 0"),
            *("--port 4001 --split 0", "--port 4001 --split 4294967296", "--port 4001 --buffer 0"),
            *("--port 4001 --seco 1", "--port 4001 more"),
        ):
            done = self.tool(TOOL.name, words)
            self.check(f"'{words}'", done, 2, "", None)
            is_told = b"\nflutejoin-receive: error: " in b"\n" + done.err
            self.holds(f"a line about '{words}'", is_told, done)

    def test_interface(self) -> None:
        text = said("there is no interface no-such-interface")
        self.tried("no interface", "--interface no-such-interface -o folder", 3, "", text)
        self.absent("no folder is left", "folder")

    def test_help(self) -> None:
        done = self.command([TOOL, "--help"])
        self.check("help", done, 0, None)
        self.holds("it has an example", b"\n  flutejoin-receive --group " in done.out, done)
        text = said("cannot write")
        full = self.command([TOOL, "--help"], to="/dev/full")
        self.check("help to a full standard output", full, 3, "", text)
        closed = self.command([TOOL, "--help"], closed=[1])
        self.check("help to a closed standard output", closed, 3, "", text)
