"""Bad input of flutejoin-capture, outputs that cannot be made, and captures that grow."""
from __future__ import annotations

import fcntl
import os
import resource
import signal
import sys
import termios
from signal import SIG_DFL, SIG_IGN, SIGHUP, SIGINT, SIGTERM

from tests.capture.case import BEFORE, ROWS, Case, said
from tests.support import captures, run
from tests.support.run import ROOT, until

TOOL = ROOT / "tools" / "flutejoin-capture"
NO_CAPTURE = "is no capture (pcap or pcapng, which gzip may have compressed)"
DAMAGE = "is damaged (a packet of 808464432 bytes); the packets before that were read"
FULL = "cannot write: File too large; what was written whole is kept"
MISSING = "missing: cannot be read: No such file or directory"
CLOSED = "standard input: cannot be read: Bad file descriptor"


def unread(pipe: int) -> int:
    return int.from_bytes(fcntl.ioctl(pipe, termios.FIONREAD, bytes(4)), sys.byteorder)


class Inputs(Case):
    def setUp(self) -> None:
        super().setUp()
        self.captures("ethernet", "ipv6", "gzip", "silence")
        self.write("empty", "")
        self.write("zeros", bytes(3000))
        self.write("begun", b"\xd4\xc3\xb2\xa1")
        self.write("begun_gzip", self.read("made/gzip")[:20])
        self.write("garbage", self.read("made/ipv6")[:24] + self.read("file1")[:5000])

    def test_inputs(self) -> None:
        for options in "", "--port 4001 -o bad ":
            for files, status, text in (
                ("empty", 1, "empty: is empty"),
                ("-", 1, "-: is empty"),
                *((name, 1, f"{name}: {NO_CAPTURE}") for name in ("file1", "zeros", "sent1")),
                ("begun", 1, f"begun: ends within its header; {BEFORE}"),
                ("begun_gzip", 1, f"begun_gzip: ends within what gzip compressed; {BEFORE}"),
                ("garbage", 1, f"garbage: {DAMAGE}"),
                ("missing", 3, MISSING),
                ("made", 3, "made: cannot be read: Is a directory"),
                ("made/ethernet missing", 3, MISSING),
            ):
                words = f"{options}{files}"
                self.capture_row(f"'{words}'", words, status, "", said(text))
            words = f"{options}-"
            self.capture_row(f"'{words}', closed", words, 3, "", said(CLOSED), closed=[0])
        self.absent("no folder of bad input", "bad")

    def test_no_datagrams(self) -> None:
        none = "no UDP datagrams"
        self.capture_row("no UDP", "made/silence", 1, "", said(none))
        text = said(f"{none} to port 4002; without --port all flows are listed")
        self.capture_row("another port", "--port 4002 -o bad made/ipv6", 1, "", text)

    def test_outputs(self) -> None:
        text = said("cannot make the folder not/there: No such file or directory")
        words = "--port 4001 -o not/there made/ipv6"
        self.capture_row("a folder in none", words, 3, "", text)
        words = "--port 4001 -o /proc made/ipv6"
        self.capture_row("a folder that takes no files", words, 3, "", None)

    def test_words(self) -> None:
        for words in (
            *("", "--port 0 x", "--port 65536 x", "--port x x", "--port 4001", "--group 1.2.3 x"),
            *("-o folder x", "--split 0 --port 1 x", "--split 4294967296 --port 1 x", "--por 1 x"),
        ):
            self.capture_row(f"'{words}'", words, 2, "", None)
        done = self.capture_row("help", "--help", 0, None)
        example = b"flutejoin-capture --port 4001 -o monday monday.pcap"
        self.holds("it has an example", example in done.out, done)

    def test_standard_output(self) -> None:
        text = said("cannot write")
        self.capture_row("help, full", "--help", 3, "", text, to="/dev/full")
        self.capture_row("help, closed", "--help", 3, "", text, closed=[1])
        words = "--port 4001 -o full made/ipv6"
        self.capture_row("full", words, 3, "", text, to="/dev/full")
        self.same("the file in spite of that", "full/10.0.0.1.fldg", "got1")

    def test_lines_that_nobody_reads(self) -> None:
        """Another signal ends a run whose lines nobody takes."""
        target, frames = bytes([10, 0, 0, 1]), []
        for number in range(250):
            source = bytes([10, 0, 1, number])
            packet = captures.ip(source, target, 17, captures.udp(source, target, bytes(20)))
            frames.append((101, packet, len(packet)))
        self.write("flows", captures.pcap(frames, "<", 0xA1B2C3D4, 65535))
        out, into = os.pipe()
        size = fcntl.fcntl(into, fcntl.F_SETPIPE_SZ, 4096)
        with open(out, "rb"), open(into, "wb") as pipe:
            child = self.start([sys.executable, TOOL, "flows"], to=pipe)
            until(lambda: unread(out) > size - 300)

            def has_ended() -> bool:
                child.send_signal(SIGTERM)
                return child.poll() is not None

            ends = until(has_ended)
            self.holds("lines that nobody reads", ends and child.returncode == 143, child)
            self.finish(child)

    def test_full_disk(self) -> None:
        """The limit of 4,096 bytes leaves room for 3 datagrams."""
        limits = {resource.RLIMIT_FSIZE: 4096}
        for form in "gzip", "ethernet":
            words = f"--port 4001 -o disk.{form} made/{form}"
            done = self.capture_row(f"full, {form}", words, 3, None, None, limits=limits)
            told = done.err.decode().splitlines()
            is_told = any(line.endswith(f"fldg: {FULL}") for line in told)
            self.holds(f"it is told, {form}", is_told, done)
            folder = self.path(f"disk.{form}")
            beside = [name for name in os.listdir(folder) if "partial" in name]
            self.holds(f"nothing beside, {form}", not beside, beside)
            self.join(f"a full disk, {form}", done)
            wanted = "datagrams 3\nrefused 0\nentries 4\n"
            for path in sorted(folder.glob("*.fldg")):
                again = ["join", "-f", "-o", "journal", path]
                self.row(f"what was written whole, {form}, {path.name}", again, 0, wanted)


class Growing(Case):
    """A capture that grows on standard input."""

    def grows(self, name: str, *sent: signal.Signals, hangup: signal.Handlers = SIG_DFL) -> None:
        """The signals end the run; `hangup` is its handler of SIGHUP at the start."""
        words = [sys.executable, TOOL, "--port", "4001", "-o", f"live.{name}", "-"]
        child = self.start(words, signals={SIGHUP: hangup, SIGINT: SIG_DFL})
        content = self.read("made/ipv6")
        assert child.stdin
        child.stdin.write(content[:21_000])
        child.stdin.flush()
        partial = self.path(f"live.{name}/10.0.0.1.fldg.partial")
        has_bytes = until(lambda: partial.exists() and partial.stat().st_size)
        self.assertTrue(has_bytes, name)
        for number in sent:
            child.send_signal(number)
        # What the capturing program sends at its end
        child.stdin.write(content[21_000:41_000])
        child.stdin.flush()
        child.wait(run.LONGEST)
        done = self.finish(child)
        self.check(f"a capture that grows, {name}", done, 0, None)
        counts = [int(line.split()[1]) for line in done.lines() if "fldg: " in line]
        self.holds(f"its last packets, {name}", sum(counts) > 30, counts)
        beside = [it for it in os.listdir(self.path(f"live.{name}")) if "partial" in it]
        self.holds(f"nothing beside, {name}", not beside, beside)
        self.join(f"a capture that grows, {name}", done)
        self.made("join -f -o wanted --source 0a000001 got1")
        self.made(f"merge -f -o merged wanted live.{name}/10.0.0.1.journal")
        self.same(f"what came is right, {name}", "merged", "wanted")

    def test_signals(self) -> None:
        self.captures("ipv6")
        self.grows("INT", SIGINT)
        self.grows("TERM", SIGTERM)
        self.grows("HUP", SIGHUP)
        # An ignored hangup does not count. Of two signals that count, the second ends it at once.
        self.grows("nohup", SIGHUP, SIGINT, hangup=SIG_IGN)

    def test_pipe(self) -> None:
        self.captures("gzip_pcapng")
        words = "--port 4001 -o stream -"
        content = self.read("made/gzip_pcapng")
        done = self.capture_row("compressed", words, 0, None, stdin=content)
        self.joined("compressed", done, "stream", "made/gzip_pcapng.kept")


class Damaged(Case):
    """Damaged captures: no traceback, status 0 or 1, and the outputs are datagram files."""

    COUNT = 200
    OF = "ethernet", "pcapng", "sll2", "fragments", "gzip", "pcapng_sections", "loopback", "headers"

    def test_damaged(self) -> None:
        self.assertLessEqual({*self.OF}, {*ROWS})
        self.captures(*self.OF)
        self.path("damaged").mkdir()
        self.helper("damage", "damaged", self.COUNT, *(f"made/{name}" for name in self.OF))
        words = [f"--port 4001 -o damaged/{n}.out damaged/{n}" for n in range(self.COUNT)]
        told = self.runs(words)
        self.holds("each was tried", len(told) == self.COUNT, len(told))
        status = [line[:2] for line in told]
        self.holds("they have status 0 or 1", {*status} <= {"0 ", "1 "}, {*status})
        self.holds("no traceback", "traceback" not in "\n".join(told).lower())
        self.holds("some are whole enough", status.count("0 ") > 20, status.count("0 "))
        self.holds("some are not", status.count("1 ") > 20, status.count("1 "))
        lists = [line[:2] for line in self.runs([f"damaged/{n}" for n in range(self.COUNT)])]
        self.holds("lists have status 0 or 1", {*lists} <= {"0 ", "1 "}, {*lists})
        self.all_of_them_were_sent()

    def runs(self, words: list[str]) -> list[str]:
        """The status and standard error of each run of the tool."""
        self.write("lines", "".join(f"{line}\n" for line in words))
        return self.helper("run", TOOL, "lines").lines()

    def all_of_them_were_sent(self) -> None:
        """Checks that what came of damaged captures are datagrams that were sent, and no others."""
        self.made("join -o wanted got1 got2")
        files = [str(path) for path in sorted(self.path("damaged").glob("*.out/*.fldg"))]
        self.holds("files of damaged captures", len(files) > 50, len(files))
        self.write("merged", self.read("wanted"))
        for at in range(0, len(files), 60):
            done = self.program(["join", "-o", "merged", "merged", *files[at : at + 60]])
            is_taken = done.status == 0 and b"refused 0\n" in done.out
            self.holds(f"they are taken, from {at} on", is_taken, done)
        self.same("no wrong datagram of any damaged capture", "merged", "wanted")
