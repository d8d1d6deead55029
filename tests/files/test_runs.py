"""Cases of flutejoin-files: faults, signals, simultaneous runs, memory and running time."""
from __future__ import annotations

import contextlib
import fcntl
import gzip
import hashlib
import os
import pathlib
import random
import resource
import shutil
import signal
import subprocess
import sys
import time

from tests.files.case import LONGEST, TOOL, Case, text
from tests.support.flute_sender import Sent
from tests.support.run import PROGRAM, slowness
from tests.support.signals import catches


def processor_time() -> float:
    """The processor time of the children that have ended."""
    used = resource.getrusage(resource.RUSAGE_CHILDREN)
    return used.ru_utime + used.ru_stime


def wait_until_caught(child: subprocess.Popen[bytes]) -> None:
    """Waits until flutejoin-files catches signals itself, or has ended.

    Before its first line a Ctrl-C ends Python, which prints a traceback of its own. Python leaves
    SIGTERM to the system; the tool catches it before anything else, and ignores it at its end.
    """
    while child.poll() is None:
        with contextlib.suppress(FileNotFoundError, ProcessLookupError):
            if catches(child.pid, signal.SIGTERM):
                return
        time.sleep(0.002)


# Sends a signal to the run where it would be lost, or would leave something: when a child's
# finalizer runs, behind the closing of a folder that is passed through, and when the handlers of
# signals are set for the time in the environment.
AT_MOMENTS = """
import os, signal, subprocess, sys
moment = os.environ["MOMENT"]
def send():
    global moment
    moment = ""
    os.kill(os.getpid(), signal.SIGTERM)
def in_finalizer(child, ended=subprocess.Popen.__del__, **more):
    if moment == "a finalizer":
        send()
    ended(child, **more)
subprocess.Popen.__del__ = in_finalizer
def closed(descriptor, close=os.close):
    close(descriptor)
    if moment == "a folder" and sys._getframe(1).f_code.co_name == "parent":
        send()
os.close = closed
def handled(number, answer, handle=signal.signal):
    global moment
    if moment.isdigit() and signal.getsignal(signal.SIGTERM):
        moment = str(int(moment) - 1)
        if moment == "0":
            send()
    return handle(number, answer)
signal.signal = handled
"""


class Runs(Case):
    """Faults, signals, simultaneous runs, and running time."""

    def setUp(self) -> None:
        super().setUp()
        self.file = Sent(1, text(1), "http://h/a", is_in_packets=False)
        self.session("all", [self.file])

    def test_command_lines(self) -> None:
        rows: tuple[list[str], ...] = (
            [], ["all"], ["--list"], ["-o", "files"], ["--list", "-"], ["-o", "-", "all"],
            ["--list", "--tsi", "x", "all"], ["--list", "--source", "10.0.0", "all"],
            ["--list", "--most", "-1", "all"], ["--list", *["all"] * 65], ["--frob", "all"],
        )
        for words in rows:
            with self.subTest(words):
                self.files(*words, status=2)
        self.assertIn("usage: flutejoin-files", self.files("--help").out)

    def test_faults(self) -> None:
        (self.folder / "pipe").touch()
        os.remove(self.folder / "pipe")
        os.mkfifo(self.folder / "pipe")
        whole = (self.folder / "all").read_bytes()
        (self.folder / "cut").write_bytes(whole[:-20])
        (self.folder / "odd").write_bytes(whole[:6] + b"\7" + whole[7:])
        (self.folder / "empty").write_bytes(b"")
        (self.folder / "text").write_bytes(b"some text")
        (self.folder / "kept").write_bytes(b"")
        for name, status, told in (
            ("nowhere", 3, "nowhere: No such file or directory"),
            ("tmp", 3, "tmp: is no regular file"),
            ("pipe", 3, "pipe: is no regular file"),
            ("cut", 1, "cut: Cut"),
            ("odd", 1, "odd: Kind"),
            ("empty", 1, "empty: Cut"),
            ("text", 1, "text: Magic"),
            ("all.fldg", 1, "all.fldg: is a datagram file; flutejoin join makes a journal of it"),
        ):
            for words in (["--list"], ["-o", "files"], ["-o", "files", "all"]):
                answer = self.files(*words, name, status=status)
                if len(words) < 3 or status == 3:
                    self.assertEqual(answer.err, f"flutejoin-files: {told}\n")
            self.assertFalse((self.folder / "files").exists())
        answer = self.files("-o", "kept", "all", status=3)
        self.assertRegex(answer.err, "^flutejoin-files: .*kept: Not a directory\n$")
        answer = self.files("-o", "no/folder", "all", status=3)
        self.assertIn("no/folder.partial: No such file or directory\n", answer.err)
        answer = self.files("--list", "--flutejoin", "nowhere", "all", status=3)
        self.assertEqual(answer.err, "flutejoin-files: there is no program nowhere\n")

    def test_what_a_killed_run_left(self) -> None:
        left = self.folder / "files.partial"
        (left / "objects").mkdir(parents=True)
        (left / "objects/1").write_bytes(b"left")
        (left / "objects.partial").write_bytes(b"left")
        self.files("-o", "files", "all")
        self.assertEqual(self.tree(), {"h/a": self.file.content})
        left.mkdir()
        (left / "mine").write_bytes(b"somebody's")
        child = self.start("-o", "files", "all")
        self.assertIn(b"has other files, such as mine", child.communicate()[1])
        self.assertEqual((left / "mine").read_bytes(), b"somebody's")
        (left / "mine").unlink()
        holder = os.open(left, os.O_RDONLY)
        fcntl.flock(holder, fcntl.LOCK_EX)
        child = self.start("-o", "files", "all")
        self.assertIn(b"is in use by another run", child.communicate()[1])
        self.assertEqual(child.returncode, 3)
        os.close(holder)
        self.files("-o", "files", "all")

    def test_a_full_disk(self) -> None:
        """If nothing can be written, FOLDER is unchanged, and no other file is left."""
        large = Sent(2, text(2, 300_000), "http://h/b", gzip.compress(text(2, 300_000)))
        large.more = {"Content-Encoding": "gzip"}
        self.session("large", [large])
        for size in (100, 2000, 200_000):
            limit = f"ulimit -f {size // 512}; exec "
            words = " ".join(map(str, [sys.executable, TOOL, "--flutejoin", PROGRAM]))
            done = subprocess.run(
                ["sh", "-c", f"{limit}{words} -o files large"], cwd=self.folder, capture_output=True
            )
            self.assertEqual(done.returncode, 3, done)
            self.assertNotIn(b"Traceback", done.stderr)
            self.assertEqual([*self.folder.glob("files*/**/*")], [])

    def test_signals(self) -> None:
        """A run that is stopped leaves no temporary folder, and only whole files in FOLDER."""
        many = [Sent(toi, text(toi, 3000), f"http://h/{toi}") for toi in range(1, 200)]
        self.session("many", many)
        wanted = {f"h/{file.toi}": file.content for file in many}
        draw = random.Random(5)
        for number in range(12):
            child = self.start("-o", "files", "many")
            wait_until_caught(child)
            time.sleep(draw.random() * 1.2)
            child.send_signal([signal.SIGINT, signal.SIGTERM, signal.SIGKILL][number % 3])
            _, err = child.communicate()
            self.assertNotIn(b"Traceback", err)
            tree = self.tree()
            self.assertEqual(tree, {path: wanted[path] for path in tree})
            if number % 3 < 2:
                self.assertEqual([*self.folder.rglob("*.partial")], [])
                continue
            self.wait_for_work()
            if number < 11:
                shutil.rmtree(self.folder / "files.partial", ignore_errors=True)
        self.files("-o", "files", "many")
        self.assertEqual(self.tree(), wanted)

    def test_signals_at_moments(self) -> None:
        """A run that is stopped tells no fault, and leaves nothing half done."""
        (self.folder / "sitecustomize.py").write_text(AT_MOMENTS)
        statuses = [self.stopped_at("a finalizer"), self.stopped_at("a folder")]
        # Until all is told; then a signal changes nothing.
        while statuses[-1]:
            self.assertEqual(statuses[-1], 128 + signal.SIGTERM)
            statuses.append(self.stopped_at(str(len(statuses) - 1)))
        self.assertGreater(len(statuses), 20)

    def stopped_at(self, moment: str) -> int:
        """Runs the tool with a signal at this moment, and returns its status. Nothing is left of
        it."""
        self.environment = {"PYTHONPATH": str(self.folder), "MOMENT": moment}
        child = self.start("-o", "files", "all")
        _, err = child.communicate(timeout=LONGEST)
        self.assertEqual((moment, err), (moment, b""))
        left = [*self.folder.rglob("*.partial"), *(self.folder / "tmp").iterdir()]
        self.assertEqual((moment, left), (moment, []))
        shutil.rmtree(self.folder / "files", ignore_errors=True)
        return child.returncode

    def test_a_hangup_that_is_ignored(self) -> None:
        """A child is not ended by it either, as under nohup."""
        self.program.write_text(f'#!/bin/sh\nkill -HUP $$\nexec {PROGRAM} "$@"\n')
        before = signal.signal(signal.SIGHUP, signal.SIG_IGN)
        try:
            self.files("-o", "files", "all")
        finally:
            signal.signal(signal.SIGHUP, before)
        self.assertEqual(self.tree(), {"h/a": self.file.content})

    def wait_for_work(self) -> None:
        """Waits until the children of a killed run have ended."""
        with contextlib.suppress(FileNotFoundError):
            work = os.open(self.folder / "files.partial", os.O_RDONLY)
            fcntl.flock(work, fcntl.LOCK_EX)
            os.close(work)

    def test_output(self) -> None:
        with open("/dev/full", "wb") as full:
            words: list[str | pathlib.Path] = [sys.executable, TOOL, "--flutejoin", PROGRAM]
            words += ["--list", "all"]
            done = subprocess.run(words, cwd=self.folder, stdout=full, stderr=subprocess.PIPE)
        self.assertEqual((done.returncode, done.stderr), (3, b"flutejoin-files: cannot write\n"))

    def test_a_long_file(self) -> None:
        """The memory of a run, 64 MB, does not depend on a file's length."""
        content = random.Random(9).randbytes(1 << 20) * 150
        encoded = gzip.compress(content, 1)
        more = {"Content-Encoding": "gzip"}
        sent = [
            Sent(1, content, "http://h/1", symbol=16000, block=1024),
            Sent(2, content, "http://h/2", encoded, 16000, 1024, False, more),
        ]
        self.session("long", sent)
        self.files("-o", "files", "long")
        for name in ("1", "2"):
            with open(self.folder / "files/h" / name, "rb") as file:
                found = hashlib.file_digest(file, "md5").digest()
            self.assertEqual(found, hashlib.md5(content).digest())

    def test_many_files(self) -> None:
        """1,000 files of 64 KB, and 4,095 small ones, take as few runs of flutejoin as one file."""
        draw = random.Random(8)
        for count, size in ((1000, 65536), (4095, 4096)):
            sent = [
                Sent(toi, draw.randbytes(size), f"http://h/{toi}", is_in_packets=toi % 2 == 0)
                for toi in range(1, count + 1)
            ]
            self.session("many", sent)
            start, used = time.monotonic(), processor_time()
            answer = self.files("-o", f"files{count}", "many")
            took, used = time.monotonic() - start, processor_time() - used
            print(f"files: {count} files of {size} bytes: {took:.2f} s, {used:.2f} s of processor")
            # This takes about two seconds; a run, or a pass, for each file would take minutes.
            self.assertLess(used, 30 * slowness())
            self.assertIn(f"written {count}, verified {count};", answer.out)
            self.assertEqual(self.tree(f"files{count}"), {f"h/{it.toi}": it.content for it in sent})
            self.assertEqual(self.runs.read_text().split(), ["gaps", "extract"])
            start = time.monotonic()
            self.files("--list", "many")
            print(f"files: the list of {count}: {time.monotonic() - start:.2f} s")
