"""Helpers of the tests of flutejoin-receive: a file in 40 datagrams, and another in 2 small ones.

Datagrams are sent only to this machine, or to a network namespace.
"""
from __future__ import annotations

import itertools
import os
import re
import subprocess
import sys
from typing import Any, Pattern

import datagram_files
from tests.support import run
from tests.support.ports import free_port
from tests.support.run import ROOT, Run, until

TOOL = ROOT / "tools" / "flutejoin-receive"
# The interpreter itself, and without the machine's packages (-S): a wrapper on the PATH may take
# longer than the tool.
PYTHON = sys.executable, "-S"
# A run that hangs ends by itself.
OPTIONS = "--buffer 200000 --seconds 600"
TIME = re.compile(rb"^[0-9-]*T[0-9:]*Z (?=flutejoin-receive: )", re.MULTILINE)
LISTENING = re.compile(rb"^.*: listening .*\n", re.MULTILINE)
SEND = """
import datagram_files, itertools, socket, sys
file, source, target, port, first, count = *sys.argv[1:4], *map(int, sys.argv[4:])
family = socket.AF_INET6 if ":" in target else socket.AF_INET
udp = socket.socket(family, socket.SOCK_DGRAM)
def place(address, port):
    return socket.getaddrinfo(address, port, family, socket.SOCK_DGRAM)[0][4]
udp.bind(place(source, 0))
for datagram in itertools.islice(datagram_files.read(file), first, first + count):
    udp.sendto(datagram, place(target, port))
"""


def said(*texts: str) -> str:
    return "".join(f"flutejoin-receive: {text}\n" for text in texts)


def join_line(source: str, folder: str, *files: str, address: str = "127.0.0.1") -> str:
    """The command that joins these files of a sender, or its only file."""
    names = " ".join(f"{folder}/{name}" for name in files or (f"{address}.fldg",))
    join = f"flutejoin join --any-size --source {source}"
    return f"{join} -o {folder}/{address}.journal {names}\n"


def count_line(count: int, file: str, address: str = "127.0.0.1", new: str = "") -> str:
    return f"{file}: {count} datagrams from {address}{new}\n"


def said_left_out(cause: str) -> Pattern[str]:
    """What a run prints while it leaves datagrams out: first those that came in its first second.

    Then it prints a line each minute.
    """
    return re.compile(rf"\A(flutejoin-receive: left out \d+: {re.escape(cause)}\n)+\Z")


class Receiver:
    """A run of the tool, and the files with its output."""

    def __init__(self, test: Case, child: subprocess.Popen[bytes], out: str, err: str) -> None:
        self.test, self.child, self.out, self.err = test, child, out, err

    def told(self) -> bytes:
        return self.test.read(self.err)

    def ended(self) -> Run:
        """The result of the run, without times and without the line about listening."""
        self.child.wait(run.LONGEST)
        err = LISTENING.sub(b"", TIME.sub(b"", self.told()))
        return Run(self.child.returncode, self.test.bytes_of(self.out) or b"", err)


class Case(run.Case):
    listen_at = "--interface 127.0.0.1"
    prefix: tuple[object, ...] = ()  # a command that has others run in a network namespace

    def setUp(self) -> None:
        super().setUp()
        self.port, self.number = free_port(), 0
        self.write("file", os.urandom(40_000))
        self.write("small", "hello")
        self.made("carousel -o sent --tsi 7 --toi 1 --symbol 1000 --block 16 file")
        self.made("carousel -o sent2 --tsi 7 --toi 2 --symbol 4 --block 2 small")

    def direct(self, source: str, *files: str) -> str:
        """Makes a journal of a sender's datagram files by the program, and returns its name."""
        self.made(["join", "-f", "-o", "direct", "--source", source, *(files or ("sent",))])
        return "direct"

    def records_of(self, name: str, first: int = 0, count: int = 1000) -> bytes:
        """The datagram file of some records of another one."""
        found = datagram_files.read(str(self.path(name)))
        return datagram_files.content(itertools.islice(found, first, first + count))

    def send(
        self,
        file: str,
        source: str = "127.0.0.1",
        target: str = "127.0.0.1",
        first: int = 0,
        count: int = 1000,
        port: int | None = None,
    ) -> None:
        """Sends `count` datagrams of a file, from number `first` on; numbers begin at 0."""
        words = [*PYTHON, "-c", SEND, file, source, target, port or self.port, first, count]
        done = self.command([*self.prefix, *words], env={"PYTHONPATH": str(ROOT / "examples")})
        self.assertEqual(done.status, 0, done)

    def receive(self, words: str, to: str | None = None, **how: Any) -> Receiver:
        """Starts to receive, and waits until it listens or has ended."""
        self.number += 1
        out, err = to or f"out{self.number}", f"err{self.number}"
        options = run.split(f"--port {self.port} {self.listen_at} {OPTIONS} {words}")
        command = [*self.prefix, *PYTHON, TOOL, *options]
        child = self.start(command, to=out, err=err, **how)
        receiver = Receiver(self, child, out, err)

        def is_ready() -> bool:
            return b": listening " in receiver.told() or child.poll() is not None

        self.assertTrue(until(is_ready), words)
        return receiver

    def tried(self, name: str, words: str, *wanted: Any, **how: Any) -> None:
        """Checks a run that ends by itself."""
        self.check(name, self.receive(words, **how).ended(), *wanted)

    def run_lines(self, name: str, done: Run) -> None:
        """Runs the commands that a run printed, as a user would."""
        lines = [line for line in done.lines() if line.startswith("flutejoin join ")]
        self.check(f"{name}: its lines", self.shell("\n".join(["set -e", *lines])), 0, None)
