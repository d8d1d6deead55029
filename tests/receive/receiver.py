"""Runs of flutejoin-receive in which data may get lost, and packets that are sent to them.

Everything is sent to the loopback: of a network namespace if one can be made, otherwise of this
machine.
"""
from __future__ import annotations

import contextlib
import functools
import os
import re
import select
import signal
import socket
import struct
import subprocess
import sys
import tempfile
import time
from pathlib import Path
from typing import Any, Callable, Iterable, Iterator, Sequence, Union

import datagram_files
from tests.support import run
from tests.support.ports import free_port, make_way, waiting_at
from tests.support.run import ROOT

TOOLS = str(ROOT / "tools")
TOOL = os.path.join(TOOLS, "flutejoin-receive")
# What tells a process that it is in namespaces of its own, and what has a command run in them
INSIDE = "FLUTEJOIN_INSIDE"
APART = "unshare", "-rmn", "sh", "-c", 'ip link set lo up && exec "$@"', "-"
LONGEST_WAIT = 300  # seconds; only a run that hangs takes so long
STAMP = re.compile(r"^\d{4}-\d\d-\d\dT\d\d:\d\d:\d\dZ (?=flutejoin-receive: )", re.M)


def packet(
    symbol: bytes, number: int = 0, toi: int = 1, instance: int | None = None, tsi: int = 7
) -> bytes:
    """A FLUTE packet; of an FDT Instance if `instance` is given."""
    extension = b"" if instance is None else struct.pack(">I", 0xC0200000 | instance)
    words = 4 + len(extension) // 4
    toi = toi if instance is None else 0
    header = struct.pack(">BBBBIII", 0x10, 0xA0, words, 0, 0, tsi, toi)
    return header + extension + struct.pack(">HH", number >> 16, number & 0xFFFF) + symbol


def records(path: Union[str, Path]) -> list[bytes]:
    """The datagrams of a datagram file, which must be whole."""
    with open(path, "rb") as file:
        data = file.read()
    found = list(datagram_files.records(data))
    assert datagram_files.HEADER + b"".join(found) == data, path
    return [record[2:] for record in found]


def is_writable(descriptor: int) -> bool:
    return bool(select.select([], [descriptor], [], 0)[1])


def fill(descriptor: int) -> None:
    """Writes lines to a terminal, which was opened for writes that don't wait, until it is full."""
    with contextlib.suppress(BlockingIOError):
        while True:
            os.write(descriptor, bytes(99) + b"\n")


class Receiver:
    """A run of the tool, with its folder and its output."""

    def __init__(
        self,
        test: Case,
        *words: str,
        before: Sequence[str] = (),
        tool: Sequence[str] = (TOOL,),
        listens: bool = True,
        **run: Any,
    ) -> None:
        self.test, self.port = test, free_port()
        self.told = tempfile.TemporaryFile()
        run.setdefault("stderr", self.told)
        ports = [] if "--config" in words else ["--port", str(self.port)]
        places = ["--interface", "127.0.0.1", "--buffer", "4000000"] if ports else []
        interpreter = [*before, sys.executable, "-S", *tool]
        command = [*interpreter, *ports, *places, "--seconds", "1000", *words]
        self.process = subprocess.Popen(command, cwd=test.folder, stdout=subprocess.PIPE, **run)
        test.addCleanup(self.kill)
        if listens:
            self.until_told(": listening ")

    def kill(self) -> None:
        self.process.kill()
        self.process.communicate()

    def stderr(self) -> str:
        """Standard error so far, without the times."""
        return STAMP.sub("", os.pread(self.told.fileno(), 1 << 20, 0).decode())

    def until(self, holds: Callable[[], object], what: str) -> None:
        """Waits until a condition holds while the receiver runs."""
        end = time.monotonic() + LONGEST_WAIT
        while not holds():
            has_ended = self.process.poll() is not None
            if (has_ended or time.monotonic() > end) and not holds():
                self.test.fail(f"{what}: never; {self.stderr()}")
            time.sleep(0.01)

    def until_told(self, text: str, count: int = 1) -> None:
        self.until(lambda: self.stderr().count(text) >= count, text)

    def seconds(self, count: int = 4) -> Iterator[int]:
        """Yields once a second by the run's own time: it reports its status, and looks around."""
        for number in range(1, count + 1):
            self.process.send_signal(signal.SIGUSR1)
            self.until_told(": status\n", number)
            yield number

    def until_told_soon(self, text: str) -> None:
        """Waits until the receiver has said this, for some seconds."""
        if not any(text in self.stderr() for _ in self.seconds()):
            self.test.fail(f"{text}: not within some seconds; {self.stderr()}")

    @contextlib.contextmanager
    def stopped(self) -> Iterator[None]:
        """The process stands still meanwhile."""
        self.process.send_signal(signal.SIGSTOP)
        os.waitid(os.P_PID, self.process.pid, os.WSTOPPED | os.WEXITED | os.WNOWAIT)
        yield
        self.process.send_signal(signal.SIGCONT)

    def waiting(self) -> int:
        """How many bytes wait in the receive buffer."""
        return waiting_at(self.port)

    def until_received(self) -> None:
        """Waits until the receive buffer is empty."""
        self.until(lambda: not self.waiting(), "an empty receive buffer")

    def send(self, datagrams: Iterable[bytes], source: str = "127.0.0.1", port: int = 0) -> None:
        """Sends datagrams to the receiver's port from an address of the loopback."""
        with socket.socket(socket.AF_INET, socket.SOCK_DGRAM) as udp:
            udp.bind((source, 0))
            for number, datagram in enumerate(datagrams):
                make_way(number, port or self.port, LONGEST_WAIT)
                udp.sendto(datagram, ("127.0.0.1", port or self.port))

    def until_kept(self, count: int, *names: str) -> None:
        """Waits until the files hold so many datagrams in all."""

        def holds() -> bool:
            with contextlib.suppress(FileNotFoundError, AssertionError):
                return sum(len(records(self.test.path(name))) for name in names) == count
            return False

        self.until(holds, f"{count} datagrams in {names}")

    def end(self, number: int = signal.SIGINT) -> tuple[int, list[str]]:
        """Ends the receiver by a signal; returns its status and its lines."""
        self.process.send_signal(number)
        return self.ended()

    def ended(self) -> tuple[int, list[str]]:
        """The status, and the lines of standard output."""
        out, _ = self.process.communicate(timeout=LONGEST_WAIT)
        return self.process.returncode, out.decode().splitlines()


@functools.lru_cache(maxsize=None)
def can_enter() -> bool:
    with contextlib.suppress(OSError):
        return subprocess.run([*APART, "true"], capture_output=True).returncode == 0
    return False


class Case(run.Case):
    maxDiff = 2000
    processes = 8

    @classmethod
    def inside(cls) -> Sequence[str]:
        return (*APART, "env", f"{INSIDE}=yes") if can_enter() else ()

    def names(self, folder: str = "kept") -> list[str]:
        return sorted(os.listdir(self.path(folder)))

    def needs_namespace(self) -> None:
        if INSIDE not in os.environ:
            self.skipTest("needs namespaces of its own")

    def symbols(self, count: int, size: int = 100, toi: int = 1) -> list[bytes]:
        return [packet(os.urandom(size), number, toi) for number in range(count)]
