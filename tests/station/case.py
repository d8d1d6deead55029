"""Stations that run, for tests, and what is sent to them and kept by them.

Datagrams are sent only to 127.0.0.1. SOAK in the environment is how many times as many kills and
rounds there are (default: 1).
"""
from __future__ import annotations

import contextlib
import os
import pathlib
import random
import signal
import socket
import subprocess
import sys
import tempfile
import time
from typing import Any, Callable, Optional

import datagram_files
from datagram_files import HEADER, record
from flutejoin_tools.common.program import Program
from flutejoin_tools.common.service_log import ServiceLog
from flutejoin_tools.station.keeping import Keeper
from flutejoin_tools.station.kept import Settings
from tests.support import flute_sender, run
from tests.support.ports import free_port, make_way
from tests.support.run import LONGEST, PROGRAM, ROOT

TOOLS = ROOT / "tools"
STATION = TOOLS / "flutejoin-station"
SOURCE = "7f000001"
NAME = "127.0.0.1"
SOAK = int(os.environ.get("SOAK", 1))


def flutejoin(*words: object) -> subprocess.CompletedProcess[bytes]:
    return subprocess.run([PROGRAM, *map(str, words)], capture_output=True)


def records(data: bytes) -> list[bytes]:
    """The whole records of a datagram file, which may be cut at its end."""
    return list(datagram_files.records(data))


def datagram_file(path: pathlib.Path, of: list[bytes]) -> pathlib.Path:
    """Writes a datagram file of these records, with its folder."""
    path.parent.mkdir(parents=True, exist_ok=True)
    path.write_bytes(HEADER + b"".join(of))
    return path


def sent_file(folder: pathlib.Path, size: int, symbol: int, toi: int = 1) -> list[bytes]:
    """Makes a random file, and returns the records of its datagram file."""
    file, sent = folder / f"file{toi}", folder / f"sent{toi}"
    file.write_bytes(random.Random(toi).randbytes(size))
    words = "--tsi", 7, "--toi", toi, "--symbol", symbol, "--block", 64
    done = flutejoin("carousel", "-o", sent, *words, file)
    assert done.returncode == 0, done.stderr
    return records(sent.read_bytes())


def described(file: pathlib.Path) -> list[bytes]:
    """The records of an FDT Instance that describes a file."""
    location = f"http://example.com/{file.name}"
    sent = flute_sender.Sent(1, file.read_bytes(), location, symbol=1000, block=64)
    return list(map(record, flute_sender.instance(7, 2, flute_sender.fdt([sent]))))


def journal_of(*inputs: object) -> bytes:
    """The journal of these inputs joined. Datagram files may be cut at their ends."""
    with tempfile.TemporaryDirectory() as folder:
        paths: list[object] = []
        for number, path in enumerate(pathlib.Path(str(it)) for it in inputs):
            # A running station may replace or remove it meanwhile.
            with contextlib.suppress(FileNotFoundError):
                data = path.read_bytes()
                copy = pathlib.Path(folder, str(number))
                if data.startswith(HEADER):
                    paths.append(datagram_file(copy, records(data)))
                elif data:
                    copy.write_bytes(data)
                    paths.append(copy)
        out = pathlib.Path(folder, "out")
        out.write_bytes(b"FLJN\0\2\xff" + bytes(8))
        while paths:
            done = flutejoin("join", "--source", SOURCE, "-o", out, out, *paths[:60])
            assert done.returncode == 0, done.stderr
            paths = paths[60:]
        return out.read_bytes()


def kept(folder: pathlib.Path) -> list[pathlib.Path]:
    return sorted([*folder.glob("journals/*.journal"), *folder.glob("recent/*.journal")])


class Port:
    """A port of 127.0.0.1 to which datagrams are sent."""

    def __init__(self) -> None:
        self.number = free_port()
        self.udp = socket.socket(socket.AF_INET, socket.SOCK_DGRAM)

    def send(self, of: list[bytes], pause: float = 0.0) -> None:
        """Sends so that the system drops none."""
        for number, sent in enumerate(of):
            make_way(number, self.number)
            self.udp.sendto(sent[2:], (NAME, self.number))
            if number % 16 == 15:
                time.sleep(pause)


class Run:
    """A station that is running."""

    def __init__(
        self,
        test: Case,
        folder: pathlib.Path,
        port: int | None,
        *words: object,
        wait: bool = True,
        code: str | None = None,
    ) -> None:
        """`code` is Python that runs the station."""
        self.test, self.told = test, tempfile.NamedTemporaryFile()
        command = [sys.executable, *(["-c", code] if code else []), STATION, "-o", folder]
        if port is not None:
            command += ["--port", port, "--interface", NAME]
        self.child = subprocess.Popen(
            [*map(str, [*command, "--flutejoin", PROGRAM, *words])],
            stdout=subprocess.DEVNULL,
            stderr=self.told,
            start_new_session=True,
        )
        test.addCleanup(run.end, self.child)
        test.groups.append(self.child.pid)
        if wait:
            self.until("listening")

    def text(self) -> str:
        return pathlib.Path(self.told.name).read_text()

    def until(self, text: str) -> None:
        self.test.until(lambda: text in self.text() or self.child.poll() is not None, self)

    def end(self, number: int = signal.SIGTERM) -> int:
        self.child.send_signal(number)
        return self.wait()

    def wait(self) -> int:
        try:
            return self.child.wait(LONGEST)
        except subprocess.TimeoutExpired:
            self.child.kill()
            self.test.holds("a run ends", False, self.text())
            return self.child.wait()


def going_on(groups: list[int]) -> list[str]:
    """The names of the processes of these groups that have not ended."""
    names = []
    for path in pathlib.Path("/proc").glob("[0-9]*/stat"):
        with contextlib.suppress(FileNotFoundError, ProcessLookupError):
            name, _, rest = path.read_text(errors="replace").rpartition(") ")
            state, _, group = rest.split()[:3]
            if state not in "ZX" and int(group) in groups:
                names.append(name)
    return names


def receivers(run: Run) -> list[int]:
    """The receivers that a run began. Joins may run beside them."""
    words = "ps", "-o", "pid=,args=", "--ppid", str(run.child.pid)
    lines = subprocess.run(words, capture_output=True, text=True).stdout.splitlines()
    return [int(line.split()[0]) for line in lines if "flutejoin-receive" in line]


def is_stopped(process: int) -> bool:
    states = [path.read_text() for path in pathlib.Path(f"/proc/{process}/task").glob("*/stat")]
    return {state.rpartition(") ")[2][0] for state in states} == {"T"}


def keeper(folder: pathlib.Path, has_outbox: bool, program: object = PROGRAM) -> Keeper:
    """What joins the files of a station's folder, at once and without a receiver."""
    settings = Settings(0, 0, has_outbox)
    return Keeper(str(folder), Program(str(program), lambda: None), settings, ServiceLog("station"))


def keep(folder: pathlib.Path, has_outbox: bool = False) -> None:
    """The same, without a receiver."""
    of_folder = keeper(folder, has_outbox)
    while of_folder.waiting():
        of_folder.work(False)


def disk(folder: pathlib.Path) -> tuple[int, int]:
    """The bytes of a folder's whole files, and of its partial files."""
    whole = partial = 0
    for path in folder.rglob("*"):
        with contextlib.suppress(FileNotFoundError):
            if path.is_file():
                size = path.stat().st_size
                whole += size * (path.suffix != ".partial")
                partial += size * (path.suffix == ".partial")
    return whole, partial


class Case(run.Case):
    """A test, behind which nothing that it began goes on."""

    processes = 20

    def setUp(self) -> None:
        super().setUp()
        self.groups: list[int] = []  # the process group of each run

    def tearDown(self) -> None:
        # A receiver whose run was ended at once may still write for a moment.
        self.until(lambda: not going_on(self.groups))
        self.holds("nothing goes on", not going_on(self.groups), going_on(self.groups))

    def begun(self, folder: pathlib.Path, port: Optional[int], *words: object, **how: Any) -> Run:
        """A run that listens, or with `wait=False` one that was begun."""
        return Run(self, folder, port, *words, **how)

    def of_once(self, folder: pathlib.Path, *words: object) -> Run:
        """A run that receives nothing, and joins the files that are there."""
        begun = self.begun(folder, Port().number, "--seconds", 0.1, *words, wait=False)
        begun.wait()
        return begun

    def until(self, is_so: Callable[[], object], begun: Run | None = None) -> bool:
        """Waits until a condition holds. Returns False, behind a failure, if it never does."""
        if run.until(is_so):
            return True
        self.holds("a wait", False, begun.text() if begun else "it never holds")
        return False

    def stop(self, process: int) -> None:
        """Stops a process, and waits until each of its threads stands still."""
        os.kill(process, signal.SIGSTOP)
        self.until(lambda: is_stopped(process))
