"""Measures how long a file takes from its last needed datagram to its name, at a station that
delivers and at a centre on the same machine, which takes from the station's outbox or asks it as
over ssh; and how much of a processor all need when nothing comes. It is no test: docs/SCALE.md has
the figures.

usage: python3 -m tests.scale.latency PROGRAM [BYTES..]
"""
from __future__ import annotations

import hashlib
import os
import pathlib
import signal
import socket
import subprocess
import sys
import tempfile
import time
from typing import Callable, Iterator

from tests.support.flute_sender import Sent, fdt, instance
from tests.support.ports import free_port, make_way
from tests.support.run import ROOT

TOOLS = ROOT / "tools"
TSI, NAME = 7, "127.0.0.1"
IDLE = 30  # seconds without datagrams in which the processor's share is measured
QUIET = 4  # seconds until all that a run has begun is done
LONGEST = 120  # seconds that a file may take to its name
TICKS = os.sysconf("SC_CLK_TCK")  # in a second, by which the system counts a processor's time
DELIVERS, FILLS, ANSWERS = "a station that delivers", "an outbox and a centre", "a centre that asks"
# In the place of ssh, whose sshd runs this and hands on what was asked for
SSH = """#!/bin/sh
while [ "$1" != flutejoin-station ]; do shift; done
SSH_ORIGINAL_COMMAND="$*" exec {python} {tools}/flutejoin-station --answer {station} \\
    --flutejoin {program}
"""


class Runs:
    """A station, and a centre of it, or the station alone."""

    def __init__(self, program: str, work: pathlib.Path, way: str) -> None:
        self.work, self.port = work, free_port()
        self.children: list[subprocess.Popen[bytes]] = []
        self.udp = socket.socket(socket.AF_INET, socket.SOCK_DGRAM)
        work.mkdir()
        of = ["--port", self.port, "-o", work / "news", "--flutejoin", program]
        of += ["--deliver", work / "centre"] if way == DELIVERS else []
        of += ["--outbox"] if way == FILLS else []
        self.start("flutejoin-station", *of)
        if way != DELIVERS:
            lines = ["[centre]", f'folder = "{work}/centre"', f'flutejoin = "{program}"']
            lines += ["[[station]]", 'name = "one"']
            own = [f'folder = "{work}/news"', "outbox = true"]
            lines += own if way == FILLS else ['ssh = "one"']
            (work / "centre.toml").write_text("\n".join(lines) + "\n")
            given = {"python": sys.executable, "tools": TOOLS, "program": program}
            (work / "ssh").write_text(SSH.format(**given, station=work / "news"))
            (work / "ssh").chmod(0o755)
            self.start("flutejoin-centre", "--config", work / "centre.toml")
        until(lambda: " listening " in (work / "err").read_text())

    def start(self, tool: str, *words: object) -> None:
        with open(self.work / "err", "ab") as err:
            command = [sys.executable, str(TOOLS / tool), *map(str, words)]
            env = {**os.environ, "PATH": f"{self.work}:{os.environ['PATH']}"}
            self.children.append(subprocess.Popen(command, stderr=err, env=env))

    def send(self, packets: list[bytes]) -> None:
        for number, packet in enumerate(packets):
            make_way(number, self.port)
            self.udp.sendto(packet, (NAME, self.port))

    def latency(self, toi: int, size: int) -> float:
        """Sends a file and its description, the last datagram alone, and waits for its name."""
        file = Sent(toi, os.urandom(size), f"http://a.example/{toi}.bin")
        packets = file.packets(TSI)
        self.send(instance(TSI, toi, fdt([file])) + packets[:-1])
        time.sleep(QUIET)
        began = time.monotonic()
        self.send(packets[-1:])
        path = self.work / "centre/files/a.example" / f"{toi}.bin"
        until(path.exists)
        took = time.monotonic() - began
        assert hashlib.md5(path.read_bytes()).digest() == hashlib.md5(file.content).digest()
        return took

    def processor(self) -> float:
        """The seconds of a processor that all took until now, with the receiver."""
        return sum(times_of(child.pid) for child in self.children)

    def end(self) -> None:
        for child in self.children:
            child.send_signal(signal.SIGTERM)
        for child in self.children:
            child.wait()


def until(is_so: Callable[[], object]) -> None:
    """Waits until a condition holds."""
    end = time.monotonic() + LONGEST
    while not is_so():
        assert time.monotonic() < end, "it took too long"
        time.sleep(0.01)


def family(pid: int) -> Iterator[int]:
    """Yields the numbers of a process and of its children, and theirs."""
    yield pid
    for child in pathlib.Path(f"/proc/{pid}/task/{pid}/children").read_text().split():
        yield from family(int(child))


def times_of(pid: int) -> float:
    """The seconds of a processor that a process and its children took."""
    found = 0
    for each in family(pid):
        fields = pathlib.Path(f"/proc/{each}/stat").read_text().rpartition(")")[2].split()
        found += sum(map(int, fields[11:15]))  # of it and of its children that ended
    return found / TICKS


def main() -> None:
    program, sizes = os.path.abspath(sys.argv[1]), [*map(int, sys.argv[2:])]
    with tempfile.TemporaryDirectory() as folder:
        for name, way in (("deliver", DELIVERS), ("outbox", FILLS), ("asked", ANSWERS)):
            runs = Runs(program, pathlib.Path(folder, name), way)
            try:
                for toi, size in enumerate(sizes or [10_000, 1_000_000, 10_000_000], 1):
                    took = [runs.latency(10 * toi + again, size) for again in range(3)]
                    print(f"{way}: {size} bytes:", *(f"{each:.2f} s" for each in took), flush=True)
                time.sleep(QUIET)
                before = runs.processor()
                time.sleep(IDLE)
                share = 100 * (runs.processor() - before) / IDLE
                print(f"{way}: idle: {share:.2f} % of a processor", flush=True)
            finally:
                runs.end()


if __name__ == "__main__":
    main()
