"""Measures what a receiver keeps of a sender of 100 datagrams a second of 1,400 bytes, beside
made-up senders of every pace: on the loopback, from addresses of 127.0.0.0/8, by a raw socket (as
root). It is no test: docs/SCALE.md has the figures.

usage: python3 -m tests.scale.floods [SECONDS]
"""
from __future__ import annotations

import multiprocessing
import pathlib
import random
import re
import signal
import socket
import struct
import subprocess
import sys
import tempfile
import time
from ctypes import c_uint64
from typing import Iterator, NamedTuple

from tests.support.flute_sender import header
from tests.support.ports import free_port
from tests.support.run import ROOT

REAL, HERE = "127.0.0.2", "127.0.0.1"
PACE = 100  # datagrams a second of the real sender
FRONT = header(7, 1, b"")
PACES = 1, 10, 100, 1000, 10_000, 100_000  # datagrams a second


def waits(pace: float, seconds: float) -> Iterator[int]:
    """The numbers of datagrams, each once its time has come."""
    began, number = time.monotonic(), 0
    while (now := time.monotonic() - began) < seconds:
        while number <= now * pace:
            yield number
            number += 1
        time.sleep(0.0002)


class Flood(NamedTuple):
    """Datagrams from made-up addresses."""

    pace: int  # a second
    size: int  # bytes
    each: int  # of an address


def send(flood: Flood, port: int, seconds: float, sent: c_uint64) -> None:
    """Sends datagrams of made-up senders for some seconds, and counts them."""
    sending = socket.socket(socket.AF_INET, socket.SOCK_RAW, socket.IPPROTO_RAW)
    udp = struct.pack(">HHHH", 5000, port, 8 + flood.size, 0)
    front = struct.pack(">BBHHHBBH", 0x45, 0, 28 + flood.size, 0, 0, 64, socket.IPPROTO_UDP, 0)
    payload = FRONT + bytes(flood.size - len(FRONT))
    to, source = socket.inet_aton(HERE), b""
    for number in waits(flood.pace, seconds):
        if number % flood.each == 0:
            source = struct.pack(">I", 127 << 24 | random.randrange(1 << 16, 1 << 24))
        sending.sendto(front + source + to + udp + payload, (HERE, 0))
        sent.value += 1


def real(port: int, seconds: float) -> int:
    """Sends datagrams of 1,400 bytes, and returns how many."""
    sent = 0
    with socket.socket(socket.AF_INET, socket.SOCK_DGRAM) as sending:
        sending.bind((REAL, 0))
        for sent in waits(PACE, seconds):
            place = struct.pack(">HH", sent >> 16, sent & 0xFFFF)
            sending.sendto(FRONT + place + bytes(1400), (HERE, port))
    return sent + 1


def measure(flood: Flood, seconds: float) -> None:
    """Prints what a receiver kept of the real sender in such a flood."""
    port, flooded = free_port(), multiprocessing.RawValue(c_uint64)
    with tempfile.TemporaryDirectory() as room:
        words = [str(ROOT / "tools" / "flutejoin-receive"), "--port", str(port), "-o", f"{room}/at"]
        told = pathlib.Path(room, "told")
        with told.open("wb") as out:
            receiver = subprocess.Popen([sys.executable, *words], stdout=out, stderr=out)
        while b"listening" not in told.read_bytes():
            time.sleep(0.05)
        others = multiprocessing.Process(target=send, args=(flood, port, seconds + 1, flooded))
        others.start()
        time.sleep(0.5)
        sent = real(port, seconds)
        others.join()
        time.sleep(0.5)
        receiver.send_signal(signal.SIGTERM)
        receiver.wait()
        of_real = rf"{re.escape(REAL)}[.0-9]*fldg: (\d+) datagrams"
        kept = sum(map(int, re.findall(of_real, told.read_text())))
    print(f"{flood}: {flooded.value} sent; of the real sender {kept} of {sent} kept", flush=True)


def main() -> None:
    seconds = float(sys.argv[1]) if sys.argv[1:] else 20.0
    for size, each in (100, 1), (100, 20), (1400, 1), (1400, 20):
        for pace in PACES:
            measure(Flood(pace, size, each), seconds)


if __name__ == "__main__":
    main()
