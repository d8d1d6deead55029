"""Ports of 127.0.0.1 for tests, and what waits at one.

A port that the system chooses is free again until somebody listens at it, and meanwhile the system
may give it to another socket. So these are below those that it gives, and processes whose numbers
are close have others.
"""
from __future__ import annotations

import contextlib
import itertools
import os
import pathlib
import socket
import time

# The first port, and how many processes of tests get how many ports each
FIRST, PROCESSES, OF_EACH = 10_000, 200, 100
# Bytes of a receive buffer. The least that systems give by default has room for these and for the
# datagrams that are sent before the next look, in datagrams.
MANY, LOOK_EACH = 150_000, 16
NUMBERS = itertools.count(FIRST + os.getpid() % PROCESSES * OF_EACH)


def free_port() -> int:
    """A port at which nobody listens, another one at each call."""
    while True:
        number = next(NUMBERS)
        with socket.socket(socket.AF_INET, socket.SOCK_DGRAM) as udp:
            with contextlib.suppress(OSError):
                udp.bind(("127.0.0.1", number))
                return number


def waiting_at(port: int) -> int:
    """The bytes of the receive buffers of those that listen at a port, here or at every address."""
    lines = pathlib.Path("/proc/net/udp").read_text().splitlines()[1:]
    rows = [line.split() for line in lines]
    waiting = [row[4].partition(":")[2] for row in rows if row[1].endswith(f":{port:04X}")]
    return sum(int(size, 16) for size in waiting)


def make_way(number: int, port: int, seconds: float = 600) -> None:
    """Waits before datagram `number` is sent, until one that listens has taken what came before.

    Otherwise the system would drop some, on a machine under load.
    """
    end = time.monotonic() + seconds
    while number % LOOK_EACH == 0 and waiting_at(port) > MANY:
        assert time.monotonic() < end, f"nobody takes what comes to {port}"
        time.sleep(0.002)
