"""Tests of what the system leaves out of a flood of unknown senders, by a filter of the socket."""
from __future__ import annotations

import collections
import re
import signal
import socket
from typing import Callable, Iterable

import datagram_files
from flutejoin_tools.receive import floods
from flutejoin_tools.receive.floods import LEFT_OUT, Flood
from tests.receive.case import PYTHON, TOOL, Case, Receiver
from tests.support.ports import make_way, waiting_at
from tests.support.run import ROOT, until

COUNT = 2000  # datagrams, of which a share of 1/256 is never none or all
SMALL, LONG = b"x", bytes(600)
ONE = "127.0.0.1"
# The receive buffer is full as long as there is a file.
FULL = """
import os, runpy, sys
del sys.argv[0]
sys.path.insert(0, {tools!r})
from flutejoin_tools.receive import floods
floods.Flood.__init__.__defaults__ = (lambda _: float(os.path.exists("full")),)
runpy.run_path(sys.argv[0], run_name="__main__")
"""


def always(full: float) -> Callable[[socket.socket], float]:
    """What tells that a receive buffer is so full."""
    return lambda _: full


class Floods(Case):
    def setUp(self) -> None:
        super().setUp()
        with socket.socket(socket.AF_INET, socket.SOCK_DGRAM) as udp:
            flood = Flood(udp, lambda _: 1.0)
            flood.tend(lambda most: ())
        if not flood.has_filtered:
            self.skipTest("the system has no filters of sockets")

    def filtered(self, family: int, host: str, *known: str) -> tuple[socket.socket, Flood]:
        """A socket that listens, and its flood, of which it passes these senders."""
        udp = socket.socket(family, socket.SOCK_DGRAM)
        self.addCleanup(udp.close)
        if family == socket.AF_INET6:
            udp.setsockopt(socket.IPPROTO_IPV6, socket.IPV6_V6ONLY, 0)
        udp.bind((host, 0))
        udp.setblocking(False)
        flood = Flood(udp, lambda _: 1.0)
        keys = [socket.inet_pton(family, address) for address in known]
        while flood.share > floods.LEAST:
            flood.tend(lambda most: keys[:most])
        return udp, flood

    def came(
        self, udp: socket.socket, to: str, *senders: str, datagram: bytes = SMALL
    ) -> collections.Counter[str]:
        """How many datagrams of these senders come, of COUNT each."""
        came: collections.Counter[str] = collections.Counter()
        for sender in senders:
            family = socket.AF_INET6 if ":" in sender else socket.AF_INET
            with socket.socket(family, socket.SOCK_DGRAM) as sending:
                sending.bind((sender, 0))
                for _ in range(COUNT):
                    sending.sendto(datagram, (to, udp.getsockname()[1]))
                    for _, address in iter(lambda: self.received(udp), None):
                        came[address[0]] += 1
        return came

    def received(self, udp: socket.socket) -> tuple[bytes, tuple[str, int]] | None:
        try:
            data, address = udp.recvfrom(100)
            return data, (address[0], address[1])
        except BlockingIOError:
            return None

    def test_ipv4(self) -> None:
        udp, flood = self.filtered(socket.AF_INET, ONE, "127.0.0.2")
        came = self.came(udp, ONE, "127.0.0.2", "127.0.0.3")
        self.holds("a known sender", came["127.0.0.2"] == COUNT, came)
        self.holds("another", came["127.0.0.3"] < COUNT // 4, came)
        flood.full = lambda _: 0.0
        while flood.share < 1:
            flood.tend(lambda most: ())
        self.holds("no filter is left", self.came(udp, ONE, "127.0.0.3").total() == COUNT)
        self.holds("it is known that there was one", flood.has_filtered)

    def test_ipv6(self) -> None:
        """A socket of IPv6, to which IPv4 comes too."""
        try:
            udp, flood = self.filtered(socket.AF_INET6, "::", "::1", "::ffff:127.0.0.2")
        except OSError:
            self.skipTest("there is no IPv6 here")
        came = self.came(udp, ONE, "127.0.0.2", "127.0.0.3") + self.came(udp, "::1", "::1")
        known = came["::1"], came["::ffff:127.0.0.2"]
        self.holds("known senders", known == (COUNT, COUNT), came)
        self.holds("another", came["::ffff:127.0.0.3"] < COUNT // 4, came)
        flood.tend(lambda most: ())
        self.holds("no longer known", self.came(udp, "::1", "::1").total() < COUNT // 4)

    def test_long_datagrams(self) -> None:
        """In a flood of short ones those of a file come in, also of an unknown sender."""
        for family, host, sender in ((socket.AF_INET, ONE, ONE), (socket.AF_INET6, "::", "::1")):
            try:
                udp, flood = self.filtered(family, host)
            except OSError:
                continue  # there is no IPv6 here
            flood.full, flood.of_long = (lambda _: 0.2), 1.0
            flood.tend(lambda most: ())
            small, long = (
                self.came(udp, sender, sender, datagram=of).total() for of in (SMALL, LONG)
            )
            self.holds(f"{host}: few short ones", small < COUNT // 16, small)
            self.holds(f"{host}: all long ones", long == COUNT, long)
            flood.of_long = 1 / 16
            flood.tend(lambda most: ())
            long = self.came(udp, sender, sender, datagram=LONG).total()
            self.holds(f"{host}: a share of a flood of long ones", 0 < long < COUNT // 4, long)

    def test_the_share(self) -> None:
        """It falls while the buffer fills, and rises once that is nearly empty."""
        udp, flood = self.filtered(socket.AF_INET, ONE)
        shares = []
        flood.share = 1 / 4
        for full in (0.1, 0.0, 0.0, 0.3, 0.29, 1.0, 1.0, 0.1):
            flood.full = always(full)
            flood.tend(lambda most: ())
            shares.append(flood.share * 4)
        first, last = [1, 1.25, 1.5625], [0.78125, 0.78125, 0.390625, 0.1953125, 0.1953125]
        self.holds("shares", shares == first + last, shares)
        flood.of_long = 1.0
        for full, wanted in ((0.0, 1), (0.4, 1), (0.7, 1), (0.8, 0.5), (0.7, 0.5), (0.8, 0.25)):
            flood.full = always(full)
            flood.tend(lambda most: ())
            self.holds(f"of long ones at {full}", flood.of_long == wanted, flood.of_long)

    def test_a_run(self) -> None:
        """A sender that has a place loses nothing, and what is left out is told."""
        code = FULL.format(tools=str(ROOT / "tools"))
        words = f"--port {self.port} --interface {ONE} --seconds 600 --senders 1 -o kept".split()
        command = [*PYTHON, "-c", code, TOOL, *words]
        child = self.start(command, to="out", err="err", signals={signal.SIGINT: signal.SIG_DFL})
        receiver = Receiver(self, child, "out", "err")
        self.assertTrue(until(lambda: b": listening " in receiver.told()))
        real = [*datagram_files.read(str(self.path("sent")))]
        self.give(ONE, real)
        self.write("full", "")
        # Who sent once is not known; who sent more is.
        others = (f"127.1.{number >> 8}.{number & 255}" for number in range(1, 60_000))
        while LEFT_OUT.encode() not in receiver.told():
            self.assertIsNone(child.poll(), receiver.told())
            self.give(next(others), real[:1])
        for _ in range(20):
            self.give(next(others), real[:1])
            self.give(ONE, real)
        child.send_signal(signal.SIGINT)
        done = receiver.ended()
        self.check("a run", done, 0, None, None)
        found = [*datagram_files.read(str(self.path(f"kept/{ONE}.fldg")))]
        self.holds("all of the sender", found == real * 21, len(found))
        line = rf"^left out \d+: dropped by the system \({re.escape(LEFT_OUT)}\)$"
        self.holds("what is left out", re.search(line, done.out.decode(), re.M), done)

    def give(self, sender: str, datagrams: Iterable[bytes]) -> None:
        """Sends, and waits until all that was not left out is received."""
        with socket.socket(socket.AF_INET, socket.SOCK_DGRAM) as udp:
            udp.bind((sender, 0))
            for number, datagram in enumerate(datagrams):
                make_way(number, self.port)
                udp.sendto(datagram, (ONE, self.port))
        self.assertTrue(until(lambda: not waiting_at(self.port)))
