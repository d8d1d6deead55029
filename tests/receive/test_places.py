"""Tests of who gets a place of flutejoin-receive, and of what made-up senders cost.

The receiver's own classes are given datagrams and a clock that this file makes.
"""
from __future__ import annotations

import collections
import ipaddress
import itertools
import os
import socket
import struct
from typing import Iterable, Iterator, Mapping
from unittest import mock

import datagram_files
from flutejoin_tools.common.waiting_lines import WaitingLines
from flutejoin_tools.receive import newcomers as receive_newcomers
from flutejoin_tools.receive.batches import Batch
from flutejoin_tools.receive.growing import Block, Growing, Order
from flutejoin_tools.receive.senders import Senders
from flutejoin_tools.receive.sessions import Session
from flutejoin_tools.receive.settings import SessionOptions
from flutejoin_tools.receive.sockets import Interface
from flutejoin_tools.receive.voice import LOG
from flutejoin_tools.receive.writer import Folder, Writer
from tests.support import run

STEP = 100  # of a second
SYMBOL = bytes(1380)  # a symbol as files have them
REAL, FIRST_MADE_UP = "10.0.0.1", 0x0B000001


def packet(symbol: bytes, number: int = 0, instance: int | None = None) -> bytes:
    """A FLUTE packet; of an FDT Instance if `instance` is given."""
    extension = b"" if instance is None else struct.pack(">I", 0xC0200000 | instance)
    words, toi = 4 + len(extension) // 4, int(instance is None)
    head = struct.pack(">BBBBIII", 0x10, 0xA0, words, 0, 0, 7, toi)
    return head + extension + struct.pack(">I", number) + symbol


LARGE, SMALL = packet(SYMBOL), packet(b"N")


def key(address: int | str) -> bytes:
    return ipaddress.ip_address(address).packed


class Queue(Batch):
    """Datagrams in the place of those of a socket."""

    def __init__(self) -> None:
        self.waiting: collections.deque[tuple[bytes, bytes]] = collections.deque()
        self.buffer = bytearray(1 << 17)
        self.view = memoryview(self.buffer)

    def receive(self, most: int) -> Iterator[tuple[bytes, int, tuple[bytes], int]]:
        while self.waiting and most:
            most -= 1
            sender, datagram = self.waiting.popleft()
            self.view[2 : 2 + len(datagram)] = datagram
            yield sender, len(datagram), (datagram[:40],), 0


class Unheard(Session):
    """A session whose socket nobody can send to."""

    def listen(self, _: Interface) -> socket.socket:
        return socket.socket(socket.AF_INET, socket.SOCK_DGRAM)


class Kept(Writer):
    """What is handed over, in the place of the thread that writes."""

    def __init__(self, folder: Folder) -> None:
        super().__init__([folder], None, 0)
        self.datagrams: collections.Counter[str] = collections.Counter()
        self.files: set[str] = set()

    def give(self, growing: Growing, order: Order) -> bool:
        """Counts what the writer would be given."""
        address = str(growing.address)
        if isinstance(order, Block):
            self.datagrams[address] += order.records
            self.files.add(address)
        return True


class Receiver:
    """What receives, and its time: it begins when nothing came yet."""

    def __init__(self, path: str, most: int) -> None:
        self.folder, self.now = Folder(path), 0.0
        self.kept = Kept(self.folder)
        self.senders = Senders(self.folder, self.kept, most, 1 << 30)
        self.senders.look(frozenset())
        self.session = Unheard(SessionOptions(4001), Interface(None), self.senders)
        self.session.batch = self.queue = Queue()
        self.steps = 0

    def step(self, datagrams: Iterable[tuple[bytes, bytes]]) -> None:
        """A hundredth of a second, in which these come."""
        self.queue.waiting.extend(datagrams)
        while self.queue.waiting:
            self.session.receive(1 << 20, self.now)
        self.steps += 1
        self.now = self.steps / STEP
        if self.steps % STEP == 0:
            self.senders.hand_over()
            self.session.each_second(self.now)
            self.senders.each_second(self.now)

    def seconds(self, count: float, *senders: Iterator[list[tuple[bytes, bytes]]]) -> None:
        """Has seconds pass in which these senders send."""
        for _ in range(round(count * STEP)):
            self.step(itertools.chain.from_iterable([next(it) for it in senders]))

    def end(self) -> None:
        """Ends the run: what waits is written or left out."""
        self.senders.give_places(self.now, is_end=True)
        self.senders.each_second(self.now)
        self.senders.hand_over()
        self.session.udp.close()
        os.close(self.folder.lock)

    def left_out(self) -> int:
        return (self.session.left_out() + self.senders.left_out()).total()


def real(each_second: float = 100, address: str = REAL) -> Iterator[list[tuple[bytes, bytes]]]:
    return paced(each_second, ((key(address), LARGE) for _ in itertools.count()))


def paced(
    each_second: float, datagrams: Iterator[tuple[bytes, bytes]]
) -> Iterator[list[tuple[bytes, bytes]]]:
    """Yields the datagrams of each hundredth of a second, of so many a second."""
    sent = 0
    for step in itertools.count(1):
        count = int(step * each_second / STEP) - sent
        sent += count
        yield list(itertools.islice(datagrams, count))


def made_up(
    each: int, addresses: int = 1 << 24, datagram: bytes = SMALL
) -> Iterator[tuple[bytes, bytes]]:
    """Yields datagrams: so many of each address, one address after another, then all anew."""
    for number in itertools.count():
        sender = key(FIRST_MADE_UP + number % addresses)
        for _ in range(each):
            yield sender, datagram


class Case(run.Case):
    def setUp(self) -> None:
        super().setUp()
        silent = mock.patch.object(WaitingLines, "write", lambda _: None)
        silent.start()
        self.addCleanup(silent.stop)
        LOG.waiting.waiting.clear()
        self.number = 0

    def receiver(self, most: int = 64, earlier: Mapping[str, list[bytes]] = {}) -> Receiver:
        """`earlier` is what an earlier run left of each sender."""
        self.number += 1
        folder = self.path(f"kept{self.number}")
        folder.mkdir()
        for address, datagrams in earlier.items():
            datagram_files.write(str(folder / f"{address}.fldg"), datagrams)
        return Receiver(str(folder), most)

    def told(self) -> str:
        return b"".join(LOG.waiting.waiting).decode()


class Places(Case):
    def test_few_made_up_senders(self) -> None:
        """As many as have places, of a datagram a minute each, keep nobody out."""
        receiver = self.receiver()
        receiver.seconds(2, paced(640, made_up(1, 64)))
        few = paced(1.34, made_up(1, 64))
        receiver.seconds(60, few)
        receiver.seconds(20, few, real())
        receiver.end()
        self.holds("nothing of the real one is lost", receiver.kept.datagrams[REAL] == 2000)
        self.holds("nobody of many bytes is left out", not receiver.senders.outdone)

    def test_any_pace(self) -> None:
        """A real sender of 100 datagrams a second that comes later, and one that was there."""
        for pace, seconds in (1, 20), (10, 20), (100, 20), (1000, 5), (10_000, 2), (100_000, 1):
            for each, addresses in (1, 1 << 24), (20, 1 << 24), (1, 64), (1, 1000):
                for is_first in (False, True) if pace < 10_000 else (False,):
                    if pace == 100_000 and addresses <= 1000:
                        continue  # of which each sends as much as the real one
                    name = f"{pace} a second, {each} of each of {addresses}, first: {is_first}"
                    receiver = self.receiver()
                    others = paced(pace, made_up(each, addresses))
                    receiver.seconds(0.5, real() if is_first else others)
                    receiver.seconds(seconds, others, real())
                    receiver.end()
                    sent = 100 * (seconds + 0.5 * is_first)
                    lost = sent - receiver.kept.datagrams[REAL]
                    self.holds(f"{name}: lost {lost} of {sent}", 0 <= lost <= sent / 50, lost)

    def test_any_pace_of_long_datagrams(self) -> None:
        """Each as long as those of the real one, of addresses that come once."""
        for pace, seconds in (1, 20), (100, 20), (1000, 5), (10_000, 2):
            for each in 1, 20:
                for is_first in (False, True) if pace < 10_000 else (False,):
                    name = f"{pace} a second, {each} of each, first: {is_first}"
                    receiver = self.receiver()
                    others = paced(pace, made_up(each, datagram=LARGE))
                    receiver.seconds(0.5, real() if is_first else others)
                    receiver.seconds(seconds, others, real())
                    receiver.end()
                    sent = 100 * (seconds + 0.5 * is_first)
                    lost = sent - receiver.kept.datagrams[REAL]
                    self.holds(f"{name}: lost {lost} of {sent}", 0 <= lost <= sent / 50, lost)

    def test_a_flood_of_long_datagrams(self) -> None:
        """Of 140 MB a second, which memory can't hold: a sender that begins then has its place
        within a second, and loses nothing any more."""
        receiver = self.receiver()
        others = paced(100_000, made_up(20, datagram=LARGE))
        receiver.seconds(1, others, real())
        before = receiver.kept.datagrams[REAL]
        self.holds("it has its place", key(REAL) in receiver.session.by_key)
        receiver.seconds(0.5, others, real())
        receiver.end()
        kept = receiver.kept.datagrams[REAL] - before
        self.holds("all since then is kept", kept == 50, kept)

    def test_the_sender_of_most_bytes_is_asked_last(self) -> None:
        """Also after a silence, and in another run that finds its file."""
        receiver = self.receiver(2)
        many = paced(1000, made_up(20))
        receiver.seconds(10, real())
        receiver.seconds(30, many)
        self.holds("it has its place", key(REAL) in receiver.session.by_key)
        receiver.seconds(3, many, real())
        receiver.end()
        self.holds("it lost nothing", receiver.kept.datagrams[REAL] == 1300)
        receiver = self.receiver(1, {REAL: [LARGE] * 1000})
        larger = "10.0.0.2"
        receiver.seconds(1, real(10, larger))
        receiver.seconds(2, real(10, larger), real(1))
        receiver.end()
        kept = receiver.kept.datagrams
        self.holds("in another run", kept[REAL] == 2 and kept[larger] < 30, kept)

    def test_two_that_send_alike_do_not_change_places(self) -> None:
        receiver = self.receiver(2)
        receiver.seconds(3, real(200))
        receiver.seconds(20, real(200), real(100, "10.0.0.2"), real(100, "10.0.0.3"))
        receiver.end()
        kept, places = receiver.kept.datagrams, receiver.senders.known
        self.holds("the first one stays", kept["10.0.0.2"] == 2000 and not places, kept)

    def test_who_is_left_out_and_sent_more(self) -> None:
        for pace, is_told in (9, False), (11, True):
            receiver = self.receiver(2)
            receiver.seconds(20, real(), real(10, "10.0.0.2"), real(pace, "10.0.0.3"))
            receiver.end()
            kept = receiver.kept.datagrams
            self.holds("two are kept", kept == {REAL: 2000, "10.0.0.2": 200}, kept)
            self.holds("all else is counted", receiver.left_out() == 20 * pace)
            self.holds(f"{pace} a second", receiver.senders.outdone == int(is_told))
            told = "left out 1 senders of more bytes than one that was kept (--senders takes more"
            self.holds("it is told", (told in self.told()) == is_told, self.told())


class Waiting(Case):
    """What waits in memory, of senders that may be made up."""

    def test_few_files_at_the_end(self) -> None:
        """As many as have places, and a real small one is among them."""
        receiver = self.receiver(8)
        receiver.seconds(20, paced(500, made_up(1)))
        receiver.step([(key(REAL), LARGE)] * 2)
        files = len(receiver.kept.files)
        receiver.end()
        more = len(receiver.kept.files) - files
        self.holds("few files", more <= 8 and receiver.kept.datagrams[REAL] == 2, more)

    def test_few_files_of_few_datagrams(self) -> None:
        """Of senders that begin again and again a few have files; a small real one has, soon."""
        for each in 3, 20:
            receiver = self.receiver()
            many = paced(20 * each, made_up(each))
            receiver.seconds(10, many)
            first = len(receiver.kept.files)
            self.holds(f"{each}: as many as have places", first <= 64 + 10 / 60 * 16 + 1, first)
            receiver.step([(key(REAL), LARGE)] * 2)
            receiver.seconds(62, many)
            self.holds("the two", receiver.kept.datagrams[REAL] == 2)
            receiver.seconds(60, many)
            files = len(receiver.kept.files)
            self.holds("few files", files <= 64 + 133 / 60 * 16 + 1, files)
            receiver.end()
            count = receiver.kept.datagrams.total() + receiver.left_out()
            self.holds("each datagram is kept or counted", count == 20 * each * 132 + 2, count)

    def test_memory_has_a_bound(self) -> None:
        receiver = self.receiver()
        newcomers = receiver.senders.newcomers
        long = packet(bytes(10_000))
        senders = [key(FIRST_MADE_UP + number) for number in range(5000)]
        for each, count in (long, 2), (SMALL, 2), (long, 30):
            for number, sender in enumerate(senders[: 10_000 // count]):
                receiver.step([(sender, each)] * count)
                self.assertLessEqual(newcomers.size, receive_newcomers.MOST_HELD + 11_000)
                self.assertLessEqual(newcomers.more, receive_newcomers.MOST_MORE)
                self.assertLessEqual(len(newcomers.by_key), receive_newcomers.MOST_NEWCOMERS)
                if number % 100 == 0:
                    held = [datagram for it in newcomers.by_key.values() for _, datagram in it.held]
                    size = sum(map(len, held)) + receive_newcomers.OF_EACH * len(held)
                    self.assertEqual(size, newcomers.size + newcomers.more)
        receiver.end()
        count = receiver.kept.datagrams.total() + receiver.left_out()
        self.holds("each datagram is kept or counted", count == 29_990, count)
