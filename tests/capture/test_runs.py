"""Runs of packets that are alike: what is made of them is what is made of them one by one, to the
byte, whatever one of them has wrong."""
from __future__ import annotations

import contextlib
import io
import pathlib
import random
import struct
from typing import Any, Callable, Iterator
from unittest import mock

from flutejoin_tools.capture import captures as capture_captures
from flutejoin_tools.capture import runs as capture_runs
from flutejoin_tools.capture import inputs
from flutejoin_tools.capture.checksums import sum_of, zeros
from flutejoin_tools.capture.datagrams import Datagrams
from flutejoin_tools.capture.inputs import Stream
from flutejoin_tools.capture.parts import Files
from flutejoin_tools.capture.runs import Runs
from flutejoin_tools.common.log import Log
from tests.support import captures, run
from tests.support.flute_sender import Sent, fdt, instance, packets

SENDERS = (b"\n\0\0\1", b"\n\0\0\2")
GROUP, PORT = bytes([239, 1, 1, 1]), captures.PORT
ETHERNET = bytes(12) + b"\x08\0"
FORMS = "pcap", "pcapbig", "nano", "pcapng", "pcapngbig", "pcapngsimple", "sections"
# Of a frame: EtherType, version, length, fragment, protocol, checksum, addresses, ports, length,
# checksum, the header of FLUTE, the payload ID and a symbol
PLACES = 12, 14, 17, 20, 23, 24, 26, 33, 35, 37, 39, 40, 42, 44, 50, 79, 80, 81, 99, -1


def frame(sender: bytes, payload: bytes, number: int = 0, front: bytes = ETHERNET) -> bytes:
    """A frame with a datagram of this sender over IPv4."""
    data = captures.udp(sender, GROUP, payload)
    return front + captures.ip4(sender, GROUP, 17, data, number)


def frame6(sender: bytes, payload: bytes, front: bytes) -> bytes:
    """A frame with a datagram of this sender over IPv6."""
    source, target = sender.rjust(16, b"\xfd"), GROUP.rjust(16, b"\xff")
    return front + captures.ip6(source, target, 17, captures.udp(source, target, payload))


def with_word_added(data: bytes, place: int, number: int) -> bytes:
    """The bytes with a number added to the word of 16 bits at a place."""
    word = (int.from_bytes(data[place : place + 2], "big") + number) & 0xFFFF
    return data[:place] + word.to_bytes(2, "big") + data[place + 2 :]


def without_checksum(data: bytes, place: int) -> bytes:
    """A packet without a checksum of UDP, of another symbol, which would have the checksum 0."""
    words = (int.from_bytes(data[at : at + 2], "big") for at in (place, len(data) - 2))
    last = (sum(words) % 65535).to_bytes(2, "big")
    return data[:place] + b"\0\0" + data[place + 2 : -2] + last


def session(symbol: int = 60) -> list[bytes]:
    """The datagrams of a session of two files and an object that nothing describes."""
    files = [Sent(it, bytes([it]) * 40 * symbol, f"http://a/{it}", None, symbol) for it in (1, 2)]
    sent = instance(7, 1, fdt(files))
    for file in files:
        sent += file.packets(7)
    return sent + packets(7, 3, bytes(30 * symbol), symbol, 64, False)


class AtOnce(run.Case):
    """Each row is read twice: in runs, and packet by packet."""

    link = 1

    def capture(self, form: str, frames: list[bytes], snap: int = 65535) -> str:
        """Writes a capture of these frames, and returns its path."""
        rows = [(self.link, each[:snap], len(each)) for each in frames]
        self.write("capture", captures.FORMS[form](rows, snap))
        return str(self.path("capture"))

    def read_once(
        self, path: str, alike: int, as_received: bool, split: int
    ) -> tuple[Any, int]:
        """The files that are made, what is left out, what is told, and how many came in runs."""
        folder = self.path(f"out{alike}")
        folder.mkdir()
        report, stop = Log("test"), mock.Mock(asked=0)
        out = Files(str(folder), split, report)
        told = io.StringIO()

        def add(source: bytes, target: bytes, port: int, payload: bytes) -> None:
            (out.add if as_received else out.take)(source, payload)

        wanted = Datagrams({PORT}, set(), False, add)
        runs, count = Runs(wanted, out, as_received), 0

        def more(*of: Any) -> int:
            nonlocal count
            found = runs.take(*of)
            count += found
            return found

        with mock.patch.object(capture_runs, "ALIKE", alike), self.of(stop):
            with contextlib.redirect_stderr(told), contextlib.redirect_stdout(told):
                try:
                    capture_captures.read(path, stop, out.flush_all, wanted.take, more)
                except inputs.CaptureFault as fault:
                    told.write(str(fault))
                out.finish()
        files = {it.name: it.read_bytes() for it in sorted(folder.iterdir())}
        left_out = dict(wanted.left_out + out.left_out)
        for it in folder.iterdir():
            it.unlink()
        folder.rmdir()
        lines = told.getvalue().replace(str(folder), "")
        return (files, left_out, wanted.count, lines), count

    @contextlib.contextmanager
    def of(self, stop: mock.Mock) -> Iterator[None]:
        with open("/dev/null", "rb") as never:
            stop.wakes = never.fileno()
            with mock.patch("select.select", lambda ready, *_: (ready[:1], [], [])):
                yield

    def same_twice(
        self, form: str, frames: list[bytes], as_received: bool = False, split: int = 1 << 32,
        snap: int = 65535, cut: int = 0,
    ) -> int:
        """Compares both, and returns how many packets came in runs."""
        path = self.capture(form, frames, snap)
        if cut:
            data = pathlib.Path(path).read_bytes()
            pathlib.Path(path).write_bytes(data[:-cut])
        one, none = self.read_once(path, 1 << 60, as_received, split)
        many, count = self.read_once(path, capture_runs.ALIKE, as_received, split)
        self.assertEqual(none, 0)
        self.assertEqual(many[1:], one[1:], (form, many[1:], one[1:]))
        self.holds(f"{form}: the files", many[0] == one[0], [*many[0]])
        return count

    def test_all_is_right(self) -> None:
        frames = [frame(SENDERS[0], payload, at) for at, payload in enumerate(session())]
        for form in FORMS:
            for as_received in False, True:
                count = self.same_twice(form, frames, as_received)
                if form in ("pcap", "pcapbig", "nano"):
                    self.holds(f"{form}: most come in runs", count > len(frames) // 2, count)
        odd = [frame(SENDERS[0], payload) for payload in session(61)]
        self.holds("of odd lengths", self.same_twice("pcap", odd) > 40)
        for split in 1000, 4321, 1 << 32:
            self.same_twice("pcap", frames, split=split)
        self.same_twice("pcap", frames, snap=100)
        for cut in 1, 60, 150:
            self.same_twice("pcap", frames, cut=cut)

    def test_blocks_of_pcapng(self) -> None:
        """Where no other blocks are among those of the packets, as of dumpcap."""
        frames = [frame(SENDERS[0], payload, at) for at, payload in enumerate(session())]
        rows = [(1, each, len(each)) for each in frames]
        with mock.patch.object(captures, "block", self.only_packets(captures.block)):
            data = captures.FORMS["pcapng"](rows, 65535)
        self.write("capture", data)
        one, _ = self.read_once(str(self.path("capture")), 1 << 60, False, 1 << 32)
        many, count = self.read_once(str(self.path("capture")), capture_runs.ALIKE, False, 1 << 32)
        self.assertEqual(many, one)
        self.holds("most come in runs", count > len(frames) // 2, count)

    @staticmethod
    def only_packets(block: Callable[[str, int, bytes], bytes]) -> object:
        def made(order: str, number: int, body: bytes) -> bytes:
            is_other = number in (5, 0x0BAD0BAD)
            return b"" if is_other else block(order, number, body)

        return made

    def test_links(self) -> None:
        """Headers of each link, VLAN tags, and IPv6."""
        dice = random.Random(4)
        for name, (link, *fronts) in captures.LINKS.items():
            self.link = link
            sent = [payload for payload in session() if len(payload) == 96]
            four = [frame(SENDERS[0], it, at, fronts[0]) for at, it in enumerate(sent)]
            six = [frame6(SENDERS[0], it, fronts[1]) for it in sent]
            for frames in four, six:
                count = self.same_twice("pcap", frames)
                self.holds(f"{name}: in runs", count > len(frames) // 2 or name == "wifi", count)
                wrong = [*frames]
                for at in 20, 33, 60:
                    place = dice.randrange(len(frames[at]))
                    wrong[at] = with_word_added(frames[at], place & ~1, 1 << dice.randrange(16))
                self.same_twice("pcap", wrong)
                place = len(frames[0]) - len(sent[0]) - 2  # of the checksum
                none = [it[:place] + b"\0\0" + it[place + 2 :] for it in frames]
                for without in none, [without_checksum(it, place) for it in frames]:
                    self.same_twice("pcap", without)
                    self.same_twice("pcap", frames[:30] + without[30:31] + frames[31:])

    def test_flows(self) -> None:
        """Packets of one length by turns of several senders, sessions and objects."""
        sent = [packets(tsi, toi, bytes([toi]) * 6000, 60, 64) for tsi in (7, 8) for toi in (1, 2)]
        rows = [payload for payloads in zip(*sent) for payload in payloads]
        dice = random.Random(5)
        for senders in SENDERS[:1], SENDERS, tuple(b"\n\0\1" + bytes([it]) for it in range(9)):
            frames = [frame(dice.choice(senders), payload, 7) for payload in rows]
            count = self.same_twice("pcap", frames)
            self.holds(f"{len(senders)} senders: in runs", count > len(frames) // 2, count)
            for split in 700, 3000:
                self.same_twice("pcap", frames, split=split)
            for at in 100, 150, 151:
                frames[at] = with_word_added(frames[at], dice.randrange(34, 120) & ~1, 1)
            self.same_twice("pcap", frames)

    def test_faults_that_cancel(self) -> None:
        """What one packet has too much another has too little: each is left out. Words that change
        places within a packet are right."""
        sent = [payload for payload in session() if len(payload) == 96]
        right = [frame(SENDERS[0], payload, 7) for payload in sent]
        dice = random.Random(6)
        for number in 1, 0x0100, 0x7FFF, 0x8000:
            for _ in range(8):
                frames, place = [*right], dice.randrange(50, 120) & ~1
                one, other = dice.sample(range(20, len(frames)), 2)
                frames[one] = with_word_added(frames[one], place, number)
                frames[other] = with_word_added(frames[other], place, -number)
                self.same_twice("pcap", frames)
        frames = [it[:80] + it[90:100] + it[80:90] + it[100:] for it in right]
        self.holds("words that change places", self.same_twice("pcap", frames) > 40)

    def test_one_is_wrong(self) -> None:
        """One byte of a packet within a run is another: each place in turn, and by chance."""
        sent = [frame(SENDERS[0], payload, at) for at, payload in enumerate(session()[:60])]
        dice = random.Random(1)
        places = [*PLACES, *(dice.randrange(12, 140) for _ in range(60))]
        for place in places:
            frames = [bytearray(each) for each in sent]
            for at in 20, 21, 40:
                frames[at][place % len(frames[at])] ^= 1 << dice.randrange(8)
            self.same_twice(dice.choice(("pcap", "nanobig")), [*map(bytes, frames)])

    def test_what_is_valid_and_other(self) -> None:
        """Another sender, port, time to live, identification, and no checksum, within a run."""
        sent = session()
        plain = [frame(SENDERS[0], payload, at) for at, payload in enumerate(sent)]
        changes: dict[str, Callable[[int, bytes], bytes]] = {
            "a sender": lambda at, it: frame(SENDERS[1], sent[at]),
            "identification": lambda at, it: frame(SENDERS[0], sent[at], 0xFFFF - at),
            "a fragment": lambda at, it: self.ip(sent[at], at, 0x2000),
            "not to be cut": lambda at, it: self.ip(sent[at], at, 0x4000),
            "no checksum": lambda at, it: ETHERNET + captures.ip4(
                *(SENDERS[0], GROUP, 17),
                struct.pack(">HHHH", 1, PORT, 8 + len(sent[at]), 0) + sent[at],
            ),
            "a document": lambda at, it: frame(SENDERS[0], sent[0]),
            "another document": lambda at, it: frame(
                SENDERS[0], instance(7, 1, fdt([Sent(9, b"x", "http://b/", None, 60)]))[0]
            ),
            "padding": lambda at, it: it + b"\0" * 4,
            "shorter": lambda at, it: frame(SENDERS[0], sent[at][:-10]),
            "another port": lambda at, it: ETHERNET + captures.ip4(
                SENDERS[0], GROUP, 17, captures.udp(SENDERS[0], GROUP, sent[at], 4999)
            ),
        }
        for name, change in changes.items():
            for at in (*range(20, 24), 50, 70):
                plain_at = [*plain]
                plain_at[at] = change(at, plain[at])
                self.same_twice("pcap", plain_at)
            each_second = [change(at, it) if at & 1 else it for at, it in enumerate(plain)]
            self.same_twice("pcap", each_second)
            self.same_twice("pcapng", each_second)

    @staticmethod
    def ip(payload: bytes, number: int, place: int) -> bytes:
        data = captures.udp(SENDERS[0], GROUP, payload)
        return ETHERNET + captures.ip4(SENDERS[0], GROUP, 17, data, number, place)

    def test_a_stream(self) -> None:
        sent = random.Random(2).randbytes(5000)
        for buffer in 1, 7, 64, 10_000:
            with mock.patch.object(inputs, "BUFFER", buffer):
                stream = Stream(io.BufferedReader(io.BytesIO(sent)))  # type: ignore[arg-type]
                found, dice = b"", random.Random(buffer)
                while piece := stream.read(dice.randrange(1, 200)):
                    found += piece
                    size = dice.randrange(len(stream.view()) + 1)
                    found += stream.view()[:size]
                    stream.skip(size)
                self.holds(f"a buffer of {buffer}", found == sent)

    def test_a_view(self) -> None:
        """Of a regular file as much is in the buffer as is wanted."""
        sent = random.Random(7).randbytes(5000)
        with mock.patch.object(inputs, "BUFFER", 300):
            for is_regular in False, True:
                source: Any = io.BytesIO(sent)
                stream, found, dice = Stream(source, is_regular=is_regular), b"", random.Random(8)
                while piece := stream.read(dice.randrange(1, 9)):
                    found += piece
                    wanted = dice.randrange(300)
                    size = min(wanted, len(stream.view(wanted)))
                    if is_regular and size < min(wanted, len(sent) - len(found)):
                        self.holds("a view is short", False, (size, wanted))
                    found += stream.view()[:size]
                    stream.skip(size)
                self.holds(f"regular: {is_regular}", found == sent)

    def test_sums_of_rows(self) -> None:
        """Those of many rows, beside those of each, near 0 too."""
        dice = random.Random(9)
        for parts, size, last, count in (
            (1, 2, 2, 4), (1, 4, 3, 5), (2, 6, 1, 9), (3, 6, 6, 64), (8, 180, 177, 87),
            (2, 8, 8, 1),
        ):
            for fill in b"", b"\0", b"\xff":
                rows = [fill * ((parts - 1) * size + last) for _ in range(count)]
                rows = [it or dice.randbytes((parts - 1) * size + last) for it in rows]
                more = [-sum_of(row) % 65535 for row in rows]
                pieces = [row[at * size : (at + 1) * size] for row in rows for at in range(parts)]
                self.holds("right", zeros(pieces, parts, more) == count)
                for at in {0, count // 2, count - 1}:
                    wrong = [*more]
                    wrong[at] = (wrong[at] + 1) % 65535
                    self.holds("one is wrong", zeros(pieces, parts, wrong) == at)
                    other = (at + 1) % count
                    wrong[other] = (wrong[other] - 1) % 65535
                    first = min(at, other) if count > 1 else 1
                    self.holds("two are", zeros(pieces, parts, wrong) == first)
                if fill:
                    self.holds("all have one", zeros(pieces, parts, more[:1]) == count)

    def test_sums(self) -> None:
        dice = random.Random(3)
        for size in (*range(70), 127, 128, 129, 130, 255, 256, 257, 1400, 1401, 65535):
            for data in dice.randbytes(size), b"\xff" * size, bytes(size):
                pairs = ((data + b"\0")[at : at + 2] for at in range(0, size, 2))
                words = [int.from_bytes(pair, "big") for pair in pairs]
                if sum_of(data) != sum(words) % 65535:
                    self.holds(f"{size} bytes", False, data)
        self.holds("sums", True)
