"""Tests what flutejoin-capture makes of rare and hostile captures, which this file makes."""
from __future__ import annotations

import gzip
import os
import re
import signal
import struct
import subprocess
import sys
import tempfile
import time
import unittest
import unittest.mock
from typing import Any, Callable, SupportsIndex, overload

import datagram_files
from flutejoin_tools.capture import captures as capture_captures
from flutejoin_tools.capture import datagrams, inputs, parts
from flutejoin_tools.common.log import Log
from flutejoin_tools.common.texts import shown
from flutejoin_tools.fdt import hints
from flutejoin_tools.mend import salvage
from tests.support import captures
from tests.support.run import ROOT

NEEDS_PROGRAM = False
TOOLS = ROOT / "tools"
LONGEST = 600  # seconds; only what hangs takes so long
SENDER, GROUP = b"\x0a\0\0\1", b"\xef\1\1\1"
ETHERNET = b"\x01\0\x5e\1\1\1\2\0\0\0\0\1"
IP = b"\x08\0"


def packet(symbol: bytes, information: int | None = None, tsi: int = 7) -> bytes:
    """A FLUTE packet; with `information` it has EXT_FTI for symbols of so many bytes."""
    words = 4 if information is None else 8
    head = struct.pack(">BBBBIII", 0x10, 0xA0, words, 0, 0, tsi, 1)
    if information is not None:
        head += struct.pack(">BBHIHHI", 64, 4, 0, 40000, 0, information, 16)
    return head + b"\0\0\0\5" + symbol


def frame(payload: bytes, checksum: bool = True, tags: bytes = b"") -> bytes:
    """The Ethernet frame of a UDP datagram, with a right or a wrong checksum."""
    data = captures.udp(SENDER, GROUP, payload)
    data = data if checksum else data[:6] + b"\x12\x34" + data[8:]
    return ETHERNET + tags + IP + captures.ip4(SENDER, GROUP, 17, data)


def pcap(frames: list[bytes], times: list[int] | None = None, magic: int = 0xA1B2C3D4) -> bytes:
    """A capture with these frames; `magic` says in which form of pcap."""
    made = [struct.pack("<IHHiIII", magic, 2, 4, 0, 0, 262144, 1)]
    more = b"\0" * (8 if magic == 0xA1B2CD34 else 0)
    for at, of in enumerate(frames):
        when = times[at] if times else 1700000000
        made.append(struct.pack("<IIII", when, 0, len(of), len(of)) + more + of)
    return b"".join(made)


class Cases(unittest.TestCase):
    def setUp(self) -> None:
        folder = tempfile.TemporaryDirectory()
        self.addCleanup(folder.cleanup)
        self.folder = folder.name

    def path(self, name: str) -> str:
        return os.path.join(self.folder, name)

    def made(self, data: bytes, name: str = "capture") -> str:
        """Writes a capture, and returns its path."""
        with open(self.path(name), "wb") as file:
            file.write(data)
        return self.path(name)

    def run_tool(self, *words: str, tool: str = "capture") -> subprocess.CompletedProcess[str]:
        """Runs flutejoin-capture, or another tool."""
        command = [sys.executable, os.path.join(TOOLS, f"flutejoin-{tool}"), *words]
        return subprocess.run(command, capture_output=True, text=True, timeout=LONGEST)

    def listed(self, data: bytes, *options: str) -> list[str]:
        """The lines that the tool prints for a capture, and then its faults."""
        ran = self.run_tool(*options, self.made(data))
        return (ran.stdout + ran.stderr.replace(self.folder + "/", "")).splitlines()

    def taken(self, data: bytes, *options: str) -> list[bytes]:
        """The datagrams that the tool takes from a capture."""
        self.run_tool("--port", "4001", *options, "-o", self.path("out"), self.made(data))
        path = self.path("out/10.0.0.1.fldg")
        return list(datagram_files.read(path)) if os.path.exists(path) else []


class Segments(Cases):
    """Datagrams in one piece, by UDP segmentation offload, with --any-checksum."""

    told = "left out 1: " + datagrams.SEVERAL

    def test_those_that_tell_their_length_are_taken_apart(self) -> None:
        sent = [packet(bytes([n]) * 1000, 1000) for n in range(20)] + [packet(b"x" * 300, 1000)]
        data = pcap([frame(b"".join(sent), checksum=False)])
        self.assertEqual(self.taken(data, "--any-checksum"), sent)
        told = self.listed(data, "--any-checksum")[0]
        self.assertTrue(told.endswith(": 21 datagrams, 21 like FLUTE"), told)

    def test_what_may_be_several_is_left_out_and_told(self) -> None:
        session = packet(b"a" * 600, 1000) + packet(b"b" * 600, 1000, tsi=8)
        for payload in (
            b"".join(packet(b"y" * 1000) for _ in range(20)),  # no symbol length
            b"".join(packet(b"y" * 400) for _ in range(3)),  # in one frame
            b"".join(packet(b"y" * 400, 1000) for _ in range(3)),  # shorter than that length
            packet(b"z" * 2000, 1000),  # no datagram begins where the second would
            session,  # one of another session
        ):
            data = pcap([frame(payload, checksum=False), frame(packet(b"right", 5))])
            self.assertEqual(self.taken(data, "--any-checksum"), [packet(b"right", 5)])
            self.assertIn(self.told, self.listed(data, "--any-checksum"))
            for name in os.listdir(self.path("out")):
                os.remove(self.path("out/" + name))

    def test_what_is_one_is_taken(self) -> None:
        zeros = packet(b"\0" * 1400, tsi=0)
        repeats = packet(b"\0\0\0\7" * 250, 1000)
        jumbo, words = packet(b"y" * 8000, 8000), b"words" * 900
        for payload in (packet(b"y" * 1400), zeros, repeats, jumbo, words):
            data = pcap([frame(payload, checksum=False)])
            self.assertEqual(self.taken(data, "--any-checksum"), [payload])
            os.remove(self.path("out/10.0.0.1.fldg"))

    def test_a_right_checksum_shows_that_it_is_one(self) -> None:
        payload = b"".join(packet(b"y" * 1000) for _ in range(8))
        self.assertEqual(self.taken(pcap([frame(payload)]), "--any-checksum"), [payload])

    def test_a_datagram_of_fragments_is_one(self) -> None:
        payload = packet(b"y" * 5000)
        data = captures.udp(SENDER, GROUP, payload)[:6] + b"\x12\x34"
        data += captures.udp(SENDER, GROUP, payload)[8:]
        pieces = captures.fragments(SENDER, GROUP, data, 9, 1400)
        frames = [ETHERNET + IP + piece for piece in pieces]
        self.assertEqual(self.taken(pcap(frames), "--any-checksum"), [payload])


class Fragments(Cases):
    def pieces(self, size: int = 400, payload: bytes | None = None) -> list[bytes]:
        """The frames of one datagram in fragments of so many bytes."""
        payload = packet(b"s" * 1000, 1000) if payload is None else payload
        data = captures.udp(SENDER, GROUP, payload)
        return [ETHERNET + IP + of for of in captures.fragments(SENDER, GROUP, data, 9, size)]

    def test_too_many_are_told(self) -> None:
        payload = packet(b"s" * (257 * 8 - 28))
        frames = self.pieces(8, payload)
        self.assertEqual(len(frames), 257)
        self.assertIn("left out 1: more than 256 fragments", self.listed(pcap(frames)))
        payload = packet(b"s" * (256 * 8 - 28))
        self.assertEqual(self.taken(pcap(self.pieces(8, payload))), [payload])

    def test_they_have_thirty_seconds(self) -> None:
        frames = self.pieces()
        self.assertEqual(len(frames), 3)
        for late, is_taken in ((30, True), (31, False), (86400, False), (-31, False)):
            data = pcap(frames, [1700000000, 1700000000, 1700000000 + late])
            wanted = [] if not is_taken else [packet(b"s" * 1000, 1000)]
            self.assertEqual(self.taken(data), wanted, late)
            told = ["left out 2: a fragment is lost"] if not is_taken else []
            self.assertEqual([line for line in self.listed(data) if "left out" in line], told)
            for name in os.listdir(self.path("out")) if is_taken else ():
                os.remove(self.path("out/" + name))

    def test_an_identification_that_is_used_again_later(self) -> None:
        frames = self.pieces()
        data = pcap(frames[:2] + frames, [100, 100, 200, 200, 200])
        self.assertEqual(self.taken(data), [packet(b"s" * 1000, 1000)])

    def test_units_of_pcapng(self) -> None:
        frames = self.pieces()
        for resolution, units in ((None, 10**6), (9, 10**9), (0x80 | 20, 1 << 20), (0, 1)):
            for late, count in ((30, 1), (31, 0)):
                options = () if resolution is None else (9, 1, resolution, 0, 0)
                made = [pcapng_head(struct.pack("<HHB3xHH", *options) if options else b"")]
                for at, of in enumerate(frames):
                    when = (1700000000 + late * (at == 2)) * units
                    fields = 0, when >> 32, when & 0xFFFFFFFF, len(of), len(of)
                    made.append(captures.block("<", 6, struct.pack("<IIIII", *fields) + of))
                taken = self.taken(b"".join(made))
                self.assertEqual(len(taken), count, (resolution, late))
                for name in os.listdir(self.path("out")) if taken else ():
                    os.remove(self.path("out/" + name))

    def test_those_of_two_vlans_are_of_two_datagrams(self) -> None:
        frames = self.pieces()
        tagged = [of[:12] + b"\x81\0\0\7" + of[12:] for of in frames]
        self.assertEqual(self.taken(pcap(tagged)), [packet(b"s" * 1000, 1000)])
        os.remove(self.path("out/10.0.0.1.fldg"))
        others = [of[:12] + b"\x81\0\x20\x08" + of[12:] for of in frames]
        for mixed in (frames[:2] + tagged[2:], others[:1] + tagged[1:]):
            self.assertEqual(self.taken(pcap(mixed)), [])

    def test_headers_before_a_datagram_are_copied_once(self) -> None:
        class Counted(bytes):
            copied = 0

            @overload
            def __getitem__(self, place: SupportsIndex) -> int: ...

            @overload
            def __getitem__(self, place: slice) -> Counted: ...

            def __getitem__(self, place: SupportsIndex | slice) -> int | Counted:
                if not isinstance(place, slice):
                    return bytes.__getitem__(self, place)
                part = bytes.__getitem__(self, place)
                Counted.copied += len(part)
                return Counted(part)

        headers = b"\x3c\0\1\4\0\0\0\0" * 8000 + b"\x11\0\1\4\0\0\0\0"
        kind, data = datagrams.behind_headers(60, Counted(headers + b"datagram"))
        self.assertEqual((kind, data), (17, b"datagram"))
        self.assertLess(Counted.copied, 100)


def pcapng_head(options: bytes = b"") -> bytes:
    """How a pcapng capture of one interface with these options begins."""
    section = captures.block("<", 0x0A0D0D0A, struct.pack("<IHHq", 0x1A2B3C4D, 1, 0, -1))
    return section + captures.block("<", 1, struct.pack("<HHI", 1, 0, 262144) + options)


class Restarts(Cases):
    """A sender that starts again."""

    def files(
        self, frames: list[bytes], times: list[int] | None = None, *options: str
    ) -> dict[str, list[bytes]]:
        """The datagrams of each file that is made of a capture; the run itself is kept in `ran`."""
        folder = self.path("out")
        made = self.made(pcap(frames, times))
        self.ran = self.run_tool("--port", "4001", *options, "-o", folder, made)
        self.assertEqual(self.ran.returncode, 0)
        names = sorted(os.listdir(folder))
        return {name: list(datagram_files.read(os.path.join(folder, name))) for name in names}

    def test_a_file_of_both_runs(self) -> None:
        old = [instance(b"old"), packet(b"one", 5), instance(b"old"), instance(b"more", 2)]
        new = [instance(b"new"), packet(b"two", 5), instance(b"new"), instance(b"more", 2)]
        sent = old + new
        self.assertEqual(self.files([frame(of) for of in sent]), {"10.0.0.1.fldg": sent})
        self.assertEqual(self.ran.stderr, f"flutejoin-capture: 10.0.0.1 {hints.TOLD}\n")
        folder = self.path("out")
        line = f"flutejoin-gather -o {folder} {folder}/10.0.0.1.fldg"
        self.assertEqual(self.ran.stdout.splitlines()[-1], line)

    def test_the_parts(self) -> None:
        sent = [instance(b"old"), packet(b"1", 5), packet(b"2", 5), instance(b"new")]
        found = self.files([frame(of) for of in sent], None, "--split", "60")
        self.assertEqual(list(found.values()), [[sent[1]], [sent[2]], [sent[3]], [sent[0]]])
        line = self.ran.stdout.splitlines()[-1]
        self.assertEqual((line.split()[0], line.count(".fldg")), ("flutejoin-gather", 4))

    def test_other_lengths_contradict(self) -> None:
        sent = [instance(b"same"), instance(b"same", length=41)]
        self.files([frame(of) for of in sent])
        self.assertIn("flutejoin-gather -o", self.ran.stdout)

    def test_what_is_no_contradiction(self) -> None:
        sent = [
            instance(b"1"),
            instance(b"2", 2),  # another FDT Instance
            instance(b"3", tsi=8),  # of another session
            packet(b"4", 5),
            packet(b"5", 5),  # symbols of files may conflict: each value is kept
            b"no FLUTE",
            b"x",
        ]
        self.assertEqual(self.files([frame(of) for of in sent]), {"10.0.0.1.fldg": sent})
        self.assertEqual(self.ran.stderr, "")


def instance(content: bytes, number: int = 1, tsi: int = 7, length: int = 40) -> bytes:
    """A datagram of an FDT Instance."""
    head = struct.pack(">BBBBIII", 0x10, 0xA0, 9, 0, 0, tsi, 0)
    head += struct.pack(">BBH", 192, 0x20, number)
    head += struct.pack(">BBHIHHI", 64, 4, 0, length, 0, 10, 16)
    return head + b"\0\0\0\1" + content


def from_address(number: int, payload: bytes) -> bytes:
    """The frame of a datagram of the sender 11.0.0.0, or one of so much more."""
    sender = struct.pack(">I", 0x0B000000 + number)
    data = captures.ip4(sender, GROUP, 17, captures.udp(sender, GROUP, payload))
    return ETHERNET + IP + data


class Senders(Cases):
    """More senders than files can be open at once."""

    real = [packet(b"real%d" % number * 200) for number in range(8)]

    def crowd(self, count: int) -> list[bytes]:
        return [from_address(number, packet(b"made up")) for number in range(count)]

    def run_on(self, frames: list[bytes], *options: str, name: str = "capture", **how: Any) -> Any:
        """Runs flutejoin-capture on a capture of these frames."""
        made = self.made(pcap(frames), name)
        words = "--port", "4001", *options, "-o", self.path("out"), "-" if how else made
        command = [sys.executable, os.path.join(TOOLS, "flutejoin-capture"), *words]
        return subprocess.run(command, capture_output=True, timeout=LONGEST, check=False, **how)

    def kept(self, name: str = "10.0.0.1") -> list[bytes]:
        return list(datagram_files.read(self.path(f"out/{name}.fldg")))

    def test_those_that_sent_most_are_taken(self) -> None:
        frames = self.crowd(200) + [frame(of) for of in self.real]
        ran = self.run_on(frames)
        self.assertEqual((ran.returncode, ran.stderr), (0, b""), ran)
        self.assertEqual(self.kept(), self.real)
        self.assertEqual(len(os.listdir(self.path("out"))), 201)
        self.assertNotIn(b"left out", ran.stdout)
        self.assertEqual(ran.stdout.count(b"flutejoin join"), 201)

    def test_who_is_left_out_is_told(self) -> None:
        frames = self.crowd(450) + [frame(of) for of in self.real]
        ran = self.run_on(frames)
        self.assertEqual(ran.returncode, 1)
        size = len(packet(b"made up")) + 2
        most = rf"senders are left out, of whom 11\.0\.[0-9.]+ sent most, {size} bytes"
        told = rf"^flutejoin-capture: {most}; --from takes the ones that it names\n$"
        self.assertRegex(ran.stderr.decode(), told)
        self.assertEqual(self.kept(), self.real)
        self.assertIn(b"left out 51: more than 200 senders\n", ran.stdout)

    def test_a_pipe_is_read_once(self) -> None:
        frames = self.crowd(200) + [frame(of) for of in self.real]
        ran = self.run_on(frames, input=pcap(frames))
        self.assertEqual(ran.returncode, 1)
        self.assertIn(b"of whom 10.0.0.1 sent most", ran.stderr)
        self.assertIn(b"left out 8: more than 200 senders\n", ran.stdout)
        self.assertFalse(os.path.exists(self.path("out/10.0.0.1.fldg")))
        ran = self.run_on(frames, "--from", "10.0.0.1", input=pcap(frames))
        self.assertEqual((ran.returncode, ran.stderr), (0, b""))
        self.assertEqual(self.kept(), self.real)

    def test_from(self) -> None:
        frames = self.crowd(300) + [frame(of) for of in self.real]
        ran = self.run_on(frames, "--from", "11.0.0.7", "--from", "10.0.0.1")
        self.assertEqual((ran.returncode, ran.stderr), (0, b""))
        self.assertEqual(sorted(os.listdir(self.path("out"))), ["10.0.0.1.fldg", "11.0.0.7.fldg"])
        self.assertEqual(self.kept(), self.real)
        listed = self.listed(pcap(frames), "--from", "11.0.0.7")
        flow = "from 11.0.0.7 to --group 239.1.1.1 --port 4001: 1 datagrams, 1 like FLUTE"
        self.assertEqual(listed, [flow])
        ran = self.run_tool("--from", "10.0.0", self.path("capture"))
        self.assertEqual(ran.returncode, 2)

    def test_among_very_many(self) -> None:
        """Senders that are counted have a bound, within which the largest stays."""
        out = parts.Files(self.path("out"), 1 << 30, Log("test"))
        for number in range(3 * parts.MOST_COUNTED):
            out.count_beyond(number.to_bytes(4, "big"), 50)
            if number % 1000 == 0:
                out.count_beyond(SENDER, 1000)
            self.assertLessEqual(len(out.beyond), parts.MOST_COUNTED)
        self.assertEqual(out.largest_beyond()[0], SENDER)

    def test_names_are_on_the_disk(self) -> None:
        """After a file has its name its folder is synced, and where that is new, the one above."""
        synced: list[tuple[int, bool]] = []
        path = self.path("out/10.0.0.1.fldg")

        def sync(descriptor: int) -> None:
            synced.append((os.fstat(descriptor).st_ino, os.path.exists(path)))

        report = unittest.mock.create_autospec(Log)
        out = parts.Files(self.path("out"), 1 << 30, report)
        with unittest.mock.patch.object(os, "fsync", sync):
            out.make_folder()
            out.add(SENDER, b"datagram")
            out.finish()
        numbers = [os.stat(at).st_ino for at in (self.folder, path, self.path("out"))]
        self.assertEqual(synced, list(zip(numbers, (False, False, True))))


class Forms(Cases):
    one = packet(b"hello", 5)

    def test_interfaces_have_a_bound(self) -> None:
        interface = captures.block("<", 1, struct.pack("<HHI", 1, 0, 0))
        section = pcapng_head()[:28]
        of = frame(self.one)
        fields = struct.pack("<IIIII", 65535, 0, 0, len(of), len(of))
        last = captures.block("<", 6, fields + of)
        most = section + interface * 65536 + last
        self.assertEqual(self.taken(most), [self.one])
        told = self.listed(most + interface * 1000000)
        self.assertIn("1 datagrams", told[0])
        damage = "is damaged (more than 65536 interfaces); the packets before that were read"
        self.assertEqual(told[1:], [f"flutejoin-capture: capture: {damage}"])
        # Each section has its own interfaces.
        self.assertEqual(len(self.listed(most + most)), 1)

    def test_modified_pcap(self) -> None:
        data = pcap([frame(self.one), frame(packet(b"again", 5))], magic=0xA1B2CD34)
        self.assertEqual(self.taken(data), [self.one, packet(b"again", 5)])

    def test_snap(self) -> None:
        for oui in ("000000", "0000f8"):
            snap = b"\xaa\xaa\3" + bytes.fromhex(oui)
            of = frame(self.one)
            length = struct.pack(">H", len(of) - 12 + 6)
            data = pcap([of[:12] + length + snap + of[12:]])
            self.assertEqual(self.taken(data), [self.one], oui)
            os.remove(self.path("out/10.0.0.1.fldg"))
            tagged = of[:12] + b"\x81\0\0\7" + length + snap + of[12:]
            self.assertEqual(self.taken(pcap([tagged])), [self.one], oui)
            os.remove(self.path("out/10.0.0.1.fldg"))

    def test_frames_that_are_not_known_are_counted(self) -> None:
        of = frame(self.one)
        kinds = "88e5", "88e5", "0806", "05ff"
        other = [of[:12] + bytes.fromhex(kind) + of[14:] for kind in kinds]
        llc = ETHERNET + b"\0\x40\xfe\xfe\3" + b"\0" * 60
        apple = ETHERNET + b"\0\x40\xaa\xaa\3\x08\0\7\x80\x9b" + b"\0" * 60
        tree = ETHERNET + b"\0\x26\x42\x42\3" + b"\0" * 60
        tags = ETHERNET + b"\x81\0\0\7" * 17 + of[12:]
        self.assertEqual(
            self.listed(pcap([of, *other, llc, apple, tree, tags]))[1:],
            [
                "left out 2: EtherType 0x88e5, which is not known here",
                "left out 1: EtherType 0x05ff, which is not known here",
                "left out 2: an LLC frame of a protocol which is not known here",
                "left out 1: more than 16 VLAN tags",
            ],
        )
        self.assertEqual(self.taken(pcap([ETHERNET + b"\x81\0\0\7" * 16 + of[12:]])), [self.one])

    def test_causes_have_a_bound(self) -> None:
        of = frame(self.one)
        kinds = [of[:12] + struct.pack(">H", 0xA000 + n % 1000) + of[14:] for n in range(2000)]
        told = self.listed(pcap(kinds))
        self.assertEqual(len(told), 16 + 1 + 1)
        self.assertIn(f"left out {2000 - 32}: another EtherType, which is not known here", told)


class Gzip(Cases):
    sent = [packet(bytes([n]) * 100, 100) for n in range(50)]

    def setUp(self) -> None:
        super().setUp()
        self.data = pcap([frame(of) for of in self.sent])

    def test_a_wrong_check_takes_no_packet_away(self) -> None:
        made = bytearray(gzip.compress(self.data))
        made[-8] ^= 1
        told = self.listed(bytes(made))
        self.assertIn("50 datagrams, 50 like FLUTE", told[0])
        self.assertIn("is damaged (gzip: ", told[1])
        self.assertEqual(self.taken(bytes(made)), self.sent)

    def test_what_stands_before_damage_is_taken(self) -> None:
        for at in range(1000, len(self.data), 1997):
            # A block of a kind that doesn't exist, after stored bytes
            data = gzip_stored(self.data[:at]) + b"\xff" * 50
            count = (at - 24) // (16 + len(frame(self.sent[0])))
            self.assertEqual(self.taken(data), self.sent[:count])
            for name in os.listdir(self.path("out")) if count else ():
                os.remove(self.path("out/" + name))

    def test_what_follows_a_member(self) -> None:
        made = gzip.compress(self.data)
        ignored = "what gzip compressed is whole, and other bytes behind it are ignored"
        warning = [f"flutejoin-capture: capture: {ignored}"]
        for behind, told in (
            (b"", []),
            (b"\0", []),
            (b"\0" * 200000, []),
            (b"\0" * (1 << 18), []),
            (b"garbage", warning),
            (b"\x1f", warning),
            (b"\0" * 65535 + b"\x1f", warning),
            (b"\0" * 200000 + b"garbage" * 100000, warning),
        ):
            ran = self.run_tool(self.made(made + behind))
            self.assertEqual(ran.returncode, 0)
            self.assertIn("50 datagrams", ran.stdout)
            self.assertEqual(ran.stderr.replace(self.folder + "/", "").splitlines(), told)
        for behind in (b"", b"\0" * 65535, b"\0" * 200000):
            half = gzip.compress(self.data[:3000]) + behind + gzip.compress(self.data[3000:])
            self.assertIn("50 datagrams", self.listed(half)[0])


def gzip_stored(data: bytes) -> bytes:
    """The start of a gzip file that contains data as one stored block."""
    head = b"\x1f\x8b\x08\0\0\0\0\0\0\xff"
    return head + b"\0" + struct.pack("<HH", len(data), len(data) ^ 0xFFFF) + data


class Bounds(Cases):
    """What a hostile input may cost; tests/tools/test_costs.py runs the tools."""

    def read(self, made: bytes) -> tuple[int, str]:
        """How many packets are read of a capture, and the fault that ends it."""
        stop = unittest.mock.Mock(asked=0, wakes=os.open(os.devnull, os.O_RDONLY))
        taken = unittest.mock.Mock()
        try:
            capture_captures.read(self.made(made), stop, lambda: None, taken)
        except inputs.CaptureFault as fault:
            return taken.call_count, str(fault)
        finally:
            os.close(stop.wakes)
        return taken.call_count, ""

    def test_gzip_makes_no_more_than_is_likely(self) -> None:
        frames = [frame(packet(bytes([number % 256]) * 1000)) for number in range(3000)]
        made = gzip.compress(pcap(frames))
        self.assertEqual(self.read(made), (3000, ""))
        with unittest.mock.patch.object(inputs, "WORK", 500):
            for few in made, gzip.compress(pcap([b""] * 100_000)):
                count, told = self.read(few)
                self.assertIn("gzip: too much comes out of so few bytes", told)
                self.assertTrue(90 < count < 5000, count)
            self.assertEqual(self.read(pcap([b""] * 9000)), (9000, ""))

    def test_a_journal_is_not_searched_for_ever(self) -> None:
        front = b"\2" + bytes(21) + b"\7\1" + bytes(13)  # of conflicting transmission information
        held = [front + bytes([toi]) for toi in range(1, 9)]
        data = b"FLJN\0\2" + held[0] + b"\1" * 5000 + b"".join(held[1:]) + b"\xff" + bytes(8)
        for tries, count in (10_000, 8), (100, 1):
            with unittest.mock.patch.object(salvage, "TRIES", tries):
                with open(self.made(data), "rb") as file:
                    left = salvage.Salvage(file)
                    found = [*left.kept()]
                    left.close()
            self.assertEqual((len(found), left.tries < 0), (count, count == 1))


class Runs(Cases):
    def begun(self, *words: str, **more: Any) -> subprocess.Popen[str]:
        """Starts flutejoin-capture, which is ended with the test."""
        command = [sys.executable, os.path.join(TOOLS, "flutejoin-capture"), *words]
        process = subprocess.Popen(
            command, stdout=subprocess.PIPE, stderr=subprocess.PIPE, text=True, **more
        )
        self.addCleanup(ended, process)
        return process

    def wait_for(self, holds: Callable[[], object]) -> None:
        """Waits until a condition holds."""
        end = time.monotonic() + LONGEST
        while not holds():
            self.assertLess(time.monotonic(), end)
            time.sleep(0.1)

    def test_a_pipe_that_nobody_writes_can_be_left(self) -> None:
        pipe = self.path("pipe")
        os.mkfifo(pipe)
        for number in (signal.SIGINT, signal.SIGTERM):
            process = self.begun(pipe, preexec_fn=signals_as_usual)
            self.wait_for(lambda: pipe in opened_by(process.pid))
            process.send_signal(number)
            out, err = process.communicate(timeout=LONGEST)
            self.assertEqual((process.returncode, out), (1, ""))
            self.assertEqual(err, "flutejoin-capture: no UDP datagrams\n")

    def test_a_pipe_whose_writer_comes_later(self) -> None:
        pipe = self.path("pipe")
        os.mkfifo(pipe)
        process = self.begun(pipe)
        self.wait_for(lambda: pipe in opened_by(process.pid))
        with open(pipe, "wb") as file:
            file.write(pcap([frame(packet(b"hello", 5))]))
        out, err = process.communicate(timeout=LONGEST)
        self.assertIn(": 1 datagrams, 1 like FLUTE", out)
        self.assertEqual((process.returncode, err), (0, ""))

    def test_mend_waits_for_no_pipe(self) -> None:
        pipe = self.path("pipe")
        os.mkfifo(pipe)
        ran = self.run_tool("-o", self.path("out"), pipe, tool="mend")
        self.assertEqual(ran.stderr, f"flutejoin-mend: {pipe}: is no regular file\n")

    def test_a_slow_sender_is_written_beside_a_fast_one(self) -> None:
        udp = captures.udp(b"\x0a\0\0\2", GROUP, packet(b"slow", 4))
        slow = ETHERNET + IP + captures.ip4(b"\x0a\0\0\2", GROUP, 17, udp)
        head, fast = pcap([])[:24], frame(packet(b"f" * 40, 40))
        process = self.begun("--port", "4001", "-o", self.path("live"), "-", stdin=subprocess.PIPE)
        assert process.stdin
        pipe = process.stdin.fileno()

        def write(data: bytes) -> None:
            os.write(pipe, data)

        write(head + pcap([slow])[24:])
        path = self.path("live/10.0.0.2.fldg.partial")
        many, end = pcap([fast] * 5)[24:], time.monotonic() + LONGEST
        # The pipe is never silent for a second.
        while not (os.path.exists(path) and os.path.getsize(path)) and time.monotonic() < end:
            write(many)
            time.sleep(0.02)
        process.kill()
        process.wait()
        self.assertEqual(list(datagram_files.read(path)), [packet(b"slow", 4)])
        mended = self.run_tool("-o", self.path("mended"), path, tool="mend")
        self.assertIn("is whole: 1 datagrams", mended.stdout)

    def test_what_a_killed_run_left_names_the_way_out(self) -> None:
        os.mkdir(self.path("left"))
        partial = self.made(b"", "left/10.0.0.1.fldg.partial")
        made = self.made(pcap([frame(packet(b"hello", 5))]))
        ran = self.run_tool("--port", "4001", "-o", self.path("left"), made)
        self.assertEqual(ran.returncode, 3)
        there = "is there already, and is left as it is; no other file is written for its sender"
        hint = "rename what a killed run left, or flutejoin-mend it if it is cut"
        self.assertEqual(ran.stderr, f"flutejoin-capture: {partial}: {there}; {hint}\n")


def ended(process: subprocess.Popen[str]) -> None:
    process.kill()
    process.wait()
    for stream in (process.stdin, process.stdout, process.stderr):
        if stream:
            stream.close()


def signals_as_usual() -> None:
    signal.signal(signal.SIGINT, signal.default_int_handler)


def opened_by(process: int) -> list[str]:
    """The files that a process has open."""
    folder = f"/proc/{process}/fd"
    try:
        return [os.readlink(os.path.join(folder, name)) for name in os.listdir(folder)]
    except OSError:
        return []


class Names(Cases):
    odd = "a\x1b[31m'b\\c %d\n\u202e\udcff"

    def test_what_a_terminal_obeys_is_never_printed(self) -> None:
        self.assertEqual(shown(self.odd), "a?[31m'b\\c %d???")
        for tool, words in (
            ("capture", (self.path(self.odd),)),
            ("capture", (f"--frob={self.odd}", "file")),
            ("mend", ("-o", self.path("out"), self.path(self.odd))),
            ("mend", ("-o", self.path("out"), "--", "file", self.odd)),
            ("map", ("--text", self.path(self.odd), "--flutejoin", "true")),
        ):
            ran = self.run_tool(*words, tool=tool)
            self.assertIn("a?[31m'b", ran.stderr)
            self.assertIsNone(re.search(r"[^ -~\n]", ran.stdout + ran.stderr), (tool, words))

    def test_lines_to_run_are_printed_and_run(self) -> None:
        folder = self.path(self.odd)
        made = self.made(pcap([frame(packet(b"hello", 5))]))
        ran = self.run_tool("--port", "4001", "-o", folder, made)
        self.assertEqual(ran.returncode, 0)
        self.assertIsNone(re.search(r"[^ -~\n]", ran.stdout))
        line = ran.stdout.splitlines()[-1].replace("flutejoin join ", "printf '%s\\0' ", 1)
        words = subprocess.run(["sh", "-c", line], capture_output=True).stdout.split(b"\0")
        stem = os.fsencode(folder) + b"/10.0.0.1"
        options = [b"--any-size", b"--source", b"0a000001", b"-o"]
        self.assertEqual(words, [*options, stem + b".journal", stem + b".fldg", b""])
