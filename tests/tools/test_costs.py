"""Tests what 10 MB of anything hostile cost each tool: processor time and memory, both bounded.

What counts is the time of the processor, of the tool and of the programs that it runs, compared
with that of some steps of Python beside it: a slow machine, and one that does other work meanwhile,
have as much.
"""
from __future__ import annotations

import gzip
import ipaddress
import os
import struct
import subprocess
import sys
import zlib
from typing import Iterable, Iterator

from tests.support import captures
from tests.support import run
from tests.support.flute_sender import Sent, fdt, header, instance, packets
from tests.support.ports import free_port
from tests.support.run import ROOT

SIZE = 10 << 20  # bytes of an input
SECONDS, MEMORY = 10, 256 << 10  # of the processor, and KiB
# As other work takes caches, and a part of a processor of two threads; those that run no program
# are far below
MARGIN, ALONE = 2, ("flutejoin-capture", "flutejoin-mend", "flutejoin-receive", "flutejoin-values")
SENDER = "0a000001"
TINY = b'<FDT-Instance Expires="4000000000"/>'


def up_to(size: int, pieces: Iterable[bytes]) -> Iterator[bytes]:
    """The first of these, of so many bytes in all."""
    for piece in pieces:
        size -= len(piece)
        if size < 0:
            return
        yield piece


def again(piece: bytes) -> Iterator[bytes]:
    """Yields the same bytes again and again."""
    while True:
        yield piece


def gzipped(piece: bytes, count: int) -> bytes:
    """A hostile member of gzip: unpacked it costs a tool many times its bytes."""
    stream = zlib.compressobj(9, zlib.DEFLATED, 31)
    return b"".join(map(stream.compress, [piece] * count)) + stream.flush()


class Case(run.Case):
    def filled(self, name: str, pieces: Iterable[bytes], front: bytes = b"") -> None:
        """A file of 10 MB, written piece by piece: the memory of a test counts as a tool's."""
        path = self.path(name)
        path.parent.mkdir(exist_ok=True)
        with path.open("wb") as file:
            file.write(front)
            file.writelines(up_to(SIZE - len(front), pieces))

    def datagrams(self, name: str, of: Iterable[bytes]) -> None:
        """Writes a datagram file of as many of these as 10 MB have room for."""
        records = (struct.pack(">H", len(datagram)) + datagram for datagram in of)
        self.filled(name, records, b"FLDG\0\1")

    def join(self, of: Iterable[bytes], name: str = "journal") -> None:
        """Joins such a file to a journal."""
        self.datagrams("sent", of)
        done = self.program(f"join --any-size --source {SENDER} -o {name} sent")
        self.assertEqual((done.status, b"refused 0\n" in done.out), (0, True), done)

    def costs(self, tool: str, *words: object) -> None:
        """Runs a tool, and checks what it costs."""
        command = [sys.executable, str(ROOT / "tools" / tool), *map(str, words)]
        child = subprocess.Popen(
            command, cwd=self.folder, stdout=subprocess.DEVNULL, stderr=subprocess.PIPE
        )
        with run.Beside() as beside:
            told = child.stderr.read() if child.stderr else b""
            _, ended, used = os.wait4(child.pid, 0)
        child.returncode = os.waitstatus_to_exitcode(ended)
        child.communicate()
        took = used.ru_utime + used.ru_stime
        name = f"{self.id().split('.', 3)[3]}: {tool}: {took:.1f} s, {used.ru_maxrss >> 10} MiB"
        slowness = beside.slowness()
        print(f"costs: {name}, slowness {slowness:.1f}", flush=True)
        self.holds(f"{name}: no traceback", b"Traceback" not in told, told)
        self.holds(f"{name}: status", child.returncode in (0, 1), (child.returncode, told))
        most = SECONDS * slowness * (1 if tool in ALONE else MARGIN)
        self.holds(f"{name}: time", took <= most, slowness)
        self.holds(f"{name}: memory", used.ru_maxrss <= MEMORY)


def frame(payload: bytes, sender: int = 1) -> bytes:
    """A frame with a datagram of this sender, a number."""
    source, group = struct.pack(">I", 0x0B000000 + sender), b"\xef\1\1\1"
    return captures.LINKS["ethernet"][1] + captures.ip4(
        source, group, 17, captures.udp(source, group, payload)
    )


def captured(frames: Iterable[bytes]) -> Iterator[bytes]:
    return (struct.pack("<IIII", 1, 0, len(each), len(each)) + each for each in frames)


def numbered(begin: bytes, end: bytes = b"") -> Iterator[bytes]:
    """Yields bytes with a rising number in them."""
    number = 0
    while True:
        yield begin + struct.pack(">I", number) + end
        number += 1


def fragments(count: int) -> Iterator[bytes]:
    """Frames that each have a fragment, of datagrams none of which becomes whole."""
    front, ends = captures.LINKS["ethernet"][1], (b"\n\0\0\1", b"\xef\1\1\1")
    numbers = ((at // 255 & 0xFFFF, 0x2000 | 255 - at % 255) for at in range(count))
    return (front + captures.ip4(*ends, 17, bytes(8), *each) for each in numbers)


def lengths(length: int, symbol: int, block: int) -> bytes:
    """EXT_FTI."""
    return struct.pack(">BB6sHHI", 64, 4, length.to_bytes(6, "big"), 0, symbol, block)


def with_toi(front: bytes, toi: int) -> bytes:
    """A header with another TOI."""
    return front[:12] + struct.pack(">I", toi) + front[16:]


FRONT = captures.pcap([(1, b"", 0)], "<", 0xA1B2C3D4, 1 << 18)[:24]
SMALL = header(7, 1, b"") + b"\0\0\0\0N"
INFORMED = header(7, 1, lengths(600, 10, 64)) + bytes(14)
SECTION = struct.pack("<IIIIqI", 0x0A0D0D0A, 28, 0x1A2B3C4D, 1, -1, 28)
INSTANCE = header(7, 0, struct.pack(">I", 192 << 24 | 2 << 20 | 1)) + b"\0\0\0\0"


class Captures(Case):
    def capture(self, frames: Iterable[bytes]) -> None:
        """Checks what flutejoin-capture costs on a capture of these frames."""
        self.filled("capture", captured(frames), FRONT)
        self.kept()

    def kept(self, folder: str = "kept") -> None:
        self.costs("flutejoin-capture", "--port", captures.PORT, "-o", folder, "capture")

    def test_senders(self) -> None:
        self.capture(frame(SMALL, number) for number in range(SIZE))
        self.costs("flutejoin-capture", "capture")

    def test_instances(self) -> None:
        """Of one sender, with other contents each."""
        self.capture(frame(each) for each in numbered(INSTANCE))

    def test_several_symbols(self) -> None:
        """Of one byte, in packets of 1,400."""
        self.capture(again(frame(header(7, 1, lengths(60_000, 1, 60_000)) + bytes(1404))))

    def test_fragments(self) -> None:
        """Of which none is whole, and each datagram has many."""
        self.capture(fragments(SIZE))

    def test_gzip(self) -> None:
        """Of packets without a byte, of small ones, of long ones, of those of which each takes most
        work, of blocks without packets, and of members without bytes: many GB, and packets."""
        pieces = {
            "empty": bytes(1 << 20), "small": b"".join(captured([frame(SMALL)] * 10_000)),
            "long": b"".join(captured([bytes((1 << 20) - 16)])),
            "others": b"".join(captured(frame(with_toi(INFORMED, toi)) for toi in range(10_000))),
            "fragments": b"".join(captured(fragments(10_000))),
        }
        for name, piece in pieces.items():
            self.filled("capture", again(gzipped(piece, 50)), gzip.compress(FRONT))
            self.kept(name)
        block = struct.pack("<III", 9, 12, 12)
        self.filled("capture", again(gzipped(block * 10_000, 50)), gzip.compress(SECTION))
        self.kept()
        self.filled("capture", again(gzip.compress(b"")), gzip.compress(FRONT))
        self.kept()


def entries(count: int) -> Iterator[bytes]:
    """Entries of a journal whose addresses rise, but for each fourth, which is in doubt."""
    for number in range(1, count):
        at = number if number % 4 else count + number
        key = bytes(16) + struct.pack(">IHB", 0, 7, 1) + at.to_bytes(14, "big")
        yield b"\1" + key + struct.pack(">HIHI", 0, 90, 20, 64)


class Journals(Case):
    """Damaged ones, and values of one symbol."""

    def test_mend(self) -> None:
        low = bytes(number * 7 % 5 for number in range(997))
        for name, pieces in (
            ("ones", again(b"\1" * 1000)), ("low", again(low)), ("doubtful", entries(SIZE)),
            ("zeros", again(bytes(1000))),
        ):
            self.filled("damaged", pieces, b"FLJN\0\2")
            self.costs("flutejoin-mend", "-o", f"{name}.mended", "damaged")

    def test_values(self) -> None:
        self.datagrams("kept.fldg", numbered(SMALL[:-1]))
        words = "--tsi", 7, "--toi", 1, "--symbol", "0/0"
        self.costs("flutejoin-values", *words, "kept.fldg")


class Objects(Case):
    """Many objects in a journal of one sender."""

    journals: tuple[str, ...] = ("journal",)

    def both(self, *words: object) -> None:
        """Checks what flutejoin-map and flutejoin-files cost on the journals."""
        program = "--flutejoin", run.PROGRAM
        self.costs("flutejoin-map", *program, "-o", "page.svg", *self.journals)
        listing: list[object] = ["--list"]
        for more in listing, ["-o", "files", *words]:
            self.costs("flutejoin-files", *program, *more, *self.journals)

    def test_whole(self) -> None:
        front = header(7, 1, lengths(1, 1, 1))
        many = (
            front[:12] + struct.pack(">I", toi) + front[16:] + b"\0\0\0\0x"
            for toi in range(1, SIZE)
        )
        self.join(many)
        self.both()

    def test_partial(self) -> None:
        front = header(7, 1, lengths(600, 10, 64))
        many = (
            b"".join((front[:12], struct.pack(">I", toi), front[16:], struct.pack(">I", toi % 59)))
            + bytes(10)
            for toi in range(1, SIZE)
        )
        self.join(many)
        self.both()

    def test_gaps(self) -> None:
        """Of one object, of which each second symbol is there."""
        front = header(7, 1, lengths(1 << 20, 1, 1 << 16))
        places = (struct.pack(">HH", at >> 16, at & 0xFFFF) for at in range(0, 1 << 20, 2))
        self.join(front + place + b"x" for place in places)
        self.both()

    def test_nearly_empty(self) -> None:
        """Of 65,536 blocks each, of which one is there: each has as many gaps as there may be."""
        front = header(7, 1, lengths(1 << 16, 1, 1))
        many = (with_toi(front, toi) + b"\0\1\0\0x" for toi in range(1, SIZE))
        self.join(many)
        self.both()

    def test_instances(self) -> None:
        """Whole ones that are tiny, and others that never get whole."""

        def many() -> Iterator[bytes]:
            for number in range(1, 1 << 17):
                yield from instance(7, number, TINY)
                yield packets(7, 0, b"<>" * 600, 1000, 64, instance=(1 << 20) - number)[0]

        self.join(many())
        self.both()

    def test_xml(self) -> None:
        """Of 16 MB each."""
        text = b"<a/>" * 1000
        stream = zlib.compressobj(9, zlib.DEFLATED, 31)
        made = stream.compress(b'<FDT-Instance Expires="4000000000">')
        made += b"".join(stream.compress(text) for _ in range(3900))
        made += stream.compress(b"</FDT-Instance>") + stream.flush()
        self.join(each for number in range(1, 1 << 16) for each in instance(7, number, made))
        self.both()

    def test_descriptions(self) -> None:
        """Of more files than a run takes, in many Instances."""

        def many() -> Iterator[bytes]:
            for number in range(1, 1000):
                files = [Sent(toi, b"", f"http://h/{toi}") for toi in range(1, 2000)]
                yield from instance(7, number, fdt(files, 4_000_000_000 + number))

        self.join(many())
        self.both()

    def test_decoded(self) -> None:
        zeros = gzipped(bytes(1 << 20), 300)
        sent = Sent(1, b"", "http://h/a", zeros, more={"Content-Encoding": "gzip"})
        sent.more.update({"Content-Length": 300 << 20, "Content-MD5": "AAAAAAAAAAAAAAAAAAAAAA=="})
        self.join([*instance(7, 1, fdt([sent])), *sent.packets(7)])
        self.both("--most", "100M")

    def test_conflicts(self) -> None:
        """Each symbol with two values, of files whose MD5 neither shows."""

        def many(fill: bytes) -> Iterator[bytes]:
            for toi in range(1, 1 << 16):
                sent = Sent(toi, fill * 9000, f"http://h/{toi}", symbol=1000)
                sent.more = {"Content-MD5": "AAAAAAAAAAAAAAAAAAAAAA=="}
                yield from sent.packets(7)
                yield from instance(7, toi, fdt([sent], 4_000_000_000 + toi))

        self.journals = "journal", "other"
        for name, fill in zip(self.journals, (b"x", b"y")):
            self.join(many(fill), name)
        self.both("--resolve")


class Folders(Case):
    """Where flutejoin-receive and a station begin."""

    def received(self) -> None:
        """Checks what flutejoin-receive costs that finds such files in its folder."""
        words = "--interface", "127.0.0.1", "--port", 4001, "--seconds", 0, "-o", "kept"
        self.costs("flutejoin-receive", *words)

    def test_records_without_bytes(self) -> None:
        self.filled("kept/10.0.0.1.fldg", again(bytes(1000)), b"FLDG\0\1")
        self.received()

    def test_epochs_of_many_senders(self) -> None:
        of = [INSTANCE + struct.pack(">I", at) for at in range(700)]
        records = b"".join(struct.pack(">H", len(datagram)) + datagram for datagram in of)
        self.path("kept").mkdir()
        for number in range(512):
            address = ipaddress.ip_address(0x0A000001 + number // 8)
            epoch = f".e{number % 8 + 1}" * (number % 8 > 0)
            self.path(f"kept/{address}{epoch}.fldg").write_bytes(b"FLDG\0\1" + records[:20_000])
        self.received()


class Keeping(Case):
    """What keeps datagrams as journals, what repairs, and what delivers: each by all hostile
    shapes."""

    def shapes(self) -> Iterator[tuple[str, Iterator[bytes]]]:
        """Datagrams of objects, each shape for 10 MB."""
        one = header(7, 1, lengths(1, 1, 1))
        sparse = header(7, 1, lengths(1 << 16, 1, 1))
        partial = header(7, 1, lengths(600, 10, 64))
        yield "whole", (with_toi(one, toi) + b"\0\0\0\0x" for toi in range(1, SIZE))
        yield "sparse", (with_toi(sparse, toi) + b"\0\1\0\0x" for toi in range(1, SIZE))
        yield "partial", (
            with_toi(partial, toi) + struct.pack(">I", toi % 59) + bytes(10)
            for toi in range(1, SIZE)
        )
        yield "values", (  # of the same symbols, each with another one
            with_toi(partial, toi % 500 + 1) + struct.pack(">IHQ", toi % 59, 0, toi)
            for toi in range(1, SIZE)
        )
        yield "described", self.described()

    def described(self) -> Iterator[bytes]:
        """Files of 65,536 blocks, of which a symbol is there each."""
        sparse = header(7, 1, lengths(1 << 16, 1, 1))
        for number in range(1, 1 << 16):
            tois = range(500 * number, 500 * number + 500)
            files = [Sent(toi, bytes(8), f"http://h/{toi}", symbol=1, block=1) for toi in tois]
            for file in files:
                file.more = {"Transfer-Length": 1 << 16, "Content-Length": 1 << 16}
            yield from instance(7, number, fdt(files, 4_000_000_000 + number))
            yield from (with_toi(sparse, toi) + b"\0\1\0\0x" for toi in tois)

    def keeps(self, name: str) -> None:
        """Gathers a shape, and hands what was gathered to a centre; joins it as a station that
        delivers; repairs it. What runs again finds what is there."""
        self.join(dict(self.shapes())[name])
        program = "--flutejoin", run.PROGRAM
        self.path("push").mkdir()
        for _ in range(2):
            self.costs("flutejoin-gather", *program, "--source", SENDER, "-o", "push", "sent")
        base = "--base", "http://127.0.0.1:9/", "--seconds", 60
        self.costs("flutejoin-repair", *program, *base, "-o", "more", "journal")
        self.centre()
        self.path("news/in").mkdir(parents=True)
        self.path("sent").rename(self.path("news/in/10.0.0.1.fldg"))
        words = "--port", free_port(), "--seconds", 1, "--deliver", "here", "-o", "news"
        self.costs("flutejoin-station", *program, *words)

    def centre(self) -> None:
        """Checks what a centre costs that takes the journals."""
        self.path("centre").mkdir()
        settings = f'[centre]\nfolder = "{self.path("centre")}"\nflutejoin = "{run.PROGRAM}"\n'
        settings += f'[[station]]\nname = "north"\nfolder = "{self.path("push")}"\n'
        self.write("centre.toml", settings)
        for _ in range(2):
            self.costs("flutejoin-centre", "--config", "centre.toml", "--once")

    def test_whole(self) -> None:
        self.keeps("whole")

    def test_sparse(self) -> None:
        self.keeps("sparse")

    def test_partial(self) -> None:
        self.keeps("partial")

    def test_values(self) -> None:
        self.keeps("values")

    def test_described(self) -> None:
        self.keeps("described")
