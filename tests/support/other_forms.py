"""Senders of other forms of FLUTE: what each sends, and the files that have to come of it."""
from __future__ import annotations

import gzip
import zlib

from tests.support import run
from tests.support.flute_sender import ENCODED, EXPIRES, PLAIN, Sent, Shape, close, fdt, instance

TSI = 7
TIMES = "SCT or ERT"
SEVERAL = "several symbols a packet"
TOLD = "changes an FDT Instance: flutejoin-gather keeps apart what differs"
# What the tools say of each form
SAID = {
    "FLUTE 1": "sends FLUTE 1: written as FLUTE 2",
    "EXT_CENC": "sends EXT_CENC: written without, since the FDT tells how a file is encoded",
    TIMES: f"sends {TIMES}: written without these fields of RFC 3451",
    SEVERAL: f"sends {SEVERAL}: written one in each",
}
CODED = Shape(encoding=3)  # its packets of FDT Instances have EXT_CENC, as compressed by gzip


def deflated(data: bytes) -> bytes:
    stream = zlib.compressobj(wbits=-15)
    return stream.compress(data) + stream.flush()


def files() -> list[Sent]:
    """Two blocks and a last symbol of 88 bytes; a file in encoded form; one symbol; none."""
    numbers = b"".join(b"%d\n" % number for number in range(1_000_000, 1_011_000))
    table = {"Content-Type": "text/csv", "Content-Encoding": "gzip"}
    return [
        Sent(1, numbers[:87_001], "http://example.com/news/numbers.txt", symbol=999),
        Sent(2, gzip.decompress(ENCODED), "http://example.com/digits.csv", ENCODED, 30, more=table),
        Sent(3, b"hello", "http://example.com/hello.txt"),
        Sent(4, b"", "http://example.com/empty.txt"),
    ]


def objects(shape: Shape = PLAIN, encoded: Shape = PLAIN) -> list[bytes]:
    """The packets of these files; the object in encoded form has its own shape."""
    sent = files()
    shapes = [encoded if file.object else shape for file in sent]
    return [packet for file, of in zip(sent, shapes) for packet in file.packets(TSI, of)]


def described(shape: Shape = PLAIN) -> list[bytes]:
    return instance(TSI, 1, fdt(files()), shape)


def session(shape: Shape = PLAIN, encoded: Shape = PLAIN) -> list[bytes]:
    return described(shape) + objects(shape, encoded)


def grouped(packets: list[bytes], together: int) -> list[list[bytes]]:
    """Packets of one symbol each, as they would be together in packets of several."""
    groups: list[list[bytes]] = []
    for packet in packets:
        symbol = packet[4 * packet[2] + 2 :]
        if not symbol or int.from_bytes(symbol[:2], "big") % together == 0:
            groups.append([])
        groups[-1].append(packet)
    return groups


def compressed(fdt_in_encoded_form: bytes, shape: Shape) -> list[bytes]:
    return instance(TSI, 1, fdt_in_encoded_form, shape) + objects()


def senders() -> list[tuple[list[bytes], list[str], bool]]:
    """Of each sender its packets, their forms, and whether a plain session has the same journal."""
    xml, first = fdt(files()), Shape(version=1)
    timed, all_four = Shape(version=1, times=3), Shape(version=1, together=5, times=2)
    of_all_four = Shape(version=1, encoding=3, together=3, times=1)
    return [
        (session(), [], True),
        (session(first, first), ["FLUTE 1"], True),
        (session(timed, timed), [TIMES, "FLUTE 1"], True),
        (session(Shape(encoding=0), CODED), ["EXT_CENC"], True),
        (session(Shape(together=4), Shape(together=2)), [SEVERAL], True),
        (compressed(gzip.compress(xml), CODED), ["EXT_CENC"], False),
        (compressed(zlib.compress(xml), Shape(encoding=1)), ["EXT_CENC"], False),
        (compressed(deflated(xml), Shape(version=1, encoding=2)), ["FLUTE 1", "EXT_CENC"], False),
        (session(all_four, of_all_four), [TIMES, "FLUTE 1", SEVERAL, "EXT_CENC"], True),
    ]


def renewing(rounds: range) -> list[bytes]:
    """A sender that renews Expires in each of six rounds, in which it sends all objects once."""
    sent = []
    for number in rounds:
        sent += instance(TSI, 1, fdt(files(), EXPIRES + 10 * number)) + objects()[number::6]
    return sent


def raptor() -> list[bytes]:
    """A sender of another FEC Encoding ID, whose FDT has that too, and which ends its session."""
    return [*session(Shape(fec=1), Shape(fec=1)), close(TSI)]


class Case(run.Case):
    def has_files(self, name: str, journal: str) -> None:
        """Checks that flutejoin-files writes each file of the session, byte for byte."""
        folder = f"{journal}.files"
        done = self.tool("flutejoin-files", ["-o", folder, journal])
        new, last = done.lines()[:-1], done.lines()[-1:]
        self.holds(f"{name}: its status", done.status == 0, done)
        self.holds(f"{name}: new files", [it[:5] for it in new] == ["new: "] * 4, new)
        self.holds(
            f"{name}: files", last == ["written 4, verified 4; partial 0; wrong MD5 0"], done
        )
        for file in files():
            path = f"{folder}/{file.location.partition('//')[2]}"
            self.same(f"{name}: {path}", path, file.content)
