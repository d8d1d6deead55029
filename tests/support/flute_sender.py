"""A sender of FLUTE sessions for tests: FDT Instances in XML, and packets in datagram files.

It follows RFC 6726, RFC 5651 and RFC 5445, and uses nothing of the tools. A `Shape` is of other
senders: of RFC 3926 and RFC 3451, or of another FEC Encoding ID.

usage: tests/support/flute_sender.py OUT, which makes the datagram file of a small session
"""
from __future__ import annotations

import base64
import dataclasses
import gzip
import hashlib
import os
import struct
import sys
from typing import Any, Iterable
from xml.sax.saxutils import quoteattr

sys.dont_write_bytecode = True
sys.path.append(os.path.join(os.path.dirname(os.path.realpath(__file__)), "../../examples"))
import datagram_files

NAMESPACE = "urn:ietf:params:xml:ns:fdt"
EXPIRES = 4_007_664_000  # 2026-12-31 00:00:00Z, in seconds since 1900
FDT_SYMBOL, FDT_BLOCK = 1000, 64  # bytes of a symbol, symbols of a block of FDT Instances
# A file of 20,000 bytes, encoded here since other versions of zlib encode it otherwise
ENCODED = bytes.fromhex(
    "1f8b0800000000000203edc8390180300000b11d2d37b47c05ffc670c1948c19cdf68eceaeee"
    "564fef369c73ce39e79c73ce39e79c73ce39e79c73ce39e79c73ce39e79c73ce39e79c73ce39"
    "e79c73ce39e79c73ce39e79c73cefd7e1fdb49ded4204e0000"
)


@dataclasses.dataclass(frozen=True)
class Shape:
    """In what the packets of a sender differ from those of FLUTE 2 with one symbol in each."""

    version: int = 2  # of FLUTE, in EXT_FDT
    encoding: int | None = None  # of EXT_CENC
    together: int = 1  # symbols in a packet
    times: int = 0  # the fields SCT (2) and ERT (1)
    fec: int = 0  # the FEC Encoding ID
    lct: int = 1  # the version of LCT
    more: bytes = b""  # other extensions


PLAIN = Shape()


@dataclasses.dataclass
class Sent:
    """A file that is sent: its object, and the attributes of its File element."""

    toi: int
    content: bytes
    location: str
    object: bytes | None = None  # the content in encoded form
    symbol: int = 1400
    block: int = 64
    is_in_packets: bool = True  # whether its packets have EXT_FTI
    # Attributes; None leaves one out
    more: dict[str, Any] = dataclasses.field(default_factory=dict)

    def data(self) -> bytes:
        return self.content if self.object is None else self.object

    def attributes(self) -> dict[str, Any]:
        digest = base64.b64encode(hashlib.md5(self.content).digest()).decode()
        found = {
            "TOI": self.toi,
            "Content-Location": self.location,
            "Content-Length": len(self.content),
            "Transfer-Length": len(self.data()),
            "Content-Type": "text/plain",
            "Content-MD5": digest,
            "FEC-OTI-FEC-Encoding-ID": 0,
            "FEC-OTI-Encoding-Symbol-Length": self.symbol,
            "FEC-OTI-Maximum-Source-Block-Length": self.block,
            **self.more,
        }
        return {name: value for name, value in found.items() if value is not None}

    def packets(self, tsi: int, shape: Shape = PLAIN) -> list[bytes]:
        of = self.data(), self.symbol, self.block, self.is_in_packets
        return packets(tsi, self.toi, *of, shape=shape)


def written(attributes: dict[str, Any]) -> str:
    return "".join(f" {name}={quoteattr(str(value))}" for name, value in attributes.items())


def fdt(
    files: Iterable[Sent], expires: object = EXPIRES, prefix: str = "", **root: object
) -> bytes:
    """An FDT Instance. Underscores in names of the root's attributes become hyphens."""
    front = f"{prefix}:" if prefix else ""
    space = {f"xmlns:{prefix}" if prefix else "xmlns": NAMESPACE, "Expires": expires}
    of_root = space | {name.replace("_", "-"): value for name, value in root.items()}
    lines = ['<?xml version="1.0" encoding="UTF-8"?>', f"<{front}FDT-Instance{written(of_root)}>"]
    lines += [f"  <{front}File{written(file.attributes())}/>" for file in files]
    return "\n".join([*lines, f"</{front}FDT-Instance>", ""]).encode()


def block_sizes(length: int, symbol: int, block: int) -> list[int]:
    """How many symbols each source block has (RFC 5052, section 9.1)."""
    symbols = -(-length // symbol)
    blocks = -(-symbols // block)
    small, larger = divmod(symbols, blocks) if blocks else (0, 0)
    return [small + 1] * larger + [small] * (blocks - larger)


def partition(length: int, symbol: int, block: int) -> list[tuple[int, int]]:
    """The source block number and the encoding symbol ID of each symbol."""
    sizes = block_sizes(length, symbol, block)
    return [(sbn, esi) for sbn, size in enumerate(sizes) for esi in range(size)]


def header(tsi: int, toi: int, extensions: bytes, shape: Shape = PLAIN, now: int = 0) -> bytes:
    """An LCT header; `now` is in milliseconds of the session (RFC 3451, section 5.1)."""
    fields = b""
    if shape.times & 2:
        fields += struct.pack(">I", now)
    if shape.times & 1:
        fields += struct.pack(">I", 3_600_000 - now)
    fields += shape.more + extensions
    first, flags, words = shape.lct << 4, 0xA0 | shape.times << 2, 4 + len(fields) // 4
    return struct.pack(">BBBBIII", first, flags, words, shape.fec, 0, tsi, toi) + fields


def close(tsi: int) -> bytes:
    """The packet that ends a session: flag A, and no TOI."""
    return struct.pack(">BBBBII", 0x10, 0x82, 3, 0, 0, tsi)


def packets(
    tsi: int,
    toi: int,
    data: bytes,
    symbol: int,
    block: int,
    is_in_packets: bool = True,
    instance: int | None = None,
    shape: Shape = PLAIN,
) -> list[bytes]:
    """The packets of an object, one for each symbol; one without a symbol if it is empty."""
    extensions = b""
    if instance is not None:
        extensions += struct.pack(">I", 192 << 24 | shape.version << 20 | instance)
    if shape.encoding is not None:
        extensions += struct.pack(">BBH", 193, shape.encoding, 0)
    if is_in_packets:
        length = len(data).to_bytes(6, "big")
        extensions += struct.pack(">BB6sHHI", 64, 4, length, 0, symbol, block)
    if not data:
        return [header(tsi, toi, extensions, shape)] if is_in_packets else []
    made, place = [], 0
    for sbn, size in enumerate(block_sizes(len(data), symbol, block)):
        for esi in range(0, size, shape.together):
            count = min(shape.together, size - esi)
            front = header(tsi, toi, extensions, shape, 65_000 + 17 * place)
            symbols = data[place * symbol : (place + count) * symbol]
            made.append(front + struct.pack(">HH", sbn, esi) + symbols)
            place += count
    return made


def instance(tsi: int, number: int, xml: bytes, shape: Shape = PLAIN) -> list[bytes]:
    """The packets of an FDT Instance."""
    return packets(tsi, 0, xml, FDT_SYMBOL, FDT_BLOCK, instance=number, shape=shape)


def small_session() -> list[bytes]:
    """Three files, of which the last lacks two symbols, and symbols without a description."""
    numbers = b"".join(b"%d\n" % number for number in range(1_000_000, 1_005_000))
    table = gzip.decompress(ENCODED)
    gzipped = {"Content-Type": "text/csv", "Content-Encoding": "gzip"}
    sent = [
        Sent(1, numbers, "http://example.com/news/numbers.txt"),
        Sent(2, table, "http://example.com/news/digits.csv", ENCODED, 1400, 64, False, gzipped),
        Sent(3, bytes(98_000), "http://example.com/news/map.jpg"),
    ]
    sent[2].more["Content-Type"] = "image/jpeg"
    one, two = fdt(sent[:1], EXPIRES), fdt(sent, EXPIRES + 3600)
    received = instance(7, 1, one) + instance(7, 2, two)
    received += sent[0].packets(7) + sent[1].packets(7) + sent[2].packets(7)[:-2]
    return received + packets(7, 4, bytes(31_000), 1000, 64, False)


if __name__ == "__main__":
    with open(sys.argv[1], "xb") as out:
        out.write(datagram_files.content(small_session()))
