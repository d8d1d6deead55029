#!/usr/bin/env python3
"""Makes captures for the tests of tools, with nothing but Python's own library.

  captures.py make ROWS FOLDER
      for each row NAME|OPTIONS|.. of a file: FOLDER/NAME, a capture of the datagram files that the
      options name, and FOLDER/NAME.kept/SENDER, a datagram file of those datagrams that the capture
      contains whole and undamaged
  captures.py damage FOLDER COUNT FILE..
      copies of captures in which random bytes, with a fixed seed, are changed
  captures.py cuts FILE FOLDER
      FOLDER/N, the first N bytes of a file, for each N
  captures.py version1 FILE OUT
      a journal of version 2 as one of version 1: its entries without their sender, which must be
      the same in all
  captures.py mended FILE FOLDER
      checks for each N that FOLDER/N is a valid file of the whole records or entries in the first N
      bytes of FILE
  captures.py run TOOL LIST
      runs a tool with the words of each line of a list, and prints its status and standard error,
      in one line for each run
"""
from __future__ import annotations

import argparse
import gzip
import ipaddress
import itertools
import os
import random
import runpy
import shlex
import struct
import sys
from typing import Iterator, Optional, Tuple

sys.dont_write_bytecode = True
sys.path.append(os.path.join(os.path.dirname(os.path.realpath(__file__)), "../../examples"))
import datagram_files

PORT = 4001
GROUPS = {4: "239.1.1.1", 6: "ff3e::4321"}
LINKS = {  # the link type, and what stands before an IP packet of version 4 and 6
    "ethernet": (
        1,
        b"\x01\0\x5e\x01\1\1\2\0\0\0\0\1\x08\0",
        b"\x33\x33\0\0\x43\x21\2\0\0\0\0\1\x86\xdd",
    ),
    "vlan": (
        1,
        b"\x01\0\x5e\x01\1\1\2\0\0\0\0\1\x81\0\0\7\x08\0",
        b"\x33\x33\0\0\x43\x21\2\0\0\0\0\1\x81\0\0\7\x86\xdd",
    ),
    "qinq": (
        1,
        b"\x01\0\x5e\x01\1\1\2\0\0\0\0\1\x88\xa8\0\7\x81\0\0\x08\x08\0",
        b"\x33\x33\0\0\x43\x21\2\0\0\0\0\1\x88\xa8\0\7\x81\0\0\x08\x86\xdd",
    ),
    "sll": (113, b"\0\2\0\1\0\6\2\0\0\0\0\1\0\0\x08\0", b"\0\2\0\1\0\6\2\0\0\0\0\1\0\0\x86\xdd"),
    "sllvlan": (
        113,
        b"\0\2\0\1\0\6\2\0\0\0\0\1\0\0\x81\0\0\7\x08\0",
        b"\0\2\0\1\0\6\2\0\0\0\0\1\0\0\x81\0\0\7\x86\xdd",
    ),
    "sll2": (
        276,
        b"\x08\0\0\0\0\0\0\3\0\1\2\6\2\0\0\0\0\1\0\0",
        b"\x86\xdd\0\0\0\0\0\3\0\1\2\6\2\0\0\0\0\1\0\0",
    ),
    "raw": (101, b"", b""),
    "rawbsd": (12, b"", b""),
    "rawopenbsd": (14, b"", b""),
    "raw4": (228, b"", b""),
    "raw6": (229, b"", b""),
    "null": (0, b"\2\0\0\0", b"\x1e\0\0\0"),
    "nullbig": (0, b"\0\0\0\2", b"\0\0\0\x18"),
    "loop": (108, b"\0\0\0\2", b"\0\0\0\x18"),
    "wifi": (105, b"\0" * 32, b"\0" * 32),
}
Frame = Tuple[int, bytes, int]  # the link type, the bytes and the length of a frame
SPOILT = (3, 8, 13)  # the datagrams of each sender that an option spoils


def ones(data: bytes) -> int:
    """The Internet checksum (RFC 1071)."""
    words = struct.unpack(f">{len(data) // 2 + len(data) % 2}H", data + b"\0" * (len(data) % 2))
    total: int = sum(words)
    while total >> 16:
        total = (total & 0xFFFF) + (total >> 16)
    return ~total & 0xFFFF


def ip4(
    source: bytes,
    target: bytes,
    protocol: int,
    data: bytes,
    number: int = 0,
    place: int = 0,
    options: bytes = b"",
) -> bytes:
    """An IPv4 packet."""
    first, length = 0x45 + len(options) // 4, 20 + len(options) + len(data)
    fields = first, 0, length, number, place, 16, protocol, 0, source, target
    head = struct.pack(">BBHHHBBH4s4s", *fields) + options
    return head[:10] + struct.pack(">H", ones(head)) + head[12:] + data


def ip6(source: bytes, target: bytes, kind: int, data: bytes) -> bytes:
    return struct.pack(">IHBB16s16s", 6 << 28, len(data), kind, 16, source, target) + data


def ip(source: bytes, target: bytes, protocol: int, data: bytes) -> bytes:
    """An IP packet of the version of its addresses."""
    if len(source) == 4:
        return ip4(source, target, protocol, data)
    return ip6(source, target, protocol, data)


def udp(source: bytes, target: bytes, payload: bytes, port: int = PORT) -> bytes:
    """A UDP datagram with its checksum."""
    data = struct.pack(">HHHH", 40000, port, 8 + len(payload), 0) + payload
    pseudo = source + target + struct.pack(">II", len(data), 17)
    return data[:6] + struct.pack(">H", ones(pseudo + data) or 0xFFFF) + data[8:]


def fragments(source: bytes, target: bytes, data: bytes, number: int, size: int) -> list[bytes]:
    """The IP packets of a UDP datagram that is cut into pieces of `size` bytes."""
    made = []
    for at in range(0, len(data), size):
        more, piece = at + size < len(data), data[at : at + size]
        if len(source) == 4:
            place = at // 8 | (0x2000 if more else 0)
            made.append(ip4(source, target, 17, piece, number, place))
        else:
            head = struct.pack(">BBHI", 17, 0, at | more, number)
            made.append(ip6(source, target, 44, head + piece))
    return made


class Capture:
    """A capture that is made: IP packets in their order, as `options` describes it."""

    def __init__(self, options: argparse.Namespace) -> None:
        self.options, self.draw, self.number = options, random.Random(22), 0
        self.packets: list[bytes] = []
        self.kept: dict[str, list[bytes]] = {}
        self.last: Optional[str] = None

    def send(self, sender: str, payload: bytes, count: int) -> None:
        """Adds a sender's datagram, its `count`th.

        It is whole and undamaged, unless an option spoils it.
        """
        address = ipaddress.ip_address(sender)
        source, target = address.packed, ipaddress.ip_address(GROUPS[address.version]).packed
        spoil = self.options.spoil if count in SPOILT else None
        data = udp(source, target, payload)
        if spoil == "checksum":
            data = data[:-1] + bytes([data[-1] ^ 1])
        elif spoil == "length":
            data = data[:4] + struct.pack(">H", len(data) + 1) + data[6:]
        elif spoil == "nochecksum":
            data = data[:6] + b"\0\0" + data[8:]
        elif spoil == "unfilled":
            data = data[:6] + b"\x12\x34" + data[8:]
        self.number += not self.options.same  # the identification of its fragments
        if self.options.fragment:
            made = fragments(source, target, data, self.number, self.options.fragment)
            self.packets += self.lose(made, spoil)
        else:
            self.packets.append(self.head(source, target, data, spoil))
        is_unasked = spoil == "nochecksum" and len(source) == 4  # IPv4 demands no checksum
        if not spoil or spoil in ("repeat", "harmless") or is_unasked:
            self.kept[sender].append(payload)
        if self.options.icmp and count % 4 == 0:
            self.packets.append(self.error(source, target, self.packets[-1]))

    def head(self, source: bytes, target: bytes, data: bytes, spoil: Optional[str]) -> bytes:
        """An IP packet of a datagram, with what an option spoils."""
        if len(source) == 16:
            if self.options.headers:  # hop-by-hop and destination options
                headers = b"\x3c\0\1\4\0\0\0\0" + b"\x11\1\1\x0c" + b"\0" * 12
                return ip6(source, target, 0, headers + data)
            return ip6(source, target, 17, data)
        options = b"\x94\4\0\0" if self.options.headers else b""
        packet = ip4(source, target, 17, data, self.number, 0, options)
        return packet[:8] + b"\7" + packet[9:] if spoil == "header" else packet

    def lose(self, pieces: list[bytes], spoil: Optional[str]) -> list[bytes]:
        """The fragments of a datagram that are left after this fault."""
        first = pieces[0]
        head = 20 if first[0] >> 4 == 4 else 48
        other = first[:-1] + bytes([first[-1] ^ 1])
        if spoil == "lost":
            return pieces[:1] + pieces[2:]
        if spoil == "lostfirst":
            return pieces[1:]
        if spoil == "repeat":
            return [*pieces, pieces[1], pieces[0]]
        if spoil == "overlap":  # another first fragment, with other bytes
            return [other, *pieces]
        if spoil == "overlong" and head == 20:  # a fragment that reaches into the next one
            longer = first[20:] + b"\0" * 8
            return [ip4(first[12:16], first[16:20], 17, longer, self.number, 0x2000), *pieces[1:]]
        if spoil == "overlong":
            return [ip6(first[8:24], first[24:40], 44, first[40:] + b"\0" * 8), *pieces[1:]]
        return pieces

    def error(self, source: bytes, target: bytes, packet: bytes) -> bytes:
        """An ICMP error of a router, which quotes a packet."""
        if len(source) == 4:
            body = b"\x0b\0\0\0\0\0\0\0" + packet
            body = body[:2] + struct.pack(">H", ones(body)) + body[4:]
            return ip4(b"\x0a\0\0\x32", source, 1, body)
        router = ipaddress.ip_address("2001:db8::50").packed
        body = b"\3\0\0\0\0\0\0\0" + packet
        total = ones(router + source + struct.pack(">II", len(body), 58) + body)
        return ip6(router, source, 58, body[:2] + struct.pack(">H", total) + body[4:])

    def others(self, count: int) -> None:
        """Adds other traffic: another port, TCP, a tunnel, packets that are not IP."""
        source, target = b"\x0a\0\0\x63", b"\xef\1\1\2"
        if self.options.other and count % 5 == 0:
            other_port = udp(source, target, b"not FLUTE %d" % count, 5353)
            self.packets.append(ip4(source, target, 17, other_port))
            tcp = struct.pack(">HHIIHHHH", 4001, 4001, 1, 1, 0x5010, 9, 0, 0)
            self.packets.append(ip4(source, b"\x0a\0\0\1", 6, tcp))
            self.packets.append(ip4(source, target, 6, b"\x0f\xa1" * 20, 7, 0x2000))
        if self.options.tunnel == "gre" and count % 5 == 0:
            self.packets.append(ip4(source, b"\xc0\0\2\1", 47, b"\0\0\x08\0" + self.packets[0]))
        if self.options.tunnel == "vxlan" and count % 5 == 0:
            inner = b"\x08\0\0\0\0\0\7\0" + LINKS["ethernet"][1] + self.packets[0]
            outer = udp(source, b"\xc0\0\2\1", inner, 4789)
            self.packets.append(ip4(source, b"\xc0\0\2\1", 17, outer))

    def fill(self) -> None:
        """Adds all datagrams of all senders, those of each sender in order."""
        waiting = {}
        for word in self.options.sent:
            sender, name = word.split("=")
            waiting[sender], self.kept[sender] = list(datagram_files.read(name)), []
        turns = [sender for sender, payloads in waiting.items() for _ in payloads]
        self.draw.shuffle(turns)
        sent = dict.fromkeys(waiting, 0)
        for count, sender in enumerate(turns):
            self.send(sender, waiting[sender][sent[sender]], sent[sender])
            sent[sender] += 1
            self.last = sender
            self.others(count)
        if self.options.disorder:  # a packet comes before up to that many earlier ones
            places: dict[int, float] = {
                id(packet): at + self.draw.random() * self.options.disorder
                for at, packet in enumerate(self.packets)
            }
            self.packets.sort(key=lambda packet: places[id(packet)])

    def frames(self) -> Iterator[Frame]:
        """Yields the link type, the bytes and the length of each captured frame."""
        names = itertools.cycle(self.options.link.split(","))
        for packet in self.packets:
            link, *heads = LINKS[next(names)]
            frame = heads[packet[0] >> 4 == 6] + packet
            if self.options.pad:
                frame += bytes(range(max(0, 60 - len(frame)))) + b"\xde\xad\xbe\xef"
            yield link, frame[: self.options.snap], len(frame)


def pcap(frames: list[Frame], order: str, magic: int, snap: int) -> bytes:
    """A capture of these frames in a form of pcap."""
    made = [struct.pack(order + "IHHiIII", magic, 2, 4, 0, 0, snap, frames[0][0])]
    for at, (_link, frame, length) in enumerate(frames):
        second, part = divmod(at, 1000)
        fields = 1700000000 + second, 1000 * part, len(frame), length
        made.append(struct.pack(order + "IIII", *fields) + frame)
    return b"".join(made)


def block(order: str, number: int, body: bytes) -> bytes:
    """A block of pcapng."""
    body += b"\0" * (-len(body) % 4)
    length = struct.pack(order + "I", 12 + len(body))
    return struct.pack(order + "I", number) + length + body + length


def pcapng(frames: list[Frame], order: str, kind: int, snap: int) -> bytes:
    """A section of pcapng whose packets are in blocks of one kind: enhanced (6), simple (3) or old
    (2).

    Blocks of other kinds are among them.
    """
    links = list(dict.fromkeys(link for link, _frame, _length in frames))
    section = struct.pack(order + "IHHq", 0x1A2B3C4D, 1, 0, -1)
    section += struct.pack(order + "HH4sHH", 4, 3, b"abc\0", 0, 0)
    made = [block(order, 0x0A0D0D0A, section)]
    made += [block(order, 1, struct.pack(order + "HHI", link, 0, snap)) for link in links]
    for at, (link, frame, length) in enumerate(frames):
        if at % 7 == 0:  # interface statistics, and a block of an unknown kind
            made.append(block(order, 5, struct.pack(order + "III", 0, 0, at)))
            made.append(block(order, 0x0BAD0BAD, b"\0" * 70000))
        if kind == 6:
            head = struct.pack(order + "IIIII", links.index(link), 0, at, len(frame), length)
            body = head + frame + b"\0" * (-len(frame) % 4)
            body += struct.pack(order + "HHIHH", 2, 4, 0, 0, 0)
            made.append(block(order, 6, body))
        elif kind == 3:
            made.append(block(order, 3, struct.pack(order + "I", length) + frame))
        else:
            head = struct.pack(order + "HHIIII", links.index(link), 0, 0, at, len(frame), length)
            made.append(block(order, 2, head + frame))
    return b"".join(made)


def sections(frames: list[Frame], snap: int) -> bytes:
    """Two sections, each with its own byte order."""
    half = len(frames) // 2
    return pcapng(frames[:half], "<", 6, snap) + pcapng(frames[half:], ">", 6, snap)


FORMS = {
    "pcap": lambda frames, snap: pcap(frames, "<", 0xA1B2C3D4, snap),
    "pcapbig": lambda frames, snap: pcap(frames, ">", 0xA1B2C3D4, snap),
    "nano": lambda frames, snap: pcap(frames, "<", 0xA1B23C4D, snap),
    "nanobig": lambda frames, snap: pcap(frames, ">", 0xA1B23C4D, snap),
    "pcapng": lambda frames, snap: pcapng(frames, "<", 6, snap),
    "pcapngbig": lambda frames, snap: pcapng(frames, ">", 6, snap),
    "pcapngsimple": lambda frames, snap: pcapng(frames, "<", 3, snap),
    "pcapngold": lambda frames, snap: pcapng(frames, ">", 2, snap),
    "sections": sections,
}


def make(name: str, words: list[str]) -> None:
    """Makes the capture that a row names."""
    parser = argparse.ArgumentParser()
    parser.add_argument("--form", choices=FORMS, default="pcap")
    parser.add_argument("--link", default="ethernet")
    parser.add_argument("--spoil")
    parser.add_argument("--tunnel")
    for number in ("fragment", "disorder", "cut"):
        parser.add_argument("--" + number, type=int, default=0)
    parser.add_argument("--snap", type=int, default=262144)
    for switch in ("gzip", "icmp", "other", "pad", "headers", "members", "same"):
        parser.add_argument("--" + switch, action="store_true")
    parser.add_argument("sent", nargs="*")
    options = parser.parse_args(words)
    capture = Capture(options)
    capture.fill()
    frames = list(capture.frames())
    if frames:
        data = FORMS[options.form](frames, options.snap)
    else:
        data = pcap([(1, b"", 0)], "<", 0xA1B2C3D4, 262144)[:24]
    if options.members:  # two gzip members, one after the other
        data = gzip.compress(data[:5000], mtime=0) + gzip.compress(data[5000:], mtime=0)
    elif options.gzip:
        data = gzip.compress(data, mtime=0)
    with open(name, "wb") as file:
        file.write(data[: len(data) - options.cut])
    os.mkdir(name + ".kept")
    for sender, payloads in capture.kept.items():
        if options.cut and sender == capture.last:  # the last packet is cut
            payloads = payloads[:-1]
        if options.snap > 1100:  # a smaller one would cut each datagram of these tests
            datagram_files.write(os.path.join(name + ".kept", sender), payloads)


def damage(folder: str, count: str, names: list[str]) -> None:
    """Makes so many damaged copies of captures."""
    draw = random.Random(22)
    for number in range(int(count)):
        with open(names[number % len(names)], "rb") as file:
            data = bytearray(file.read())
        for _ in range(draw.choice((1, 1, 2, 5, 20))):
            # Half of them in the first bytes, where the headers are
            data[draw.randrange(draw.choice((80, len(data))))] = draw.randrange(256)
        if number % 5 == 0:
            del data[draw.randrange(len(data)) :]
        with open(os.path.join(folder, str(number)), "wb") as file:
            file.write(data)


def cuts(name: str, folder: str) -> None:
    """Makes copies of a file, cut at each byte."""
    with open(name, "rb") as file:
        data = file.read()
    for length in range(len(data)):
        with open(os.path.join(folder, str(length)), "wb") as file:
            file.write(data[:length])


def pieces(data: bytes) -> Iterator[bytes]:
    """The records of a datagram file, or the entries of a journal, split by their lengths.

    The formats are in docs/FORMATS.md.
    """
    if data.startswith(datagram_files.HEADER):
        yield from datagram_files.records(data)
        return
    place, sender = 6, 16 if data[5] == 2 else 0
    while data[place] != 0xFF:
        size = 22 + sender + {1: 12, 2: 0, 3: 6, 4: 4}[data[place]]
        size += struct.unpack_from(">H", data, place + size - 2)[0] if data[place] == 3 else 0
        yield data[place : place + size]
        place += size


def journal(version: int, entries: list[bytes]) -> bytes:
    """A journal of these entries."""
    end = b"\xff" + len(entries).to_bytes(8, "big")
    return b"FLJN\0" + bytes([version]) + b"".join(entries) + end


def version1(name: str, out: str) -> None:
    """Makes a journal of version 1 of one of version 2."""
    with open(name, "rb") as file:
        entries = list(pieces(file.read()))
    with open(out, "wb") as file:
        file.write(journal(1, [entry[:1] + entry[17:] for entry in entries]))


def mended(name: str, folder: str) -> None:
    """Makes what flutejoin-mend should write of a journal that is cut at each byte."""
    with open(name, "rb") as file:
        data = file.read()
    for length in range(4, len(data)):
        whole, place = [], 6
        for piece in pieces(data):
            place += len(piece)
            if place > length:
                break
            whole.append(piece)
        if data[:4] == b"FLJN":
            wanted = journal(data[5] if length >= 6 else 2, whole)
        else:
            wanted = data[:6] + b"".join(whole)
        path = os.path.join(folder, str(length))
        # A datagram file is whole where it ends between two records.
        if data[:4] == b"FLDG" and len(wanted) == length:
            assert not os.path.exists(path), path
        else:
            with open(path, "rb") as file:
                assert file.read() == wanted, path


def run(tool: str, name: str) -> None:
    """Runs a tool many times, in children of one Python that has loaded its modules already.

    The result is that of a new Python for each run, but sooner.
    """
    sys.path.insert(0, os.path.dirname(os.path.realpath(tool)))
    sys.dont_write_bytecode = True
    for module in ("argparse", "gzip", "ipaddress"):
        __import__(module)
    for module in ("capture.captures", "capture.datagrams", "common.signals"):
        __import__(f"flutejoin_tools.{module}")
    with open(name) as file:
        lines = [shlex.split(line) for line in file]
    for words in lines:
        reads, writes = os.pipe()
        child = os.fork()
        if child == 0:
            os.dup2(writes, 2)
            os.dup2(os.open(os.devnull, os.O_RDWR), 1)
            sys.argv = [tool, *words]
            runpy.run_path(tool, run_name="__main__")
        os.close(writes)
        with open(reads, errors="replace") as told:
            text = told.read().strip().replace("\n", "; ")
        print(os.waitstatus_to_exitcode(os.waitpid(child, 0)[1]), text)


def main() -> None:
    command, *words = sys.argv[1:]
    if command == "make":
        with open(words[0]) as file:
            for line in file:
                name, options = line.split("|")[:2]
                make(os.path.join(words[1], name.strip()), options.split())
    elif command == "damage":
        damage(words[0], words[1], words[2:])
    else:
        {"cuts": cuts, "run": run, "mended": mended, "version1": version1}[command](*words)


if __name__ == "__main__":
    main()
