#!/usr/bin/env python3
"""captures.py SENT PERCENT OUT..: makes a packet capture (pcap) of each of several stations.

SENT is the datagram file that was sent, and each OUT the capture of one station. The sender is
10.0.0.1, the group 239.1.1.1, the port 4001. Each station loses about PERCENT of the datagrams, but
different ones. Which it loses depends only on its place among the OUTs, so the example is the same
each time.
"""
from __future__ import annotations

import random
import struct
import sys

sys.dont_write_bytecode = True
import datagram_files

SENDER, GROUP, PORT = bytes([10, 0, 0, 1]), bytes([239, 1, 1, 1]), 4001
MULTICAST = bytes.fromhex("01005e010101" "020000000001" "0800")


def checksum(data: bytes) -> int:
    """The Internet checksum (RFC 1071)."""
    words = struct.unpack(f">{(len(data) + 1) // 2}H", data + b"\0" * (len(data) % 2))
    total: int = sum(words)
    while total >> 16:
        total = (total & 0xFFFF) + (total >> 16)
    return ~total & 0xFFFF


def frame(payload: bytes) -> bytes:
    """The Ethernet frame of a UDP datagram over IPv4."""
    udp = struct.pack(">HHHH", PORT, PORT, 8 + len(payload), 0) + payload
    pseudo = SENDER + GROUP + struct.pack(">HH", 17, len(udp))
    udp = udp[:6] + struct.pack(">H", checksum(pseudo + udp) or 0xFFFF) + udp[8:]
    head = struct.pack(">BBHHHBBH", 0x45, 0, 20 + len(udp), 0, 0, 16, 17, 0) + SENDER + GROUP
    return MULTICAST + head[:10] + struct.pack(">H", checksum(head)) + head[12:] + udp


def main() -> None:
    if len(sys.argv) < 4:
        print("usage: captures.py SENT PERCENT OUT..", file=sys.stderr)
        sys.exit(2)
    source, percent, outs = sys.argv[1], float(sys.argv[2]), sys.argv[3:]
    frames = [frame(payload) for payload in datagram_files.read(source)]
    for station, out in enumerate(outs, 1):
        draw = random.Random(station)
        with open(out, "wb") as file:
            file.write(struct.pack("<IHHiIII", 0xA1B2C3D4, 2, 4, 0, 0, 65535, 1))
            for second, packet in enumerate(frames):
                if draw.random() * 100 >= percent:
                    file.write(struct.pack("<IIII", second, 0, len(packet), len(packet)) + packet)


main()
