"""Finds the UDP datagrams in the frames of captures.

Only whole, undamaged datagrams are taken; the others are counted by cause.
"""
from __future__ import annotations

import collections
import struct
from typing import Callable, Container, Optional

from flutejoin_tools.capture.checksums import sum_of
from flutejoin_tools.capture.fragments import CUT, Fragments, Key
from flutejoin_tools.capture.frames import (
    IP,
    LLC,
    MOST_TAGS,
    OTHER_FAMILY,
    TUNNELS,
    VLAN_TAGS,
    carried,
    is_without_ip,
)
from flutejoin_tools.capture.segments import datagrams_in

CUT_BEFORE_PORT = "cut short by the capture before the port"
LENGTHS = "lengths in its headers that do not fit"
HEADER_CHECKSUM = "wrong IPv4 header checksum"
CHECKSUM = "wrong UDP checksum"
NO_CHECKSUM = "no UDP checksum, which IPv6 demands"
QUOTE = "ICMP error that quotes a datagram"
SEVERAL = "perhaps several datagrams as one (UDP segmentation offload; capture at a station)"
PORT_UNKNOWN = ", of a port that is not known"
UNKNOWN = "which is not known here"
MOST_NAMED = 16  # link types, and EtherTypes, that are counted one by one
# Work beside that of a small packet: for a fragment, and 1 for so many VLAN tags, and for so many
# bytes of extension headers
FRAGMENT_WORK, TAGS_OF_WORK, HEADERS_OF_WORK = 3, 4, 128

UDP, ICMP, ICMP6, FRAGMENT = 17, 1, 58, 44
# IPv6 extension headers with the usual length field (RFC 6564).
HEADERS = (0, 43, 60, 135, 139, 140)
ICMP_ERRORS = {ICMP: (3, 4, 5, 11, 12), ICMP6: (1, 2, 3, 4)}
IP_TUNNELS = {4: "IPv4 in IP", 41: "IPv6 in IP", 47: "GRE", 50: "IPsec", 51: "IPsec", 115: "L2TP"}
UDP_TUNNELS = {
    1701: "L2TP",
    2152: "GTP",
    2268: "AMT",
    3544: "Teredo",
    4500: "IPsec",
    4789: "VXLAN",
    6081: "Geneve",
    8472: "VXLAN",
}

# Version and header length, length, identification, fragment, protocol, addresses.
IP4_HEAD = struct.Struct(">BxHHHxB2x4s4s")
IP6_HEAD = struct.Struct(">4xHBx16s16s")  # length, next header, addresses
# Next header, offset and whether more follow, identification.
FRAGMENT_HEAD = struct.Struct(">BxHI")
UDP_HEAD = struct.Struct(">2xHHH")  # destination port, length, checksum

# Takes a datagram: the addresses of its sender and its target, its port, and its payload
HandOn = Callable[[bytes, bytes, int, bytes], None]


class Datagrams:
    """Finds the UDP datagrams in frames.

    It passes on those that are wanted, and counts those that it leaves out.
    """

    def __init__(
        self,
        ports: Container[int],
        groups: Container[bytes],
        any_checksum: bool,
        hand_on: HandOn,
        senders: Container[bytes] = (),
    ) -> None:
        """Takes datagrams to these ports and groups, from these senders; of each all, where there
        are none."""
        self.ports, self.groups, self.senders = ports, groups, senders
        self.any_checksum, self.hand_on = any_checksum, hand_on
        self.count = 0
        self.work = 0  # that packets took more than a small one
        self.left_out: collections.Counter[str] = collections.Counter()
        self.fragments = Fragments(self.lose)
        self.unknown: dict[str, set[int | str]] = collections.defaultdict(set)
        # Of the frame that is being read
        self.when: Optional[int] = None
        self.vlans: tuple[int, ...] = ()

    def is_of_others(self, source: bytes, target: bytes) -> bool:
        is_to_others = self.groups and target not in self.groups
        return bool(is_to_others or self.senders and source not in self.senders)

    def leave_out(self, cause: str) -> None:
        """Counts a datagram that is left out, with the cause."""
        self.left_out[cause] += 1

    def leave_tunnel(self, name: str) -> None:
        self.leave_out(f"in a tunnel ({name}), which is not opened")

    def leave_udp_tunnel(self, udp: bytes) -> None:
        """Counts a datagram that carries other packets, unless the user asked for its port."""
        port = int.from_bytes(udp[2:4], "big")
        if port in UDP_TUNNELS and port not in self.ports:
            self.leave_tunnel(UDP_TUNNELS[port])

    def leave_unknown(self, what: str, number: int | str) -> None:
        """Counts a frame of an unknown kind: the first kinds by number, the rest together."""
        numbers = self.unknown[what]
        if number in numbers or len(numbers) < MOST_NAMED:
            numbers.add(number)
            self.leave_out(f"{what} {number}, {UNKNOWN}")
        else:
            self.leave_out(f"another {what}, {UNKNOWN}")

    def take(self, link: int, frame: bytes, is_cut: bool, when: Optional[int] = None) -> None:
        """Takes the IP packet in a frame.

        `when` is the second of its capture, or None if unknown.
        """
        kind, start, self.vlans = carried(link, frame)
        if self.vlans:
            self.work += len(self.vlans) // TAGS_OF_WORK
        self.when = when
        if kind in IP:
            self.take_ip(frame[start:], is_cut)
        elif kind is None:
            self.leave_unknown("link type", link)
        elif len(kind) >= 2:
            self.leave_frame(kind, frame, start)
        elif is_cut:
            self.leave_out(CUT_BEFORE_PORT)

    def leave_frame(self, kind: bytes, frame: bytes, start: int) -> None:
        """Counts a frame that may carry an IP packet which this tool does not read."""
        if kind in TUNNELS:
            self.leave_tunnel(TUNNELS[kind])
        elif kind in VLAN_TAGS:
            self.leave_out(f"more than {MOST_TAGS} VLAN tags")
        elif kind == OTHER_FAMILY:
            self.leave_out(f"a protocol on loopback {UNKNOWN}")
        elif not is_without_ip(kind, frame, start):
            if kind == LLC:
                self.leave_out(f"an LLC frame of a protocol {UNKNOWN}")
            else:
                self.leave_unknown("EtherType", f"0x{kind.hex()}")

    def take_ip(self, ip: bytes, is_cut: bool) -> None:
        """Takes an IP packet of either version."""
        version = ip[0] >> 4 if ip else 0
        if version == 4 and len(ip) >= 20:
            self.take_ip4(ip)
        elif version == 6 and len(ip) >= 40:
            self.take_ip6(ip)
        elif is_cut and (version in (4, 6) or not ip):
            self.leave_out(CUT_BEFORE_PORT)

    def take_ip4(self, ip: bytes) -> None:
        """Takes an IPv4 packet: its datagram, or a fragment of one."""
        first, length, number, place, protocol, source, target = IP4_HEAD.unpack_from(ip)
        head = (first & 15) * 4
        data, is_whole = ip[head:length], length <= len(ip)
        if protocol != UDP:
            self.take_other(protocol, data)
        elif self.is_of_others(source, target):
            self.leave_udp_tunnel(data)
        elif not 20 <= head <= length:
            self.leave_out(LENGTHS)
        elif not self.any_checksum and head <= len(ip) and int.from_bytes(ip[:head], "big") % 65535:
            if place & 0x1FFF or self.may_want(data):
                self.leave_out(HEADER_CHECKSUM)
        elif place & 0x3FFF:
            key = source, target, number, UDP, self.vlans
            offset, more = (place & 0x1FFF) * 8, bool(place & 0x2000)
            self.work += FRAGMENT_WORK
            joined = self.fragments.add(key, offset, more, data, is_whole, self.when)
            if joined is not None:
                self.take_udp(source, target, joined, True, True)
        else:
            self.take_udp(source, target, data, is_whole)

    def take_ip6(self, ip: bytes) -> None:
        """Takes an IPv6 packet: its datagram, or a fragment of one."""
        length, kind, source, target = IP6_HEAD.unpack_from(ip)
        is_whole, is_joined = length <= len(ip) - 40, False
        kind, data = self.behind_headers(kind, ip[40 : 40 + length])
        if self.is_of_others(source, target) and kind in (UDP, FRAGMENT, *HEADERS):
            self.leave_udp_tunnel(data if kind == UDP else b"")
            return
        if kind == FRAGMENT and len(data) >= 8:
            kind, place, number = FRAGMENT_HEAD.unpack_from(data)
            data = data[8:]
            if place & 0xFFF9:  # else it is a whole packet for itself (RFC 6946)
                if kind != UDP and kind not in HEADERS:
                    return
                key = source, target, number, kind, self.vlans
                offset, more = place & 0xFFF8, bool(place & 1)
                self.work += FRAGMENT_WORK
                joined = self.fragments.add(key, offset, more, data, is_whole, self.when)
                if joined is None:
                    return
                data, is_whole, is_joined = joined, True, True
            kind, data = self.behind_headers(kind, data)
        if kind == UDP:
            self.take_udp(source, target, data, is_whole, is_joined)
        elif kind in HEADERS or kind == FRAGMENT:
            self.leave_out(LENGTHS if is_whole else CUT_BEFORE_PORT)
        else:
            self.take_other(kind, data)

    def behind_headers(self, kind: int, data: bytes) -> tuple[int, bytes]:
        """Calls the function of this name, and counts the work."""
        found, rest = behind_headers(kind, data)
        self.work += (len(data) - len(rest)) // HEADERS_OF_WORK
        return found, rest

    def take_udp(
        self, source: bytes, target: bytes, data: bytes, is_whole: bool, is_joined: bool = False
    ) -> None:
        """Takes a datagram, which may be assembled from fragments."""
        if len(data) < 8:
            self.take_short_udp(data, is_whole)
            return
        port, size, checksum = UDP_HEAD.unpack_from(data)
        if port in UDP_TUNNELS:
            self.leave_udp_tunnel(data)
        if self.ports and port not in self.ports:
            return
        if not is_whole:
            self.leave_out(CUT)
        elif not 8 <= size <= len(data):
            self.leave_out(LENGTHS)
        elif self.any_checksum and not is_joined:
            self.take_unfilled(source, target, data[:size])
        else:
            cause = None
            if not self.any_checksum:
                cause = checksum_fault(source, target, data[:size], checksum)
            if cause:
                self.leave_out(cause)
            else:
                self.hand_on_one(source, target, port, data[8:size])

    def take_unfilled(self, source: bytes, target: bytes, udp: bytes) -> None:
        """Takes a payload without a right checksum, which may be several datagrams in one.

        If it can't be taken apart, it is counted.
        """
        port, _, checksum = UDP_HEAD.unpack_from(udp)
        payload = udp[8:]
        payloads = datagrams_in(payload)
        is_one = payloads is not None and len(payloads) == 1
        if is_one or checksum and not checksum_fault(source, target, udp, checksum):
            self.hand_on_one(source, target, port, payload)
        elif payloads is None:
            self.leave_out(SEVERAL)
        else:
            for payload in payloads:
                self.hand_on_one(source, target, port, payload)

    def hand_on_one(self, source: bytes, target: bytes, port: int, payload: bytes) -> None:
        """Hands on a datagram, and counts it."""
        self.count += 1
        self.hand_on(source, target, port, payload)

    def take_short_udp(self, data: bytes, is_whole: bool) -> None:
        """Counts a datagram whose header is cut."""
        if len(data) < 4 and not is_whole:
            self.leave_out(CUT_BEFORE_PORT)
        elif self.may_want(data):
            self.leave_out(LENGTHS if is_whole else CUT)

    def take_other(self, protocol: int, data: bytes) -> None:
        """Counts a packet that may carry datagrams and is not opened.

        An ICMP error quotes the packet that it is about after 8 bytes.
        """
        if protocol in IP_TUNNELS:
            self.leave_tunnel(IP_TUNNELS[protocol])
        elif protocol in ICMP_ERRORS and data and data[0] in ICMP_ERRORS[protocol]:
            quoted = data[8:]
            if protocol == ICMP and len(quoted) >= 20 and quoted[9] == UDP:
                source, target = quoted[12:16], quoted[16:20]
                udp = quoted[(quoted[0] & 15) * 4 :]
            elif protocol == ICMP6 and len(quoted) >= 40 and quoted[6] == UDP:
                source, target, udp = quoted[8:24], quoted[24:40], quoted[40:]
            else:
                return
            if self.may_want(udp) and not self.is_of_others(source, target):
                self.leave_out(QUOTE)

    def may_want(self, udp: bytes) -> bool:
        """Whether a datagram's port is wanted, or is not known because the datagram is cut."""
        return not self.ports or len(udp) < 4 or int.from_bytes(udp[2:4], "big") in self.ports

    def lose(self, key: Key, first: bytes, cause: str) -> None:
        """Counts a datagram in fragments that is left out. Only its first fragment has its port."""
        kind, udp = behind_headers(key[3], first)
        if kind != UDP or len(udp) < 4:
            self.leave_out(cause + (PORT_UNKNOWN if self.ports else ""))
        elif self.may_want(udp):
            self.leave_out(cause)

    def finish(self) -> None:
        """At the end of the captures: counts datagrams of which fragments are missing."""
        self.fragments.finish()


def behind_headers(kind: int, data: bytes) -> tuple[int, bytes]:
    """The protocol and the bytes after the extension headers of an IPv6 packet.

    If the packet ends within an extension header, they are that header's.
    """
    at = 0
    while kind in HEADERS and len(data) >= at + 8 and len(data) >= at + 8 + data[at + 1] * 8:
        kind, at = data[at], at + 8 + data[at + 1] * 8
    return kind, data[at:] if at else data


def checksum_fault(source: bytes, target: bytes, udp: bytes, checksum: int) -> Optional[str]:
    """Why the UDP checksum is wrong (RFC 768; RFC 8200, section 8.1), or None.

    The sum of words in ones' complement is the number modulo 65,535.
    """
    if not checksum:
        return None if len(source) == 4 else NO_CHECKSUM
    number = sum_of(source + target + udp)
    return CHECKSUM if (number + len(udp) + UDP) % 65535 else None
