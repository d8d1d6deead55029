"""Session descriptions of FLUTE sessions (SDP, RFC 8866), with source filters (RFC 4570) and the
attributes of TS 26.346, section 7.3: `a=flute-tsi` and `a=flute-ch`.

Only what tells where to receive is read. Names are not looked up: addresses alone are taken.
"""
from __future__ import annotations

import ipaddress
import re
from typing import Iterable, Iterator, NamedTuple, Optional

from flutejoin_tools.common.addresses import IPAddress
from flutejoin_tools.common.texts import shown

MOST_BYTES, MOST_LINES = 1 << 16, 1 << 12  # of a description
MOST_SESSIONS = 64  # that one description may ask for
MOST_TSI = (1 << 48) - 1  # of 48 bits
TYPES = "vosiuepcbtrzkam"
PROTOCOL = "flute/udp"
ADDRESS = re.compile(r"(\S+?)(?:/(\d{1,3}))?(?:/(\d{1,3}))?", re.ASCII)
VERSIONS = {"ip4": 4, "ip6": 6}
SHOWN = 60  # characters of a line that a fault shows


class Described(NamedTuple):
    """One place where a session is sent: `group` and `sender` may be unknown."""

    port: int
    group: Optional[IPAddress]
    sender: Optional[IPAddress]
    tsi: Optional[int]


class Filter(NamedTuple):
    """A source filter: for a destination, or for all if that is None."""

    destination: Optional[IPAddress]
    version: Optional[int]
    sources: tuple[IPAddress, ...]


class Section:
    """The lines of a description before its media, or those of one medium."""

    def __init__(self, media: str = "") -> None:
        self.media = media
        self.addresses: list[IPAddress] = []
        self.filters: list[Filter] = []
        self.tsi: Optional[int] = None
        self.channels: Optional[int] = None

    def take(self, kind: str, value: str) -> None:
        """Takes a line. Raises ValueError."""
        if kind == "c":
            self.addresses += connection(value)
        elif kind == "a":
            name, _, rest = value.partition(":")
            self.take_attribute(name.lower(), rest.strip())

    def take_attribute(self, name: str, value: str) -> None:
        """Takes a line a=. Raises ValueError."""
        if name == "source-filter":
            self.filters.append(source_filter(value))
        elif name == "flute-tsi":
            self.tsi = once(self.tsi, name, number(value, 0, MOST_TSI))
        elif name == "flute-ch":
            self.channels = once(self.channels, name, number(value, 1, MOST_SESSIONS))

    def is_flute(self) -> bool:
        words = self.media.split()
        return len(words) > 2 and words[2].lower() == PROTOCOL

    def ports(self) -> list[int]:
        """The ports of a medium; none if it is switched off, by port 0."""
        words = self.media.split()
        first, _, many = words[1].partition("/")
        port, count = number(first, 0, 65535), number(many or "1", 1, MOST_SESSIONS)
        if port + count > 65536:
            raise ValueError("a port is beyond 65535")
        return [*range(port, port + count)] if port else []


def read(path: str) -> list[Described]:
    """What a file describes. Raises ValueError."""
    front = f"argument --sdp: {shown(path)}"
    try:
        with open(path, "rb") as file:
            data = file.read(MOST_BYTES + 1)
    except (OSError, ValueError) as fault:
        raise ValueError(f"{front}: {getattr(fault, 'strerror', None) or fault}") from None
    try:
        return described(data)
    except ValueError as fault:
        raise ValueError(f"{front}: {fault}") from None


def described(data: bytes) -> list[Described]:
    """Where the FLUTE sessions of a description are sent. Raises ValueError."""
    session, media = sections(lines(data))
    flute = [each for each in media if each.is_flute()]
    if not flute:
        others = sorted({words[2] for each in media if len(words := each.media.split()) > 2})
        told = f"; its media are of {shown(', '.join(others))[:SHOWN]}" if others else ""
        raise ValueError(f"describes no medium of FLUTE/UDP{told}")
    found: list[Described] = []
    for each in flute:
        found += places(session, each)
        if len(found) > MOST_SESSIONS:
            raise ValueError(f"describes more than {MOST_SESSIONS} sessions")
    if not found:
        raise ValueError("describes no medium of FLUTE/UDP that is sent: all have port 0")
    channels = {(it.port, it.group) for it in found}
    count = session.channels or max((each.channels or 0 for each in flute), default=0)
    if count and count != len(channels):
        raise ValueError(f"flute-ch says {count} channels, and {len(channels)} are described")
    return found


def lines(data: bytes) -> Iterator[tuple[int, str, str]]:
    """Yields each line: its number, its type and its value."""
    if len(data) > MOST_BYTES:
        raise ValueError(f"is longer than {MOST_BYTES} bytes")
    try:
        text = data.decode()
    except UnicodeDecodeError:
        raise ValueError("is not UTF-8") from None
    found = text.replace("\r\n", "\n").rstrip("\n").split("\n")
    if len(found) > MOST_LINES:
        raise ValueError(f"has more than {MOST_LINES} lines")
    for count, line in enumerate(found, 1):
        if "\0" in line or "\r" in line:
            raise ValueError(f"line {count} has a NUL, or CR without LF")
        if line[1:2] != "=" or line[0] not in TYPES:
            raise ValueError(f"line {count} is none of SDP: {shown(line)[:SHOWN]!r}")
        if count == 1 and line != "v=0":
            raise ValueError("begins with another line than v=0")
        yield count, line[0], line[2:].strip()


def sections(found: Iterable[tuple[int, str, str]]) -> tuple[Section, list[Section]]:
    """The session's own lines, and the media."""
    session = section = Section()
    media: list[Section] = []
    for count, kind, value in found:
        try:
            if kind == "v" and count > 1:
                raise ValueError("a second description begins")
            if kind == "m":
                section = Section(value)
                media.append(section)
                if section.is_flute():
                    section.ports()
            elif section is session or section.is_flute():
                section.take(kind, value)
        except ValueError as fault:
            told = f"{kind}={shown(value)}"[:SHOWN]
            raise ValueError(f"line {count}, {told!r}: {fault}") from None
    return session, media


def places(session: Section, medium: Section) -> Iterator[Described]:
    """Yields where one medium is sent."""
    addresses = medium.addresses or session.addresses
    if not addresses:
        raise ValueError("a medium of FLUTE/UDP has no line c= with its address")
    tsi = medium.tsi if medium.tsi is not None else session.tsi
    for port, address in paired(medium.ports(), addresses):
        group = address if address.is_multicast else None
        senders = sources(medium.filters, address) or sources(session.filters, address)
        if not senders:
            yield Described(port, group, None, tsi)
        for sender in senders:
            yield Described(port, group, sender, tsi)


def paired(
    ports: list[int], addresses: list[IPAddress]
) -> Iterator[tuple[int, IPAddress]]:
    """Yields each port with its address: of several the first belong together, and so on."""
    if len(ports) > 1 and len(addresses) > 1:
        if len(ports) != len(addresses):
            raise ValueError(f"{len(ports)} ports have {len(addresses)} addresses")
        yield from zip(ports, addresses)
        return
    for port in ports:
        for address in addresses:
            yield port, address


def sources(filters: Iterable[Filter], address: IPAddress) -> list[IPAddress]:
    """The senders whose datagrams to an address are wanted; none if nothing is said of it."""
    for exact in True, False:
        for each in filters:
            is_of_all = each.destination is None and each.version in (None, address.version)
            if each.destination == address if exact else is_of_all:
                return [it for it in each.sources if it.version == address.version]
    return []


def connection(value: str) -> list[IPAddress]:
    """The addresses in a line c=, of which the last number may say how many there are."""
    words = value.split()
    if len(words) != 3 or words[0].lower() != "in" or words[1].lower() not in VERSIONS:
        raise ValueError("is not IN IP4 or IN IP6, and an address")
    version, told = VERSIONS[words[1].lower()], ADDRESS.fullmatch(words[2])
    if not told:
        raise ValueError(f"{words[2]!r} is no address")
    address = address_of(told[1], version)
    if version == 6 and told[3]:
        raise ValueError("IPv6 has no TTL")
    if version == 4 and told[2] and int(told[2]) > 255:
        raise ValueError("the TTL is beyond 255")
    count = number((told[3] if version == 4 else told[2]) or "1", 1, MOST_SESSIONS)
    if (told[2] or count > 1) and not address.is_multicast:
        raise ValueError(f"{address} is no multicast group")
    found = [address + place for place in range(count)]
    if not all(it.is_multicast == address.is_multicast for it in found):
        raise ValueError("an address is beyond those of multicast groups")
    return found


def source_filter(value: str) -> Filter:
    """The filter in a line a=source-filter. Raises ValueError."""
    words = value.split()
    if len(words) < 5 or words[0].lower() not in ("incl", "excl") or words[1].lower() != "in":
        raise ValueError("is no source filter: incl IN IP4 GROUP SENDER..")
    if words[0].lower() == "excl":
        raise ValueError("excl leaves senders out, and only those to receive can be named")
    kind = words[2].lower()
    if kind not in (*VERSIONS, "*"):
        raise ValueError(f"{words[2]!r} is not IP4, IP6 or *")
    version = VERSIONS.get(kind)
    destination = None if words[3] == "*" else address_of(words[3], version)
    found = tuple(address_of(word, version) for word in words[4:])
    if any(it.is_multicast for it in found):
        raise ValueError("a sender is a multicast group")
    return Filter(destination, version, found)


def address_of(text: str, version: Optional[int]) -> IPAddress:
    """An address of this version of IP. Raises ValueError."""
    try:
        address = ipaddress.ip_address(text)
    except ValueError:
        raise ValueError(f"{text!r} is no address; names are not looked up") from None
    if "%" in text or version not in (None, address.version):
        raise ValueError(f"{text!r} is no address of IPv{version}")
    return address


def number(text: str, least: int, most: int) -> int:
    """A number within bounds. Raises ValueError."""
    if not re.fullmatch(r"\d{1,15}", text, re.ASCII) or not least <= int(text) <= most:
        raise ValueError(f"{text!r} is not a number from {least} to {most}")
    return int(text)


def once(before: Optional[int], name: str, value: int) -> int:
    """The value of what may come once. Raises ValueError if it came before."""
    if before is not None:
        raise ValueError(f"{name} comes a second time")
    return value


def sessions_in(paths: Iterable[str]) -> list[int]:
    """The TSIs of the sessions that these files describe, to receive these alone.

    If one of them has no TSI the list is empty, and all sessions are received. Raises ValueError.
    """
    tsis = {it.tsi for path in paths for it in read(path)}
    return [] if None in tsis else sorted(tsi for tsi in tsis if tsi is not None)
