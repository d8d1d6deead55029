"""Which URLs may be asked, and at which addresses of the network.

An FDT Instance is text of whoever sent it, and so is what a server says of another place. So a URL
is asked only if it is below one that the operator names, and only at a public address, unless the
operator names that too. What is compared is the address that is connected to, whatever its name.
"""
from __future__ import annotations

import ipaddress
import re
import socket
import threading
import urllib.parse
from typing import Any, List, NamedTuple, Optional, Sequence, Tuple, Union

from flutejoin_tools.common.addresses import IPAddress

MOST_URL = 2048  # characters
PORTS = {"http": 80, "https": 443}
PARTS = re.compile(r"(https?)://([^/?#]*)([^?#]*)((?:\?[^#]*)?)(?:#.*)?", re.IGNORECASE)
NUMERIC = r"\[[0-9a-f:.]+\]"  # an address of IPv6
AUTHORITY = re.compile(rf"({NUMERIC}|[a-z0-9](?:[a-z0-9._-]*))(?::([0-9]{{1,5}}))?", re.IGNORECASE)
REFERENCE = "%/?#[]@!$&'()*+,;=:-._~"  # what a URL has beside letters and digits (RFC 3986)
SLASHES = re.compile(r"[/\\]")
NAT64 = ipaddress.ip_network("64:ff9b::/96")  # RFC 6052
COMPATIBLE = ipaddress.ip_network("::/96")  # RFC 4291, section 2.5.5.1
# Networks that are not for the public, which versions of Python differ about: of protocols, of 6to4
# relays (RFC 7526), of translation within a site (RFC 8215), and for documents (RFC 9637)
NOT_PUBLIC = [
    *map(ipaddress.ip_network, ("192.0.0.0/24", "192.88.99.0/24")),
    *map(ipaddress.ip_network, ("64:ff9b:1::/48", "3fff::/20")),
]
ISATAP = 0x00005EFE, 0x02005EFE  # before an address of IPv4 in one of IPv6 (RFC 5214)

Network = Union[ipaddress.IPv4Network, ipaddress.IPv6Network]
# The family of a socket, and what it connects to
Place = Tuple[int, Any]


class Refused(Exception):
    """Why a URL is not asked."""


# A scheme, a host and a port
Server = Tuple[str, str, int]


class Url(NamedTuple):
    """A URL of HTTP without a fragment. Its host is lower-case, and has no brackets."""

    scheme: str
    host: str
    port: int
    path: str
    query: str  # with its `?`; empty if there is none

    def server(self) -> Server:
        return self.scheme, self.host, self.port

    def target(self) -> str:
        """What a request asks for (RFC 9112, section 3.2.1)."""
        return self.path + self.query

    def authority(self) -> str:
        """The host and the port, as the field Host has them."""
        host = f"[{self.host}]" if ":" in self.host else self.host
        return host if self.port == PORTS[self.scheme] else f"{host}:{self.port}"

    def __str__(self) -> str:
        return f"{self.scheme}://{self.authority()}{self.target()}"


def url_of(text: str) -> Url:
    """The parts of an absolute URL. Raises Refused if it is none, or if it may mislead.

    Refused are other schemes than http and https, names and passwords of users, control characters
    and spaces, backslashes, and steps to a folder above, also where they are percent-encoded.
    """
    check_text(text)
    found = PARTS.fullmatch(text)
    if not found:
        raise Refused("is no URL of http or https")
    scheme, authority, path, query = (part or "" for part in found.groups())
    if "@" in authority:
        raise Refused("has a name of a user")
    named = AUTHORITY.fullmatch(authority)
    port = int(named[2] or PORTS[scheme.lower()]) if named else 0
    if not named or not 0 < port < 1 << 16:
        raise Refused("has no host, or a port that is none")
    if any(has_dots(part) for part in path.split("/")):
        raise Refused("leads to a folder above")
    host = named[1].strip("[]").lower().rstrip(".")
    return Url(scheme.lower(), host, port, encoded(path) or "/", encoded(query))


def check_text(text: str) -> None:
    """Raises Refused if a text is too long, or has characters that programs read differently."""
    if len(text) > MOST_URL:
        raise Refused(f"has more than {MOST_URL} characters")
    if any(char.isspace() or not char.isprintable() or char == "\\" for char in text):
        raise Refused("has a space, a control character or a backslash")


def encoded(text: str) -> str:
    """A text with the UTF-8 of each character that no URL has percent-encoded (RFC 3987)."""
    return urllib.parse.quote(text, safe=REFERENCE, errors="replace")


def has_dots(part: str) -> bool:
    """Whether a part of a path leads elsewhere, also for a server that decodes it first, or takes
    what follows a semicolon for parameters."""
    steps = SLASHES.split(urllib.parse.unquote(part, errors="replace"))
    return any(step.partition(";")[0] in (".", "..") for step in steps)


def joined(base: str, reference: str) -> str:
    """A reference as a URL (RFC 3986, section 5.2). Raises Refused if it is none."""
    check_text(reference)
    try:
        return urllib.parse.urljoin(base, reference)
    except ValueError:
        raise Refused("is no reference to a URL") from None


def is_public(address: IPAddress) -> bool:
    """Whether an address is one of the public network, and contains no other that is not."""
    if isinstance(address, ipaddress.IPv6Address):
        if address.ipv4_mapped or address in COMPATIBLE or address.is_site_local:
            return False
        if address in NAT64:
            return is_public(ipaddress.IPv4Address(int(address) & 0xFFFFFFFF))
        inner = address.sixtofour or (address.teredo or [None])[-1]
        if int(address) >> 32 & 0xFFFFFFFF in ISATAP:
            inner = inner or ipaddress.IPv4Address(int(address) & 0xFFFFFFFF)
        if inner and not is_public(inner):
            return False
    if any(address.version == it.version and address in it for it in NOT_PUBLIC):
        return False
    is_local = address.is_loopback or address.is_link_local or address.is_private
    is_other = address.is_multicast or address.is_unspecified or address.is_reserved
    return address.is_global and not is_local and not is_other


def network_of(text: str) -> Network:
    """A network or a single address. Raises ValueError."""
    return ipaddress.ip_network(text, strict=False)


class Origins:
    """What the operator allows: URLs below these, at public addresses or in these networks."""

    def __init__(self, bases: Sequence[Url], networks: Sequence[Network] = ()) -> None:
        """A base whose host is an address allows that address too."""
        own = [address for base in bases for address in numeric(base.host)]
        self.bases, self.networks = [*bases], [*networks, *map(ipaddress.ip_network, own)]

    def check(self, url: Url) -> None:
        """Raises Refused unless a URL is below a base."""
        if not any(is_below(url, base) for base in self.bases):
            raise Refused("is below no --base")

    def may_connect(self, address: IPAddress) -> bool:
        return is_public(address) or any(
            address.version == network.version and address in network for network in self.networks
        )

    def places(self, url: Url, seconds: float) -> list[Place]:
        """Where the host of a URL can be connected to. Raises Refused if nowhere."""
        found = resolve(url.host, url.port, seconds)
        right = [place for place in found if self.may_connect(address_of(place))]
        if not right:
            told = ", ".join(sorted({str(address_of(place)) for place in found})[:4])
            raise Refused(f"is at {told}, which is not public; --allow names it")
        return right


def is_below(url: Url, base: Url) -> bool:
    folder = base.path if base.path.endswith("/") else f"{base.path}/"
    is_there = url.path == base.path or url.path.startswith(folder)
    return url[:3] == base[:3] and is_there


def numeric(host: str) -> list[IPAddress]:
    """The address that a host is, or nothing if it is a name."""
    try:
        return [ipaddress.ip_address(host)]
    except ValueError:
        return []


def address_of(place: Place) -> IPAddress:
    """The address in what a look-up of a name returns."""
    return ipaddress.ip_address(place[1][0].partition("%")[0])


def resolve(host: str, port: int, seconds: float) -> list[Place]:
    """Asks the system for the addresses of a host, once. Raises Refused.

    A thread asks, since the system may take longer than there is time.
    """
    found: List[List[Place]] = []
    faults: List[str] = []

    def ask() -> None:
        try:
            every = socket.getaddrinfo(host, port, 0, socket.SOCK_STREAM, socket.IPPROTO_TCP)
            found.append([(each[0], each[4]) for each in every])
        except (OSError, UnicodeError) as fault:
            faults.append(getattr(fault, "strerror", None) or "is no name")

    thread = threading.Thread(target=ask, daemon=True)
    thread.start()
    thread.join(seconds)
    if not found:
        raise Refused(f"{host}: {faults[0] if faults else 'no address in time'}")
    return found[0]


def first_refusal(texts: Sequence[str], origins: Origins) -> Tuple[List[Url], Optional[str]]:
    """The URLs that may be asked, each once, and why the first of the others may not."""
    urls: List[Url] = []
    refusal = None
    for text in texts:
        try:
            url = url_of(text)
            origins.check(url)
        except Refused as fault:
            refusal = refusal or f"{text[:MOST_URL]} {fault}"
        else:
            urls += [url] if url not in urls else []
    return urls, refusal
