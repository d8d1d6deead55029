"""Sockets that receive a group, one sender in a group, or what is sent to this machine."""
from __future__ import annotations

import collections
import errno
import ipaddress
import os
import socket
import struct
import sys
from typing import Callable, Iterable, NamedTuple, Optional, Union

from flutejoin_tools.common.addresses import IPAddress
from flutejoin_tools.common.faults import Fault
from flutejoin_tools.receive.floods import LEFT_OUT
from flutejoin_tools.receive.settings import SessionOptions
from flutejoin_tools.receive.voice import note

# Linux's numbers for options that Python's socket module does not name.
SO_RCVBUFFORCE, SO_MEMINFO, SO_BINDTODEVICE = 33, 55, 25
IP_MULTICAST_ALL, IPV6_MULTICAST_ALL = 49, 29
IP_ADD_SOURCE_MEMBERSHIP, MCAST_JOIN_SOURCE_GROUP = 39, 46
LINUX = sys.platform == "linux"
# The errors of joining a group that is joined already, without a sender and with one.
JOINED = errno.EADDRINUSE, errno.EADDRNOTAVAIL


class Interface:
    """Where to receive: the name of an interface, or one of its addresses.

    Without either the system chooses.
    """

    def __init__(self, text: Optional[str]) -> None:
        self.text, self.index = text, 0
        self.name: Optional[str] = None
        self.address: Optional[IPAddress] = None
        if text is None:
            return
        try:
            self.address = ipaddress.ip_address(text)
        except ValueError:
            try:
                self.name, self.index = text, socket.if_nametoindex(text)
            except OSError:
                raise Fault(3, f"there is no interface {text}")
        if self.address and self.address.version == 6:
            self.index = index_of(self.address)


def index_of(address: IPAddress) -> int:
    """The number of the interface with this IPv6 address.

    The system's calls for IPv6 groups take only this number.
    """
    try:
        with open("/proc/net/if_inet6", encoding="ascii") as table:
            for line in table:
                fields = line.split()
                if fields[0] == address.packed.hex():
                    return int(fields[1], 16)
    except OSError:
        pass
    raise Fault(3, f"there is no interface with the address {address}")


def set_option(udp: socket.socket, level: int, option: int, value: Union[int, bytes]) -> bool:
    """Sets an option that some systems lack, and returns whether that succeeded."""
    try:
        udp.setsockopt(level, option, value)
        return True
    except OSError:
        return False


def open_socket(options: SessionOptions, interface: Interface) -> socket.socket:
    """Opens a socket that receives what the command line asks for. Raises OSError.

    It receives nothing that only other programs asked for.
    """
    local = options.group or interface.address
    is_ip4 = local and local.version == 4 or not socket.has_ipv6
    family = socket.AF_INET if is_ip4 else socket.AF_INET6
    try:
        udp = socket.socket(family, socket.SOCK_DGRAM)
    except OSError:
        if local:
            raise
        family, udp = socket.AF_INET, socket.socket(socket.AF_INET, socket.SOCK_DGRAM)
    if LINUX:
        # Otherwise groups and senders that other programs joined are received too.
        set_option(udp, socket.IPPROTO_IP, IP_MULTICAST_ALL, 0)
        set_option(udp, socket.IPPROTO_IPV6, IPV6_MULTICAST_ALL, 0)
    if family == socket.AF_INET6:
        udp.setsockopt(socket.IPPROTO_IPV6, socket.IPV6_V6ONLY, 1 if local else 0)
    if options.group:
        # Several runs may receive one group. Of one address only the last run would receive, so the
        # second is refused.
        udp.setsockopt(socket.SOL_SOCKET, socket.SO_REUSEADDR, 1)
    elif interface.name:
        bind_to_interface(udp, interface.name)
    if family == socket.AF_INET:
        udp.bind((str(local or ""), options.port))
    else:
        udp.bind((str(local or "::"), options.port, 0, interface.index if local else 0))
    if options.group:
        join_group(udp, options.group, options.sender, interface)
    udp.setblocking(False)
    return udp


def bind_to_interface(udp: socket.socket, name: str) -> None:
    udp.setsockopt(socket.SOL_SOCKET, SO_BINDTODEVICE, name.encode() + b"\0")


def listen_again(
    udp: socket.socket, options: SessionOptions, interface: Interface, before: Interface
) -> bool:
    """Makes a socket receive again after its interface was removed and made anew.

    Returns whether the system had ceased to receive for it. A group, or a sender in one, that was
    joined on an interface is left when the interface is removed, even if a new one has its name.
    """
    try:
        if options.group:
            join_group(udp, options.group, options.sender, interface)
        elif interface.name and interface.index != before.index:
            bind_to_interface(udp, interface.name)
        else:
            return False
    except OSError as error:
        if error.errno in JOINED:
            return False
        raise
    return True


def join_group(
    udp: socket.socket, group: IPAddress, sender: Optional[IPAddress], interface: Interface
) -> None:
    """Joins a group: of one sender, if one is named and the system can do so, or else of all."""
    if sender and LINUX:
        try:
            join_source(udp, group, sender, interface)
            return
        except OSError as error:
            if error.errno in JOINED:
                raise
    if group.version == 4:
        address = interface.address.packed if interface.address else bytes(4)
        request = group.packed + address
        if LINUX:
            request = struct.pack("=4s4si", group.packed, address, interface.index)
        udp.setsockopt(socket.IPPROTO_IP, socket.IP_ADD_MEMBERSHIP, request)
    else:
        request = group.packed + struct.pack("@I", interface.index)
        udp.setsockopt(socket.IPPROTO_IPV6, socket.IPV6_JOIN_GROUP, request)
    if sender:
        told = f"this system cannot join {group} of {sender} alone"
        note(f"{told}; what others send to it is received and left out")


def join_source(
    udp: socket.socket, group: IPAddress, sender: IPAddress, interface: Interface
) -> None:
    """Joins a group of one sender (RFC 4607)."""
    if interface.address and group.version == 4:
        request = group.packed + interface.address.packed + sender.packed
        udp.setsockopt(socket.IPPROTO_IP, IP_ADD_SOURCE_MEMBERSHIP, request)
        return
    level = socket.IPPROTO_IP if group.version == 4 else socket.IPPROTO_IPV6
    # The number of the interface, and two addresses as the system keeps them, each in 128 bytes.
    addresses = system_address(group), system_address(sender)
    request = struct.pack("@I0L128s128s", interface.index, *addresses)
    udp.setsockopt(level, MCAST_JOIN_SOURCE_GROUP, request)


def system_address(address: IPAddress) -> bytes:
    """An address as the system's calls for groups take it (struct sockaddr)."""
    if address.version == 4:
        return struct.pack("=HH4s", socket.AF_INET, 0, address.packed)
    return struct.pack("=HHI16sI", socket.AF_INET6, 0, 0, address.packed, 0)


def ask_for_buffer(udp: socket.socket, wanted: int) -> int:
    """Asks for a receive buffer, and returns its bytes.

    Reports it if the system gives much less.
    """
    if not LINUX or not set_option(udp, socket.SOL_SOCKET, SO_RCVBUFFORCE, wanted):
        set_option(udp, socket.SOL_SOCKET, socket.SO_RCVBUF, wanted)
    got = udp.getsockopt(socket.SOL_SOCKET, socket.SO_RCVBUF)
    if LINUX:
        got //= 2  # The other half is for the system's own use.
    if got < wanted // 2:
        setting = "net.core.rmem_max" if LINUX else "kern.ipc.maxsockbuf"
        told = f"asked for a receive buffer of {wanted} bytes and got {got}"
        note(f"{told}: `sysctl -w {setting}={wanted}` allows it")
    return got


def dropped_by_system(udp: socket.socket) -> Optional[int]:
    """How many datagrams the system dropped; None if it does not report that.

    SO_RXQ_OVFL comes with the next datagram, and so misses the last drops.
    """
    try:
        counts = udp.getsockopt(socket.SOL_SOCKET, SO_MEMINFO, 36)
        if len(counts) == 36:
            return int(struct.unpack("@9I", counts)[8])
    except OSError:
        pass
    number = str(os.fstat(udp.fileno()).st_ino)
    try:
        name = "udp6" if udp.family == socket.AF_INET6 else "udp"
        with open(f"/proc/net/{name}", encoding="ascii") as table:
            for line in table:
                fields = line.split()
                if fields[9] == number:
                    return int(fields[-1])
    except OSError:
        pass
    return None


class Errors(NamedTuple):
    """Counts of datagrams that the system dropped, for all programs together."""

    full: int  # a full receive buffer, or all buffers together
    checksum: int


def system_errors() -> Optional[Errors]:
    """The system's counts for UDP over IPv4 and IPv6; None if it has none."""
    counts: collections.Counter[str] = collections.Counter()
    try:
        with open("/proc/net/snmp", encoding="ascii") as table:
            lines = [line.split() for line in table if line.startswith("Udp: ")]
        counts.update(dict(zip(lines[0][1:], map(int, lines[1][1:]))))
        with open("/proc/net/snmp6", encoding="ascii") as table:
            for line in table:
                name, _, value = line.partition("\t")
                if name.startswith("Udp6"):
                    counts[name.strip()[4:]] += int(value)
    except (OSError, ValueError, IndexError):
        if "InCsumErrors" not in counts:
            return None
    return Errors(counts["RcvbufErrors"] + counts["MemErrors"], counts["InCsumErrors"])


FULL = "its receive buffer was full"
CHECKSUM = "a checksum did not hold, here or for another program"


class Drops:
    """Counts the datagrams that the system dropped for some sockets, by cause.

    The system counts a full buffer for each socket. It counts a wrong checksum for all programs
    together, and for the socket only if it notices that while a datagram is received.
    """

    def __init__(self, sockets: Iterable[socket.socket], filters: Callable[[], bool]) -> None:
        """`filters` tells whether the system was asked to leave datagrams out."""
        self.sockets, self.before, self.filters = list(sockets), system_errors(), filters

    def by_cause(self) -> dict[str, int]:
        """How many datagrams were dropped, by the causes that the system tells."""
        count = sum(dropped_by_system(udp) or 0 for udp in self.sockets)
        errors = system_errors()
        full = checksum = 0
        if self.before and errors:
            full, checksum = (now - then for now, then in zip(errors, self.before))
        full = min(full, count)
        rest = max(0, count - full - checksum)
        other = LEFT_OUT if self.filters() else f"{FULL}, or a checksum did not hold"
        causes = {FULL: full, CHECKSUM: checksum, other: rest}
        return {cause: number for cause, number in causes.items() if number}
