"""Tells where a session is received, by tables of the system, and what to look at in silence."""
from __future__ import annotations

import contextlib
import os
import socket
import struct
import sys
from typing import Iterator, Optional

from flutejoin_tools.common.addresses import IPAddress

AFTER = 60  # seconds without a datagram, until that is told
NETWORK = "/sys/class/net"
FILTER = "/proc/sys/net/ipv4/conf/{}/rp_filter"
STRICT = 1  # of rp_filter: only senders that are reached by the interface


def read(path: str) -> str:
    """What is in a small file of the system; empty if it can't be read."""
    with contextlib.suppress(OSError, ValueError), open(path, encoding="ascii") as file:
        return file.read().strip()
    return ""


def state_of(name: str) -> str:
    """The state of an interface, as `up` or `down`; empty if the system does not tell."""
    state = read(os.path.join(NETWORK, name, "operstate"))
    if state != "unknown":
        return state
    flags = read(os.path.join(NETWORK, name, "flags"))
    return "up" if flags and int(flags, 16) & 1 else "down"


def joined_on(group: IPAddress) -> list[str]:
    """The interfaces on which some program here joined a group."""
    return sorted(set(of_ip4(group) if group.version == 4 else of_ip6(group)))


def of_ip4(group: IPAddress) -> Iterator[str]:
    """Yields the interfaces on which an IPv4 group is joined."""
    wanted, name = struct.unpack("=I", group.packed)[0], ""
    for line in read("/proc/net/igmp").splitlines()[1:]:
        words = line.split()
        if not line.startswith("\t") and len(words) > 1:
            name = words[1].rstrip(":")
        elif words and words[0] == f"{wanted:08X}":
            yield name


def of_ip6(group: IPAddress) -> Iterator[str]:
    """Yields the interfaces on which an IPv6 group is joined."""
    for line in read("/proc/net/igmp6").splitlines():
        words = line.split()
        if len(words) > 2 and words[2] == group.packed.hex():
            yield words[1]


def interface_of(text: Optional[str], group: Optional[IPAddress]) -> Optional[str]:
    """The name of the interface that receives, if it is known: `text` may be an address of it."""
    with contextlib.suppress(OSError):
        if text and socket.if_nametoindex(text):
            return text
    found = joined_on(group) if group else []
    return found[0] if len(found) == 1 else None


def on(text: Optional[str], group: Optional[IPAddress]) -> str:
    """On which interface a session is received, and its state, for a line."""
    name = interface_of(text, group)
    if name is None:
        return f" on {text}" if text else ""
    state = state_of(name)
    return f" on {name} ({state})" if state else f" on {name}"


def advice(text: Optional[str], group: Optional[IPAddress], port: int) -> str:
    """What to look at if no datagram came."""
    name = interface_of(text, group)
    capture = f"tcpdump -ni {name or 'any'} {f'host {group}' if group else f'udp port {port}'}"
    told = []
    if name and state_of(name) == "down":
        told.append(f"{name} is down")
    if group and sys.platform == "linux" and not joined_on(group):
        told.append(f"{group} is joined on no interface")
    told.append(f"see whether anything arrives, by `{capture}`")
    if group:
        kind = "IGMP" if group.version == 4 else "MLD"
        told.append(f"if not, look at the group, the sender's TTL, {kind} (a querier, snooping)")
    told.append(f"if it does, look at the port, the firewall (`nft list ruleset`){strict(name)}")
    return "; ".join(told)


def strict(name: Optional[str]) -> str:
    """The setting by which the system leaves out senders that it reaches by other interfaces."""
    names = ["all", *([name] if name else sorted_interfaces())]
    found = [it for it in names if read(FILTER.format(it)) == str(STRICT)]
    if not found:
        return " and --from"
    told = f"net.ipv4.conf.{found[-1]}.rp_filter"
    return f", --from, and {told}, which is 1: `sysctl -w {told}=2` takes senders of other routes"


def sorted_interfaces() -> list[str]:
    with contextlib.suppress(OSError):
        return sorted(os.listdir(NETWORK))
    return []
