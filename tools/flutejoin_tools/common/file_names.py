"""Makes and reads the names of files: a sender's address, an epoch and a number, and an ending."""
from __future__ import annotations

import ipaddress
import re
from typing import NamedTuple, Optional

from flutejoin_tools.common.addresses import IPAddress

PARTIAL = ".partial"
STANDARD_OUTPUT = "-"  # as the name of an output
# The name of a sender's file: its address, in which a link may be named, its epoch and its number
NAME = re.compile(
    r"(\d+(?:\.\d+){3}|[\da-f-]+(?:%\w+)?)(?:\.e(\d{1,9}))?(?:\.(\d{1,9}))?\.fldg", re.ASCII
)

# The name of another file of a sender: of an epoch (`file_name`), a generation and a time
KEPT = re.compile(r"(.+?)(?:\.e\d+)?(?:\.[gv]\d+)?(?:\.\d{20})?\.[a-z]+", re.ASCII)


def stem(text: str, epoch: int = 1) -> str:
    """The prefix of the names of a sender's files: the address without colons, and the epoch.

    Some systems and tools do not accept colons in names.
    """
    return text.replace(":", "-") + (f".e{epoch}" if epoch > 1 else "")


def file_name(text: str, part: int, epoch: int = 1) -> str:
    """The name of a sender's datagram file: 10.0.0.1.fldg, 10.0.0.1.2.fldg.

    Earlier versions wrote files of a further run of a sender, an epoch, as 10.0.0.1.e2.fldg.
    """
    return stem(text, epoch) + (f".{part}" if part > 1 else "") + ".fldg"


class Name(NamedTuple):
    """The address, the epoch and the number in the name of a sender's file."""

    address: IPAddress
    epoch: int
    part: int


def name_of(name: str) -> Optional[Name]:
    """The parts of a file's name, or None if it is not the name of a sender's file."""
    found = NAME.fullmatch(name)
    if not found:
        return None
    epoch, part = int(found[2] or 1), int(found[3] or 1)
    try:
        address = ipaddress.ip_address(found[1].replace("-", ":"))
    except ValueError:
        return None
    is_usual = file_name(str(address), part, epoch) == name
    return Name(address, epoch, part) if is_usual else None


def address_in(name: str) -> Optional[IPAddress]:
    """The sender of a file of whatever kind, as 10.0.0.1.g2.journal, by its name, or None."""
    of = None if name_of(name) else KEPT.fullmatch(name)
    found = name_of(f"{of[1]}.fldg" if of else name)
    return found.address if found else None
