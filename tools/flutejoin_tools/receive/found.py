"""Reads datagram files that earlier runs left in a folder: whose they are, and where they end."""
from __future__ import annotations

import collections
import contextlib
import io
import ipaddress
import os
import re
import socket
import stat
import sys
from typing import Iterable, NamedTuple, Optional, Tuple, Union

from flutejoin_tools.common.addresses import IPAddress
from flutejoin_tools.common.faults import Fault
from flutejoin_tools.common.file_names import Name, file_name
from flutejoin_tools.fdt.hints import Hint
from flutejoin_tools.fdt.instances import may_be_of_instance
from flutejoin_tools.formats.records import HEADER, LENGTH, PIECE, Looked, ends, last_whole
from flutejoin_tools.receive.voice import note

MOST_LOOKED = 64  # pieces at a file's end that are searched for FDT Instances
MOST_RECORDS = 1 << 17  # records that are searched for them
# A pipe must not be waited for, and no link is followed: another user may have put it there.
FLAGS = os.O_NONBLOCK | os.O_NOFOLLOW | os.O_CLOEXEC


def address_of(peer: Union[str, bytes]) -> IPAddress:
    """The address of a socket's peer, given as text or as the bytes of `Batch`.

    An IPv4 address may come in IPv6 form. An IPv6 address of one link alone may be another sender's
    on another link, so the result names the link, which those bytes have.
    """
    if isinstance(peer, str):
        address, link = ipaddress.ip_address(peer.partition("%")[0]), 0
    else:
        address = ipaddress.ip_address(peer[:16])
        link = int.from_bytes(peer[16:], sys.byteorder)
    address = getattr(address, "ipv4_mapped", None) or address
    return on_link(address, link) if link and address.is_link_local else address


def on_link(address: IPAddress, number: int) -> IPAddress:
    """The address with the name of a link, in characters that a file's name may have."""
    try:
        name = socket.if_indextoname(number)
    except OSError:  # it is gone by now
        name = str(number)
    zone = re.sub(r"\W", "_", name, flags=re.ASCII)
    try:
        return ipaddress.ip_address(f"{address}%{zone}")
    except ValueError:  # before Python 3.9
        return address


class Found(NamedTuple):
    """The newest file of a sender: where it ends, and what is known of its FDT Instances."""

    name: Name
    identity: Tuple[int, int]  # device and inode number
    size: Optional[int]  # None if it is left as it is, and another file is begun
    records: int
    hint: Hint


def look_at(folder: str, name: Name, most: Optional[int] = None) -> Found:
    """Reads a file, and removes a record that is cut at its end.

    A file of more than `most` bytes is not read, and another is begun. Raises Fault if the file
    can't be read or is no datagram file.
    """
    path = os.path.join(folder, file_name(str(name.address), name.part))
    looked: Looked = collections.deque(maxlen=MOST_LOOKED)
    try:
        with open(os.open(path, os.O_RDWR | FLAGS), "r+b", 0) as file:
            found = os.fstat(file.fileno())
            identity = found.st_dev, found.st_ino
            if most is not None and found.st_size > most:
                return Found(name, identity, None, 0, Hint())
            size, records = last_of(file, path, found, looked)
            hint = hint_of(file, size, looked)
            kept = size if mended(file, path, size, found.st_size) else None
            return Found(name, identity, kept, records, hint)
    except OSError as error:
        if os.path.islink(path):
            raise Fault(1, f"{path}: is a link, and is left as it is") from None
        raise Fault(3, f"cannot open {path}: {error.strerror}") from None


def last_of(file: io.FileIO, path: str, found: os.stat_result, looked: Looked) -> tuple[int, int]:
    """Where the last whole record of a file ends, and how many records there are.

    Raises Fault if it is no datagram file.
    """
    if not stat.S_ISREG(found.st_mode):
        raise Fault(1, f"{path}: is no regular file, and is left as it is")
    head = file.read(len(HEADER))
    if head != HEADER[: len(head)]:
        raise Fault(1, f"{path}: is no datagram file of version 1, and is left as it is")
    return last_whole(file, found.st_size, len(HEADER), looked) if head == HEADER else (0, 0)


def mended(file: io.FileIO, path: str, end: int, size: int) -> bool:
    """Removes a cut record at a file's end, keeping it in a file beside it; False if that fails.

    If a length in the file is wrong, this may be more than one record. So nothing is removed that
    can't be kept.
    """
    if end == size:
        return True
    file.seek(end)
    cut = file.read(size - end)
    try:
        beside = keep_beside(path, cut)
        file.truncate(end)
    except OSError as error:
        told = f"its last {len(cut)} bytes, of a record that was cut, cannot be kept elsewhere"
        note(f"{path}: {told}: {error.strerror}; another file is begun")
        return False
    told = f"a record was cut at its end; these {len(cut)} bytes are taken away"
    note(f"{path}: {told}, and kept in {beside}")
    return True


def keep_beside(path: str, cut: bytes) -> str:
    """Writes the bytes that are cut off a file to a new one beside it, and returns its name."""
    number = 1
    while True:
        beside = f"{path}.cut" + (f".{number}" if number > 1 else "")
        try:
            with open(beside, "xb") as file:
                file.write(cut)
            return beside
        except FileExistsError:
            number += 1
        except OSError:
            with contextlib.suppress(OSError):
                os.unlink(beside)
            raise


def hint_of(file: io.FileIO, size: int, looked: Looked) -> Hint:
    """What a file contains, near its end, of FDT Instances."""
    hint, records = Hint(), sum(count for _, count in looked)
    while records > MOST_RECORDS:
        records -= looked.popleft()[1]
    for place, _ in looked:
        file.seek(place)
        for datagram in datagrams_of_instances(file.read(min(PIECE, size - place))):
            hint.look(datagram)
    return hint


def datagrams_of_instances(piece: bytes) -> Iterable[bytes]:
    """The datagrams in a piece of a file that may be of an FDT Instance."""
    begin = 0
    for end in ends(piece):
        datagram = piece[begin + LENGTH.size : end]
        if end <= len(piece) and may_be_of_instance(datagram):
            yield datagram
        begin = end
