"""Datagram files (docs/FORMATS.md), for the examples and the tests, with nothing of the tools.

After a header there is a record for each datagram: its length in two bytes, and its bytes.
"""
from __future__ import annotations

import struct
from typing import Iterable, Iterator

HEADER = b"FLDG\0\1"
LENGTH = struct.Struct(">H")


def record(datagram: bytes) -> bytes:
    return LENGTH.pack(len(datagram)) + datagram


def records(data: bytes) -> Iterator[bytes]:
    """The records in the bytes of a datagram file. One that is cut off at the end is left out."""
    place = len(HEADER)
    while place + LENGTH.size <= len(data):
        end = place + LENGTH.size + LENGTH.unpack_from(data, place)[0]
        if end > len(data):
            break
        yield data[place:end]
        place = end


def content(datagrams: Iterable[bytes]) -> bytes:
    """The bytes of a datagram file."""
    return HEADER + b"".join(map(record, datagrams))


def read(path: str) -> Iterator[bytes]:
    """The datagrams of a file."""
    with open(path, "rb") as file:
        data = file.read()
    for each in records(data):
        yield each[LENGTH.size :]


def write(path: str, datagrams: Iterable[bytes]) -> None:
    with open(path, "wb") as file:
        file.write(content(datagrams))
