"""Turns addresses of senders from text into the bytes that journals have, and back."""
from __future__ import annotations

import ipaddress
import socket
import string
from typing import Union

IPAddress = Union[ipaddress.IPv4Address, ipaddress.IPv6Address]


def sender_bytes(text: str) -> bytes:
    """A sender's address as 16 bytes, from the usual text or from 8 or 32 digits.

    Raises ValueError.
    """
    is_digits = len(text) in (8, 32) and set(text) <= set(string.hexdigits)
    if "%" in text:
        raise ValueError("an address with a zone")
    packed = bytes.fromhex(text) if is_digits else ipaddress.ip_address(text).packed
    return packed if len(packed) == 16 else bytes(10) + b"\xff\xff" + packed


def address_text(sender: bytes) -> str:
    """A sender's address, of 4 or 16 bytes, as people write it."""
    return socket.inet_ntop(socket.AF_INET if len(sender) == 4 else socket.AF_INET6, sender)
