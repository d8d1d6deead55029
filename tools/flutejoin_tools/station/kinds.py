"""Reads values of a station's options. Each function raises ArgumentTypeError."""
from __future__ import annotations

import argparse
import datetime
import ipaddress

from flutejoin_tools.common.addresses import IPAddress
from flutejoin_tools.common.disk import MOST_BYTES
from flutejoin_tools.common.options import number_of_bytes


def window(text: str) -> int:
    size = number_of_bytes(text)
    if not 1 <= size <= MOST_BYTES:
        raise argparse.ArgumentTypeError(f"{text!r} is not from 1 to {MOST_BYTES} bytes")
    return size


def time_of_day(text: str) -> datetime.time:
    try:
        return datetime.datetime.strptime(text, "%H:%M").time()
    except ValueError:
        raise argparse.ArgumentTypeError(f"{text!r} is no time of a day, as 03:30") from None


def session(text: str) -> int:
    if not text.isascii() or not text.isdigit() or int(text) >= 1 << 48:
        raise argparse.ArgumentTypeError(f"{text!r} is no TSI")
    return int(text)


def same_senders(text: str) -> list[tuple[IPAddress, IPAddress]]:
    """Each of several senders, and the first of them."""
    try:
        first, *others = map(ipaddress.ip_address, text.split(","))
    except ValueError as fault:
        raise argparse.ArgumentTypeError(str(fault)) from None
    if not others:
        raise argparse.ArgumentTypeError(f"{text!r} is not several addresses with commas between")
    return [(other, first) for other in others]
