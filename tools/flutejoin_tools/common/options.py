"""The command line of a tool: its options, their values, and the help."""
from __future__ import annotations

import argparse
import re
import sys
from typing import IO, Callable, NoReturn, Optional

from flutejoin_tools.common.addresses import sender_bytes
from flutejoin_tools.common.log import Log
from flutejoin_tools.common.texts import shown


class CommandLine(argparse.ArgumentParser):
    """The options of a tool and its help.

    If the help cannot be written, that is a fault, as for any other output.
    """

    def __init__(self, tool: str, description: Optional[str], epilog: Optional[str] = None) -> None:
        form = argparse.RawDescriptionHelpFormatter
        super().__init__(
            prog=tool,
            description=description,
            epilog=epilog,
            formatter_class=form,
            allow_abbrev=False,
        )

    def print_help(self, file: Optional[IO[str]] = None) -> None:
        log = Log(self.prog)
        log.tell(file or sys.stdout, *self.format_help().splitlines())
        if log.status:
            self.exit(log.status)

    def error(self, message: str) -> NoReturn:
        super().error(shown(message))


def number_below(end: int) -> Callable[[str], int]:
    """Returns what reads an option's value as a number from 0 to `end` - 1."""

    def number(text: str) -> int:
        if not text.isascii() or not text.isdigit() or len(text) > 39 or not int(text) < end:
            raise argparse.ArgumentTypeError(f"{text!r} is not a number from 0 to {end - 1}")
        return int(text)

    return number


def number_of_bytes(text: str) -> int:
    """An option's value as a number of bytes: 64M is 64 times 2^20."""
    found = re.fullmatch(r"(\d{1,15})([KMGT]?)", text, re.ASCII)
    if not found:
        raise argparse.ArgumentTypeError(f"{text!r} is not a number of bytes, as 64M or 2G")
    return int(found[1]) << 10 * " KMGT".index(found[2] or " ")


def sender_option(text: str) -> bytes:
    """An option's value as a sender's address, in 16 bytes."""
    try:
        return sender_bytes(text)
    except ValueError:
        told = "is no address, nor 32 hexadecimal digits, nor 8"
        raise argparse.ArgumentTypeError(f"{text!r} {told}") from None
