"""Prints what a tool says: lines on standard output, faults on standard error."""
from __future__ import annotations

import os
import sys
from typing import IO, Optional

from flutejoin_tools.common.file_names import STANDARD_OUTPUT
from flutejoin_tools.common.texts import shown

ERROR, WARNING, INFORMATION = 3, 4, 6  # priorities of lines (RFC 5424, section 6.2.1)


class Log:
    """Says the lines of a tool on standard output, and its warnings and faults on standard error.

    `status` is the greatest status of the faults.
    """

    def __init__(self, tool: str, out: Optional[str] = None) -> None:
        """If `out` is standard output, the lines go to standard error."""
        self.tool, self.is_mute = tool, False
        self.status: int = 0
        self.has_lines_aside = out == STANDARD_OUTPUT

    def say(self, text: str) -> None:
        """Says a line of the tool's output."""
        self.tell(sys.stderr if self.has_lines_aside else sys.stdout, text)

    def warn(self, text: str, priority: int = INFORMATION) -> None:
        """Says this on standard error; the priority counts in the journal of a service."""
        if sys.stderr is not None:
            self.tell(sys.stderr, f"{self.tool}: {text}")

    def fault(self, status: int, text: str) -> None:
        """Says a fault, with which the tool is to end unless a later one has a greater status."""
        self.status = max(self.status, status)
        self.warn(text, WARNING if status < 2 else ERROR)

    def tell(self, stream: IO[str], *lines: str) -> None:
        """Writes lines. If the stream is closed or cannot be written, the work continues."""
        try:
            write_lines(stream, *lines)
        except (OSError, AttributeError):
            if stream is sys.stdout and not self.is_mute:
                self.is_mute = True
                self.fault(3, "cannot write")


def write_lines(stream: IO[str], *lines: str) -> None:
    """Writes lines, each made safe to print."""
    text = os.fsencode("".join(f"{shown(line)}\n" for line in lines))
    while text:
        text = text[os.write(stream.fileno(), text) :]
