"""The room of a disk that is left free, for what else has to be written there."""
from __future__ import annotations

import argparse
import errno
import os
import re
from typing import NamedTuple

from flutejoin_tools.common.options import number_of_bytes


class Reserve(NamedTuple):
    """So many bytes of a disk, and so many hundredths of it."""

    bytes: int = 0
    percent: int = 0

    def of(self, disk: os.statvfs_result) -> int:
        """How many bytes of a disk that is."""
        return self.bytes + disk.f_blocks * disk.f_frsize * self.percent // 100

    def keep(self, folder: str, size: int) -> None:
        """Raises OSError, as a full disk does, if less would be free with so many bytes more."""
        if not self.bytes and not self.percent:
            return
        disk = os.statvfs(folder)
        if disk.f_bavail * disk.f_frsize < size + self.of(disk):
            raise OSError(errno.ENOSPC, f"{self} of the disk are left free (--keep-free)")

    def __str__(self) -> str:
        return f"{self.percent} %" if self.percent else f"{self.bytes} bytes"


NOTHING = Reserve()


def reserve(text: str) -> Reserve:
    """A part of a disk, as `5%`, or a number of bytes, as `2G`. Raises ArgumentTypeError."""
    percent = re.fullmatch(r"(\d{1,2}) ?%", text, re.ASCII)
    if percent:
        return Reserve(percent=int(percent[1]))
    try:
        return Reserve(bytes=number_of_bytes(text))
    except argparse.ArgumentTypeError:
        told = f"{text!r} is no part of a disk, as 5%, and no number of bytes, as 2G"
        raise argparse.ArgumentTypeError(told) from None
