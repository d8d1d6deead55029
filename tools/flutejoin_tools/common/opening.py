"""Opens the inputs of tools."""
from __future__ import annotations

import errno
import os
from typing import BinaryIO

from flutejoin_tools.formats.records import PIECE


def is_same(one: str, other: str) -> bool:
    try:
        return os.path.samefile(one, other)
    except OSError:
        return False


def open_at_once(name: str, flags: int) -> int:
    """Opens a file for `open`, without waiting for the writer of a pipe."""
    return os.open(name, flags | os.O_NONBLOCK)


def opened(name: str) -> BinaryIO:
    """Opens a file that allows seeking. Raises OSError for any other."""
    file = open(name, "rb", buffering=PIECE, opener=open_at_once)
    if not file.seekable():
        file.close()
        raise OSError(errno.ESPIPE, "is no regular file", name)
    return file
