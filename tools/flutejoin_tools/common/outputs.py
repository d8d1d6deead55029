"""Writes outputs of tools: new files, which are whole or not there, and standard output."""
from __future__ import annotations

import contextlib
import errno
import os
import sys
from typing import BinaryIO, Callable, Optional

from flutejoin_tools.common.file_names import PARTIAL, STANDARD_OUTPUT
from flutejoin_tools.common.signals import later


def write_new(name: str, ending: str, fill: Callable[[BinaryIO], None]) -> None:
    """Makes a file that is not there yet: whole, or not at all.

    Until it is whole its name has this ending. `-` is standard output, which keeps what was written
    before a fault. Raises OSError.
    """
    if name == STANDARD_OUTPUT:
        write_out(fill)
        return
    partial = name + ending
    if os.path.lexists(name):
        raise FileExistsError(errno.EEXIST, "is there already, and is left as it is", name)
    out: Optional[BinaryIO] = None
    try:
        with later():
            out = new_file(partial)
        with out:
            fill(out)
            out.flush()
            os.fsync(out.fileno())
        give_name(partial, name)
        bring_names(os.path.dirname(name) or ".")
    except BaseException:
        if out:
            with contextlib.suppress(FileNotFoundError):
                os.remove(partial)
        raise


def bring_names(folder: str) -> None:
    """Brings the names in a folder to the disk, where its file system can do so."""
    with contextlib.suppress(OSError):
        names = os.open(folder, os.O_RDONLY | os.O_DIRECTORY | os.O_CLOEXEC)
        try:
            os.fsync(names)
        finally:
            os.close(names)


def new_file(partial: str) -> BinaryIO:
    """Makes the file that is filled before it gets its name. Raises FileExistsError."""
    try:
        return open(partial, "xb")
    except FileExistsError:
        told = "is there already: left by a run that was killed, or being written"
        raise FileExistsError(errno.EEXIST, told, partial) from None


def write_out(fill: Callable[[BinaryIO], None]) -> None:
    """Writes to standard output. Raises OSError if that is closed or cannot be written."""
    if sys.stdout is None:
        raise OSError(errno.EBADF, os.strerror(errno.EBADF), "standard output")
    try:
        with open(sys.stdout.fileno(), "wb", closefd=False) as out:
            fill(out)
    except OSError as fault:
        raise OSError(fault.errno, fault.strerror, fault.filename or "standard output") from None


def give_name(partial: str, path: str) -> None:
    """Gives a whole file its name. Raises FileExistsError if there is a file of that name."""
    try:
        os.link(partial, path)
    except FileExistsError:
        raise
    except OSError:  # a file system without hard links
        if os.path.lexists(path):
            raise FileExistsError(errno.EEXIST, "is there already", path) from None
        os.rename(partial, path)
    else:
        os.remove(partial)


def replace_file(path: str, data: bytes, when: Optional[float] = None) -> None:
    """Replaces a file in one step; it was changed last at this time. Raises OSError.

    What a killed run left, or another user put in the place of the partial file, is removed: no
    link is followed.
    """
    partial = path + PARTIAL
    with contextlib.suppress(FileNotFoundError):
        os.unlink(partial)
    flags = os.O_WRONLY | os.O_CREAT | os.O_EXCL | os.O_NOFOLLOW | os.O_CLOEXEC
    with open(os.open(partial, flags, 0o666), "wb") as file:
        file.write(data)
    if when is not None:
        os.utime(partial, (when, when))
    os.replace(partial, path)


def replace_text(path: str, text: str) -> None:
    """Replaces a file of text in one step, as `replace_file`."""
    replace_file(path, text.encode())
