"""Folders of a station: the name of each file has a sender's stem and a number of its own."""
from __future__ import annotations

import datetime
import errno
import fcntl
import os
import re
import shutil
import time
from typing import BinaryIO, Iterator, Optional

from flutejoin_tools.common.faults import Fault
from flutejoin_tools.common.file_names import PARTIAL

# The stem of a file's name, its number, which is a time, and its ending
NAME = re.compile(r"(.+)\.(\d{20})(\.[a-z]+)")
LOCKED = 2  # seconds that a folder may be locked before another run is said to work in it


def take_lock(folder: str) -> int:
    """Locks a folder against other runs until this one ends, even if it is killed.

    A child that a killed run began has the lock until it runs its program, so it is waited for.
    """
    end = time.monotonic() + LOCKED
    try:
        os.makedirs(folder, exist_ok=True)
        lock = os.open(folder, os.O_RDONLY | os.O_DIRECTORY)
        while not has_locked(lock):
            if time.monotonic() >= end:
                raise Fault(3, f"cannot use the folder {folder}: another run works in it")
            time.sleep(0.05)
    except OSError as fault:
        raise Fault(3, f"cannot use the folder {folder}: {fault.strerror}") from None
    return lock


def has_locked(folder: int) -> bool:
    try:
        fcntl.flock(folder, fcntl.LOCK_EX | fcntl.LOCK_NB)
        return True
    except BlockingIOError:
        return False


def size_of(path: str) -> int:
    """The length of a file in bytes; 0 if there is none."""
    try:
        return os.stat(path).st_size
    except FileNotFoundError:
        return 0


def changed_at(folder: str) -> int:
    """When a name in a folder changed last; 0 if there is no such folder."""
    try:
        return os.stat(folder).st_mtime_ns
    except OSError:
        return 0


def entries_of(path: str) -> Optional[int]:
    """The number of entries of a journal, from its last bytes; None if it has no such end."""
    try:
        with open(path, "rb") as file:
            file.seek(-9, os.SEEK_END)
            end = file.read(9)
    except OSError:
        return None
    return int.from_bytes(end[1:], "big") if end[:1] == b"\xff" else None


def remove(path: str) -> None:
    """Removes a file; it may be gone already."""
    try:
        os.unlink(path)
    except FileNotFoundError:
        pass


def begin_file(path: str) -> BinaryIO:
    """Makes a file anew: one of this name, that a killed run left, may have another name too."""
    remove(path)
    return open(path, "xb")


def bring_to_disk(path: str) -> None:
    """Syncs a file or a folder, and then its name."""
    for name in path, os.path.dirname(path):
        descriptor = os.open(name, os.O_RDONLY)
        try:
            os.fsync(descriptor)
        finally:
            os.close(descriptor)


def move(path: str, to: str) -> None:
    """Moves a file, also to another disk; there it appears whole."""
    try:
        os.rename(path, to)
        return
    except OSError as fault:
        if fault.errno != errno.EXDEV:
            raise
    try:
        shutil.copyfile(path, to + PARTIAL)
        bring_to_disk(to + PARTIAL)
        os.rename(to + PARTIAL, to)
    except BaseException:
        remove(to + PARTIAL)
        raise
    remove(path)


def copy(path: str, to: str) -> None:
    """Gives a file a second name, or copies it where the file system has none, to the disk."""
    try:
        os.link(path, to)
    except OSError:
        try:
            shutil.copyfile(path, to + PARTIAL)
            os.rename(to + PARTIAL, to)
        except BaseException:
            remove(to + PARTIAL)
            raise
    bring_to_disk(to)


class Shelf:
    """A folder of such files. Their numbers are times, so that no number is used twice."""

    def __init__(self, path: str) -> None:
        self.path = path

    def next(self, stem: str, end: str) -> str:
        """A path that no file has yet.

        Its number is the greatest, even if the clock was set back.
        """
        now = int(f"{datetime.datetime.now(datetime.timezone.utc):%Y%m%d%H%M%S%f}")
        last = max((int(name[2]) for name in self.names()), default=0)
        number = max(now, last + 1)
        while True:
            path = os.path.join(self.path, f"{stem}.{number:020}{end}")
            if not os.path.lexists(path):
                return path
            number += 1

    def take(self, path: str, stem: str) -> str:
        """Moves a file here, and returns its new path, once it is on the disk there."""
        os.makedirs(self.path, exist_ok=True)
        kept = self.next(stem, os.path.splitext(path)[1])
        move(path, kept)
        bring_to_disk(kept)
        return kept

    def names(self) -> list[re.Match[str]]:
        """The names of the files, the oldest first."""
        try:
            found = [NAME.fullmatch(name) for name in os.listdir(self.path)]
        except FileNotFoundError:
            return []
        return sorted((it for it in found if it), key=lambda it: (it[2], it[1]))

    def files(self, stem: str | None = None) -> Iterator[str]:
        """The paths of the files, or of those with a stem, the oldest first."""
        for match in self.names():
            if stem in (None, match[1]):
                yield os.path.join(self.path, match[0])

    def size(self) -> int:
        return sum(map(size_of, self.files()))

    def clear_partial(self) -> None:
        """Removes partial files that killed runs left."""
        if os.path.isdir(self.path):
            for name in os.listdir(self.path):
                if name.endswith(PARTIAL):
                    remove(os.path.join(self.path, name))

    def trim(self, most: int) -> int:
        """Removes the oldest files until the others have at most `most` bytes.

        Returns their number.
        """
        size, removed = self.size(), 0
        for path in self.files():
            if size <= most:
                break
            size -= size_of(path)
            remove(path)
            removed += 1
        return removed
