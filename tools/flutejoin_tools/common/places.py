"""A folder whose files appear whole under their names, and the scratch folder beside it."""
from __future__ import annotations

import contextlib
import errno
import fcntl
import hashlib
import ipaddress
import os
import shutil
import stat
import tempfile
from typing import Iterator

from flutejoin_tools.common.file_names import PARTIAL
from flutejoin_tools.common.signals import ENDS, later

PIECE = 1 << 18  # bytes that are read at once
SENDER = "user.flutejoin.sender"  # the extended attribute of a file that has its sender
FOLDER = os.O_RDONLY | os.O_DIRECTORY | os.O_NOFOLLOW | os.O_CLOEXEC
REGULAR = os.O_RDONLY | os.O_NOFOLLOW | os.O_NONBLOCK | os.O_CLOEXEC


def bring_to_disk(folder: int) -> None:
    """Has the system sync the file system of an open folder. Raises OSError."""
    try:
        import ctypes

        if ctypes.CDLL(None, use_errno=True).syncfs(folder):
            raise OSError(ctypes.get_errno(), os.strerror(ctypes.get_errno()))
    except (ImportError, AttributeError, MemoryError):
        os.sync()


def note_sender(file: str | int, sender: bytes) -> None:
    """Notes whose file this is, if the file system keeps extended attributes."""
    address = ipaddress.IPv6Address(sender)
    text = str(address.ipv4_mapped or address).encode()
    with contextlib.suppress(OSError, AttributeError):
        if os.getxattr(file, SENDER) == text:
            return
    with contextlib.suppress(OSError, AttributeError):
        os.setxattr(file, SENDER, text)


class Scratch:
    """A scratch folder: has the files that a run makes on the way, and is locked by one at a time.

    It is beside another folder, with `.partial` added to that one's name, so that files can be
    renamed from one to the other; or in that, if nothing can be made beside it. Files that a killed
    run left there are removed, and nothing else.
    """

    NAMES = (
        *("journal", "fdt", "described", "objects", "decoded"),
        *("resolved.journal", "resolved", "encoded.journal", "encoded"),
    )

    def __init__(self, path: str) -> None:
        self.path = path
        with contextlib.suppress(FileExistsError):
            os.mkdir(path)
        self.folder = os.open(path, FOLDER)
        if os.fstat(self.folder).st_uid != os.geteuid():
            raise PermissionError(errno.EPERM, "is somebody else's", path)
        try:
            fcntl.flock(self.folder, fcntl.LOCK_EX | fcntl.LOCK_NB)
        except BlockingIOError:
            os.close(self.folder)
            raise FileExistsError(errno.EEXIST, "is in use by another run", path) from None
        self.clear()

    def at(self, name: str) -> str:
        """The path of what has this name in the folder."""
        return os.path.join(self.path, name)

    def remove(self, name: str) -> None:
        """Removes a file or a folder of this name, also one that is only begun."""
        for each in name, name + PARTIAL:
            path = self.at(each)
            if os.path.isdir(path) and not os.path.islink(path):
                shutil.rmtree(path)
            else:
                with contextlib.suppress(FileNotFoundError):
                    os.remove(path)

    def clear(self) -> None:
        """Removes what runs make here. Raises FileExistsError if anything else is in the folder."""
        known = {each for name in self.NAMES for each in (name, name + PARTIAL)}
        others = set(os.listdir(self.folder)) - known
        if others:
            told = f"has other files, such as {min(others)}, and is left as it is"
            raise FileExistsError(errno.EEXIST, told, self.path)
        for name in self.NAMES:
            self.remove(name)

    def end(self) -> None:
        """Removes the folder with all that runs made in it."""
        self.clear()
        os.rmdir(self.path)
        os.close(self.folder)


@contextlib.contextmanager
def scratch_folder(prefix: str = "flutejoin-repair-") -> Iterator[Scratch]:
    """A temporary folder of the system's, which is removed also if a signal ends the run."""
    with later():
        scratch = Scratch(tempfile.mkdtemp(prefix=prefix))
        ENDS.append(scratch.end)
    try:
        yield scratch
    finally:
        with later():
            if scratch.end in ENDS:
                ENDS.remove(scratch.end)
                scratch.end()


def scratch_beside(folder: str) -> str:
    """The path of the temporary folder for a folder, on the same file system. Raises OSError."""
    path = os.path.realpath(folder)
    above = os.path.dirname(path)
    if os.path.lexists(path):
        os.scandir(path).close()  # it is a folder
        is_other = os.stat(path).st_dev != os.stat(above).st_dev
        if is_other or not os.access(above, os.W_OK | os.X_OK):
            return os.path.join(path, PARTIAL)
    return path + PARTIAL


class Place:
    """A folder that takes files. No link in it is followed, so none leads out of it."""

    def __init__(self, path: str) -> None:
        self.path = path
        with contextlib.suppress(FileExistsError):
            os.mkdir(path)
        self.folder = os.open(path, os.O_RDONLY | os.O_DIRECTORY | os.O_CLOEXEC)

    def close(self) -> None:
        os.close(self.folder)

    @contextlib.contextmanager
    def parent(self, path: str, is_made: bool) -> Iterator[tuple[int, str]]:
        """The open folder that contains a path, and the last part of the path."""
        *parts, name = path.split("/")
        folder = os.dup(self.folder)
        try:
            for part in parts:
                if is_made:
                    with contextlib.suppress(FileExistsError):
                        os.mkdir(part, dir_fd=folder)
                inner = os.open(part, FOLDER, dir_fd=folder)
                outer, folder = folder, inner
                os.close(outer)
            yield folder, name
        finally:
            os.close(folder)

    def has(self, path: str, size: int | None, md5: bytes, sender: bytes) -> bool:
        """Whether the folder has a file of this size, if that is known, and this MD5.

        Then it is this sender's.
        """
        try:
            with self.parent(path, False) as (folder, name):
                here = os.open(name, REGULAR, dir_fd=folder)
        except OSError:
            return False
        digest = hashlib.md5(usedforsecurity=False)
        try:
            found = os.fstat(here)
            if not stat.S_ISREG(found.st_mode) or size not in (None, found.st_size):
                return False
            while piece := os.read(here, PIECE):
                digest.update(piece)
            if digest.digest() == md5:
                note_sender(here, sender)
            return digest.digest() == md5
        finally:
            os.close(here)

    def move_in(self, source: str, path: str, sender: bytes) -> str | None:
        """Moves a sender's file to this path.

        Returns "new" or "changed", or None if the file there had the same bytes.
        """
        note_sender(source, sender)
        with self.parent(path, True) as (folder, name):
            try:
                found = os.stat(name, dir_fd=folder, follow_symlinks=False)
            except FileNotFoundError:
                os.rename(source, name, dst_dir_fd=folder)
                return "new"
            if not stat.S_ISREG(found.st_mode):
                raise FileExistsError(errno.EEXIST, "is in the way: it is no regular file", name)
            if self.is_same(source, folder, name, sender):
                os.remove(source)
                return None
            os.rename(source, name, dst_dir_fd=folder)
            return "changed"

    @staticmethod
    def is_same(source: str, folder: int, name: str, sender: bytes) -> bool:
        """Whether the file of this name in the folder has the same bytes as another.

        Then it is this sender's.
        """
        with open(source, "rb", buffering=0) as one:
            here = os.open(name, REGULAR, dir_fd=folder)
            with open(here, "rb", buffering=0) as other:
                if os.fstat(one.fileno()).st_size != os.fstat(here).st_size:
                    return False
                while piece := one.read(PIECE):
                    if piece != other.read(len(piece)):
                        return False
                note_sender(here, sender)
        return True

    def remove(self, path: str) -> None:
        """Removes a file, if there is one."""
        with contextlib.suppress(FileNotFoundError):
            with self.parent(path, False) as (folder, name):
                os.remove(name, dir_fd=folder)
