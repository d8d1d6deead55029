"""Datagram files that grow while datagrams are received.

Each sender has one of them, or several. Only one thread, the writer's, touches them, so that
receiving never waits for the disk.
"""
from __future__ import annotations

import collections
import contextlib
import errno
import fcntl
import os
from typing import TYPE_CHECKING, NamedTuple, Optional, Tuple, Union

from flutejoin_tools.common.addresses import IPAddress
from flutejoin_tools.common.disk import disk_bytes
from flutejoin_tools.common.file_names import file_name
from flutejoin_tools.formats.records import HEADER, PIECE, Buffer, last_whole, whole_records
from flutejoin_tools.receive.voice import note

if TYPE_CHECKING:
    from flutejoin_tools.receive.writer import Opened

COPY_STEP = 8  # pieces that are copied before other orders are looked at
# No link is followed: another user may have put it there.
LOOK_FLAGS = os.O_RDWR | os.O_APPEND | os.O_NONBLOCK | os.O_NOFOLLOW | os.O_CLOEXEC
MAKE_FLAGS = os.O_RDWR | os.O_APPEND | os.O_CREAT | os.O_EXCL | os.O_NOFOLLOW | os.O_CLOEXEC


class Block(NamedTuple):
    """Whole records that are written together."""

    data: Union[bytearray, memoryview]
    records: int


class Begin(NamedTuple):
    """Another file begins with the next records."""


BEGIN = Begin()
Order = Union[Block, Begin]


class Grown(NamedTuple):
    """A file that grew in this run."""

    path: str
    records: int
    new: int


class Growing:
    """The datagram files of one sender, of which the last grows."""

    def __init__(
        self, folder: str, address: IPAddress, opened: Opened, part: int = 1
    ) -> None:
        self.folder, self.address, self.opened = folder, address, opened
        self.part = part
        self.orders: collections.deque[Order] = collections.deque()
        self.descriptor: Optional[int] = None
        self.identity: Optional[Tuple[int, int]] = None  # of a file that is made: device and number
        self.size = self.records = self.records_before = 0
        self.taken = 0  # bytes of all blocks that are written
        self.lost = 0  # records that were written, and then lost
        self.fault: Optional[OSError] = None
        self.done: list[Grown] = []
        self.copies: list[Copy] = []

    def path(self) -> str:
        return self.path_of(self.part)

    def path_of(self, part: int) -> str:
        return os.path.join(self.folder, file_name(str(self.address), part))

    def go_on(self, identity: Tuple[int, int], size: int, records: int) -> None:
        """Continues a file of an earlier run, once its sender sends again."""
        self.identity = identity
        self.size, self.records, self.records_before = size, records, records

    def work(self) -> None:
        """Carries out the orders. After a fault each file ends after its last whole record."""
        try:
            while self.orders:
                order = self.orders[0]
                if isinstance(order, Block):
                    self.write(order)
                else:
                    self.begin()
                self.orders.popleft()
            for copy in self.copies:
                copy.step()
            self.copies = [copy for copy in self.copies if not copy.is_done]
            if self.fault:
                note(f"{self.path()}: can be written again")
            self.fault = None
        except OSError as fault:
            if self.fault is None or self.fault.errno != fault.errno:
                told = f"cannot write {self.path()}: {fault.strerror}"
                note(f"{told}; it is tried again each second")
            self.fault = fault

    def has_work(self) -> bool:
        return bool(self.orders or self.copies)

    def begin(self) -> None:
        """Ends the file, and begins the next one of this sender."""
        self.close()
        self.end_file()
        self.part += 1

    def end_file(self) -> None:
        """Notes what the file that ends got in this run."""
        if self.records > self.records_before:
            new_records = self.records - self.records_before
            self.done.append(Grown(self.path(), self.records, new_records))
        self.identity, self.size, self.records, self.records_before = None, 0, 0, 0

    def write(self, block: Block) -> None:
        """Writes a block. After a fault, which is raised, the file is cut after a whole record."""
        self.opened.make_room(disk_bytes(len(HEADER) + len(block.data)))  # which may end this file
        self.opened.reserve.keep(self.folder, len(block.data))
        descriptor = self.open() if self.descriptor is None else self.descriptor
        self.opened.touch(self)
        data = block.data if self.size else HEADER + block.data
        view, written = memoryview(data), 0
        try:
            while written < len(data):
                written += os.write(descriptor, view[written:])
        except OSError:
            self.keep_whole(descriptor, block, data, written)
            raise
        self.add(len(data), len(block.data), block.records)

    def add(self, size: int, of_block: int, records: int) -> None:
        """Counts bytes and records that were written. `of_block` are those of the block alone."""
        self.opened.held += disk_bytes(self.size + size) - disk_bytes(self.size)
        self.size += size
        self.taken += of_block
        self.records += records

    def keep_whole(self, descriptor: int, block: Block, data: Buffer, written: int) -> None:
        """Cuts the file after its last whole record, once only `written` bytes were written.

        The rest of the block is put in the queue again.
        """
        begin = 0 if self.size else len(HEADER)
        end, records = whole_records(memoryview(data)[begin:written])
        whole = begin + end if records else 0
        try:
            os.ftruncate(descriptor, self.size + whole)
        except OSError as fault:
            told = "the record that is cut at its end cannot be taken away"
            note(f"{self.path()}: {told}: {fault.strerror}")
            self.orders.appendleft(BEGIN)
            return
        self.add(whole, end if records else 0, records)
        if records:
            self.orders[0] = Block(memoryview(data)[whole:], block.records - records)

    def open(self) -> int:
        """Makes the file, or opens it again if nobody changed it since. Returns its descriptor.

        If somebody else made a file of this name, that is left as it is, and the next number is
        taken.
        """
        while True:
            is_made = self.identity is not None
            try:
                flags = LOOK_FLAGS if is_made else MAKE_FLAGS
                self.descriptor = descriptor = self.opened.open(self.path(), flags)
            except FileExistsError:
                self.part += 1
                continue
            except FileNotFoundError:
                if not is_made:
                    raise  # the folder is missing, and not the file
                self.lose("was removed or moved while it was closed")
                continue
            except OSError as fault:
                if fault.errno != errno.ELOOP or not is_made:
                    raise
                self.lose("was replaced by a link while it was closed")
                continue
            found = os.fstat(descriptor)
            if not is_made:
                self.identity = found.st_dev, found.st_ino
            elif self.identity != (found.st_dev, found.st_ino) or found.st_size != self.size:
                self.lose("was changed by another")
                continue
            return descriptor

    def lose(self, what: str) -> None:
        """Leaves the file that grew as it is, and begins another."""
        note(f"{self.path()}: {what}; another file is begun")
        self.close()
        self.end_file()
        self.part += 1

    def look(self) -> None:
        """Checks that the growing file is still there under its name.

        If it was removed, its bytes are copied to a new file of its name, and later records go to
        another file.
        """
        if self.descriptor is None:
            return
        found = os.fstat(self.descriptor)
        try:
            is_there = os.path.samestat(os.lstat(self.path()), found)
        except OSError:
            is_there = False
        if is_there and found.st_size == self.size:
            return
        if not found.st_nlink and self.records:
            note(f"{self.path()}: was removed while it grew; what it held is written anew")
            self.copies.append(Copy(self, self.descriptor))
            self.descriptor = None
            self.opened.forget(self)
            self.identity, self.size, self.records, self.records_before = None, 0, 0, 0
            self.part += 1
        else:
            self.lose("was changed by another" if is_there else "was moved while it grew")

    def close(self) -> None:
        """Closes the file. It is opened again for its next records."""
        if self.descriptor is None:
            return
        descriptor, self.descriptor = self.descriptor, None
        self.opened.forget(self)
        try:
            os.close(descriptor)
        except OSError as fault:
            note(f"{self.path()}: what was written last may be lost: {fault.strerror}")

    def finish(self) -> None:
        """Ends the work at the end of a run. A file without records is removed."""
        self.work()
        self.look()
        while self.copies and self.fault is None:
            self.work()
        if self.descriptor is not None and not self.records and not self.records_before:
            try:
                os.unlink(self.path())
            except OSError:
                pass
        self.close()
        self.end_file()
        for copy in self.copies:
            copy.give_up()


class Copy:
    """Copies a removed file to a new one, from the descriptor that is still open."""

    def __init__(self, growing: Growing, source: int) -> None:
        self.growing, self.source = growing, source
        self.part = growing.part
        self.size, self.records = growing.size, growing.records
        self.records_before = growing.records_before
        self.copied, self.is_done = 0, False
        self.target: Optional[int] = None

    def path(self) -> str:
        return self.growing.path_of(self.part)

    def step(self) -> None:
        """Copies a few pieces. After a fault the next call continues there."""
        target = self.make() if self.target is None else self.target
        for _ in range(COPY_STEP):
            piece = os.pread(self.source, min(PIECE, self.size - self.copied), self.copied)
            if not piece:
                note(f"{self.path()}: {self.copied} bytes of it are written anew")
                self.end(self.records)
                return
            written = os.pwrite(target, piece, self.copied)
            held = disk_bytes(self.copied + written) - disk_bytes(self.copied)
            self.copied += written
            self.growing.opened.held += held

    def make(self) -> int:
        """Makes the new file, of the next number that is free."""
        flags = MAKE_FLAGS & ~os.O_APPEND
        while True:
            try:
                self.target = target = self.growing.opened.open(self.path(), flags)
                with contextlib.suppress(OSError):  # so that a station leaves it until it is whole
                    fcntl.flock(target, fcntl.LOCK_EX | fcntl.LOCK_NB)
                return target
            except FileExistsError:
                self.part += 1

    def end(self, records: int) -> None:
        """Ends the copy, of which so many records are whole."""
        self.is_done = True
        self.growing.lost += self.records - records
        if records > self.records_before:
            new = records - self.records_before
            self.growing.done.append(Grown(self.path(), records, new))
        for descriptor in (self.source, self.target):
            if descriptor is not None:
                os.close(descriptor)

    def give_up(self) -> None:
        """Ends the copy at the end of a run: bytes that are not copied yet are lost."""
        if self.is_done:
            return
        note(f"{self.path()}: {self.size - self.copied} bytes of it are lost")
        records = 0
        if self.target is not None and self.copied >= len(HEADER):
            with open(self.target, "rb", closefd=False) as file:
                end, records = last_whole(file, self.copied, len(HEADER))
            os.ftruncate(self.target, end)
        self.end(records)
