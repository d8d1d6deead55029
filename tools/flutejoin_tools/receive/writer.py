"""The thread that writes received datagrams to files, brings these and their folders to the disk,
and looks how full that is."""
from __future__ import annotations

import collections
import contextlib
import errno
import fcntl
import os
import resource
import threading
import time
from typing import Callable, Iterable, Iterator, NamedTuple, Optional

from flutejoin_tools.common.disk import blocks_of
from flutejoin_tools.common.faults import Fault
from flutejoin_tools.common.file_names import Name, name_of
from flutejoin_tools.formats.records import HEADER, LENGTH
from flutejoin_tools.receive.found import FLAGS
from flutejoin_tools.receive.growing import Block, Growing, Order
from flutejoin_tools.receive.reserve import NOTHING, Reserve
from flutejoin_tools.receive.voice import note

MOST_WAITING = 1 << 26  # bytes that wait for the disk in all, at most
MANY_WAITING = 1 << 23  # from this number on the receiving thread pauses
MAKE_WAY = 0.001  # seconds of that pause
SPARE = 16  # descriptors for other files than those of senders
MOST_OPEN = 4096  # files
AHEAD = 3600 * 10**9  # nanoseconds that the clock of a file system may be ahead


class Entry(NamedTuple):
    """A sender's file in a folder."""

    changed: int
    path: str
    size: int
    name: Name
    folder: str
    disk_bytes: int  # bytes of its blocks

    def age(self) -> tuple[int, bytes, int, int, str]:
        """Orders files from the oldest on.

        A system's times go in steps of some milliseconds, in which a sender may fill several files.
        """
        name = self.name
        return self.changed, name.address.packed, name.epoch, name.part, self.folder

    def is_one_datagram(self) -> bool:
        """Whether the file has a single datagram."""
        begin = len(HEADER) + LENGTH.size
        try:
            with open(os.open(self.path, os.O_RDONLY | FLAGS), "rb", buffering=0) as file:
                head = file.read(begin)
        except OSError:
            return False
        return len(head) == begin and self.size == begin + LENGTH.unpack(head[len(HEADER) :])[0]


class Folder:
    """A folder of datagram files, into which only one run writes."""

    def __init__(self, path: str) -> None:
        self.path = path
        self.is_gone = False
        try:
            if not os.path.lexists(path):
                os.mkdir(path)
            self.lock = os.open(path, os.O_RDONLY | os.O_DIRECTORY | os.O_CLOEXEC)
        except OSError as error:
            raise Fault(3, f"cannot use the folder {path}: {error.strerror}")
        if not os.access(path, os.W_OK | os.X_OK):
            raise Fault(3, f"cannot use the folder {path}: it cannot be written")
        self.take_lock()

    def take_lock(self) -> None:
        """Locks the folder against other runs, which would write to the same files. Raises Fault.

        Without file locks in the file system, other runs are not noticed.
        """
        try:
            fcntl.flock(self.lock, fcntl.LOCK_EX | fcntl.LOCK_NB)
        except BlockingIOError:
            raise Fault(3, f"cannot use the folder {self.path}: another run writes into it")
        except OSError:
            pass

    def look(self) -> None:
        """Makes the folder again if it was removed or moved."""
        try:
            if os.path.samestat(os.stat(self.path), os.fstat(self.lock)):
                return
        except OSError:
            pass
        try:
            if not os.path.lexists(self.path):
                os.mkdir(self.path)
            lock = os.open(self.path, os.O_RDONLY | os.O_DIRECTORY | os.O_CLOEXEC)
        except OSError as error:
            if not self.is_gone:
                told = f"the folder {self.path} was removed or moved, and cannot be made anew"
                note(f"{told}: {error.strerror}; it is tried again each second")
            self.is_gone = True
            return
        os.close(self.lock)
        self.lock, self.is_gone = lock, False
        note(f"the folder {self.path} was removed or moved; it is made anew")
        try:
            self.take_lock()
        except Fault as fault:
            note(str(fault))

    def names(self) -> list[str]:
        try:
            return os.listdir(self.path)
        except OSError:
            return []

    def entries(self) -> Iterator[Entry]:
        """Yields the senders' files in the folder."""
        try:
            with os.scandir(self.path) as found:
                for file in found:
                    name = name_of(file.name)
                    if name:
                        with contextlib.suppress(FileNotFoundError):
                            status = file.stat(follow_symlinks=False)
                            changed, size = status.st_mtime_ns, status.st_size
                            blocks = blocks_of(status)
                            yield Entry(changed, file.path, size, name, self.path, blocks)
        except OSError:
            pass


def descriptors() -> int:
    """How many descriptors this run may have. It asks the system for as many as it can use."""
    soft, hard = resource.getrlimit(resource.RLIMIT_NOFILE)
    most = MOST_OPEN if hard == resource.RLIM_INFINITY else min(hard, MOST_OPEN)
    if soft == resource.RLIM_INFINITY or soft >= most:
        return most
    try:
        resource.setrlimit(resource.RLIMIT_NOFILE, (most, hard))
    except (OSError, ValueError):
        return soft
    return most


class Opened:
    """The open files of senders: at most as many as the system has descriptors for.

    `make_room` is called with the number of bytes before they are written; `held` counts the bytes
    that the files take of the disk.
    """

    def __init__(
        self, reserved: int, make_room: Callable[[int], None], reserve: Reserve = NOTHING
    ) -> None:
        self.most = max(1, descriptors() - SPARE - reserved)
        self.growing: collections.OrderedDict[Growing, None] = collections.OrderedDict()
        self.is_told = False
        self.make_room, self.reserve = make_room, reserve
        self.held = 0  # of all datagram files

    def open(self, path: str, flags: int) -> int:
        """Opens a file; where there are too few descriptors, another one is closed before."""
        while len(self.growing) >= self.most and self.close_silent():
            pass
        while True:
            try:
                return os.open(path, flags, 0o666)
            except OSError as fault:
                if fault.errno not in (errno.EMFILE, errno.ENFILE) or not self.close_silent():
                    raise

    def close_silent(self) -> bool:
        """Closes the file of the sender that was silent longest."""
        for growing in self.growing:
            if not self.is_told:
                told = "the file of the sender that was silent longest is closed for another"
                note(f"there are too few descriptors (ulimit -n): {told}")
                self.is_told = True
            growing.close()
            return True
        return False

    def touch(self, growing: Growing) -> None:
        """Notes that this sender sent last."""
        self.growing[growing] = None
        self.growing.move_to_end(growing)

    def forget(self, growing: Growing) -> None:
        self.growing.pop(growing, None)


class Writer(threading.Thread):
    """The thread that writes. Only this thread uses the folders and the files in them."""

    def __init__(
        self,
        folders: Iterable[Folder],
        most: Optional[int],
        reserved: int,
        reserve: Reserve = NOTHING,
    ) -> None:
        """`reserved` descriptors are for other files, and `reserve` is left free on the disk."""
        super().__init__(daemon=True)
        self.folders, self.most = list(folders), most
        self.opened = Opened(reserved, self.make_room, reserve)
        self.event = threading.Event()
        self.given, self.taken = 0, 0  # bytes, each counted by one thread alone
        self.todo: collections.deque[Growing] = collections.deque()
        self.unfinished: set[Growing] = set()
        self.reports: collections.deque[Callable[[Iterable[Entry]], None]] = collections.deque()
        self.unremovable: set[str] = set()
        self.removed = 0
        self.is_ending = self.is_stuck = False
        self.fault: Optional[BaseException] = None

    def give(self, growing: Growing, order: Order) -> bool:
        """Gives the thread an order. Returns False if too much waits already."""
        if isinstance(order, Block):
            waiting = self.given - self.taken
            if waiting > MANY_WAITING and growing.fault is None:
                time.sleep(MAKE_WAY)  # both may share one processor, which this one gives away
            if waiting + len(order.data) > MOST_WAITING:
                return False
            self.given += len(order.data)
        growing.orders.append(order)
        self.todo.append(growing)
        self.event.set()
        return True

    def report(self, to: Callable[[Iterable[Entry]], None]) -> None:
        """Orders a report of what is in the folders."""
        self.reports.append(to)
        self.event.set()

    def run(self) -> None:
        """What the thread does: carries out orders as they come, and looks around once a second."""
        look_at = time.monotonic() + 1
        try:
            while not self.is_ending:
                wait = 0 if self.copying() else max(0, look_at - time.monotonic())
                self.event.wait(wait)
                self.event.clear()
                self.work()
                if time.monotonic() >= look_at:
                    look_at = time.monotonic() + 1
                    self.look()
                while self.reports:
                    self.reports.popleft()(self.found())
            self.work()
        except BaseException as fault:  # the run ends with this fault
            self.fault = fault

    def found(self) -> Iterator[Entry]:
        """Yields the senders' files in all folders."""
        for folder in self.folders:
            yield from folder.entries()

    def entries(self) -> list[Entry]:
        """The senders' files in all folders; their bytes on the disk are counted anew."""
        entries = list(self.found())
        self.opened.held = sum(entry.disk_bytes for entry in entries)
        return entries

    def work(self) -> None:
        """Carries out the orders that wait, and goes on with copies."""
        again = self.copying()
        while self.todo or again:
            growing = self.todo.popleft() if self.todo else again.pop()
            if growing.fault is None:
                self.work_at(growing)

    def copying(self) -> list[Growing]:
        return [growing for growing in self.unfinished if growing.copies and not growing.fault]

    def work_at(self, growing: Growing) -> None:
        """Carries out the orders for one sender's files."""
        before = growing.taken
        growing.work()
        self.taken += growing.taken - before
        if growing.has_work():
            self.unfinished.add(growing)
        else:
            self.unfinished.discard(growing)

    def look(self) -> None:
        """Once a second: checks that all is still there, and repeats what failed."""
        for folder in self.folders:
            folder.look()
        for growing in list(self.opened.growing):
            growing.look()
            if growing.copies:
                self.unfinished.add(growing)
        for growing in list(self.unfinished):
            self.work_at(growing)
        self.is_stuck = False
        self.make_room(0)

    def make_room(self, size: int) -> None:
        """Removes the oldest files if this many more bytes would be more than the run may keep.

        The newest file stays if it has a single datagram and no more is to be written. If some
        files cannot be removed, this is repeated once a second.
        """
        if self.most is None or self.opened.held + size <= self.most or self.is_stuck:
            return
        now = time.time_ns() + AHEAD
        # One of a time to come was written before the clock was set back.
        entries = sorted(self.entries(), key=lambda it: (it.changed <= now, it.age()))
        if not size and entries and entries[-1].is_one_datagram():
            entries.pop()
        self.remove(entries, self.most - size)
        self.is_stuck = bool(self.unremovable) and self.opened.held + size > self.most

    def remove(self, entries: Iterable[Entry], most: int) -> None:
        """Removes files, the first ones first, until all others have at most this many bytes.

        A file that grows is ended first.
        """
        growing = {each.path(): each for each in self.opened.growing}
        for entry in entries:
            if self.opened.held <= most:
                return
            if entry.path in growing:
                growing[entry.path].begin()
            try:
                os.unlink(entry.path)
            except OSError as fault:
                if entry.path not in self.unremovable:
                    note(f"{entry.path}: cannot be removed: {fault.strerror}")
                    self.unremovable.add(entry.path)
                continue
            self.opened.held -= entry.disk_bytes
            self.removed += 1
            told = f"{entry.path}: its {entry.disk_bytes} bytes are removed"
            note(f"{told}, since the datagram files would have more than {self.most} in all")

    def end(self) -> None:
        """Ends the thread, after a try to write what waits."""
        self.is_ending = True
        self.event.set()
        self.join()
