"""The datagram files that flutejoin-capture writes: one or several for each sender.

A file gets its name once it is whole.
"""
from __future__ import annotations

import collections
import errno
import itertools
import os
from typing import Iterator, Sequence

from flutejoin_tools.common import file_names
from flutejoin_tools.common.addresses import address_text
from flutejoin_tools.common.file_names import PARTIAL, file_name
from flutejoin_tools.common.log import Log
from flutejoin_tools.common.outputs import give_name
from flutejoin_tools.common.shell import gather_lines, join_lines
from flutejoin_tools.fdt.hints import TOLD, Hint
from flutejoin_tools.fdt.instances import may_be_of_instance
from flutejoin_tools.formats.adapting import Adapting
from flutejoin_tools.formats.records import HEADER, LENGTH, MOST, whole_records

MOST_SENDERS = 200  # each has an open file
MOST_ADAPTED = 4096  # senders of whose datagrams something is remembered
MOST_WAITING = 1 << 16  # bytes of a file that wait to be written
MOST_COUNTED = 1 << 16  # senders beyond these of which bytes are counted
# Work, beside that of a small packet: of one that is adapted, or whose sender is beyond these; of
# so many datagrams that become of one; and of an FDT Instance
ADAPTED_WORK, DATAGRAMS_OF_WORK, INSTANCE_WORK = 6, 16, 2
SENDERS = f"more than {MOST_SENDERS} senders"
OCCUPIED = "its sender's file cannot be made"


def bring_names_to_disk(folder: str) -> None:
    """Syncs the names in a folder. Raises OSError, unless the file system can't do so."""
    try:
        descriptor = os.open(folder, os.O_RDONLY | os.O_DIRECTORY)
    except PermissionError:  # it may be one that can be written and not read
        return
    try:
        os.fsync(descriptor)
    except OSError as fault:
        if fault.errno not in (errno.EINVAL, errno.ENOTSUP):
            raise
    finally:
        os.close(descriptor)


class Unwritable(Exception):
    """An output cannot be made or written."""


class Part:
    """A datagram file that is being written under another name.

    The bytes that wait to be written begin with a whole record.
    """

    def __init__(self, path: str) -> None:
        self.path, self.size, self.count = path, 0, 0
        if os.path.lexists(path):
            raise FileExistsError(errno.EEXIST, "is there already", path)
        self.file = open(path + PARTIAL, "xb", buffering=0)
        self.waiting = bytearray(HEADER)

    def flush(self) -> None:
        """Writes the bytes that wait.

        If that fails, the file ends after the last record that was written whole.
        """
        written = 0
        try:
            while written < len(self.waiting):
                written += self.file.write(self.waiting[written:] if written else self.waiting)
            self.size += written
        except OSError:
            self.keep_whole(written)
            raise
        finally:
            self.waiting.clear()

    def keep_whole(self, written: int) -> None:
        """After a write of only `written` bytes: cuts the file after its last whole record."""
        begin = 0 if self.size else len(HEADER)
        with memoryview(self.waiting) as waiting:
            whole, records = whole_records(waiting[begin:written])
            self.count += records - whole_records(waiting[begin:])[1]
        self.size += begin + whole
        self.file.truncate(self.size)

    def finish(self) -> None:
        """Brings the file to the disk, with its name. A file without records is removed.

        Raises FileExistsError if there is another file of that name by now.
        """
        with self.file:
            if self.count:
                os.fsync(self.file.fileno())
        if self.count:
            give_name(self.path + PARTIAL, self.path)
            bring_names_to_disk(os.path.dirname(self.path) or ".")
        else:
            os.remove(self.path + PARTIAL)


class Files:
    """The datagram files of a folder: of each sender one, or several."""

    def __init__(self, folder: str, split: int, report: Log) -> None:
        self.folder, self.split, self.report = folder, split, report
        self.open: dict[bytes, Part] = {}
        self.refused: set[bytes] = set()
        self.left_out: collections.Counter[str] = collections.Counter()
        # The bytes of senders that have no file, since there are too many
        self.beyond: collections.Counter[bytes] = collections.Counter()
        self.hints: dict[bytes, Hint] = {}  # of each sender
        self.adapting: dict[bytes, Adapting] = {}
        self.parts: collections.Counter[bytes] = collections.Counter()  # how many files it has
        self.is_made = False
        self.work = 0  # that datagrams took more than a small one

    def make_folder(self) -> None:
        """Makes the folder, if it is missing, and checks that files can be made in it.

        Raises Unwritable.
        """
        try:
            if not os.path.isdir(self.folder):
                os.mkdir(self.folder)
                self.is_made = True
                bring_names_to_disk(os.path.dirname(os.path.abspath(self.folder)))
        except OSError as fault:
            raise Unwritable(f"cannot make the folder {self.folder}: {fault.strerror}") from None
        if not os.access(self.folder, os.W_OK | os.X_OK):
            raise Unwritable(f"cannot make files in the folder {self.folder}")

    def path(self, sender: bytes, part: int) -> str:
        return os.path.join(self.folder, file_name(address_text(sender), part))

    def take(self, sender: bytes, payload: bytes) -> None:
        """Adds a datagram in the form that flutejoin reads, or counts it as left out."""
        if sender not in self.hints and len(self.hints) >= MOST_SENDERS:
            self.add(sender, payload)  # which counts it as left out
            return
        adapting = self.adapting.get(sender) or Adapting()
        if len(self.adapting) < MOST_ADAPTED:
            self.adapting[sender] = adapting
        if adapting.is_plain(payload):
            self.add(sender, payload)
            return
        taken = adapting.take(payload)
        self.work += ADAPTED_WORK + len(taken.datagrams) // DATAGRAMS_OF_WORK
        if taken.left_out:
            self.left_out[taken.left_out] += 1
        for written in taken.datagrams:
            self.add(sender, bytes(written))

    def tell(self) -> None:
        """Reports in which forms datagrams came, for each sender once."""
        for sender, adapting in self.adapting.items():
            for line in adapting.lines(0):
                self.report.warn(f"{address_text(sender)} {line}")

    def has_room(self, part: Part, count: int, size: int) -> bool:
        """Whether a file can have so many records more, each of this size."""
        begun = part.size + len(part.waiting)
        return part.count + count <= MOST and begun + count * size <= self.split

    def add(self, sender: bytes, payload: bytes) -> None:
        """Adds a datagram of a capture to the file of its sender, or begins the next one."""
        part = self.open.get(sender)
        size = len(payload) + 2
        if part and not self.has_room(part, 1, size):
            self.close(sender)
            part = None
        part = part or self.begin(sender, size)
        if part:
            part.waiting += LENGTH.pack(size - 2)
            part.waiting += payload
            part.count += 1
            if may_be_of_instance(payload):
                self.work += INSTANCE_WORK
                if self.hints[sender].look(payload):
                    self.report.warn(f"{address_text(sender)} {TOLD}")
            if len(part.waiting) > MOST_WAITING:
                self.flush(part)

    def add_records(self, senders: Sequence[bytes], records: bytearray, size: int) -> bool:
        """Adds records of one size: each of its sender, or all of the only one. None is of an FDT
        Instance. Returns False, and adds none, if a sender has no file."""
        places, shares = range(0, len(records), size), {senders[0]: records}
        if len({*senders}) > 1:
            view = memoryview(records)
            rows: dict[bytes, list[memoryview]] = {sender: [] for sender in senders}
            for sender, at in zip(senders, places):
                rows[sender].append(view[at : at + size])
            shares = {sender: bytearray().join(own) for sender, own in rows.items()}
        if not shares.keys() <= self.open.keys():
            return False
        of = [(self.open[sender], share, len(share) // size) for sender, share in shares.items()]
        if not all(self.has_room(part, count, size) for part, _, count in of):
            # One by one, since files end
            for sender, at in zip(itertools.cycle(senders), places):
                self.add(sender, bytes(records[at + LENGTH.size : at + size]))
            return True
        for part, share, count in of:
            if part.waiting:
                part.waiting += share
            else:
                part.waiting = share
            part.count += count
            if len(part.waiting) > MOST_WAITING:
                self.flush(part)
        return True

    def count_beyond(self, sender: bytes, size: int) -> None:
        """Counts a datagram of a sender that has no file. Those of fewest bytes are forgotten."""
        self.left_out[SENDERS] += 1
        self.work += ADAPTED_WORK
        if sender not in self.beyond and len(self.beyond) >= MOST_COUNTED:
            most = self.beyond.most_common(MOST_COUNTED // 2)
            self.beyond = collections.Counter(dict(most))
        self.beyond[sender] += size

    def largest_beyond(self) -> list[bytes]:
        """Of the senders that have no file those that sent most."""
        return [sender for sender, _ in self.beyond.most_common(MOST_SENDERS)]

    def begin(self, sender: bytes, size: int) -> Part | None:
        """Begins the next file of a sender, for a record of this size, and returns it.

        Returns None if the sender can have none, and reports that the first time.
        """
        if sender in self.refused:
            self.left_out[OCCUPIED] += 1
            return None
        if sender not in self.hints and len(self.hints) >= MOST_SENDERS:
            self.count_beyond(sender, size)
            return None
        self.hints.setdefault(sender, Hint())
        path = self.path(sender, self.parts[sender] + 1)
        try:
            self.open[sender] = Part(path)
        except FileExistsError as fault:
            hint = ""
            if fault.filename.endswith(PARTIAL):
                hint = "; rename what a killed run left, or flutejoin-mend it if it is cut"
            self.report.fault(
                3,
                f"{fault.filename}: is there already, and is left as it is; "
                f"no other file is written for its sender{hint}",
            )
            self.refused.add(sender)
            self.hints.pop(sender)
            self.left_out[OCCUPIED] += 1
        except OSError as fault:
            raise Unwritable(f"{path}: cannot be made: {fault.strerror}") from None
        return self.open.get(sender)

    def flush(self, part: Part) -> None:
        """Writes what waits of a file. Raises Unwritable."""
        try:
            part.flush()
        except OSError as fault:
            raise Unwritable(
                f"{part.path}: cannot write: {fault.strerror}; what was written whole is kept"
            ) from None

    def flush_all(self) -> None:
        """Writes what waits of all files, as once a second."""
        self.tell()
        for part in self.open.values():
            self.flush(part)

    def close(self, sender: bytes) -> None:
        """Finishes a sender's file, and prints its line."""
        part = self.open.pop(sender)
        try:
            try:
                self.flush(part)
            except Unwritable as fault:
                self.report.fault(3, str(fault))
            part.finish()
        except OSError as fault:
            partial = part.path + PARTIAL
            self.report.fault(3, f"{partial}: cannot become {part.path}: {fault.strerror}")
            self.refused.add(sender)
            return
        if part.count:
            self.parts[sender] += 1
            self.report.say(f"{part.path}: {part.count} datagrams from {address_text(sender)}")

    def finish(self) -> None:
        """Closes all files; a folder that was made and got none is removed."""
        self.tell()
        for sender in list(self.open):
            self.close(sender)
        if self.is_made and not self.is_used():
            try:
                os.rmdir(self.folder)
            except OSError:
                pass  # others have put something into it

    def is_used(self) -> bool:
        return any(self.parts.values())

    def join_lines(self) -> Iterator[str]:
        """Yields the commands that join the files of each sender."""
        for sender, parts in self.parts.items():
            paths = [self.path(sender, part + 1) for part in range(parts)]
            if paths and self.hints[sender].has_changed:
                yield from gather_lines(self.folder, paths)
            elif paths:
                stem = file_names.stem(address_text(sender))
                journal = os.path.join(self.folder, stem + ".journal")
                yield from join_lines(sender, journal, paths)
