"""The journals that a station keeps of each sender, and what is joined into them.

Each sender has some journals, and others of further generations (`levels`), which are joined when
they are many (`merging`): so a minute of datagrams doesn't rewrite everything, and what a carousel
repeats isn't written at all. FDT Instances are no part of journals, but documents (`instances`).
"""
from __future__ import annotations

import collections
import os
import shutil
import time
from functools import partial
from typing import BinaryIO, Callable, Iterable, NamedTuple, Optional, Sequence, Tuple, Union

from flutejoin_tools.common.addresses import IPAddress
from flutejoin_tools.common.file_names import PARTIAL
from flutejoin_tools.common.program import Answer, Program
from flutejoin_tools.common.service_log import ServiceLog
from flutejoin_tools.common.shell import MOST_INPUTS
from flutejoin_tools.common.shelves import Shelf, bring_to_disk, entries_of, remove, size_of
from flutejoin_tools.fdt.instances import Folder
from flutejoin_tools.formats.records import HEADER, MOST, Cut, ReadFault
from flutejoin_tools.gather.delivered import NAME, Delivered
from flutejoin_tools.gather.gathering import told_of
from flutejoin_tools.gather.generations import ENDING, Generations, Taken, kept_in
from flutejoin_tools.gather.layers import Piece
from flutejoin_tools.gather.others import Others
from flutejoin_tools.journals.stretches import Indexes
from flutejoin_tools.station.incoming import Incoming, Part, Sender, State, sender_in, sender_of
from flutejoin_tools.station.levels import Levels, Spoiled
from flutejoin_tools.station.merging import Merges
from flutejoin_tools.station.room import Room

MOST_IN_OUTBOX = 7  # journals of one sender
ROOM = 1 << 20  # bytes that a join needs in addition to those of its inputs


class Settings(NamedTuple):
    every: float  # seconds between two joins of a file that grows
    keep_raw: int  # bytes of joined datagram files that are kept
    has_outbox: bool
    most: Optional[int] = None  # bytes of the disk
    # Addresses of senders that are kept as another one
    same: Tuple[Tuple[IPAddress, IPAddress], ...] = ()
    delivers: bool = False  # whether what came is kept for who delivers it


class Kept:
    """The journals in a folder, and what was set aside."""

    def __init__(
        self, folder: str, program: Program, settings: Settings, report: ServiceLog
    ) -> None:
        self.folder, self.program, self.settings, self.report = folder, program, settings, report
        self.states: dict[Sender, State] = collections.defaultdict(State)
        self.recent, self.journals, self.outbox, self.raw, self.aside, self.fresh = (
            Shelf(os.path.join(folder, name))
            for name in ("recent", "journals", "outbox", "raw", "aside", "deliver")
        )
        same = dict(settings.same)
        self.incoming = Incoming(folder, lambda sender: bool(self.kept(sender)), same)
        self.documents = Folder(os.path.join(folder, "fdt"), program.sessions)
        self.room = Room(folder, settings.most, (self.raw, self.aside), report)
        self.indexes = Indexes(program.tend)
        self.merges = Merges(
            *(self.journals, self.recent.path, program, self.indexes, self.free, self.refuse)
        )

    def levels(self, sender: Sender) -> Levels:
        """The journals of a sender."""
        stem = sender.stem()
        others = Others(lambda number: os.path.join(self.aside.path, f"{stem}.v{number}.journal"))
        of = self.journals, self.recent.path, stem, self.program, self.indexes, others
        return Levels(*of, Delivered(os.path.join(self.folder, NAME), self.program))

    def kept(self, sender: Sender) -> list[str]:
        """The journals of a sender."""
        return [path for of in kept_in(self.journals.path, sender.stem()).values() for path in of]

    def attempt(self, sender: Sender, step: Callable[[], object]) -> None:
        """Takes a step. If the system refuses it, that is reported, and it is repeated later."""
        try:
            step()
        except OSError as fault:
            self.put_off(sender, f"{fault.filename or self.folder}: {fault.strerror}")

    def put_off(self, sender: Sender, told: str) -> None:
        delay = self.states[sender].fail(time.monotonic())
        self.report.warn(f"{sender.stem()}: {told}; tried again in {delay} seconds")
        self.report.begin_fault(sender.stem(), f"{sender.stem()}: {told}")

    def join(
        self,
        sender: Sender,
        out: Union[str, BinaryIO],
        journals: Iterable[str],
        parts: Iterable[Part] = (),
        needed: Iterable[str] = (),
        sessions: Sequence[int] = (),
        without_fdt: bool = False,
    ) -> Answer:
        """Joins the journals that exist, those that are needed, and the datagram files.

        Returns how the join ended.
        """
        inputs, fed = [*filter(os.path.exists, journals), *needed], None
        for part in parts:
            if part.is_plain():
                inputs.append(part.path)
            else:
                fed = part.fed()
        return self.program.join(
            sender.address.packed,
            out,
            inputs,
            fed.pieces() if fed else None,
            sessions,
            without_fdt,
        )

    def take_one(self, sender: Sender, piece: Piece, hand_on: Callable[[str], None]) -> bool:
        """Keeps what is new in a journal of a sender, which is handed on before."""
        known, levels = self.documents.known_of(sender.stem()), self.levels(sender)
        try:
            taken = levels.take(piece, known.numbers, hand_on)
        except Spoiled as fault:
            if self.is_at_fault(sender, [fault.path]):
                self.set_journal_aside(sender, fault.path, str(fault))
            else:
                self.put_off(sender, f"{fault.path}: {fault}")
            return False
        if taken.answer.status:
            self.wait_for_room(sender, taken.answer, size_of(piece.path))
            return False
        if levels.others.dropped:
            count = levels.others.dropped
            told = f"{count} values that differ are left out, as too many are kept aside"
            self.report.warn(f"{sender.stem()}: {told}")
        self.tell_of(sender, taken)
        known.leave_out(taken.informed)
        known.write()
        self.merges.ask(sender.stem())
        return True

    def tell_of(self, sender: Sender, taken: Taken) -> None:
        """Reports what did not agree."""
        self.states[sender].others += taken.others
        for line in told_of(taken, sender.stem()):
            self.report.warn(line)

    def join_outbox(self, sender: Sender) -> None:
        """Joins the journals of a sender in the outbox that agree.

        It does so if they are many, or if those beside the largest have as many bytes as that: so
        what a carousel repeats takes no room here either. The largest are left out if all together
        would have more entries than a journal may have.
        """
        waiting = sorted(self.outbox.files(sender.stem()), key=size_of)[: MOST_INPUTS]
        while sum(entries_of(path) or 0 for path in waiting) > MOST:
            waiting.pop()
        sizes = [size_of(path) for path in waiting]
        if len(waiting) <= MOST_IN_OUTBOX and sum(sizes) < 2 * max(sizes, default=1):
            return
        front = os.path.join(self.outbox.path, f"{sender.stem()}.all")
        apart: list[str] = []

        def put_apart(path: str) -> None:
            apart.append(f"{front}.apart{len(apart)}{PARTIAL}")
            shutil.copyfile(path, apart[-1])

        def path_of(number: int) -> str:
            return f"{front}{number}{PARTIAL}"

        def join(path: str, part: str) -> Answer:
            return self.join(sender, path, [path], needed=[part])

        together = Generations(path_of, put_apart, self.program.compare)
        try:
            for path in waiting[::-1]:
                if together.take(path, join).answer.status:
                    return
            for path in [*together.kept().values(), *apart]:
                one = self.outbox.next(sender.stem(), ".journal")
                os.rename(path, one)
                bring_to_disk(one)
            for path in waiting:
                remove(path)
        finally:
            for path in [*together.kept().values(), *apart]:
                remove(path)

    def merge_all(self) -> None:
        """Joins all journals of each sender, as far as one may have their entries."""
        for sender in {it for it in map(sender_in, os.listdir(self.journals.path)) if it}:
            self.merges.ask(sender.stem(), is_all=True)

    def refuse(self, stem: str, paths: Sequence[str], answer: Answer) -> None:
        """Sets journals aside that a join refuses; others, which are too many, stay as they are."""
        sender = sender_in(f"{stem}.journal")
        for path in paths if sender else ():
            if sender and self.is_at_fault(sender, [path]):
                self.set_journal_aside(sender, path, answer.told)

    def adopt(self) -> None:
        """Takes the journals of earlier versions into the others, by what agrees: those of epochs,
        and recent ones."""
        for folder in self.recent.path, self.journals.path:
            for name in sorted(os.listdir(folder)):
                found = sender_of(name.removesuffix(ENDING) + ".fldg")
                sender = found[0] if found else sender_in(name)
                is_old = folder == self.recent.path or found and found[1].epoch > 1
                if sender and is_old and name.endswith(ENDING):
                    path = os.path.join(folder, name)
                    self.attempt(sender, partial(self.adopt_one, sender, path))

    def adopt_one(self, sender: Sender, path: str) -> None:
        try:
            if self.take_one(sender, Piece(path), lambda _: None):
                remove(path)
        except (ReadFault, Cut) as fault:
            self.set_journal_aside(sender, path, str(fault) or "Cut")

    def is_at_fault(
        self,
        sender: Sender,
        journals: Iterable[str],
        parts: Iterable[Part] = (),
        sessions: Sequence[int] = (),
    ) -> bool:
        """Whether an input is refused when it is joined alone."""
        return self.join(sender, os.devnull, journals, parts, sessions=sessions).status == 1

    def wait_for_room(self, sender: Sender, answer: Answer, size: int) -> None:
        """After a join that failed without an input at fault: makes room, if the disk is full."""
        state, wanted = self.states[sender], size + ROOM
        missing = wanted - self.free()
        removed = self.raw.trim(max(0, self.raw.size() - missing)) if missing > 0 else 0
        if removed:
            told = f"the disk is full: {removed} of the files in {self.raw.path} were removed"
            self.report.warn(told)
        state.wanted = wanted if missing > 0 else 0
        self.put_off(sender, answer.told)

    def free(self) -> int:
        found = os.statvfs(self.folder)
        return found.f_bavail * found.f_frsize

    def set_journal_aside(self, sender: Sender, path: str, told: str) -> None:
        """Sets a journal aside.

        Datagram files of its sender that are still there are joined again.
        """
        for part in self.incoming.found.get(sender, []):
            part.taken = len(HEADER)
        self.incoming.joined.write(self.incoming.parts.values())
        self.set_aside(path, told)

    def set_aside(self, path: str, told: str) -> None:
        name = os.path.basename(path)
        sender = sender_in(name)
        kept = self.aside.take(path, sender.stem() if sender else os.path.splitext(name)[0])
        self.report.fault(1, f"{path}: {told}; it is kept as {kept}")
