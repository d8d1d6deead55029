"""What a station keeps: it joins its datagram files into journals, and then removes them.

A datagram file is removed once its facts are in a journal on the disk, and its FDT Instances in
documents; a fact that is joined twice is one fact. So a kill at any moment loses nothing, and only
repeats the join that it interrupted.
"""
from __future__ import annotations

import os
import time
from typing import Iterator, Sequence

from flutejoin_tools.common.file_names import PARTIAL
from flutejoin_tools.common.joining import largest_sessions, write_others
from flutejoin_tools.common.program import FULL, Answer, Failed, Program
from flutejoin_tools.common.service_log import ServiceLog
from flutejoin_tools.common.shell import MOST_INPUTS
from flutejoin_tools.common.shelves import begin_file, bring_to_disk, changed_at, copy, remove
from flutejoin_tools.formats.reading import EMPTY
from flutejoin_tools.gather.generations import Contents, contents_of
from flutejoin_tools.gather.layers import pieces_of
from flutejoin_tools.station.completing import Completing
from flutejoin_tools.station.incoming import Part, Sender, State
from flutejoin_tools.station.kept import Kept, Settings
from flutejoin_tools.station.voice import Counts, line_of

MOST_AT_ONCE = 1 << 27  # bytes of the datagram files of one join, which holds them in memory
AT_A_TIME = 1  # seconds of joins until it is looked again who has most


class Keeper(Kept):
    """Joins the files that a receiver writes to a folder into journals beside that."""

    def __init__(
        self, folder: str, program: Program, settings: Settings, report: ServiceLog
    ) -> None:
        super().__init__(folder, program, settings, report)
        self.counts = Counts(report, program)
        self.completing = Completing(
            program,
            self.kept,
            lambda sender, key: self.documents.known_of(sender.stem()).numbers.get(key),
        )
        self.handed_on = (self.fresh, settings.delivers), (self.outbox, settings.has_outbox)
        self.has_more = False  # since the last look
        self.is_adopted = False  # what earlier versions left
        self.make_folders()
        for shelf in self.recent, self.journals, self.outbox, self.raw, self.aside, self.fresh:
            shelf.clear_partial()
        self.raw.trim(settings.keep_raw)
        self.room.look()

    def make_folders(self) -> None:
        """Makes the folders that are missing, also if somebody removed them meanwhile."""
        for path in self.incoming.path, self.recent.path, self.journals.path:
            os.makedirs(path, exist_ok=True)
        if self.settings.has_outbox:
            os.makedirs(self.outbox.path, exist_ok=True)
        if self.settings.delivers:
            os.makedirs(self.fresh.path, exist_ok=True)

    def work(self, is_receiving: bool, has_patience: bool = True) -> bool:
        """Joins what is due, for some time, and returns whether anything was.

        The sender that has most bytes comes first. Without patience, joins that failed are repeated
        at once.
        """
        self.incoming.is_receiving = is_receiving
        self.make_folders()
        if not self.is_adopted:
            self.is_adopted = True
            self.adopt()
        if not is_receiving or time.monotonic() >= self.incoming.look_at:
            self.look()
            self.has_more = True
        if self.has_more:
            self.has_more = self.work_for_a_time(has_patience)
        self.keep_house()
        return is_receiving and self.merges.tend() or self.has_more

    def work_for_a_time(self, has_patience: bool) -> bool:
        began, has_worked, found = time.monotonic(), False, self.incoming.found
        for sender in sorted(found, key=lambda it: -sum(part.size for part in found[it])):
            has_worked = self.work_at(sender, found[sender], has_patience) or has_worked
            if self.incoming.is_receiving and has_worked and time.monotonic() >= began + AT_A_TIME:
                break
        return has_worked

    def work_at(self, sender: Sender, parts: list[Part], has_patience: bool) -> bool:
        """Joins what is due of a sender. Returns whether anything was."""
        state, now = self.states[sender], time.monotonic()
        if has_patience and now < state.next_try and not 0 < state.wanted <= self.free():
            return False
        is_waiting = self.incoming.is_receiving and not self.completing.is_due(sender, now)
        every, joins = self.settings.every if is_waiting else 0, state.joins
        due = [part for part in parts if state.is_due(part, now, every)]
        if due:
            self.attempt(sender, lambda: self.bring(sender, self.batch(state, due)))
        if state.joins > joins:
            self.completing.joined(sender, now)
        self.retire(sender, parts)
        return bool(due)

    def keep_house(self) -> None:
        """Does what comes every few seconds."""
        self.incoming.joined.write_at_times(self.incoming.parts.values())
        self.room.keep_at_times()
        self.counts.tell()
        self.counts.tell_hourly(lambda: line_of(self))

    def look(self) -> None:
        """Looks at the datagram files, and drops the states of senders that have none."""
        self.incoming.look()
        if self.incoming.is_receiving:  # else all is joined in any case
            self.completing.look(self.incoming.found)
        now = time.monotonic()
        for sender, part, told in self.incoming.faults:
            if now >= self.states[sender].next_try:
                self.attempt(sender, lambda: self.set_aside(part.path, told))
        for sender in [it for it in self.states if it not in self.incoming.found]:
            if now >= self.states[sender].next_try:
                del self.states[sender]
        self.documents.forget(sender.stem() for sender in self.incoming.found)

    def batch(self, state: State, due: list[Part]) -> list[Part]:
        """The first of the files that are due, as many as one join takes.

        A suspect is joined alone, as is one where the disk had too little room, and at most one
        file goes through a pipe.
        """
        chosen, size = due[:1], due[0].end
        if state.wanted:
            return chosen
        for part in due[1 : MOST_INPUTS - 1]:
            size += part.end
            is_alone = chosen[0].path in state.suspects or part.path in state.suspects
            are_piped = not part.is_plain() and not all(it.is_plain() for it in chosen)
            if is_alone or are_piped or size > MOST_AT_ONCE:
                break
            chosen.append(part)
        return chosen

    def bring(self, sender: Sender, batch: list[Part], sessions: Sequence[int] = ()) -> bool:
        """Joins datagram files into the journals of their sender, or these sessions of them.

        Returns whether it did.
        """
        ends = [part.end for part in batch]
        new = os.path.join(self.recent.path, f"{sender.stem()}.new{PARTIAL}")
        try:
            with begin_file(new) as out:
                answer = self.join(sender, out, [], batch, sessions=sessions, without_fdt=True)
            if answer.status:
                self.answer_fault(sender, batch, answer, sessions)
                return False
            documents = changed_at(self.documents.path)
            if answer.count("others"):
                self.keep_instances(sender, batch)
            if changed_at(self.documents.path) != documents and self.settings.has_outbox:
                self.hand_on_nothing(sender)
            if not self.take(sender, batch, new):
                return False
        finally:
            remove(new)
        self.states[sender].refused += answer.count("refused")
        self.states[sender].reasons += answer.reasons()
        self.counts.add(sender.stem(), answer)
        for part, end in zip(batch, ends):
            part.taken, part.joined_at = end, time.monotonic()
        if self.states[sender].succeed(time.monotonic()):
            self.report.warn(f"{sender.stem()}: is joined again")
            self.report.end_fault(sender.stem())
        return True

    def hand_on_nothing(self, sender: Sender) -> None:
        """Has FDT Instances pushed, which go with journals, also where no symbol is new."""
        path = self.outbox.next(sender.stem(), ".journal")
        with begin_file(path + PARTIAL) as out:
            out.write(EMPTY)
        os.rename(path + PARTIAL, path)
        bring_to_disk(path)

    def keep_instances(self, sender: Sender, batch: list[Part]) -> None:
        """Keeps the FDT Instances of datagram files, so that these may go."""
        for part in batch:
            when = min(time.time(), part.changed)
            self.documents.take(sender.stem(), self.program.tending(part.fed().datagrams()), when)
        if self.documents.left:
            told = f"{self.documents.left} FDT Instances are left out, as too many came at a time"
            self.report.warn(f"{sender.stem()}: {told}")
            self.documents.left = 0

    def take(self, sender: Sender, batch: list[Part], new: str) -> bool:
        """Takes a journal of datagram files into those that are kept; False if that failed.

        Objects of which the files have several values are taken apart before.
        """

        def join(out: str, path: str) -> Answer:
            return self.program.join(sender.address.packed, out, [path], without_fdt=True)

        def hand_on(path: str) -> None:
            for shelf, is_wanted in self.handed_on:
                if is_wanted:
                    copy(path, shelf.next(sender.stem(), ".journal"))

        def datagrams() -> Iterator[bytes]:
            for part in batch:
                yield from self.program.tending(part.fed().datagrams())

        known = self.documents.known_of(sender.stem()).numbers
        try:
            found = Contents(set(), set())
            if known or self.indexes.of(new).has_conflict:
                found = contents_of(new, known)
            for piece in pieces_of(new, join, datagrams, known, found):
                if not self.take_one(sender, piece, hand_on):
                    return False
        except Failed as fault:
            self.wait_for_room(sender, fault.answer, sum(part.end for part in batch))
            return False
        if self.settings.has_outbox:
            self.join_outbox(sender)
        return True

    def answer_fault(
        self, sender: Sender, batch: list[Part], answer: Answer, sessions: Sequence[int]
    ) -> None:
        """After a join that failed: sets the input at fault aside, and the others can be joined."""
        if answer.status != 1:
            self.wait_for_room(sender, answer, sum(part.end for part in batch))
        elif len(batch) > 1:
            self.states[sender].suspects.update(part.path for part in batch)
        elif answer.told == FULL:
            self.bring_sessions(sender, batch[0], sessions)
        elif batch[0].is_last and self.incoming.is_receiving:
            self.put_off(sender, answer.told)
        else:
            self.set_aside(batch[0].path, answer.told)

    def bring_sessions(self, sender: Sender, part: Part, sessions: Sequence[int]) -> None:
        """Joins the sessions with most datagrams of a file that is more than one join takes.

        The datagrams of the others are set aside, so that nothing is read again and again; all, if
        these sessions are too much as well.
        """
        fed = part.fed()
        if not sessions:
            sessions = largest_sessions(self.program, fed)
            if sessions and not self.bring(sender, [part], sessions):
                return
        else:
            sessions, part.taken = [], fed.end
        kept = self.aside.next(sender.stem(), ".fldg")
        try:
            os.makedirs(self.aside.path, exist_ok=True)
            count = write_others(self.program, fed, sessions, kept)
            bring_to_disk(kept)
        except OSError:
            part.taken = fed.begin
            raise
        told = f"; those of the {len(sessions)} sessions with most are joined" if sessions else ""
        self.report.fault(1, f"{part.path}: {FULL}: {count} datagrams are kept as {kept}{told}")

    def retire(self, sender: Sender, parts: list[Part]) -> None:
        """Removes each datagram file that is joined to its end, except for the last one.

        The receiver continues that one, even after a restart.
        """
        for part in parts:
            if not part.is_last and not part.is_new():
                self.attempt(sender, lambda: self.take_away(sender, part))

    def take_away(self, sender: Sender, part: Part) -> None:
        """Removes a datagram file or keeps it raw; one that is cut is set aside."""
        if not part.is_finished():
            return
        self.states[sender].suspects.discard(part.path)
        if part.end < part.size:
            self.set_aside(part.path, "is cut at its end; what stands before that is joined")
        elif self.settings.keep_raw:
            self.raw.take(part.path, sender.stem())
            self.raw.trim(self.settings.keep_raw)
        else:
            remove(part.path)

    def waiting(self) -> int:
        """The bytes of datagrams that are still to be joined."""
        self.look()
        return self.incoming.waiting()

    def finish(self) -> None:
        """At the end of a run: says what is left to say, and for the next run what is joined."""
        self.merges.stop()
        self.incoming.joined.write(self.incoming.parts.values())
        self.room.look()
        self.counts.tell_last()
