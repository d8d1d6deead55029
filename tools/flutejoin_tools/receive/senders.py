"""The senders of one folder, with the datagrams that wait to be written.

One thread uses all this. It hands orders over to the writer's, and reads nothing that the writer
changes, but for the number of a file.
"""
from __future__ import annotations

import collections
import heapq
import ipaddress
import itertools
import os
from typing import TYPE_CHECKING, AbstractSet, Iterable, Iterator, Optional

from flutejoin_tools.common.addresses import IPAddress
from flutejoin_tools.common.faults import Fault
from flutejoin_tools.common.file_names import Name, file_name, name_of, stem
from flutejoin_tools.common.shell import gather_lines, join_lines
from flutejoin_tools.formats.records import HEADER, PIECE, Buffer
from flutejoin_tools.receive.found import look_at
from flutejoin_tools.receive.growing import Block, Growing, Grown
from flutejoin_tools.receive.newcomers import Newcomer, Newcomers, Pace, RateLimit
from flutejoin_tools.receive.sender import ENOUGH, TOO_SLOW, UNWRITTEN, Sender
from flutejoin_tools.receive.voice import EachMinute, note
from flutejoin_tools.receive.writer import Folder, Writer

if TYPE_CHECKING:
    from flutejoin_tools.receive.sessions import Session

MOST_SILENT = 4096  # silent senders whose totals are remembered
# How many times as much as a sender with a place a newcomer has to send that gets it: or else two
# that send alike would change places again and again. Of the sender of most bytes it is more.
MORE, MUCH_MORE = 1.25, 16
FILES_A_MINUTE = 16  # of all who sent little

FEW_CAME = f"of new senders that sent little, beyond {FILES_A_MINUTE} in a minute"
OUTDONE = "senders of more bytes than one that was kept"
WAY_OUT = "(--senders takes more, and --from names the one)"


class Senders:
    """All senders of a folder.

    Anyone who can send here can make addresses up. So a sender has a place by what it sent in the
    last seconds, and without one it has no file.
    """

    def __init__(self, folder: Folder, writer: Writer, most: int, split: int) -> None:
        self.folder, self.writer, self.most, self.split = folder, writer, most, split
        self.admitted: dict[IPAddress, Sender] = {}
        self.known: dict[IPAddress, Sender] = {}  # others that have files
        self.found: dict[str, int] = {}  # of still others the number of the newest
        self.remembered: collections.deque[Sender] = collections.deque()
        self.newcomers = Newcomers()
        self.files = RateLimit(most, FILES_A_MINUTE)
        self.forgotten = self.outdone = 0
        self.causes: collections.Counter[str] = collections.Counter()
        self.minutely = EachMinute()

    def sender(self, address: IPAddress) -> Sender:
        """A new sender, with its files in the folder."""
        return Sender(Growing(self.folder.path, address, self.writer.opened), self)

    def look(self, only: AbstractSet[IPAddress]) -> None:
        """Looks for the files of earlier runs: of these senders, or of all, if these are none.

        The newest files of those who sent most are read, of as many as may send. This comes before
        anything is received, since long files take seconds. No file stays open.
        """
        packed = {address.packed for address in only}
        sizes: collections.Counter[str] = collections.Counter()
        for entry in self.folder.entries():
            address, epoch, part = entry.name
            if epoch == 1 and (not packed or address.packed in packed):
                text = str(address)
                self.found[text] = max(self.found.get(text, part), part)
                sizes[text] += entry.size
        most = len(sizes) if packed else self.most
        chosen = heapq.nlargest(most, sizes, key=lambda text: sizes[text])
        for text in chosen:
            sender = self.go_on(ipaddress.ip_address(text))
            sender.total = sizes[text]
            self.known[sender.growing.address] = sender

    def go_on(self, address: IPAddress, most: Optional[int] = None) -> Sender:
        """A sender that has files. The newest is read, unless it has more than `most` bytes."""
        sender = self.sender(address)
        part, growing = self.found.pop(str(address)), sender.growing
        growing.part = part
        try:
            found = look_at(self.folder.path, Name(address, 1, part), most)
        except Fault as fault:
            if os.path.lexists(growing.path()):
                note(f"{fault}; another file is begun for its sender")
            growing.part += 1
            return sender
        sender.hint = found.hint
        if found.size is None:
            growing.part += 1
        else:
            growing.go_on(found.identity, found.size, found.records)
            sender.grown, sender.total = found.size or len(HEADER), found.size
            sender.records = sender.handed = found.records
        self.remember(sender)
        return sender

    def remember(self, sender: Sender) -> None:
        """Keeps what a sender sent of FDT Instances, for as many senders as may send."""
        if sender.hint.hashes:
            self.remembered.append(sender)
            if len(self.remembered) > self.most:
                other = self.remembered.popleft()
                is_admitted = other.growing.address in self.admitted
                if not is_admitted and other not in self.remembered:
                    other.hint.hashes.clear()

    def place(self, address: IPAddress, now: float) -> Optional[Sender]:
        """The sender of this address, if it has a place or gets a free one at once."""
        if address not in self.admitted:
            if len(self.admitted) >= self.most:
                return None
            if not self.has_file(address) and not self.files.take(now):
                return None
        return self.admit(address)

    def has_file(self, address: IPAddress) -> bool:
        return address in self.known or bool(self.found) and str(address) in self.found

    def hold(
        self, key: bytes, address: IPAddress, session: Session, datagram: Buffer, now: float
    ) -> None:
        """Keeps a datagram of a new sender without a place, until that may get one."""
        known, earlier = self.known.get(address), None
        if known or self.found and str(address) in self.found:
            earlier = known.total if known else 0
        newcomer = Newcomer(address, earlier, now)
        self.newcomers.by_key[key] = newcomer
        self.hold_more(newcomer, session, datagram)

    def hold_more(self, newcomer: Newcomer, session: Session, datagram: Buffer) -> None:
        """Keeps a further datagram of a newcomer; of too much the least is left out."""
        if not self.newcomers.hold(newcomer, session, datagram):
            session.full += 1
            return
        if self.newcomers.are_many():
            self.leave_out(self.newcomers.halve())
        for of_one in self.newcomers.lighten():
            of_one.full += 1

    def give_places(self, now: float, is_end: bool = False) -> None:
        """Gives places to newcomers that sent enough or waited long: those first that sent most.

        At the end of a run all that waits is written where there is a place, of those first that
        sent most in the last seconds: so that nobody loses a place that was got just now.
        """
        for sender in self.admitted.values():
            sender.pace.measure(sender.sent())
        self.newcomers.measure()
        waiting = self.newcomers.by_key
        top = max((sender.sent() for sender in self.admitted.values()), default=0)
        ready = [key for key, it in waiting.items() if is_end or it.is_ready(now)]
        sent = {key: waiting[key].pace.recent if is_end else waiting[key].bytes for key in ready}
        ready.sort(key=lambda key: (waiting[key].total() > top, sent[key]), reverse=True)
        least, wanted = self.first_to_go()
        for key in ready:
            newcomer = waiting[key]
            may_begin = newcomer.has_file or newcomer.bytes >= ENOUGH or self.files.has(now)
            has_place = newcomer.pace.recent > wanted or newcomer.total() > top
            if has_place and (may_begin or is_end):
                if least:
                    self.retire(least)
                self.settle(key, now)
                least, wanted = self.first_to_go()
            elif is_end or newcomer.is_late(now):
                self.leave_out([self.newcomers.remove(key)], FEW_CAME if has_place else None)
            elif newcomer.lost():
                self.compare(newcomer, self.least())

    def first_to_go(self) -> tuple[Optional[Sender], float]:
        """The sender whose place the next one gets, and how much that has to send for it.

        None if a place is free. The sender of most bytes is the last to go.
        """
        if len(self.admitted) < self.most:
            return None, float("-inf")
        first = max(self.admitted.values(), key=Sender.sent)
        least = min(self.admitted.values(), key=lambda it: (it is first, it.pace.recent))
        return least, (MUCH_MORE if least is first else MORE) * least.pace.recent

    def settle(self, key: bytes, now: float) -> None:
        """Gives a newcomer its place, and keeps what waited of it."""
        newcomer = self.newcomers.remove(key)
        if not newcomer.has_file and newcomer.bytes < ENOUGH:
            self.files.take(now)
        sender = self.admit(newcomer.address)
        for session, datagram in newcomer.held:
            session.keep(key, sender, datagram, now)
        sender.hand_over()
        sender.pace.recent = newcomer.pace.recent
        sender.pace.before = sender.total

    def leave_out(self, newcomers: Iterable[Newcomer], cause: Optional[str] = None) -> None:
        """Counts what waited of newcomers, which get no place."""
        least = self.least()
        for newcomer in newcomers:
            if cause is not None:
                self.causes[cause] += len(newcomer.held)
            for session, _ in newcomer.held if cause is None else ():
                session.full += 1
            self.compare(newcomer, least)

    def least(self) -> int:
        """The bytes of the sender with a place that sent least in all."""
        return min((sender.sent() for sender in self.admitted.values()), default=0)

    def compare(self, newcomer: Newcomer, least: int) -> None:
        """Counts a newcomer of which something is left out, if it sent more than another."""
        if newcomer.bytes > least and not newcomer.is_outdone:
            newcomer.is_outdone = True
            self.outdone += 1

    def retire(self, sender: Sender) -> None:
        """Takes its place from a sender. Of MOST_SILENT such senders the totals are remembered."""
        sender.hand_over()
        for table, key in sender.keys:
            table.pop(key, None)
        sender.keys.clear()
        sender.adapting.forget()
        address = sender.growing.address
        self.known[address] = self.admitted.pop(address)
        self.remember(sender)
        if len(self.known) > MOST_SILENT:
            other = self.known.pop(next(iter(self.known))).growing
            self.found[str(other.address)] = other.part
            self.forgotten += 1

    def admit(self, address: IPAddress) -> Sender:
        """Gives a place to the sender of this address, unless it has one, and returns it."""
        sender = self.admitted.get(address)
        if sender is None:
            sender = self.known.pop(address, None)
            if sender is None and self.found and str(address) in self.found:
                sender = self.go_on(address, PIECE)
            self.admitted[address] = sender = sender or self.sender(address)
            sender.pace = Pace(sender.total)
        return sender

    def all(self) -> Iterable[Sender]:
        return itertools.chain(self.known.values(), self.admitted.values())

    def heard(self) -> list[Sender]:
        """The senders that sent something in this run: silent ones at most as many as may send."""
        silent = [sender for sender in self.known.values() if sender.datagrams]
        return silent[-self.most :] + list(self.admitted.values())

    def hand_over(self) -> None:
        """Hands what waits of all senders to the writer."""
        for sender in self.admitted.values():
            sender.hand_over()

    def each_second(self, now: float) -> None:
        """What is done once a second: gives places, and tells what is left out."""
        self.give_places(now)
        for cause, count in self.causes.items():
            self.minutely.tell(cause, count, now)
        self.minutely.tell(OUTDONE, self.outdone, now, f"left out {{}} {{}} {WAY_OUT}")

    def finish(self) -> None:
        """At the end of a run: counts what could not be written as left out."""
        self.folder.look()
        for growing in {sender.growing for sender in self.all()} | self.writer.unfinished:
            if growing.folder == self.folder.path:
                growing.finish()
                lost = growing.lost + sum(
                    order.records for order in growing.orders if isinstance(order, Block)
                )
                if lost:
                    self.causes[UNWRITTEN] += lost
        if self.forgotten:
            note(f"{self.folder.path}: {self.forgotten} senders more that fell silent have files")

    def left_out(self) -> collections.Counter[str]:
        return self.causes

    def unwritten(self) -> int:
        """How many datagrams could not be written."""
        return self.causes[UNWRITTEN] + self.causes[TOO_SLOW]

    def grew(self) -> Iterator[tuple[Sender, list[Grown]]]:
        """Yields the senders whose files grew, each with those files that are still there."""
        for sender in self.all():
            files = [grown for grown in sender.growing.done if os.path.lexists(grown.path)]
            if files:
                yield sender, files

    def lines(self) -> Iterator[str]:
        """Yields the lines of a run's end about files that grew."""
        for sender, files in self.grew():
            for path, records, new in files:
                more = f", {new} of them new" if new < records else ""
                yield f"{path}: {records} datagrams from {sender.growing.address}{more}"

    def join_lines(self) -> Iterator[str]:
        """Yields the commands that join the files of each sender that grew, old ones too."""
        parts = collections.defaultdict(list)
        for name in map(name_of, self.folder.names()):
            if name and name.epoch == 1:
                parts[name.address].append(name.part)
        for sender, _ in self.grew():
            address = sender.growing.address
            journal = self.path(stem(str(address)) + ".journal")
            paths = [self.path(file_name(str(address), part)) for part in sorted(parts[address])]
            if sender.hint.has_changed:
                yield from gather_lines(self.folder.path, paths)
            else:
                yield from join_lines(address.packed, journal, paths)

    def path(self, name: str) -> str:
        return os.path.join(self.folder.path, name)
