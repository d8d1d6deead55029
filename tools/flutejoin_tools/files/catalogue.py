"""The files of sessions, as FDT Instances describe them and as journals hold them."""
from __future__ import annotations

import itertools
import math
from typing import BinaryIO, Callable, Iterable, Iterator, Optional

from flutejoin_tools.common.log import Log
from flutejoin_tools.fdt import fdt, names
from flutejoin_tools.files.session import APART, Session, address_of
from flutejoin_tools.formats.entries import FILE
from flutejoin_tools.journals.holdings import Held, Key

MOST_FILES = 1 << 15  # descriptions of files in all
MOST_TOLD = 20  # lines of one kind that are printed


class Told:
    """Prints lines of one kind: the first ones, and then how many more there are."""

    def __init__(self, report: Log) -> None:
        self.report, self.count = report, 0

    def tell(self, text: str) -> None:
        """Reports a line, unless too many of its kind were."""
        self.count += 1
        if self.count <= MOST_TOLD:
            self.report.warn(text)

    def finish(self, what: str) -> None:
        """Reports how many lines were not."""
        if self.count > MOST_TOLD:
            self.report.warn(f"{self.count - MOST_TOLD} more {what}")


class Catalogue:
    """All sessions."""

    def __init__(self, report: Log, has_limits: bool) -> None:
        self.report, self.has_limits = report, has_limits
        self.sessions: dict[tuple[bytes, int], Session] = {}
        self.count = self.text = 0  # of the descriptions of files
        self.left = 0  # FDT Instances that were not read
        self.xml = fdt.XmlBudget() if has_limits else fdt.XmlBudget(math.inf)
        self.refused, self.notes = Told(report), Told(report)
        self.strays = 0  # objects that nothing describes
        self.without: set[tuple[bytes, int]] = set()  # sessions without a description, that count

    def session(self, source: bytes, tsi: int) -> Session:
        """The session of a sender with this TSI, which is added if it is new."""
        key = source, tsi
        if key not in self.sessions:
            self.sessions[key] = Session(source, tsi)
        return self.sessions[key]

    def of(self, key: Key) -> Session:
        """The session of an object."""
        return self.session(key.source, key.tsi)

    def describes(self, key: Key) -> bool:
        """Whether an FDT Instance describes this object."""
        session = self.sessions.get((key.source, key.tsi))
        return session is not None and key.tag == FILE and key.number in session.files

    def has(self, key: Key) -> bool:
        """Whether an object is described, or is one of the others that the list has."""
        session = self.sessions.get((key.source, key.tsi))
        if session is None or key.tag != FILE:
            return False
        return key.number in session.files or key.number in session.held

    def is_shown(self, key: Key) -> bool:
        """Whether the list has a line for an object; of those that nothing describes a few have."""
        if self.describes(key):
            return True
        if key.tag != FILE:
            return False
        self.strays += 1
        session = self.sessions.get((key.source, key.tsi))
        if self.strays > MOST_TOLD and session:
            session.strays += 1
        elif self.strays > MOST_TOLD:
            self.without.add((key.source, key.tsi))
        return self.strays <= MOST_TOLD

    def hold(self, found: Iterable[tuple[Key, Held]]) -> None:
        """Adds what a journal holds of objects."""
        for key, held in found:
            self.of(key).held[key.number] = held

    def read(self, session: Session, file: BinaryIO, number: Optional[int], name: str) -> None:
        """Reads an FDT Instance. If it is refused, that is reported, and the others are read."""
        whose = f"{session.title()}: FDT Instance {name}"
        try:
            instance = self.instance_of(session, file, number, name)
        except fdt.Spent:
            self.left += 1
            return
        except fdt.Refused as fault:
            self.report.status = max(self.report.status, 1)
            self.refused.tell(f"{whose}: {fault}")
            return
        for note, count in instance.notes.items():
            self.notes.tell(f"{whose}: {note}" + (f" ({count} times)" if count > 1 else ""))
        if self.has_room(session, instance):
            session.add(instance)
        else:
            self.left += 1

    def instance_of(
        self, session: Session, file: BinaryIO, number: Optional[int], name: str
    ) -> fdt.Instance:
        """Reads the XML of an FDT Instance. Raises fdt.Refused, and fdt.Spent."""
        return fdt.read_from(file, number, name, self.xml)

    def has_room(self, session: Session, instance: fdt.Instance) -> bool:
        """Whether there is room for what an FDT Instance adds, which is counted then."""
        count, text = self.count, self.text
        for toi, file in instance.files.items():
            if all(each.file != file for each in session.described(toi)):
                count, text = count + 1, text + file.text()
        if self.has_limits and (count > MOST_FILES or text > fdt.MOST_KEPT):
            return False
        self.count, self.text = count, text
        return True

    def finish_reading(self) -> None:
        """Reports what was wrong with FDT Instances, once all are read."""
        self.refused.finish("such FDT Instances")
        self.notes.finish("such notes")
        if self.left:
            several = "s were" if self.left > 1 else " was"
            self.report.fault(
                1,
                f"{self.left} FDT Instance{several} left, the older ones: the others take the "
                f"room for {MOST_FILES} descriptions of files; --any-size takes all",
            )

    def tell(self, lines_of: Callable[[Session], Iterator[str]], what: str) -> None:
        """Reports lines of all sessions: the first ones, and how many more there are."""
        told = Told(self.report)
        for line in itertools.chain.from_iterable(map(lines_of, self)):
            told.tell(line)
        told.finish(what)

    def settle(self) -> None:
        """Once all is checked: reports which descriptions differ, and which are suspect."""
        for session in self:
            session.settle()
        self.tell(Session.differences, "such differences")
        self.tell(Session.suspicions, "such FDT Instances")

    def __iter__(self) -> Iterator[Session]:
        return iter(self.sessions[key] for key in sorted(self.sessions))

    def contested(self) -> set[str]:
        """The paths for which files of several senders ask."""
        senders: dict[str, bytes] = {}
        claims = (claim for session in self for claim in session.claims())
        return {
            claim.path
            for claim in claims
            if senders.setdefault(claim.path, claim.key.source) != claim.key.source
        }

    def paths(self, owner_of: names.OwnerOf) -> dict[Key, str]:
        """The path of each file below the folder.

        Reports each path that another file's name changes, and notes which files are replaced by
        newer ones. `owner_of` gives the sender whose file has a path already.
        """
        claims = [claim for session in self for claim in session.claims()]
        claims.sort(key=lambda claim: -claim.certainty)
        paths, moved = names.assign(claims, owner_of), Told(self.report)
        for claim in claims:
            key = claim.key._replace(number=claim.key.number % APART)
            path, front = paths.by_object.get(claim.key, claim.path), key.text()
            owner = paths.owners.get(claim.key)
            if owner is not None:
                self.report.status = max(self.report.status, 1)
                mine = address_of(claim.key.source)
                moved.tell(
                    f"{front}: sender {address_of(owner)} has the name {claim.path}; it is {path} "
                    f"(--source {mine} gives it the name)"
                )
            elif path != claim.path:
                moved.tell(f"{front}: another file has the name {claim.path}; it is {path}")
        moved.finish("such names")
        for key in paths.replaced:
            self.of(key).replaced.add(key.number)
        return paths.by_object
