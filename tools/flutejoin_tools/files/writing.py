"""Writes whole objects as named files, after checking each."""
from __future__ import annotations

import collections
import contextlib
import os
from typing import Container, Iterator, NamedTuple, Optional

from flutejoin_tools.common.gaps import WHOLE
from flutejoin_tools.common.log import Log
from flutejoin_tools.common.places import Place, Scratch, bring_to_disk
from flutejoin_tools.common.texts import shown
from flutejoin_tools.fdt import content, names
from flutejoin_tools.fdt.content import Checked, DecodingBudget, Verdict
from flutejoin_tools.fdt.names import UNVERIFIED
from flutejoin_tools.files.catalogue import Catalogue
from flutejoin_tools.files.owners import Owners
from flutejoin_tools.files.session import Outcome, Session
from flutejoin_tools.journals.holdings import Key
from flutejoin_tools.journals.states import State

WRONG = (Verdict.WRONG, Verdict.WRONG_MD5)  # of these the file gets another ending


class Ready(NamedTuple):
    """An object that was checked, and the file that was made of it."""

    session: Session
    toi: int
    checked: Checked
    source: str
    md5: Optional[bytes]  # of the file, if it was found


class Writing:
    """The files of one run: first all are checked, then synced, then given their names."""

    def __init__(
        self, catalogue: Catalogue, scratch: Scratch, most: DecodingBudget, report: Log
    ) -> None:
        self.catalogue, self.scratch, self.most, self.report = catalogue, scratch, most, report
        self.ready: dict[Key, Ready] = {}
        os.mkdir(scratch.at("decoded"))

    def find(self, folder: str, named: bytes | None) -> None:
        """Finds the files that are there already, with the MD5 of their only description.

        Their objects need not be extracted.
        """
        if not os.path.isdir(folder):
            return
        claims = [claim for session in self.catalogue for claim in session.claims()]
        asked = collections.Counter(claim.path for claim in claims)
        folders = names.folders_of(claims)
        with contextlib.closing(Place(folder)) as place:
            owner_of = Owners(place, self.catalogue, named).of
            for claim in claims:
                is_free = asked[claim.path] == 1 and claim.path not in folders
                if is_free and owner_of(claim.path) in (None, claim.key.source):
                    self.find_one(place, claim)

    def find_one(self, place: Place, claim: names.Claim) -> None:
        """Notes that a file is verified if the folder has it already with the right MD5."""
        session, toi = self.catalogue.of(claim.key), claim.key.number
        described, file = session.described(toi), session.files[toi].file
        if len(described) > 1 or session.is_left_alone(toi) or not file.md5:
            return
        if place.has(claim.path, file.length, file.md5, session.source):
            told = "MD5 of the decoded bytes" if file.encoding else ""
            checked = Checked(Verdict.VERIFIED, told, False)
            session.states[toi] = State(WHOLE)
            session.check(toi, checked, described[0])
            session.outcomes[toi] = Outcome(checked, claim.path, None)

    def check(self, only: Container[Key] | None = None) -> None:
        """Checks the whole objects, or some of them, those of newer descriptions first."""
        whole = sorted(self.whole(), key=lambda it: it[0].files[it[1]].rank, reverse=True)
        for session, toi in whole:
            if only is None or session.key(toi) in only:
                self.check_one(session, toi)

    def whole(self) -> Iterator[tuple[Session, int]]:
        """Yields the whole objects, by session and TOI, of which no file is there yet."""
        for session in self.catalogue:
            for toi in session.files:
                is_whole = session.state(toi).is_whole() and toi not in session.outcomes
                if is_whole and session.usable(toi):
                    yield session, toi

    def check_one(self, session: Session, toi: int) -> None:
        """Checks a whole object by its descriptions, and decodes it; then it is ready."""
        key, described = session.key(toi), session.usable(toi)
        source, decoded = (self.scratch.at(os.path.join(at, key.file_name())) for at in FOLDERS)
        try:
            of = content.Check(source, [each.file for each in described], self.most, decoded)
            at, checked = of.result()
            if checked.is_decoded:
                os.remove(source)
                source = of.place(described[at].file.encoding)
        except OSError as fault:
            self.report.fault(3, f"{shown(described[0].file.location)}: {fault.strerror}")
            return
        session.check(toi, checked, described[at])
        md5 = of.digest(described[at].file.encoding if checked.is_decoded else "")
        self.ready[key] = Ready(session, toi, checked, source, md5)

    def write(self, folder: str, named: bytes | None) -> None:
        """Gives the files their names. The sender `named` gets the names that it asks for."""
        if any(each.session.is_encoded(each.toi) for each in self.ready.values()):
            bring_to_disk(self.scratch.folder)
        place = Place(folder)
        try:
            paths = self.catalogue.paths(Owners(place, self.catalogue, named).of)
            for key, ready in sorted(self.ready.items()):
                if key in paths:
                    self.write_one(place, ready, paths[key])
            bring_to_disk(place.folder)
        finally:
            place.close()

    def write_one(self, place: Place, ready: Ready, named: str) -> None:
        """Moves a file that is ready to the name `named`; a wrong one gets an ending."""
        is_wrong = ready.checked.verdict in WRONG
        path = named + (UNVERIFIED if is_wrong else "")
        if ready.checked.verdict is Verdict.LEFT:
            ready.session.outcomes[ready.toi] = Outcome(ready.checked, path, None)
            return
        try:
            new = place.move_in(ready.source, path, ready.session.source)
            if not is_wrong:
                place.remove(path + UNVERIFIED)
        except OSError as fault:
            name = os.path.join(place.path, path)
            self.report.fault(3, f"{shown(name)}: {told_of(fault)}")
            return
        ready.session.outcomes[ready.toi] = Outcome(ready.checked, path, new)


FOLDERS = "objects", "decoded"  # in the scratch folder


def told_of(fault: OSError) -> str:
    """The reason, as text, why a file cannot be put in its place."""
    if isinstance(fault, NotADirectoryError):
        return "a file or a link is in the way, where a folder is wanted"
    return fault.strerror or str(fault)
