"""Makes files of the objects that may have become whole: reads nothing else, and writes no more."""
from __future__ import annotations

import errno
import os
from typing import NamedTuple, Optional, Sequence

from flutejoin_tools.centre.symbols import Contents, contents_of
from flutejoin_tools.common.faults import Fault
from flutejoin_tools.common.log import INFORMATION, Log
from flutejoin_tools.common.places import Scratch
from flutejoin_tools.common.program import Program
from flutejoin_tools.common.texts import shown
from flutejoin_tools.fdt.content import DecodingBudget, Verdict, md5_of
from flutejoin_tools.fdt.instances import Found
from flutejoin_tools.files.catalogue import Catalogue
from flutejoin_tools.files.delivery import Delivery, Wanted
from flutejoin_tools.files.session import APART, Session
from flutejoin_tools.files.writing import WRONG, Ready, Writing
from flutejoin_tools.journals.holdings import Choice

LEAST_MOST, RATIO = 10**9, 16  # bytes that are decoded: the greater of this and of these times


class Once(Log):
    """Passes on each line once: what differs is the same in each round."""

    MOST = 1 << 14  # lines

    def __init__(self, report: Log) -> None:
        super().__init__(report.tool)
        self.report = report
        self.said: set[str] = set()

    def warn(self, text: str, priority: int = INFORMATION) -> None:
        if len(self.said) >= self.MOST:
            self.said.clear()
        if text not in self.said:
            self.said.add(text)
            self.report.warn(text, priority)

    def fault(self, status: int, text: str) -> None:
        self.warn(text)


class Chosen(Delivery):
    """The objects of some journals, and the documents that describe them."""

    def __init__(
        self,
        program: Program,
        journals: list[str],
        scratch: Scratch,
        catalogue: Catalogue,
        documents: Sequence[Found],
    ) -> None:
        super().__init__(program, journals, Wanted(None, ()), scratch, catalogue)
        self.documents = documents

    def join(self) -> None:
        """Joins as a `Delivery` does; but a single journal is not looked through first: it is read
        whole when its objects are extracted."""
        if len(self.journals) > 1:
            super().join()
            return
        (self.journal,) = self.journals
        self.name = shown(self.journal)

    def describe(self, is_shown: Choice) -> str:
        """As a `Delivery`; but a journal stays if all of it is described, and nothing is added."""
        keys = (session.key(toi) for session in self.catalogue for toi in session.held)
        is_all = all(map(is_shown, keys)) and not self.catalogue.strays
        if is_all and not any(True for session in self.catalogue for _ in session.added()):
            return self.journal
        return super().describe(is_shown)

    def read_instances(self, others: Sequence[str]) -> None:
        """Reads the documents that were chosen, and none of the journals."""
        for each in self.documents:
            session = self.catalogue.session(each.source, each.tsi)
            with open(each.path, "rb") as file:
                name = f"{each.number}-{each.digest[:8]}"
                self.catalogue.read(session, file, each.number, name)


class Checking(Writing):
    """The files of a round, with the sums of the objects that they are made of."""

    def __init__(
        self, catalogue: Catalogue, scratch: Scratch, most: DecodingBudget, report: Log
    ) -> None:
        super().__init__(catalogue, scratch, most, report)
        self.contents: dict[tuple[bytes, int, int], Optional[Contents]] = {}

    def check_one(self, session: Session, toi: int) -> None:
        """As `Writing`; the sums of the object are made before it is decoded."""
        source = self.scratch.at(os.path.join("objects", session.key(toi).file_name()))
        of = session.source, session.tsi, toi
        self.contents[of] = contents_of(source, session.information(toi))
        super().check_one(session, toi)


class Made(NamedTuple):
    """A file that was made of an object, and is right as far as anything tells."""

    ready: Ready
    md5: bytes
    size: int
    contents: Optional[Contents]
    is_plain: bool  # whether no journal has another value of a symbol of it

    def described(self) -> Optional[bytes]:
        """The MD5 in the file's description; None if it has none."""
        return self.ready.session.files[self.ready.toi].file.md5


class Outcome(NamedTuple):
    """What a round made, and what is wrong of what is whole: why, by sender, TSI and TOI."""

    made: list[Made]
    wrong: dict[tuple[bytes, int, int], str]
    catalogue: Catalogue


def is_full(fault: Exception) -> bool:
    """Whether a fault may be that of a full disk: the program tells no more than that."""
    if isinstance(fault, OSError):
        return fault.errno in (errno.ENOSPC, errno.EDQUOT, errno.EIO)
    return isinstance(fault, Fault) and fault.status == 3


def make(
    program: Program,
    journals: list[str],
    scratch: Scratch,
    documents: Sequence[Found],
    report: Log,
) -> Outcome:
    """Makes files of all objects of these journals that are whole. They are in `scratch`.

    Raises Fault and OSError; then nothing is delivered, and the journals are as they were.
    """
    catalogue = Catalogue(report, False)
    delivery = Chosen(program, journals, scratch, catalogue, documents)
    others = journals if len(journals) > 1 else []
    delivery.read((), others)
    most = max(LEAST_MOST, RATIO * sum(map(os.path.getsize, journals)))
    writing = Checking(catalogue, scratch, DecodingBudget(most), report)
    delivery.extract_all()
    writing.check()
    resolved = delivery.resolve(others)
    writing.check(resolved)
    made, wrong = [], {}
    for ready in writing.ready.values():
        of = ready.session.source, ready.session.tsi, ready.toi
        if ready.checked.verdict in (*WRONG, Verdict.LEFT):
            told = f" ({ready.checked.told})" if ready.checked.told else ""
            wrong[(*of[:2], ready.toi % APART)] = f"{ready.checked.verdict.value}{told}"
            continue
        size, is_plain = os.stat(ready.source).st_size, ready.session.key(ready.toi) not in resolved
        md5 = ready.md5 or md5_of(ready.source)
        made.append(Made(ready, md5, size, writing.contents.get(of), is_plain))
    return Outcome(made, wrong, catalogue)
