"""Prints the files of sessions: as a table, and as a line of numbers."""
from __future__ import annotations

import collections
import itertools
import json
from typing import Iterator

from flutejoin_tools.common import gaps
from flutejoin_tools.fdt import fdt
from flutejoin_tools.fdt.content import Verdict
from flutejoin_tools.files.catalogue import MOST_TOLD, Catalogue
from flutejoin_tools.files.session import APART, Outcome, Session, address_of
from flutejoin_tools.journals.holdings import NOTHING

HEAD = ("toi", "bytes", "have", "state", "type", "name")
RIGHT = 3  # columns that are aligned to the right
MOST_NAME = 300  # characters of a name in a line


def ranges(numbers: list[int]) -> str:
    """Numbers as text: 1-3, 5."""
    runs: list[list[int]] = []
    for number in sorted(set(numbers)):
        if runs and number == runs[-1][1] + 1:
            runs[-1][1] = number
        else:
            runs.append([number, number])
    return ", ".join(
        f"{one}-{last}" if last > one + 1 else ", ".join(map(str, range(one, last + 1)))
        for one, last in runs
    )


def title(session: Session) -> str:
    """The line of a session: its FDT Instances, and which is the newest."""
    if session.newest is None:
        return f"{session.title()}: no FDT Instance"
    numbers = ranges([int(head.name) for head in session.heads if head.is_named_by_number()])
    others = [head for head in session.heads if not head.is_named_by_number()]
    named = [head.name for head in sorted(others, key=fdt.Instance.rank)]
    told = ", ".join([numbers] * bool(numbers) + named)
    several = "s" if len(session.heads) > 1 else ""
    newest = session.newest
    suspect = f", suspect {', '.join(sorted(session.suspects))}" if session.suspects else ""
    which = f", the newest {newest.name}" if several else ""
    return f"{session.title()}: FDT Instance{several} {told}{which}, {newest.expiry()}{suspect}"


def share(session: Session, toi: int) -> str:
    """How much of an object is held, in percent. Only a whole object is 100.0%."""
    state, symbols = session.state(toi), session.symbols(toi)
    if state.is_whole():
        return "100.0%"
    if state.words == gaps.PARTIAL and symbols:
        tenths = 1000 * (symbols - state.wanted) // symbols
        return f"{tenths // 10}.{tenths % 10}%"
    return "-" if session.held.get(toi, NOTHING).symbols else "0.0%"


def row(session: Session, toi: int) -> list[str]:
    """The columns of a file.

    If no file is described, the fourth column contains the object's state.
    """
    described, information = session.files.get(toi), session.information(toi)
    length = information[0] if information else None
    if described and length is None:
        length = described.file.transfer_length()
    front = [str(toi % APART), "-" if length is None else f"{length:,}", share(session, toi)]
    if not described:
        symbols = session.held[toi].symbols
        several = "" if symbols == 1 else "s"
        front[2] = front[2] if information else "-"
        return [*front, f"in no FDT Instance: {symbols} symbol{several}"]
    outcome, state = session.outcomes.get(toi), state_words(session, toi)
    if state == gaps.PARTIAL:
        state = str(session.state(toi))
    name = location(session, toi) + notes(session, toi, outcome)
    return [*front, state, described.file.type or "-", name]


def state_words(session: Session, toi: int) -> str:
    """The state of a file that is described."""
    outcome = session.outcomes.get(toi)
    if outcome:
        return outcome.checked.verdict.value
    if toi in session.replaced:
        return "replaced"
    if session.is_left_alone(toi):
        return session.files[toi].left_alone()
    return session.state(toi).words


def location(session: Session, toi: int) -> str:
    """The name of a file, as its sender has it."""
    text = session.files[toi].file.location
    return text if len(text) <= MOST_NAME else f"{text[:MOST_NAME]}.."


def notes(session: Session, toi: int, outcome: Outcome | None) -> str:
    """The notes after a file's name."""
    described = session.files[toi]
    told = [described.file.encoding] * bool(described.file.encoding)
    if told and described.file.length is not None:
        told.append(f"{described.file.length:,}")
    if toi in session.resolved:
        told.append(session.resolved[toi])
    elif session.state(toi).disputed:
        told.append(f"{session.state(toi).disputed} in conflict")
    if outcome and outcome.checked.told:
        told.append(outcome.checked.told)
    newest, of_newest = session.newest_and_files()
    if newest and toi not in of_newest:
        told.append(f"FDT Instance {described.instance}")
    return f" ({', '.join(told)})" if told else ""


def table(session: Session) -> Iterator[str]:
    """Yields the lines of a session."""
    yield title(session)
    for number, state in itertools.islice(session.unread.items(), MOST_TOLD):
        yield f"  FDT Instance {number}: {state}"
    if len(session.unread) > MOST_TOLD:
        yield f"  {len(session.unread) - MOST_TOLD} more FDT Instances that are not whole"
    yield from table_of([row(session, toi) for toi in session.tois()])
    if session.strays:
        yield f"  {session.strays} more objects in no FDT Instance"


def table_of(rows: list[list[str]]) -> Iterator[str]:
    """Yields rows with a head, if there are any, in columns."""
    if not rows:
        return
    full = [list(HEAD), *(columns for columns in rows if len(columns) == len(HEAD))]
    widths = [max(len(columns[at]) for columns in full) for at in range(len(HEAD))]
    for at in range(RIGHT):
        widths[at] = max(len(columns[at]) for columns in [full[0], *rows])
    for columns in [list(HEAD), *rows]:
        cells = [
            text.rjust(width) if at < RIGHT else text.ljust(width)
            for at, (text, width) in enumerate(zip(columns, widths))
        ]
        yield f"  {'  '.join(cells)}".rstrip()


def more_lines(catalogue: Catalogue) -> Iterator[str]:
    """Yields the line about sessions that have none of their own."""
    if catalogue.without:
        several = "s" if len(catalogue.without) > 1 else ""
        yield f"{len(catalogue.without)} more session{several} without an FDT Instance"


def json_lines(session: Session) -> Iterator[str]:
    """Yields a JSON object for each file that is described."""
    for toi, described in sorted(session.files.items()):
        outcome, file = session.outcomes.get(toi), described.file
        length = (session.information(toi) or (file.transfer_length(),))[0]
        told = {
            "sender": address_of(session.source),
            "tsi": session.tsi,
            "toi": toi % APART,
            "name": location(session, toi),
            "type": file.type,
            "bytes": length,
            "md5": file.md5.hex() if file.md5 else None,
            "state": state_words(session, toi),
            "wanted": session.state(toi).wanted,
            "path": outcome.path if outcome else None,
            "put": outcome.put if outcome else None,
        }
        yield json.dumps(told)


def outcome_lines(session: Session) -> Iterator[str]:
    """Yields a line for each file that is new or changed, or not verified."""
    for toi, outcome in sorted(session.outcomes.items()):
        verdict = outcome.checked.verdict
        told = f" ({outcome.checked.told})" if outcome.checked.told else ""
        if toi in session.resolved:
            yield f"resolved: {outcome.path} ({session.resolved[toi]})"
        if verdict is Verdict.LEFT:
            yield f"not written: {outcome.path}{told}"
        elif verdict is not Verdict.VERIFIED:
            yield f"{verdict.value}: {outcome.path}{told}"
        elif outcome.put and toi not in session.resolved:
            yield f"{outcome.put}: {outcome.path}"
    for toi, why in sorted(session.unresolved.items()):
        yield f"conflict not resolved: {location(session, toi)} ({why})"


class Sum:
    """The totals of all sessions."""

    def __init__(self, catalogue: Catalogue) -> None:
        self.counts: collections.Counter[str | Verdict] = collections.Counter()
        for session in catalogue:
            for toi in session.files:
                self.add(session, toi)

    def add(self, session: Session, toi: int) -> None:
        """Counts a file of a session by what became of it."""
        outcome, state = session.outcomes.get(toi), session.state(toi)
        if outcome and outcome.checked.verdict is Verdict.LEFT:
            self.counts["not written"] += 1
        elif outcome:
            self.counts["written" if outcome.put else "unchanged"] += 1
            self.counts[outcome.checked.verdict] += 1
        elif toi in session.replaced:
            self.counts["replaced"] += 1
        elif session.is_left_alone(toi):
            self.counts["left alone"] += 1
        elif state.words == gaps.PARTIAL:
            self.counts["partial"] += 1
            self.counts["symbols"] += state.wanted
            self.counts["bytes"] += session.wanted_bytes(toi)
        elif state.is_whole():
            self.counts["not written"] += 1
        else:
            self.counts["missing"] += 1

    def line(self) -> str:
        """The last line of a run: how many files were written, verified, partial and so on."""
        counts = self.counts
        told = [f"written {counts['written']}"]
        told += [f"unchanged {counts['unchanged']}"] * bool(counts["unchanged"])
        told += [f"verified {counts[Verdict.VERIFIED]}"]
        told += [f"not verified {counts[Verdict.NO_MD5]}"] * bool(counts[Verdict.NO_MD5])
        parts = [", ".join(told), self.partial()]
        for name in ("missing", "replaced", "left alone", "not written"):
            parts += [f"{name} {counts[name]}"] * bool(counts[name])
        parts.append(f"wrong MD5 {counts[Verdict.WRONG_MD5]}")
        parts += [f"wrong {counts[Verdict.WRONG]}"] * bool(counts[Verdict.WRONG])
        return "; ".join(parts)

    def partial(self) -> str:
        """How many files are there in part, and what they lack."""
        count, symbols, size = (self.counts[name] for name in ("partial", "symbols", "bytes"))
        if not count:
            return "partial 0"
        several = "" if symbols == 1 else "s"
        return f"partial {count} ({symbols:,} symbol{several}, {size:,} bytes)"
