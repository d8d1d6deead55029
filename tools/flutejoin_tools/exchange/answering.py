"""Answers a centre, as `flutejoin-station --answer` does: what is new here, and what is wanted.

Nothing that the other side sends is the name of a file, or a word of a command: journals are known
by numbers of their names, and the lines by which symbols are asked for are read as lines of
`flutejoin gaps` here, and by `flutejoin fill` once more. Only the folder `answer` is written, and
the list of what was delivered.
"""
from __future__ import annotations

import argparse
import json
import os
import signal
import sys
import tempfile
import time
from typing import IO, BinaryIO, Callable, Iterable, Iterator, Optional

from flutejoin_tools.common.faults import Fault
from flutejoin_tools.common.log import Log
from flutejoin_tools.common.options import CommandLine
from flutejoin_tools.common.program import Program, find
from flutejoin_tools.common.signals import answer_stops, end_run, exit_status
from flutejoin_tools.common.texts import shown
from flutejoin_tools.exchange import exchange
from flutejoin_tools.exchange.exchange import ANSWER, KEPT, MOST_REQUEST, NONE, New, Refused, Want
from flutejoin_tools.exchange.holding import Hold, seconds_asked
from flutejoin_tools.exchange.marks import Mark, Marks
from flutejoin_tools.exchange.news import DOCUMENTS, Journal, documents_since, journals_in
from flutejoin_tools.fdt.stems import NAME as DOCUMENT
from flutejoin_tools.fdt.stems import REST, source_of
from flutejoin_tools.formats.records import Cut, ReadFault
from flutejoin_tools.journals import sums
from flutejoin_tools.journals.holdings import Key

# What a new journal has a part of is told again of old ones, since the centre may have let it go:
# of journals of so many seconds, with so many bytes of sums, and of objects of so many bytes
OLD, MOST_AGAIN, MOST_OBJECT = 3600, 1 << 26, 1 << 26
MOST_TOLD = 1 << 28  # bytes of changes after which no further journal is begun
MOST_DOCUMENTS = 1 << 26  # bytes of FDT Instances in one answer; the next one has the others
WAIT = 10  # seconds after which an answer that takes longer says so
REQUEST_SECONDS, ANSWER_SECONDS = 60, 3600  # after which a request is refused, an answer ended
PIECE = 1 << 20  # bytes that are read at once


class Answering:
    """One answer, to one request."""

    def __init__(
        self,
        folder: str,
        status: Optional[str],
        program: str,
        out: BinaryIO,
        warn: Callable[[str], None],
        wait: Optional[int] = None,
    ) -> None:
        """`wait` is how many seconds an answer may wait for what is new; None if it may not."""
        self.folder, self.out = os.path.abspath(folder), out
        self.program = Program(program, self.tend)
        self.wait = wait
        name = os.path.basename(self.folder)
        own = os.path.join(self.folder, "status.json"), f"/run/flutejoin/{name}/status.json"
        self.status = [status] if status else own
        self.marks = Marks(os.path.join(self.folder, "answer"))
        self.warn = warn
        self.bytes_told = self.journals_told = 0  # of changes, and how many journals have any
        self.line_at = time.monotonic()  # when the last line was written

    def answer(self, request: bytes) -> None:
        """Writes the answer. Raises Refused, Fault and OSError."""
        asked = exchange.request_in(request)
        if not os.path.isdir(self.folder):
            raise Fault(3, f"there is no folder {shown(self.folder)}")
        self.out.write(ANSWER)
        self.out.flush()
        if isinstance(asked, New):
            self.tell(asked)
        else:
            self.give(asked)
        self.write_line("end")

    def write_line(self, *words: object) -> None:
        """Writes a line of the answer at once, so that the centre sees that it goes on."""
        self.out.write((" ".join(map(str, words)) + "\n").encode())
        self.out.flush()
        self.line_at = time.monotonic()

    def write_part(self, *words: object, data: bytes) -> None:
        """Writes a part of the answer: a line of these words and of how many bytes follow it."""
        self.write_line(*words, len(data))
        self.out.write(data)

    def copy_part(self, file: IO[bytes], *words: object) -> None:
        """Writes a part of the answer whose bytes are those of a temporary file."""
        size = file.seek(0, os.SEEK_END)
        file.seek(0)
        self.write_line(*words, size)
        while piece := file.read(PIECE):
            self.out.write(piece)

    def tend(self) -> None:
        """Says that the answer takes longer, if nothing was said for a while."""
        if time.monotonic() >= self.line_at + WAIT:
            self.write_line("wait")

    def tending(self, items: Iterable[sums.Item]) -> Iterator[sums.Item]:
        """Yields these items, and calls `tend` before each."""
        for item in items:
            self.tend()
            yield item

    def tell(self, request: New) -> None:
        """Tells what is new since a mark."""
        if request.delivered:
            self.note(request.delivered)
        old = self.marks.of(request.mark)
        if self.wait is not None:
            self.hold(old, 0 if request.again else self.wait)
        self.write_line("since", old.name or NONE)
        self.tell_status()
        with self.marks.begin() as made:
            self.tell_documents(old, made)
            found = sorted(journals_in(self.folder), key=Journal.size, reverse=True)
            again: set[Key] = set()
            for journal in sorted(found, key=lambda it: it.id in old.journals):  # new ones first
                try:
                    is_old = time.time() > os.path.getmtime(journal.path) + OLD
                    is_told = is_old and old.size(journal.id) <= MOST_AGAIN
                    asked = request.again | again if is_told else request.again
                    self.tell_journal(journal, old, made, frozenset(asked))
                    if old.name and journal.id not in old.journals and journal.kind == KEPT:
                        again |= made.objects(journal.id, MOST_OBJECT)
                except FileNotFoundError:  # it is joined into another one now
                    pass
                except (ReadFault, Cut) as fault:
                    self.warn(f"{journal.path}: {str(fault) or 'Cut'}")
            for number in old.journals.keys() - made.journals.keys():
                self.write_line("gone", number)
            same = old.name if self.is_same(old, made) else self.marks.keep(made)
            self.write_line("mark", same or NONE)

    def hold(self, old: Mark, seconds: float) -> None:
        """Waits until something is new since a mark, for so many seconds at most.

        A line tells that it does. Raises BrokenPipeError once nobody waits for the answer.
        """
        self.write_line("wait")
        hold = Hold(self.folder, old, self.out.fileno(), seconds)
        while hold.goes_on():
            if time.monotonic() >= self.line_at + WAIT:
                self.write_line("wait")

    @staticmethod
    def is_same(old: Mark, made: Mark) -> bool:
        """Whether nothing is new since a mark."""
        return old.journals == made.journals and old.documents == made.documents

    def note(self, delivered: Iterable[tuple[Key, str]]) -> None:
        """Notes what was delivered, which may go where a TOI has too many generations here."""
        # It comes with much that is seldom needed.
        from flutejoin_tools.gather import delivered as gather_delivered

        lines = [
            json.dumps({"sender": key.source.hex(), "tsi": key.tsi, "toi": key.number, "md5": md5})
            for key, md5 in delivered
        ]
        try:
            path = os.path.join(self.folder, gather_delivered.NAME)
            gather_delivered.trim(path)
            gather_delivered.add(path, lines)
        except OSError as fault:
            self.warn(f"{fault.filename or self.folder}: {fault.strerror}")

    def tell_status(self) -> None:
        """Tells the station's status, as the first of its files has it that can be read."""
        for path in self.status:
            try:
                with open(path, "rb") as file:
                    data = file.read(exchange.MOST_STATUS + 1)
            except OSError:
                continue
            if len(data) <= exchange.MOST_STATUS:
                self.write_part("status", data=data)
                return

    def tell_documents(self, old: Mark, made: Mark) -> None:
        """Tells of the FDT Instances that are new, the newest first."""
        spent = 0
        for when, name, identity, is_new in documents_since(old, self.folder):
            if not is_new:
                made.documents[name] = old.documents[name]
            elif spent < MOST_DOCUMENTS:
                path = os.path.join(self.folder, DOCUMENTS, name)
                spent += self.tell_document(path, name, when)
                made.documents[name] = identity

    def tell_document(self, path: str, name: str, when: int) -> int:
        """Tells of one FDT Instance, and returns how many bytes it has: 0 if it is none or gone."""
        named = DOCUMENT.fullmatch(name)
        rest = name[: -len(REST)] if name.endswith(REST) else ""
        source = source_of(named[1] if named else rest)
        if source is None or not (named or rest):
            return 0
        try:
            with open(path, "rb") as file:
                data = file.read(exchange.MOST_DOCUMENT)
        except FileNotFoundError:
            return 0
        seconds = max(0, when // 10**9)
        sender = source.hex()
        words = ("document", sender, named[2], named[3], seconds) if named else ("rest", sender)
        self.write_part(*words, data=data)
        return len(data)

    def tell_journal(
        self, journal: Journal, old: Mark, made: Mark, again: frozenset[Key]
    ) -> None:
        """Tells what changed in a journal since a mark."""
        is_full = self.bytes_told > MOST_TOLD or self.journals_told >= exchange.MOST_JOURNALS
        if is_full and journal.id not in old.journals:
            return
        identity = journal.identity()
        is_asked = any(key.source == journal.source for key in again)
        is_same = is_full or old.is_of(journal.id, identity)
        if is_asked or not is_same:
            old.check(journal.id)
        is_same = is_same and journal.id in old.journals
        if is_same:
            made.keep(journal.id, old)
        else:
            made.add(journal.id, identity, self.tending(sums.sums_of(journal.path, journal.has)))
        if is_same and not is_asked:
            return
        with tempfile.TemporaryFile() as changes:
            now = self.tending(made.items(journal.id))
            for change in exchange.changes_between(old.items(journal.id), now, again):
                change.write(changes)
            if changes.tell():
                self.bytes_told += changes.tell()
                self.journals_told += 1
                self.copy_part(changes, "journal", journal.id, journal.source.hex(), journal.kind)

    def give(self, request: Want) -> None:
        """Gives what is wanted of journals; of one that is gone nothing."""
        known = {each.id: each for each in journals_in(self.folder)}
        for journal_id in [each for each in request.lines if each in known]:
            with tempfile.TemporaryFile() as out:
                try:
                    self.fill(known[journal_id].path, request.lines[journal_id], out)
                except FileNotFoundError:
                    continue
                self.copy_part(out, "values", journal_id)

    def fill(self, path: str, lines: list[str], out: IO[bytes]) -> None:
        """Writes the symbols of a journal that these lines of `flutejoin gaps` ask for."""
        os.stat(path)
        with tempfile.TemporaryFile() as given:
            given.write("".join(lines).encode())
            given.seek(0)
            words = ["fill", "-o", "-", "--gaps", "-", "--only", path]
            answer = self.program.run(words, given, out)
        if answer.status and not os.path.exists(path):
            raise FileNotFoundError(path)
        if answer.status:
            status = 1 if answer.status == 1 else 3
            raise Fault(status, f"flutejoin fill: {shown(answer.told)}")


def answer(folder: str, status: Optional[str], program: str, report: Log) -> None:
    """Answers what comes on standard input, on standard output. A fault is reported."""
    try:
        request = read_request(sys.stdin.buffer)
        wait, out = seconds_asked(os.environ), sys.stdout.buffer
        Answering(folder, status, program, out, report.warn, wait).answer(request)
    except Refused as fault:
        report.fault(1, str(fault))
    except Fault as fault:
        report.fault(fault.status, str(fault))
    except BrokenPipeError:
        report.fault(3, "the other side takes no more")
        os.dup2(os.open(os.devnull, os.O_WRONLY), sys.stdout.fileno())
    except OSError as fault:
        report.fault(3, f"{fault.filename or folder}: {fault.strerror}")


def command_line() -> argparse.Namespace:
    told = "Answers one request of flutejoin-centre on standard input: what a station has."
    parser = CommandLine("flutejoin-station", told)
    add = parser.add_argument
    add("--answer", metavar="FOLDER", required=True, help="the folder of the station")
    add("--status", metavar="FILE", help="its status (default: status.json there, or of its unit)")
    add("--flutejoin", metavar="PROGRAM", help="the program flutejoin")
    options = parser.parse_args()
    if not options.answer:
        parser.error("argument --answer: is empty")
    return options


def main() -> int:
    """Runs flutejoin-station --answer, and returns its status."""
    options, report = command_line(), Log("flutejoin-station")
    answer_stops(end_run)

    def work() -> None:
        try:
            program = find(options.flutejoin)
        except Fault as fault:
            report.fault(fault.status, str(fault))
            return
        answer(options.answer, options.status, program, report)

    return exit_status(work, report)


def read_request(file: BinaryIO) -> bytes:
    """All that comes, in a minute at most. Raises Refused."""

    def stop(*_: object) -> None:
        raise Refused(f"no request came in {REQUEST_SECONDS} seconds")

    signal.signal(signal.SIGALRM, stop)
    signal.alarm(REQUEST_SECONDS)
    data = file.read(MOST_REQUEST + 1)
    signal.signal(signal.SIGALRM, signal.SIG_DFL)
    signal.alarm(ANSWER_SECONDS)
    return data
