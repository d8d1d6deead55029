"""Fetches by HTTP what is missing of files.

What comes is compared with the length of the object, with what the server said before, and with the
MD5 of the file, before any of it counts.
"""
from __future__ import annotations

import tempfile
from typing import IO, Dict, List, Optional, Sequence, Set

from flutejoin_tools.fdt.content import ENCODINGS
from flutejoin_tools.fdt.fdt import File
from flutejoin_tools.journals.holdings import Key
from flutejoin_tools.repair.containers import batches as container_batches
from flutejoin_tools.repair.containers import front_of, most_of_run, query_of, runs, symbols_in
from flutejoin_tools.repair.fetched import Fetched, wrong_ones
from flutejoin_tools.repair.http import Answer, AnswerFault, Broken, Client, Spent
from flutejoin_tools.repair.lacking import MOST_DESCRIPTIONS, Lack, Source
from flutejoin_tools.repair.origins import Refused, Server, Url
from flutejoin_tools.repair.ranges import (
    Range,
    batches,
    field_of,
    joined,
    parts,
    placed,
    size_of,
    whole,
)
from flutejoin_tools.repair.validators import Validator, check_digest

TRIES = 3  # of a request whose answer has nothing of what was asked for, or is cut
MOST_ANSWER = 1 << 26  # bytes that one request asks for
WRONG_FILE = "what came is another file: its MD5 is wrong"
COSTLY = 4  # times what is missing, that a whole file may have in place of single ranges


class Repair:
    """Asks for what is missing of each file, and keeps what is right."""

    def __init__(self, client: Client, by_symbols: bool) -> None:
        self.client, self.by_symbols = client, by_symbols
        self.spool: IO[bytes] = tempfile.TemporaryFile(prefix="flutejoin-repair-")
        self.asked: Dict[Key, Lack] = {}
        self.right: Dict[Key, Fetched] = {}
        self.complete: Set[Key] = set()
        self.singly: Set[Server] = set()  # that answer only one range
        self.spent = ""  # why no more is asked for; empty if more may be

    def close(self) -> None:
        self.client.close()
        self.spool.close()

    def run(self, lacks: Sequence[Lack], journal: str) -> None:
        """Asks for all files by their first descriptions, then for those left by the next ones.

        The journal has what is held of the files.
        """
        for turn in range(MOST_DESCRIPTIONS):
            came: List[Fetched] = []
            for lack in lacks:
                sources = [source for source in lack.sources if source.urls]
                if turn < len(sources) and lack.key not in self.right:
                    fetched = self.fetch(lack, sources[turn])
                    came += [fetched] if fetched and fetched.at else []
            if came:
                self.keep(journal, came)

    def keep(self, journal: str, came: List[Fetched]) -> None:
        """Keeps those files that are right, as far as their MD5 can be compared."""
        every = [it for it in came if not it.wanted and it.lack.can_be_whole()]
        wrong = wrong_ones(journal, every)
        for it in wrong:
            it.lack.why = WRONG_FILE
        self.right.update((it.lack.key, it) for it in came if it not in wrong)
        self.complete.update(it.lack.key for it in every if it not in wrong)

    def fetch(self, lack: Lack, source: Source) -> Optional[Fetched]:
        """What comes of a file, from the first URL that has it, or else as much as came of one.

        The lack says then why something is left.
        """
        best: Optional[Fetched] = None
        lack.why = ""
        for url in source.urls:
            fetched = Fetched(lack, source.file, self.spool)
            try:
                if self.spent:
                    raise Spent(self.spent)
                self.asked[lack.key] = lack
                self.ask(fetched, url)
                lack.why = ""
                return fetched
            except (AnswerFault, Refused) as fault:
                lack.why = lack.why or f"{url}: {fault}"
                is_right = isinstance(fault, Broken)
            except Spent as fault:
                self.spent = str(fault)
                lack.why, is_right = lack.why or self.spent, True
            if is_right and len(fetched.at) > len(best.at if best else ()):
                best = fetched
        return best

    def ask(self, fetched: Fetched, url: Url) -> None:
        """Asks a server until nothing is missing. Raises AnswerFault, Refused and Spent."""
        if self.by_symbols:
            self.ask_symbols(fetched, url)
        elif fetched.file.encoding:
            self.ask_whole(fetched, url)
        else:
            validator = Validator()
            for batch in batches(joined(fetched.lack.ranges), MOST_ANSWER):
                self.ask_ranges(fetched, url, batch, validator)

    def ask_ranges(
        self, fetched: Fetched, url: Url, batch: Sequence[Range], validator: Validator
    ) -> None:
        """Asks for ranges, and again for those that did not come."""
        tries, why = 0, "the answers have other ranges than were asked for"
        while True:
            rest = joined(fetched.still(batch))
            if not rest:
                return
            if tries == TRIES:
                raise Broken(why)
            before = len(fetched.wanted)
            try:
                some = rest[:1] if url.server() in self.singly else rest
                self.ask_once(fetched, url, some, validator)
            except Broken as fault:
                why = str(fault)
            tries = 0 if len(fetched.wanted) < before else tries + 1

    def ask_once(
        self, fetched: Fetched, url: Url, ranges: Sequence[Range], validator: Validator
    ) -> None:
        """Sends one request for ranges of a file, and takes what comes."""
        fields = {"Accept-Encoding": "identity", "Range": field_of(ranges), **validator.fields()}
        answer = self.client.get(url, fields, size_of(ranges))
        try:
            if answer.status in (200, 206):
                check_plain(answer)
                validator.check(answer)
                check_digest(answer, fetched.file)
            if answer.status == 200 and self.may_be_singly(answer, url, ranges, fetched):
                return
            for first, piece in parts(answer, fetched.length, ranges):
                fetched.take(first, piece)
                is_all = answer.status == 200 and not fetched.wanted
                if is_all and first + len(piece) < fetched.length:
                    return
        finally:
            self.client.done(answer)

    def may_be_singly(
        self, answer: Answer, url: Url, ranges: Sequence[Range], fetched: Fetched
    ) -> bool:
        """Whether the server, which sends the whole file in place of ranges, may send single ones.

        Some do, and say that they take ranges.
        """
        may = len(ranges) > 1 and answer.field("accept-ranges").lower() == "bytes"
        if not may or fetched.length <= COSTLY * len(fetched.wanted) * fetched.size:
            return False
        self.singly.add(url.server())
        return True

    def ask_whole(self, fetched: Fetched, url: Url) -> None:
        """Asks for the whole of an encoded file: ranges are those of what a server encodes."""
        fields = {"Accept-Encoding": fetched.file.encoding}
        for attempt in range(TRIES):
            try:
                answer = self.client.get(url, fields, fetched.length)
                try:
                    check_encoded(answer, fetched.file)
                    for first, piece in placed(0, whole(answer, fetched.length)):
                        fetched.take(first, piece)
                finally:
                    self.client.done(answer)
                return
            except Broken:
                if attempt == TRIES - 1:
                    raise

    def ask_symbols(self, fetched: Fetched, url: Url) -> None:
        """Asks a file repair server for symbols, and again for those that did not come."""
        partition, front = fetched.lack.partition(), front_of(fetched.file)
        most = most_of_run(fetched.size)
        for batch in container_batches(
            runs(fetched.lack.places(), partition, most), fetched.size, len(front)
        ):
            asked = {
                partition.start(run.block) + number
                for run in batch
                for number in range(run.first, run.last + 1)
            }
            tries, why = 0, "the answers lack symbols that were asked for"
            while asked & fetched.wanted:
                if tries == TRIES:
                    raise Broken(why)
                before = len(fetched.wanted)
                rest = [*runs(sorted(asked & fetched.wanted), partition, most)]
                try:
                    place = url._replace(query="?" + query_of(front, rest))
                    answer = self.client.get(place, {}, len(asked) * fetched.size)
                    try:
                        for at, value in symbols_in(answer, partition, rest):
                            fetched.add_symbol(at, value)
                    finally:
                        self.client.done(answer)
                except Broken as fault:
                    why = str(fault)
                tries = 0 if len(fetched.wanted) < before else tries + 1


def check_plain(answer: Answer) -> None:
    """Raises AnswerFault if the server encodes a file that is not."""
    told = answer.field("content-encoding").lower()
    if told not in ("", "identity"):
        wrong = f"the server sends it as Content-Encoding {told[:40]}, which it does not have"
        raise AnswerFault(wrong)


def check_encoded(answer: Answer, file: File) -> None:
    """Raises AnswerFault unless the whole file came, in the encoding of the FDT Instance."""
    if answer.status != 200:
        raise AnswerFault(f"status {answer.status}")
    told = answer.field("content-encoding").lower() or "none"
    if ENCODINGS.get(told, told) != ENCODINGS.get(file.encoding):
        raise AnswerFault(f"it has Content-Encoding {file.encoding}, and there {told[:40]}")
