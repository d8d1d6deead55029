"""Symbols asked for by their numbers, of a file repair server (3GPP TS 26.346, section 9.3).

A request names the file and its symbols: `?fileURI=..&SBN=5;ESI=12,14-20&SBN=6;ESI=0`. The answer,
of the type application/simpleSymbolContainer, has groups: their number of symbols (2 bytes), the
FEC Payload ID of the first one (4 bytes), and the symbols.
"""
from __future__ import annotations

import base64
import itertools
import struct
import urllib.parse
from typing import Iterable, Iterator, List, NamedTuple, Optional, Sequence, Tuple

from flutejoin_tools.fdt.fdt import File
from flutejoin_tools.formats.partition import Partition
from flutejoin_tools.repair.http import Answer, AnswerFault
from flutejoin_tools.repair.ranges import exactly

TYPE = "application/simplesymbolcontainer"
MOST_QUERY = 3000  # characters
MOST_BYTES = 1 << 22  # of an answer
GROUP = struct.Struct(">HHH")
MOST_GROUP = (1 << 16) - 1  # symbols


class Run(NamedTuple):
    """Symbols of one block that follow one another."""

    block: int
    first: int
    last: int

    def text(self) -> str:
        """The run as a request has it."""
        return f"{self.first}" if self.first == self.last else f"{self.first}-{self.last}"

    def symbols(self) -> int:
        return self.last - self.first + 1


def most_of_run(symbol: int) -> int:
    """How many symbols of this length an answer may have, and a group."""
    return max(1, min(MOST_GROUP, MOST_BYTES // symbol))


def runs(places: Iterable[int], partition: Partition, most: int) -> Iterator[Run]:
    """Yields the runs of symbols at these rising places, each of so many symbols at most."""
    now: Optional[Run] = None
    for place in places:
        block, number = partition.id_at(place)
        if now and now[::2] == (block, number - 1) and now.symbols() < most:
            now = now._replace(last=number)
            continue
        if now:
            yield now
        now = Run(block, number, number)
    if now:
        yield now


def batches(every: Iterable[Run], symbol: int, front: int) -> Iterator[List[Run]]:
    """Yields the runs of each request, whose query begins with so many characters."""
    batch: List[Run] = []
    text = size = 0
    for each in every:
        length, more = len(f"&SBN={each.block};ESI={each.text()}"), each.symbols() * symbol
        if batch and (front + text + length > MOST_QUERY or size + more > MOST_BYTES):
            yield batch
            batch, text, size = [], 0, 0
        batch.append(each)
        text, size = text + length, size + more
    if batch:
        yield batch


def front_of(file: File) -> str:
    """How a query names a file; the MD5 says of which version."""
    front = "fileURI=" + urllib.parse.quote(file.location.strip(" "), safe="", errors="replace")
    if file.md5:
        digest = base64.b64encode(file.md5).decode()
        front += "&Content-MD5=" + urllib.parse.quote(digest, safe="")
    return front


def query_of(front: str, batch: Sequence[Run]) -> str:
    """The target of a request for these symbols."""
    items = []
    for block, of in itertools.groupby(batch, key=lambda each: each.block):
        items.append(f"SBN={block};ESI=" + ",".join(each.text() for each in of))
    return "&".join([front, *items])


def symbols_in(
    answer: Answer, partition: Partition, batch: Sequence[Run]
) -> Iterator[Tuple[int, bytes]]:
    """Yields the symbols of an answer by their places. Raises AnswerFault if it is no container."""
    if answer.status != 200:
        raise AnswerFault(f"status {answer.status}")
    if answer.field("content-type").partition(";")[0].strip().lower() != TYPE:
        raise AnswerFault("the answer is no simpleSymbolContainer")
    data, length = container_of(answer, partition, batch), partition.numbers[1]
    at = 0
    while at < len(data):
        if len(data) - at <= GROUP.size:
            raise AnswerFault("the container is cut")
        count, block, first = GROUP.unpack_from(data, at)
        at += GROUP.size
        if not count or block >= partition.blocks or first + count > partition.size(block):
            raise AnswerFault("the container has symbols that are none of the object")
        place = partition.start(block) + first
        last = last_size(partition, place + count, len(data) - at - (count - 1) * length)
        if len(data) - at < (count - 1) * length + last:
            raise AnswerFault("the container is cut")
        for number in range(count):
            size = last if number == count - 1 else length
            value = partition.piece(place + number, data[at : at + size])
            if value is not None:
                yield place + number, bytes(value)
            at += size


def last_size(partition: Partition, end: int, left: int) -> int:
    """The length in a container of the symbol before this place, of which so many bytes are left.

    All symbols of a group are of one length. Servers send the last symbol of an object padded, or
    at the end of the container as short as it is.
    """
    length, size, _ = partition.numbers
    short = length - (partition.symbols - 1) * size
    return short if end == partition.symbols and left == short else size


def container_of(answer: Answer, partition: Partition, batch: Sequence[Run]) -> bytes:
    """The bytes of an answer to a request for these symbols. Raises AnswerFault."""
    count = sum(each.symbols() for each in batch)
    most = count * (partition.numbers[1] + GROUP.size)
    answer.may_have(most)
    if answer.length is not None:
        if answer.length > most:
            told = f"the answer has {answer.length:,} bytes, and {most:,} were asked for"
            raise AnswerFault(told)
        return b"".join(exactly(answer, answer.length))
    return b"".join(answer.body())
