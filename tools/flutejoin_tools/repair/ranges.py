"""Byte ranges of a file by HTTP (RFC 9110, section 14): what is asked for, and what answers have.

A range is its first and its last byte, both included.
"""
from __future__ import annotations

import re
from typing import Iterable, Iterator, List, Sequence, Tuple

from flutejoin_tools.repair.http import Answer, AnswerFault, Broken, Stream, fields_of

Range = Tuple[int, int]

NEAR = 160  # bytes that the head of a part takes: what is nearer is asked for in one range
MOST_RANGES, MOST_TEXT = 100, 3000  # in a request, and characters of them
MOST_PREAMBLE = 64  # lines before the first part
BOUNDARY = re.compile(r"[0-9A-Za-z'()+_,./:=? -]{0,69}[0-9A-Za-z'()+_,./:=?-]")
MULTIPART = re.compile(
    r'multipart/byteranges\s*;(?:.*;)?\s*boundary\s*=\s*(?:"([^"]*)"|([^\s;]+)).*', re.IGNORECASE
)
CONTENT_RANGE = re.compile(r"bytes\s+([0-9]{1,15})-([0-9]{1,15})/([0-9]{1,15})", re.IGNORECASE)
UNSATISFIED = re.compile(r"bytes\s+\*/([0-9]{1,15})", re.IGNORECASE)


def size_of(ranges: Iterable[Range]) -> int:
    """How many bytes some ranges have."""
    return sum(last - first + 1 for first, last in ranges)


def joined(ranges: Iterable[Range], near: int = NEAR) -> List[Range]:
    """Rising ranges, those in one between which fewer bytes are than these."""
    found: List[Range] = []
    for first, last in ranges:
        if found and first - found[-1][1] <= near:
            found[-1] = found[-1][0], last
        else:
            found.append((first, last))
    return found


def batches(ranges: Iterable[Range], most: int) -> Iterator[List[Range]]:
    """Yields the ranges of each request: at most so many bytes, where a range has no more.

    Longer ranges are cut.
    """
    batch: List[Range] = []
    size = text = 0
    for first, last in ranges:
        while first <= last:
            end = min(last, first + most - 1)
            length = len(f"{first}-{end},")
            is_full = len(batch) == MOST_RANGES or text + length > MOST_TEXT
            if batch and (is_full or size + end - first + 1 > most):
                yield batch
                batch, size, text = [], 0, 0
            batch.append((first, end))
            size, text, first = size + end - first + 1, text + length, end + 1
    if batch:
        yield batch


def field_of(ranges: Iterable[Range]) -> str:
    """The value of the field Range."""
    return "bytes=" + ",".join(f"{first}-{last}" for first, last in ranges)


def first_of(content_range: str, length: int) -> Range:
    """The range that a part of an answer has, of a file of this length. Raises AnswerFault."""
    found = CONTENT_RANGE.fullmatch(content_range.strip())
    if not found:
        raise AnswerFault(f"the answer has no range of bytes, but {content_range[:80]!r}")
    first, last, total = (int(number) for number in found.groups())
    if total != length:
        raise AnswerFault(f"there it has {total:,} bytes, and the object {length:,}")
    if not first <= last < length:
        raise AnswerFault("the answer has a range that is none of the file")
    return first, last


def parts(answer: Answer, length: int, asked: Sequence[Range]) -> Iterator[Tuple[int, bytes]]:
    """Yields pieces of the file, with the place of the first byte of each.

    The answer has status 206, or 200 and the whole file. Raises AnswerFault if it is another file,
    or is more than what was asked for.
    """
    if answer.status == 206:
        answer.may_have(size_of(asked) + 4 * NEAR * len(asked))
        boundary = MULTIPART.fullmatch(answer.field("content-type"))
        if boundary:
            yield from of_parts(answer, length, boundary[1] or boundary[2], len(asked))
        else:
            first, last = first_of(answer.field("content-range"), length)
            yield from placed(first, exactly(answer, last - first + 1))
    elif answer.status == 200:
        yield from placed(0, whole(answer, length))
    elif answer.status == 416:
        found = UNSATISFIED.fullmatch(answer.field("content-range").strip())
        told = f"there it has {int(found[1]):,} bytes" if found else "status 416: no such bytes"
        raise AnswerFault(told)
    else:
        raise AnswerFault(f"status {answer.status}")


def placed(first: int, pieces: Iterable[bytes]) -> Iterator[Tuple[int, bytes]]:
    """Yields pieces of a range that begins there, each with its place in the file."""
    for piece in pieces:
        yield first, piece
        first += len(piece)


def whole(answer: Answer, length: int) -> Iterator[bytes]:
    """Yields the bytes of a body that has the whole file. Raises AnswerFault at another length."""
    if answer.length not in (None, length):
        raise AnswerFault(f"there it has {answer.length:,} bytes, and the object {length:,}")
    answer.may_have(length)
    yield from exactly(answer, length)


def exactly(answer: Answer, size: int) -> Iterator[bytes]:
    """Yields the bytes of a body of this length. Raises AnswerFault at more, Broken at fewer."""
    left = size
    for piece in answer.body():
        left -= len(piece)
        if left < 0:
            raise AnswerFault(f"the answer has more than {size:,} bytes")
        yield piece
    if left:
        if answer.length is None and not answer.is_chunked:
            raise Broken("the answer is cut")
        raise AnswerFault(f"the answer has {size - left:,} bytes, and not {size:,}")


class Body(Stream):
    """The body of an answer."""

    def __init__(self, answer: Answer) -> None:
        super().__init__()
        self.rest = answer.body()

    def receive(self) -> bytes:
        return next(self.rest, b"")


def of_parts(
    answer: Answer, length: int, boundary: str, most: int
) -> Iterator[Tuple[int, bytes]]:
    """Yields the pieces of multipart/byteranges (RFC 9110, section 14.6), of so many parts at most.

    Each part has the range that it is in its own field.
    """
    if not BOUNDARY.fullmatch(boundary):
        raise AnswerFault("the answer has a boundary that is none")
    mark, body = b"--" + boundary.encode("ascii"), Body(answer)
    for _ in range(MOST_PREAMBLE):
        line = body.line().rstrip(b" \t")
        if line in (mark, mark + b"--"):
            break
    else:
        raise AnswerFault("the answer has no part")
    for _ in range(most + 1):
        if line == mark + b"--":
            for _ in body.pieces(None):
                pass
            return
        first, last = first_of(fields_of(body).get("content-range", ""), length)
        yield from placed(first, body.pieces(last - first + 1))
        if body.line():
            raise AnswerFault("the answer has a part of another length")
        line = body.line().rstrip(b" \t")
        if line not in (mark, mark + b"--"):
            raise AnswerFault("the answer has a part of another length")
    raise AnswerFault("the answer has more parts than were asked for")
