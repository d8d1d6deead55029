"""Checks an object against its description in the FDT Instance, and decodes the file in it."""
from __future__ import annotations

import contextlib
import copy
import enum
import hashlib
import math
import os
import zlib
from typing import Iterator, NamedTuple, Optional, Sequence

from flutejoin_tools.fdt.fdt import File
from flutejoin_tools.formats.partition import Buffer
from flutejoin_tools.journals.resolving import Budget, Sink

PIECE = 1 << 18  # bytes that are read, or decoded, at once
COST = 2  # of decoding a byte, beside that of its MD5
GZIP, ZLIB, RAW = 31, 15, -15  # zlib's names of the formats (RFC 1952, RFC 1950, RFC 1951)
ENCODINGS = {"gzip": GZIP, "x-gzip": GZIP, "zlib": ZLIB, "deflate": RAW}
DEFLATED = 8  # the compression method in the first byte of a zlib stream


class Verdict(enum.Enum):
    """What the check of a whole object found, in the words that are printed."""

    VERIFIED = "verified"
    NO_MD5 = "not verified"
    WRONG_MD5 = "wrong MD5"
    WRONG = "wrong"
    LEFT = "left"


class Checked(NamedTuple):
    """The result of the check of an object."""

    verdict: Verdict
    told: str  # a note on it, or why it is wrong
    is_decoded: bool  # whether the file was decoded, and so differs from the object


class Undecodable(Exception):
    """Why an object cannot be decoded."""


class TooLong(Undecodable):
    """More bytes come out than may."""


class Spent(Undecodable):
    """More bytes come out than this run still may decode."""


class DecodingBudget:
    """How many bytes a run may decode in all."""

    def __init__(self, most: int) -> None:
        self.most = self.left = most

    def spent(self) -> Spent:
        """The fault of an object for which the run has no bytes left."""
        return Spent(f"more than {self.most:,} bytes come out in all (--most)")


class Decoder:
    """Decodes the file in an object, piece by piece.

    Raises Undecodable if that fails, or if the file has more than `most` bytes.
    """

    def __init__(self, encoding: str, most: float) -> None:
        self.format, self.most, self.size = ENCODINGS[encoding], most, 0
        self.stream: Optional[zlib._Decompress] = None

    def pieces(self, data: bytes) -> Iterator[bytes]:
        """Yields what these bytes, the next ones of the object, decode to."""
        while data:
            stream = self.stream
            if stream is None or stream.eof:
                if stream and self.format != GZIP:
                    raise Undecodable("bytes follow its end")
                stream = self.begin(data)
            yield from self.pieces_of_stream(stream, data)
            data = stream.unused_data

    def pieces_of_stream(self, stream: zlib._Decompress, data: bytes) -> Iterator[bytes]:
        """Yields what one stream decodes to, up to its end."""
        piece = bytes(PIECE)
        while not stream.eof and (data or len(piece) == PIECE):
            try:
                piece = stream.decompress(data, PIECE)
            except zlib.error as fault:
                raise Undecodable(str(fault)) from None
            data = stream.unconsumed_tail
            self.size += len(piece)
            if self.size > self.most:
                raise TooLong(f"more than {self.most:,} bytes come out")
            yield piece

    def copy(self) -> Decoder:
        """A decoder in the same state, for bytes that go on in another way."""
        other = copy.copy(self)
        other.stream = self.stream.copy() if self.stream else None
        return other

    def begin(self, data: bytes) -> zlib._Decompress:
        """Begins a stream; a gzip file may have several.

        Many senders call the zlib format deflate, as HTTP does.
        """
        form = self.format
        if form == RAW and len(data) > 1 and data[0] & 15 == DEFLATED:
            form = RAW if (data[0] << 8 | data[1]) % 31 else ZLIB
        self.stream = zlib.decompressobj(form)
        return self.stream

    def finish(self) -> None:
        """Raises Undecodable if the object ended within its encoded file."""
        if self.stream is None or not self.stream.eof:
            raise Undecodable("it ends too early")


def pieces_of(path: str) -> Iterator[bytes]:
    with open(path, "rb", buffering=0) as file:
        while piece := file.read(PIECE):
            yield piece


def md5_of(path: str) -> bytes:
    digest = hashlib.md5(usedforsecurity=False)
    for piece in pieces_of(path):
        digest.update(piece)
    return digest.digest()


class Decoded(NamedTuple):
    """What an object decodes to."""

    md5: bytes
    size: int
    fault: Optional[Undecodable]


class Check:
    """Compares an object with descriptions of it.

    It is read once, and decoded once by each encoding, to files that `out` begins the names of.
    """

    def __init__(self, path: str, files: Sequence[File], budget: DecodingBudget, out: str) -> None:
        self.path, self.files, self.budget, self.out = path, files, budget, out
        self.size = os.stat(path).st_size
        self.md5: Optional[bytes] = None
        self.decoded: dict[str, Decoded] = {}

    def result(self) -> tuple[int, Checked]:
        """The place of the description that counts, and the result by that.

        It is the first one whose MD5 is right; else the first that has one, or else the first.
        """
        results = []
        for at, file in enumerate(self.files):
            results.append(self.of_encoded(file) if file.encoding else self.of_plain(file))
            if results[-1].verdict is Verdict.VERIFIED:
                break
        else:
            at = next((at for at, file in enumerate(self.files) if file.md5), 0)
        for encoding in self.decoded.keys() - {self.files[at].encoding}:
            remove(self.place(encoding))
        return at, results[at]

    def digest(self, encoding: str) -> Optional[bytes]:
        """The MD5 of what came out of an encoding, or of the object if that is empty; None if
        nothing asked for it."""
        return self.decoded[encoding].md5 if encoding else self.md5

    def place(self, encoding: str) -> str:
        """Where the file is that comes out of an encoding."""
        return f"{self.out}.{encoding}"

    def has(self, md5: Optional[bytes]) -> bool:
        """Whether the object itself, undecoded, has this MD5."""
        if md5 and self.md5 is None:
            self.md5 = md5_of(self.path)
        return md5 is not None and md5 == self.md5

    def of_plain(self, file: File) -> Checked:
        """The result for a file that is not encoded: the object is the file."""
        if self.has(file.md5):
            return Checked(Verdict.VERIFIED, told_of_length(file, self.size), False)
        return Checked(Verdict.WRONG_MD5, "", False) if file.md5 else of_length(file, self.size)

    def of_encoded(self, file: File) -> Checked:
        """The result for a file that is encoded: its MD5 may be that of either form."""
        if file.encoding not in self.decoded:
            self.decoded[file.encoding] = self.decode(file.encoding)
        md5, size, fault = self.decoded[file.encoding]
        if fault:
            told = f"{file.encoding}: {fault}"
            if isinstance(fault, Spent):
                return Checked(Verdict.LEFT, told, False)
            is_wrong = file.md5 is not None and not self.has(file.md5)
            return Checked(Verdict.WRONG_MD5 if is_wrong else Verdict.WRONG, told, False)
        is_of_object = self.has(file.md5)
        if is_of_object or file.md5 == md5:
            told = "MD5 of the decoded bytes" if file.md5 == md5 else "MD5 of the encoded bytes"
            return Checked(Verdict.VERIFIED, told + told_of_length(file, size, ", "), True)
        return Checked(Verdict.WRONG_MD5, "", True) if file.md5 else of_length(file, size, True)

    def decode(self, encoding: str) -> Decoded:
        """Decodes the object, up to the greatest length that it may have by this encoding."""
        lengths = [file.length for file in self.files if file.encoding == encoding]
        known = [length for length in lengths if length is not None]
        longest = max(known) if len(known) == len(lengths) else math.inf
        decoder, fault = Decoder(encoding, min(longest, self.budget.left)), None
        digest = hashlib.md5(usedforsecurity=False)
        try:
            with open(self.place(encoding), "wb") as out:
                for data in pieces_of(self.path):
                    for piece in decoder.pieces(data):
                        digest.update(piece)
                        out.write(piece)
            decoder.finish()
        except TooLong as found:
            fault = found if longest <= self.budget.left else self.budget.spent()
        except Undecodable as found:
            fault = found
        except OSError:
            remove(self.place(encoding))
            raise
        if fault:
            remove(self.place(encoding))
        self.budget.left = max(0, self.budget.left - decoder.size)
        return Decoded(digest.digest(), decoder.size, fault)


def remove(path: str) -> None:
    with contextlib.suppress(FileNotFoundError):
        os.remove(path)


def of_length(file: File, size: int, is_decoded: bool = False) -> Checked:
    """The result of a check without an MD5: only the length is compared."""
    told = told_of_length(file, size)
    return Checked(Verdict.WRONG if told else Verdict.NO_MD5, told or "no MD5", is_decoded)


def told_of_length(file: File, size: int, before: str = "") -> str:
    """A note on a file that hasn't the length of its description; empty if it has."""
    if file.length in (None, size):
        return ""
    return f"{before}{size:,} bytes, and Content-Length {file.length:,}"


class Sums(Sink):
    """The MD5 of the bytes of an object, and of what they decode to."""

    def __init__(
        self, md5s: Sequence[bytes], encodings: Sequence[str], most: int, budget: Budget
    ) -> None:
        """The MD5s are those of descriptions, the newest first. Decoding takes of the budget."""
        self.budget = budget
        self.md5s, self.whole = md5s, hashlib.md5(usedforsecurity=False)
        self.decoded = [
            (Decoder(encoding, most), hashlib.md5(usedforsecurity=False)) for encoding in encodings
        ]

    def update(self, data: Buffer) -> None:
        """Adds bytes of the object. An encoding that does not decode them is dropped."""
        self.whole.update(data)
        for each in [*self.decoded]:
            try:
                for piece in each[0].pieces(bytes(data)):
                    each[1].update(piece)
                    if not self.budget.spend(COST * len(piece)):
                        raise TooLong
            except Undecodable:
                self.decoded.remove(each)

    def copy(self) -> Sums:
        other = copy.copy(self)
        other.whole = self.whole.copy()
        other.decoded = [(decoder.copy(), digest.copy()) for decoder, digest in self.decoded]
        return other

    def age(self) -> int:
        """The place of the newest description whose MD5 they are; beyond the last if of none."""
        digests = {self.whole.digest(), *(digest.digest() for _, digest in self.decoded)}
        for age, md5 in enumerate(self.md5s):
            if md5 in digests:
                return age
        return len(self.md5s)

    def is_right(self) -> bool:
        return self.age() < len(self.md5s)
