"""Reads FDT Instances, which describe the files of a session (RFC 6726, section 3.4.2).

Elements and attributes are known by their local names, in any namespace. The XML is text of whoever
sent it: a DTD, and anything that would take much memory, is refused.
"""
from __future__ import annotations

import base64
import collections
import contextlib
import datetime
import math
import re
import zlib
from typing import BinaryIO, Iterator, NamedTuple
from xml.parsers import expat

from flutejoin_tools.formats.partition import fault_of

MOST_BYTES = 16 << 20  # of an FDT Instance
MOST_FILES = 1 << 13  # of an FDT Instance
MOST_KEPT = 4 << 20  # characters of the attributes that are kept of an FDT Instance
MOST_MARKUP = 1 << 16  # bytes of a tag or a comment
MOST_NAMES = 1 << 12  # of elements and attributes
MOST_DEPTH = 16  # of elements in one another
MOST_LOCATION, MOST_TYPE = 2048, 100  # characters that are kept of a name and of a type
PIECE = 1 << 16  # bytes that are read, or decoded, at once
COMPRESSED = b"\x1f", b"x"  # how gzip (RFC 1952) and zlib (RFC 1950) formats begin
EITHER, RAW = 47, -15  # zlib's names for either format, and for DEFLATE (RFC 1951)
BEFORE = b"\xef\xbb\xbf\xfe\xff\0 \t\r\n"  # bytes that XML may have before its first `<`
FIRST = b"<", b"\xef", b"\xfe", b"\xff"  # bytes that XML begins with
MOST_TREES = 512  # bytes of DEFLATE that come before its first byte, at most
DIGITS = 39  # of a number, at most
EXPIRES = re.compile(rb"Expires\s*=\s*[\"']\s*(\d{1,10})")
NTP_TO_UNIX = 2208988800  # seconds from 1900 to 1970
ERA = 1 << 32  # seconds of an era of NTP; the second begins in 2036 (RFC 4330, section 3)
NO_CODE = 0  # the FEC Encoding ID of Compact No-Code FEC


class Refused(Exception):
    """Why an FDT Instance is refused."""


class Spent(Exception):
    """No more XML is read in this run."""


class XmlBudget:
    """How much XML a run reads: in bytes, of which an Instance and an element take some too."""

    INSTANCE, ELEMENT, FILE = 1 << 13, 1 << 7, 1 << 9

    def __init__(self, left: float = 1 << 29) -> None:
        self.left = left

    def spend(self, count: int) -> None:
        """Takes from the budget. Raises Spent if that is not left."""
        self.left -= count
        if self.left < 0:
            raise Spent


class File(NamedTuple):
    """The description of an object in an FDT Instance. Missing attributes are None, or empty."""

    toi: int
    location: str
    type: str
    encoding: str
    length: int | None  # of the file, in bytes
    transfer: int | None  # of the object, which may be the file in encoded form
    md5: bytes | None
    fec: int
    symbol: int | None
    block: int | None

    def text(self) -> int:
        """How many characters are kept of this description."""
        return len(self.location) + len(self.type) + len(self.encoding)

    def transfer_length(self) -> int | None:
        """The object's length; None if unknown.

        Content-Length is that of the file before encoding.
        """
        return self.length if self.transfer is None and not self.encoding else self.transfer

    def information(self) -> tuple[int, int, int] | None:
        """The transfer length, symbol length and block length; None unless all are known."""
        length = self.transfer_length()
        if length == 0:
            return 0, self.symbol or 0, self.block or 0
        if length is None or self.symbol is None or self.block is None:
            return None
        return length, self.symbol, self.block

    def fault(self) -> str | None:
        """Why the transmission information is not valid, by flutejoin's name for the fault."""
        information = self.information()
        return fault_of(*information) if information else None

    def differences(self, other: File) -> str:
        """The attributes in which another description differs."""
        names = zip(self._fields, ATTRIBUTES)
        return ", ".join(name for at, name in names if getattr(self, at) != getattr(other, at))


# The attributes of a File element, in the order of the fields
ATTRIBUTES = (
    "TOI",
    "Content-Location",
    "Content-Type",
    "Content-Encoding",
    "Content-Length",
    "Transfer-Length",
    "Content-MD5",
    "FEC-OTI-FEC-Encoding-ID",
    "FEC-OTI-Encoding-Symbol-Length",
    "FEC-OTI-Maximum-Source-Block-Length",
)
# Those that the root element may have for all files
COMMON = frozenset(ATTRIBUTES[2:4] + ATTRIBUTES[7:])
ENDS = 1 << 112, 1 << 48, 1 << 16, 1 << 32  # bounds of TOI, transfer, symbol and block length
PLAIN = frozenset(("", "identity", "null"))  # encodings that change nothing


class Instance(NamedTuple):
    """An FDT Instance."""

    number: int | None  # its FDT Instance ID; None for one that the user gave as a file
    name: str  # as it is printed
    expires: int | None  # in seconds since 1970
    files: dict[int, File]
    notes: collections.Counter[str]  # what is wrong in it, and how often

    def is_named_by_number(self) -> bool:
        return self.number is not None and self.name == str(self.number)

    def rank(self) -> tuple[int, int]:
        """The order of FDT Instances: of several the greatest counts."""
        last = -1 if self.number is None else self.number
        return (-ERA if self.expires is None else self.expires), last

    def expiry(self) -> str:
        """When it expires, as text."""
        if self.expires is None:
            return "expires at no known time"
        time = datetime.datetime.fromtimestamp(self.expires, datetime.timezone.utc)
        return f"expires {time:%Y-%m-%d %H:%M:%S}Z"


def number(text: str, end: int) -> int | None:
    """An attribute's value as a number below `end`; None if it is none."""
    text = text.strip(" ")
    if not text.isdigit() or not text.isascii() or len(text) > DIGITS:
        return None
    found = int(text)
    return found if found < end else None


def expires(text: str) -> int | None:
    """An Expires attribute, in seconds of NTP, as seconds since 1970; None if it is not valid."""
    seconds = number(text, ERA)
    if seconds is None:
        return None
    return seconds - NTP_TO_UNIX + (ERA if seconds < ERA // 2 else 0)


def digest(text: str) -> bytes | None:
    """A Content-MD5 as 16 bytes; None if it is none."""
    try:
        data = base64.b64decode(text.strip(" "), validate=True)
    except ValueError:
        return None
    return data if len(data) == 16 else None


def is_deflated(data: bytes) -> bool:
    """Whether bytes that are no XML are DEFLATE of something that may be XML, by its first byte."""
    if data.lstrip(BEFORE)[:1] in (b"<", b""):
        return False
    stream, first = zlib.decompressobj(RAW), b""
    with contextlib.suppress(zlib.error):
        for at in range(min(len(data), MOST_TREES)):
            first = first or stream.decompress(data[at : at + 1], 1)
    return first in FIRST


def pieces(file: BinaryIO) -> Iterator[bytes]:
    """Yields the bytes of an FDT Instance, decoded if it is compressed (RFC 6726, section 3.4.3).

    A journal does not record the encoding, but no XML begins as the gzip and zlib formats do, and
    what is DEFLATE is seen by the XML that it begins with.
    """
    data = file.read(PIECE)
    if data[:1] not in COMPRESSED and not is_deflated(data):
        while data:
            yield data
            data = file.read(PIECE)
        return
    stream, piece = zlib.decompressobj(EITHER if data[:1] in COMPRESSED else RAW), b""
    try:
        while not stream.eof and (data or len(piece) == PIECE):
            piece = stream.decompress(data, PIECE)
            yield piece
            data = stream.unconsumed_tail or file.read(PIECE)
    except zlib.error as fault:
        raise Refused(f"cannot be decoded: {fault}") from None
    if not stream.eof:
        raise Refused("cannot be decoded: it ends too early")


class Reader:
    """Reads the XML of an FDT Instance."""

    def __init__(self, budget: XmlBudget) -> None:
        self.budget = budget
        self.parser = expat.ParserCreate()
        self.parser.StartElementHandler = self.start
        self.parser.EndElementHandler = self.end
        self.parser.StartDoctypeDeclHandler = self.doctype
        self.depth = self.kept = self.elements = 0
        self.common: dict[str, str] = {}
        self.expires: int | None = None
        self.files: dict[int, File] = {}
        self.notes: collections.Counter[str] = collections.Counter()

    def read(self, file: BinaryIO) -> None:
        """Reads the whole XML. Raises Refused and Spent."""
        fed = 0
        try:
            self.budget.spend(XmlBudget.INSTANCE)
            for piece in pieces(file):
                fed += len(piece)
                self.budget.spend(len(piece))
                if fed > MOST_BYTES:
                    raise Refused("more than 16 MB of XML")
                self.parser.Parse(piece, False)
                self.count()
                if fed - self.parser.CurrentByteIndex > MOST_MARKUP:
                    raise Refused("a tag or a comment of more than 64 KB")
            self.parser.Parse(b"", True)
        except expat.ExpatError as fault:
            raise Refused(f"is no XML: {fault}") from None
        except (LookupError, ValueError, TypeError) as fault:  # an unknown encoding
            raise Refused(f"is no XML that can be read: {fault}") from None
        finally:
            del self.parser  # which refers to this reader

    def doctype(self, *_: object) -> None:
        """Refuses a DTD: called by the parser."""
        raise Refused("has a DTD (<!DOCTYPE), which no FDT Instance needs")

    def start(self, name: str, attributes: dict[str, str]) -> None:
        """Takes the start of an element: called by the parser."""
        self.depth += 1
        self.elements += 1
        if self.depth == 2 and name.endswith("File") and name.rpartition(":")[2] == "File":
            self.add(local_names(attributes))
        elif self.depth == 1:
            if name.rpartition(":")[2] != "FDT-Instance":
                raise Refused("is no FDT Instance")
            self.begin(local_names(attributes))
        elif self.depth > MOST_DEPTH:
            raise Refused(f"has elements in one another, more than {MOST_DEPTH}")

    def count(self) -> None:
        """Counts what the last piece had."""
        self.budget.spend(XmlBudget.ELEMENT * self.elements)
        self.elements = 0
        if len(self.parser.intern) > MOST_NAMES:
            raise Refused(f"has more than {MOST_NAMES} names of elements and attributes")

    def end(self, _name: str) -> None:
        self.depth -= 1

    def begin(self, attributes: dict[str, str]) -> None:
        """Takes the attributes of the root element, FDT-Instance."""
        self.expires = expires(attributes.get("Expires", ""))
        if self.expires is None:
            self.notes["Expires is no time"] += 1
        self.common = {name: text for name, text in attributes.items() if name in COMMON}

    def add(self, attributes: dict[str, str]) -> None:
        """Adds the file that a File element describes."""
        self.budget.spend(XmlBudget.FILE)
        file = self.file({**self.common, **attributes})
        if not file.toi:
            self.notes["a File has no TOI"] += 1
        elif file.toi in self.files:
            self.notes["a TOI stands twice; the first counts"] += 1
        else:
            self.kept += file.text()
            if len(self.files) >= MOST_FILES or self.kept > MOST_KEPT:
                raise Refused(f"describes more than {MOST_FILES} files, or with much text")
            self.files[file.toi] = file

    def file(self, attributes: dict[str, str]) -> File:
        """The description that a File element's attributes give; what is wrong with them is
        noted."""

        def numeral(name: str, end: int) -> int | None:
            text = attributes.get(name)
            if text is None:
                return None
            found = number(text, end)
            if found is None:
                self.notes[f"{name} is no number of its range"] += 1
            return found

        md5 = attributes.get("Content-MD5")
        found = None if md5 is None else digest(md5)
        if md5 is not None and found is None:
            self.notes["Content-MD5 is not 16 bytes in base64"] += 1
        location = attributes.get("Content-Location", "")
        if not location:
            self.notes["a File has no Content-Location"] += 1
        encoding = attributes.get("Content-Encoding", "").strip(" ").lower()
        fec = numeral("FEC-OTI-FEC-Encoding-ID", 1 << 8)
        return File(
            numeral("TOI", ENDS[0]) or 0,
            location[:MOST_LOCATION],
            attributes.get("Content-Type", "")[:MOST_TYPE],
            "" if encoding in PLAIN else encoding[:MOST_TYPE],
            numeral("Content-Length", ENDS[1]),
            numeral("Transfer-Length", ENDS[1]),
            found,
            NO_CODE if fec is None else fec,
            numeral("FEC-OTI-Encoding-Symbol-Length", ENDS[2]),
            numeral("FEC-OTI-Maximum-Source-Block-Length", ENDS[3]),
        )


def local_names(attributes: dict[str, str]) -> dict[str, str]:
    """Attributes by their local names. An attribute without a prefix has priority."""
    if ":" not in "".join(attributes):
        return attributes
    named = {name.rpartition(":")[2]: text for name, text in attributes.items() if ":" in name}
    named.update({name: text for name, text in attributes.items() if ":" not in name})
    return named


def read(path: str, number: int | None, name: str) -> Instance:
    """Reads the FDT Instance in a file. Raises Refused if it is not valid, and OSError."""
    with open(path, "rb") as file:
        return read_from(file, number, name, XmlBudget(math.inf))


def read_from(file: BinaryIO, number: int | None, name: str, budget: XmlBudget) -> Instance:
    """Reads the FDT Instance in an open file. Raises Refused if it is not valid, and Spent."""
    reader = Reader(budget)
    reader.read(file)
    return Instance(number, name, reader.expires, reader.files, reader.notes)


def likely_rank(begin: bytes, number: int) -> tuple[int, int]:
    """The rank that an FDT Instance seems to have by its first bytes, before it is read."""
    when = likely_expiry(begin)
    return (-ERA if when is None else when), number


def likely_expiry(begin: bytes) -> int | None:
    """When an FDT Instance seems to expire by its first bytes; None if they don't tell."""
    if begin[:1] in COMPRESSED:
        try:
            begin = zlib.decompressobj(EITHER).decompress(begin, PIECE)
        except zlib.error:
            begin = b""
    found = EXPIRES.search(begin)
    return expires(found[1].decode()) if found else None
