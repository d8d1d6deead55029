"""What stations received of FLUTE sessions (RFC 6726): the calls of libflutejoin.

    import flutejoin

    journal = flutejoin.merge(first, second)
    for held in flutejoin.gaps(journal):
        print(held.object, held.status, held.gaps)

A journal is a `Journal`, and calls take its bytes too. A fault is raised as a `Fault`, whose text
is the line that the program `flutejoin` prints.
"""
from __future__ import annotations

from flutejoin.calls import compare, compare_lines, entries, extract, fill, gap_lines, gaps, join
from flutejoin.calls import merge, minus, read, status
from flutejoin.faults import BadArgument, BadKey, BadLine, ConflictingInformation, Fault, Full
from flutejoin.faults import InputFault, NoInformation, NoObject, NotWhole, OutOfMemory, Refused
from flutejoin.faults import UnknownKind
from flutejoin.journal import Joined, Journal
from flutejoin.library import NoLibrary
from flutejoin.values import Compared, Entry, Gap, Held, Information, Object, Packet, Status, Symbol

__all__ = [
    "BadArgument",
    "BadKey",
    "BadLine",
    "Compared",
    "ConflictingInformation",
    "Entry",
    "Fault",
    "Full",
    "Gap",
    "Held",
    "Information",
    "InputFault",
    "Joined",
    "Journal",
    "NoInformation",
    "NoLibrary",
    "NoObject",
    "NotWhole",
    "Object",
    "OutOfMemory",
    "Packet",
    "Refused",
    "Status",
    "Symbol",
    "UnknownKind",
    "compare",
    "compare_lines",
    "entries",
    "extract",
    "fill",
    "gap_lines",
    "gaps",
    "join",
    "merge",
    "minus",
    "read",
    "status",
]
