"""Makes a right file of a datagram file or a journal that is cut or damaged.

  flutejoin-mend -o monday/10.0.0.1.fldg monday/10.0.0.1.fldg.partial
  flutejoin-mend -o mended all.partial

It mends what flutejoin reports as `Cut`: it writes the whole records of a
datagram file, or the whole entries of a journal of version 1 or 2, to OUT, and
a journal's end with their number. It prints how many there are, and how many
bytes after them were left. Of a journal that was being joined, each entry that
is there is right, and others are missing: join what it was made of again, if
that is still there. A file of only its first four or five bytes becomes an
empty one; fewer bytes do not show which of the two it is.

Of a journal with wrong bytes it writes the entries before and after them that
can be read and are in order. An entry that may have a wrong byte is left out,
as are two of which either may; a wrong byte in the value of a symbol shows
nowhere, and stays. If that is most of a large journal, not all of it is
searched for entries, which is printed too.

FILE is never written. OUT must be another file, and must not be there yet. Its
bytes go to OUT.mending first, which gets OUT's name once it is whole; a run
that was killed may leave that file, and it can be removed. With -o - they go
to standard output, and the lines to standard error. Memory does not grow with
FILE.

Status 0: OUT was written, or FILE is whole, and then nothing was written. 1:
FILE is neither of the two, or of another version, or nothing of it can be saved
(the fault is named as flutejoin names it); nothing was written. 2: the command
line. 3: FILE cannot be read, or an output cannot be made or written. 128 + N:
signal N ended it.
"""
from __future__ import annotations

import contextlib
import errno
import os
import struct
from typing import BinaryIO

from flutejoin_tools.common import outputs
from flutejoin_tools.common.file_names import STANDARD_OUTPUT
from flutejoin_tools.common.log import Log
from flutejoin_tools.common.opening import is_same, opened
from flutejoin_tools.common.options import CommandLine
from flutejoin_tools.common.signals import answer_stops, end_run, exit_status
from flutejoin_tools.formats import entries, records
from flutejoin_tools.mend.salvage import ENDING, Salvage

NO_DAMAGE = "Version", "TooMany"  # faults of a journal that may be right otherwise


def copy(reader: records.Reader, file: BinaryIO, out: BinaryIO) -> None:
    """Writes a file that is cut up to the end of its last whole record or entry."""
    is_journal = isinstance(reader, entries.Entries)
    if not reader.end:  # it ends within its version
        out.write(entries.HEADER if is_journal else records.HEADER)
    file.seek(0)
    left = reader.end  # the bytes after it are cut
    while left:
        data = file.read(min(left, records.PIECE))
        if not data:
            raise OSError(errno.EIO, "became shorter while it was read", file.name)
        out.write(data)
        left -= len(data)
    if is_journal:
        out.write(struct.pack(">BQ", entries.END, reader.count))


def salvage(name: str, file: BinaryIO, out: str, fault: str, report: Log) -> None:
    """Writes the entries of a damaged journal that are not in doubt."""
    with contextlib.closing(Salvage(file)) as left:
        count = kept = 0
        for begin, end, entries_of_run in left.runs():
            count, kept = count + entries_of_run, kept + end - begin
        if not count:
            report.fault(1, f"{name}: {fault}")
            return

        def fill(target: BinaryIO) -> None:
            target.write(left.data[: len(entries.HEADER)])
            for begin, end, _ in left.runs():
                for place in range(begin, end, records.PIECE):
                    target.write(left.data[place : min(end, place + records.PIECE)])
            target.write(struct.pack(">BQ", entries.END, count))

        outputs.write_new(out, ".mending", fill)
        lost = max(0, len(left.data) - len(entries.HEADER) - ENDING - kept)
    prefix = "" if out == STANDARD_OUTPUT else f"{out}: "
    told = f"{lost} damaged or doubtful bytes were left"
    more = ", of which not all could be searched" * (left.tries < 0)
    report.say(f"{prefix}{count} entries; {fault}: {told}{more}")


def mend(name: str, out: str, report: Log) -> None:
    """Writes what is whole of a file that is cut or damaged. A whole one is only told of."""
    with opened(name) as file:
        try:
            reader = entries.reader_of(file)
        except records.ReadFault as fault:
            report.fault(1, f"{name}: {fault}")
            return
        try:
            what = "entries" if isinstance(reader, entries.Entries) else "datagrams"
            for _ in reader:
                pass
        except records.ReadFault as fault:
            is_journal = isinstance(reader, entries.Entries) and str(fault) not in NO_DAMAGE
            if is_journal:
                salvage(name, file, out, str(fault), report)
            else:
                report.fault(1, f"{name}: {fault}")
            return
        except records.Cut:
            pass
        else:
            whole = f"{name} is whole: {reader.count} {what}"
            report.say(f"{whole}; nothing is written, use it as it is")
            return
        size = file.seek(0, os.SEEK_END)
        outputs.write_new(out, ".mending", lambda target: copy(reader, file, target))
        left = f"{size - reader.end} bytes behind them were left"
        prefix = "" if out == STANDARD_OUTPUT else f"{out}: "
        report.say(f"{prefix}{reader.count} {what}; {left}")


def main() -> int:
    """Runs flutejoin-mend, and returns its status."""
    parser = CommandLine("flutejoin-mend", __doc__)
    parser.add_argument(
        "-o",
        metavar="OUT",
        required=True,
        help="the file to write, which must not be there yet, or - for standard output",
    )
    parser.add_argument(
        "file", metavar="FILE", help="the datagram file or the journal that is cut"
    )
    args = parser.parse_args()
    if args.o != STANDARD_OUTPUT and is_same(args.o, args.file):
        parser.error("OUT is FILE")
    report = Log("flutejoin-mend", args.o)

    def work() -> None:
        try:
            answer_stops(end_run)
            mend(args.file, args.o, report)
        except OSError as fault:
            report.fault(3, f"{fault.filename or args.o}: {fault.strerror}")

    return exit_status(work, report)
