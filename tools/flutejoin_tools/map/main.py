"""Draws what stations hold of objects and what is missing, as a page of SVG.

  flutejoin-map -o map.svg --tsi 7 --toi 1 station1 station2 station3
  flutejoin-map --text --tsi 7 --toi 1 station1 station2

There is a panel for each journal and, of several, one for all of them joined.
A row is a source block, and a cell a symbol: held, missing, conflicting (two
values came) or misfit (a value of the wrong length), as flutejoin gaps has it.
Of a larger object a row is several blocks, and a cell a run of symbols that
shows the share of each kind. The counts are exact, and in a browser each cell
names its symbols. --text prints the same with characters.

Without --tsi and --toi all objects are drawn. Where that would be more than
520 panels there is an overview of them first, with a cell for each object, and
then those that are not whole; a page takes as many of them as have room in a
height of 32,000, with 1,000,000 gaps in all (adjacent ones count once, but for
objects with conflicts or misfits), and the rest are counted. The panel of all
joined is the first where an object has more than four. Objects of which a
journal has less than one symbol in 200 source blocks are drawn up to 20,000,000
blocks; the others are left out of it, which is reported.

A journal without transmission information of an object is drawn with that of
another one here, where all that have it agree; or with that of the FDT, if a
station or flutejoin-gather has its journal in a folder fdt beside: then objects
of which nothing was received are drawn too. Otherwise a panel says why it has
no cells. What the journals hold stays as it is; they are joined as flutejoin
join --any-size does, so that its limits hold for all together, and no file is
made but OUT.

OUT becomes the whole page or stays what it was: its bytes go to OUT.partial
first, which takes OUT's name once it is whole. `-` is standard output. Memory
does not grow with the number of gaps, which flutejoin itself finds; the
journals are read twice.

Status 0: OUT was written. 1: a journal is at fault, or the object is in none;
flutejoin's message is passed on, with the file's name. 2: the command line. 3:
a journal cannot be read, flutejoin cannot be run, or an output cannot be made
or written. 128 + N: signal N ended it.
"""
from __future__ import annotations

import argparse
import contextlib
import errno
import fcntl
import os
import stat
import sys
from typing import Optional

from flutejoin_tools.common import gaps, outputs
from flutejoin_tools.common.faults import Fault
from flutejoin_tools.common.file_names import PARTIAL
from flutejoin_tools.common.log import Log
from flutejoin_tools.common.opening import is_same, open_at_once
from flutejoin_tools.common.options import CommandLine, number_below, sender_option
from flutejoin_tools.common.program import Program, find
from flutejoin_tools.common.shell import MOST_INPUTS
from flutejoin_tools.common.signals import ENDS, answer_stops, end_run, exit_status, later
from flutejoin_tools.common.texts import shown
from flutejoin_tools.fdt.known import told_in
from flutejoin_tools.formats.entries import Entries
from flutejoin_tools.formats.records import Records
from flutejoin_tools.gather.beside import is_of_documents, known_beside
from flutejoin_tools.journals.sparse import thin
from flutejoin_tools.map import survey as surveys
from flutejoin_tools.map import pictures


def write(name: str, page: bytes) -> None:
    """Makes OUT the page, or leaves it unchanged.

    If OUT is there and is no regular file, the page is written into it directly.
    """
    if name == "-":
        put(sys.stdout.fileno(), page)
        return
    path = os.path.realpath(name)
    if os.path.exists(path) and not os.path.isfile(path):
        out = os.open(path, os.O_WRONLY)
        try:
            put(out, page)
        finally:
            os.close(out)
        return
    partial = path + PARTIAL
    with later():
        out = beside(partial)  # it is locked until the run ends, and so until it is removed
        ENDS.append(lambda: os.remove(partial))
    try:
        if os.path.exists(path):
            os.fchmod(out, stat.S_IMODE(os.stat(path).st_mode))
        put(out, page)
        os.fsync(out)
        with later():
            os.replace(partial, path)
            ENDS.clear()
        outputs.bring_names(os.path.dirname(path))
    except OSError:
        with later(), contextlib.suppress(OSError):
            ENDS.clear()
            os.remove(partial)
        raise


def beside(path: str) -> int:
    """Opens and locks the file beside OUT that is written first, and returns its descriptor.

    A file that a killed run left there is used again.
    """
    in_the_way = f"{shown(os.path.basename(path))} beside it is in the way"
    while True:
        try:
            out = os.open(path, os.O_WRONLY | os.O_CREAT | os.O_NOFOLLOW | os.O_NONBLOCK, 0o666)
        except OSError as fault:
            if os.path.lexists(path):
                raise OSError(fault.errno, in_the_way, path) from None
            raise
        try:
            fcntl.flock(out, fcntl.LOCK_EX | fcntl.LOCK_NB)
            if not stat.S_ISREG(os.fstat(out).st_mode):
                raise FileExistsError(errno.EEXIST, in_the_way, path)
            if os.path.lexists(path) and os.path.samestat(os.fstat(out), os.lstat(path)):
                os.ftruncate(out, 0)
                return out
        except BlockingIOError:
            os.close(out)
            raise FileExistsError(errno.EEXIST, "is being written by another run", path) from None
        except BaseException:
            os.close(out)
            raise
        os.close(out)


def put(out: int, page: bytes) -> None:
    """Writes a page to a descriptor."""
    page = memoryview(page)
    while page:
        page = page[os.write(out, page) :]


def arguments() -> argparse.Namespace:
    parser = CommandLine("flutejoin-map", __doc__)
    where = parser.add_mutually_exclusive_group(required=True)
    where.add_argument("-o", metavar="OUT", help="the page to write, or - for standard output")
    where.add_argument("--text", action="store_true", help="print the picture with characters")
    parser.add_argument(
        "--source",
        type=sender_option,
        metavar="ADDRESS",
        help="the sender's address, as 10.0.0.1 or 2001:db8::1, or by 32 hexadecimal digits, or 8 "
        "of IPv4 (default: 0)",
    )
    parser.add_argument(
        "--tsi",
        type=number_below(1 << 48),
        metavar="N",
        help="the session of the object that is drawn",
    )
    parser.add_argument(
        "--toi", type=number_below(1 << 112), metavar="N", help="its number in the session"
    )
    parser.add_argument(
        "--fdt",
        type=number_below(1 << 20),
        metavar="N",
        help="with --toi 0: the number of the FDT Instance",
    )
    parser.add_argument(
        "--flutejoin",
        metavar="PROGRAM",
        help="the program flutejoin (default: the one beside this tool, or on the PATH)",
    )
    parser.add_argument(
        "journal", nargs="+", metavar="JOURNAL", help="a station's journal; up to 64"
    )
    args = parser.parse_args()
    if len(args.journal) > MOST_INPUTS:
        parser.error(f"more than {MOST_INPUTS} journals; flutejoin join makes one of several")
    if "-" in args.journal:
        parser.error(
            "a journal is read several times, and cannot be standard input; "
            "./- is a file of that name"
        )
    if (args.tsi is None) != (args.toi is None):
        parser.error("--tsi and --toi name an object together")
    if args.tsi is None and (args.source is not None or args.fdt is not None):
        parser.error("--source and --fdt need --tsi and --toi")
    if args.toi is not None and (args.toi == 0) != (args.fdt is not None):
        parser.error("--fdt is for --toi 0, which needs it")
    if args.o and args.o != "-" and any(is_same(args.o, journal) for journal in args.journal):
        parser.error("OUT is a journal")
    if args.o and args.o != "-" and begins_as_input(args.o):
        parser.error("OUT is there, and begins as a journal or a datagram file")
    return args


def begins_as_input(name: str) -> bool:
    """Whether a file is there that begins as a journal or a datagram file does."""
    try:
        with open(name, "rb", opener=open_at_once) as file:
            return file.read(4) in (Entries.magic, Records.magic)
    except OSError:
        return False


def wanted(args: argparse.Namespace) -> Optional[str]:
    """The object that is drawn, as flutejoin gaps prints its name; None for all objects."""
    if args.tsi is None:
        return None
    number = args.toi if args.fdt is None else f"fdt {args.fdt}"
    sender = f"source {args.source.hex()} " if args.source and any(args.source) else ""
    return f"{sender}session {args.tsi} object {number}"


def see(journal: str) -> None:
    """Raises OSError unless this is a regular file that can be read.

    A journal is read several times.
    """
    if not stat.S_ISREG(os.stat(journal).st_mode):
        raise OSError(errno.ESPIPE, "is no regular file", journal)
    with open(journal, "rb"):
        pass


def draw(args: argparse.Namespace, report: Log) -> None:
    """Draws what the options ask for, as a page of SVG or as text."""
    for journal in args.journal:
        see(journal)
    program = gaps.Gaps(Program(find(args.flutejoin)))
    journals = [path for path in args.journal if not is_of_documents(path)] or args.journal
    named = [path for path in args.journal if path not in journals]
    told = told_in([*named, *known_beside(journals)])
    one = wanted(args)
    left_out = [*thin(program, journals, lambda key: one is not None and key.text() == one)]
    for line in left_out:
        report.warn(line)
    survey = surveys.Survey(program, journals, told, one, args.text)
    count = len(journals)
    whose = f"{count} stations" if count > 1 else shown(journals[0])
    title = f"What is missing: {whose}"
    notes = left_out if survey.objects else ["The journals tell of no object."]
    drawings = list(survey.drawings())
    if args.text:
        for line in pictures.text_lines(title, drawings, [*notes, *survey.left.notes()]):
            report.say(line)
        return
    lines = pictures.svg_lines(title, drawings, notes, survey.left)
    page = "".join(f"{line}\n" for line in lines).encode()
    try:
        write(args.o, page)
    except AttributeError:  # standard output is closed
        raise Fault(3, "cannot write") from None
    except OSError as fault:
        wrong = "cannot write"
        if args.o != "-":
            wrong = f"{shown(args.o)}: {wrong}: {fault.strerror}"
        raise Fault(3, wrong) from None


def main() -> int:
    """Runs flutejoin-map, and returns its status."""
    args = arguments()
    report = Log("flutejoin-map")

    def work() -> None:
        try:
            answer_stops(end_run)
            draw(args, report)
        except Fault as fault:
            report.fault(fault.status, str(fault))
        except OSError as fault:
            name = shown(os.fsdecode(fault.filename or "flutejoin-map"))
            report.fault(3, f"{name}: cannot be read: {fault.strerror}")

    return exit_status(work, report)
