"""Writes the files of FLUTE sessions under their names, out of journals.

  flutejoin-files --list all       lists the files and how much of each is held
  flutejoin-files -o files all     writes those that are whole: files/HOST/PATH

The names, lengths, types and digests are those of the FDT Instances (RFC 6726)
that the journals hold whole, and of FDT Instances in files, --fdt. Of several
descriptions of an object the one whose MD5 it has counts, and Expires decides
only between those, or where none has an MD5; that is reported. An FDT Instance
that contradicts several verified files and verifies none is named as suspect,
with the line that forgets it. Transmission information that only an FDT has is
used too; the journals stay as they are. Objects with another FEC Encoding ID
than 0 are left alone.

A file is written where its object is whole. Content-Encoding gzip, zlib and
deflate is undone, up to Content-Length, and in all up to --most. Then the MD5
of the FDT is compared, which may be that of the encoded or of the decoded
bytes. A file with another MD5 is wrong, though its object is whole: somebody
sent other symbols. It is NAME.unverified, as is what cannot be decoded, or is
of another length. One without MD5 is written, and reported.

Beside a journal of a station or of flutejoin-gather are further generations of
its sender (10.0.0.1.g2.journal), other values in aside, and FDT Instances as
documents in fdt. All are read too. A TOI that came with other contents gives a
file for each MD5 that an FDT Instance has of it.

Of several journals each is believed first in turn where they differ about an
object or an FDT Instance, and after it those that differ least from it: so what
is whole in one of them, or in some, is taken where the MD5 holds. So are the
lengths of an object by which its MD5 is right. With --resolve all combinations
of the values of symbols in conflict are tried, up to 1,024 for an object. The
files of --from have those values, and the JOURNALs where several are given.

A name is somebody's text. It leads to no other place than below FOLDER: `..`
stays below it, and what is not safe in a name is % and two hexadecimal digits
of each byte, as %2F. No link in FOLDER is followed. A name stays with the
sender whose file has it in FOLDER; the file of another one is
NAME.from-ADDRESS, unless --source names that sender, and the status is 1. A
name that a second file of the sender has, or that is a folder of another file,
is given once; the other has ~TSI-TOI after it. An older file of the same name
is replaced by a newer one, once that is there. An FDT Instance with a DTD, or
of more than 16 MB, is refused.

A run reads FDT Instances up to a bound of their XML and of what they describe,
32,768 files, the newest first; it reports how many are left. --any-size takes
all of them.

Files appear whole or not at all. Run again with the same FOLDER it writes what
is new or changed. What it makes on the way is in FOLDER.partial, and goes at
the end; with --list alone it is in a temporary folder (TMPDIR).

Status 0: each file of the newest FDT Instance that is not suspect is there, and
its MD5 is right; with --list alone, is whole. 1: some are not, or a journal or
an FDT Instance is at fault, or two senders claim a name. 2: the command line.
3: a file cannot be read, flutejoin cannot be run, or an output cannot be made
or written. 128 + N: signal N ended it.
"""
from __future__ import annotations

import argparse
import contextlib
import errno
import itertools
import os
import stat
import tempfile
from typing import Iterator

from flutejoin_tools.common.faults import Fault
from flutejoin_tools.common.log import Log
from flutejoin_tools.common.options import CommandLine, number_below, number_of_bytes, sender_option
from flutejoin_tools.common.places import Scratch, scratch_beside
from flutejoin_tools.common.program import Program, find
from flutejoin_tools.common.shell import MOST_INPUTS
from flutejoin_tools.common.signals import ENDS, answer_stops, end_run, exit_status, later
from flutejoin_tools.common.texts import shown
from flutejoin_tools.fdt.content import DecodingBudget
from flutejoin_tools.files import table
from flutejoin_tools.files.catalogue import Catalogue
from flutejoin_tools.files.delivery import Delivery, Wanted
from flutejoin_tools.files.writing import Writing
from flutejoin_tools.formats.records import Records
from flutejoin_tools.gather import delivered
from flutejoin_tools.gather.beside import beside, is_of_documents

LEAST_MOST, RATIO = 10**9, 16  # of --most, which is the greater of this and these times the input


def arguments() -> argparse.Namespace:
    parser = CommandLine("flutejoin-files", __doc__)
    add = parser.add_argument
    add("--list", action="store_true", help="list the files, by session")
    add("-o", metavar="FOLDER", help="write the files below this folder, which is made if needed")
    add(
        "--source",
        type=sender_option,
        metavar="ADDRESS",
        help="only what this sender sent, as 10.0.0.1 or 2001:db8::1, or by 32 hexadecimal "
        "digits, or 8 of IPv4",
    )
    add(
        "--tsi",
        type=number_below(1 << 48),
        action="append",
        default=[],
        metavar="N",
        help="only this session; may be given up to 64 times",
    )
    add(
        "--fdt",
        action="append",
        default=[],
        metavar="FILE",
        help="take the FDT Instance in this file too; may be given several times",
    )
    add(
        "--most",
        type=number_of_bytes,
        metavar="BYTES",
        help="the most bytes that are decoded in all, of newer files first (default: 1000000000, "
        "or 16 times the journals, if that is more); 64M and 2G are numbers too",
    )
    add(
        "--json",
        action="store_true",
        help="print a JSON object for each file, with its name, path, state, and whether it is new",
    )
    add(
        "--delivered",
        metavar="FILE",
        help="add a line to this list for each file whose MD5 is right, as --json prints it, "
        "unless the list has it; flutejoin-gather and a station read such a list",
    )
    add(
        "--any-size",
        action="store_true",
        help="read all FDT Instances, however much they describe; takes memory for each file",
    )
    add(
        "--resolve",
        action="store_true",
        help="try all combinations of the values of conflicting symbols, up to 1,024 for an "
        "object: the MD5 of the FDT tells which were sent",
    )
    add(
        "--from",
        action="extend",
        nargs="+",
        default=[],
        dest="with_values",
        metavar="FILE",
        help="with --resolve: datagram files and journals that have such values, or other lengths "
        "of an object; give JOURNAL before this, or after --",
    )
    add(
        "--flutejoin",
        metavar="PROGRAM",
        help="the program flutejoin (default: the one beside this tool, or on the PATH)",
    )
    add("journal", nargs="+", metavar="JOURNAL", help="a journal; up to 64 are joined")
    args = parser.parse_args()
    if not args.list and args.o is None:
        parser.error("-o or --list is needed, or both")
    if max(len(args.journal), len(args.tsi)) > MOST_INPUTS:
        parser.error(f"more than {MOST_INPUTS} of one kind")
    if args.with_values and not args.resolve or args.resolve and args.o is None:
        parser.error("--resolve needs -o, and --from needs --resolve")
    if args.resolve and not args.with_values and len(args.journal) == 1:
        if not beside(args.journal).journals:
            parser.error("--resolve needs --from, or several journals")
    if "-" in args.journal:
        parser.error(
            "a journal is read several times, and cannot be standard input; "
            "./- is a file of that name"
        )
    if args.delivered and args.o is None:
        parser.error("--delivered needs -o")
    if args.o == "-":
        parser.error("-o is a folder; ./- is one of that name")
    return args


def see(journal: str) -> None:
    """Raises OSError or Fault unless this is a regular file, and no datagram file.

    A journal is read several times.
    """
    if not stat.S_ISREG(os.stat(journal).st_mode):
        raise OSError(errno.ESPIPE, "is no regular file", journal)
    with open(journal, "rb") as file:
        if file.read(4) == Records.magic:
            told = "is a datagram file; flutejoin join makes a journal of it"
            raise Fault(1, f"{shown(journal)}: {told}")


@contextlib.contextmanager
def scratch_for(folder: str | None) -> Iterator[Scratch]:
    """The scratch folder beside the folder of files, or a temporary one for a list."""
    with later():
        path = scratch_beside(folder) if folder else tempfile.mkdtemp(prefix="flutejoin-files-")
        scratch = Scratch(path)
        ENDS.append(scratch.end)
    try:
        yield scratch
    finally:
        with later():
            if scratch.end in ENDS:  # and not ended by `exit_status`
                ENDS.remove(scratch.end)
                scratch.end()


def deliver(args: argparse.Namespace, report: Log) -> None:
    """Lists or writes the files, as the options say."""
    for journal in args.journal:
        see(journal)
    program = Program(find(args.flutejoin))
    catalogue = Catalogue(report, not args.any_size)
    # What a folder of documents has of transmission information is in the documents too.
    named = [path for path in args.journal if not is_of_documents(path)] or args.journal
    kept = beside(named)
    journals = [*named, *kept.journals]
    # Where generations are kept apart, the MD5 decides which values belong together.
    is_resolved = args.resolve or bool(kept.journals)
    others = [*args.with_values, *(journals if len(journals) > 1 else [])] if is_resolved else []
    with scratch_for(args.o) as scratch:
        program.kept = (scratch.folder,)
        wanted = Wanted(args.source, args.tsi)
        delivery = Delivery(program, journals, wanted, scratch, catalogue, kept.folders)
        delivery.read(args.fdt, others)
        if args.o is None:
            delivery.look()
            delivery.look_apart(others)
            catalogue.settle()
            catalogue.paths(lambda path: None)
        else:
            writing = Writing(catalogue, scratch, DecodingBudget(most(args)), report)
            writing.find(args.o, args.source)
            delivery.extract_all()
            writing.check()
            writing.check(delivery.resolve(others))
            catalogue.settle()
            writing.write(args.o, args.source)
    if args.delivered:
        delivered.add(args.delivered, itertools.chain(*map(table.json_lines, catalogue)))
    tell(args, catalogue, report)


def most(args: argparse.Namespace) -> int:
    """How many bytes may be decoded in all."""
    if args.most is not None:
        return int(args.most)
    return max(LEAST_MOST, RATIO * sum(map(os.path.getsize, args.journal)))


def tell(args: argparse.Namespace, catalogue: Catalogue, report: Log) -> None:
    """Prints the files of all sessions, and sets the status."""
    sessions = list(catalogue)
    for session in sessions:
        lines = table.table if args.list else table.outcome_lines
        for line in (table.json_lines if args.json else lines)(session):
            report.say(line)
    for line in table.more_lines(catalogue) if args.list and not args.json else ():
        report.say(line)
    if args.o is not None and not args.json:
        report.say(table.Sum(catalogue).line())
    if not sessions:
        report.fault(1, "the journals tell of no object")
    if catalogue.without or not all(session.is_done() for session in sessions):
        report.status = max(report.status, 1)


def main() -> int:
    """Runs flutejoin-files, and returns its status."""
    args = arguments()
    report = Log("flutejoin-files")

    def work() -> None:
        try:
            answer_stops(end_run)
            deliver(args, report)
        except Fault as fault:
            report.fault(fault.status, str(fault))
        except OSError as fault:
            report.fault(3, f"{fault.filename or 'flutejoin-files'}: {fault.strerror}")

    return exit_status(work, report)
