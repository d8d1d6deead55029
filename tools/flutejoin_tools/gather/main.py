"""Joins datagram files and journals into a folder by what agrees, one journal for
each sender.

  flutejoin-gather -o station3 station3/10.0.0.1.fldg
  flutejoin-gather -o centre north/journals/*.journal south/journals/*.journal
  ssh north cat journal | flutejoin-gather -o centre -

A join can't be taken back, and a sender that is started anew, or that uses a TOI
again, sends other contents under the same name. So each object is compared with
what FOLDER has of it before it is joined. If more symbols agree than differ, it
is joined, without those that differ; these are kept aside. If as many differ, or
its transmission information differs, it is another generation of that TOI, and
goes to the next journal, of at most eight; of eight the one whose file was
delivered first goes, as --delivered lists it. FDT Instances are no part of these
journals; each that is whole is a document of its own.

what is in FOLDER:
  10.0.0.1.journal           what 10.0.0.1 sent, and of a TOI that came with other
                             contents too, in 10.0.0.1.g2.journal, and so on
  aside/10.0.0.1.v1.journal  other values of single symbols; further ones in v2
  fdt/10.0.0.1-7-3-HASH.xml  the FDT Instance 3 of session 7, named by its bytes
                             without Expires: one that differs in that alone takes
                             its place. Its time is when it was received last
  fdt/10.0.0.1.fldg          the datagrams of FDT Instances that are not whole yet

flutejoin-files reads all of it for each journal in FOLDER that it is given, and
the MD5 of each file decides which values were sent. Names mean nothing beyond a
folder: other folders' journals are compared again, and their fdt folders are
united by copying. Journals of epochs, as 10.0.0.1.e2.journal of earlier
versions, are inputs as any others.

A datagram file's sender is that of its name, or --source. An input that fails is
reported, and the others are joined. What is repeated changes nothing. Two runs
with one FOLDER wait for one another.

Status 0: all is joined. 1: an input is at fault, and is not joined. 2: the command
line. 3: flutejoin, FOLDER or the disk is at fault. 128 + N: signal N ended it.
"""
from __future__ import annotations

import argparse
import fcntl
import os
import shutil
import sys
from typing import Optional

from flutejoin_tools.common import texts
from flutejoin_tools.common.faults import Fault
from flutejoin_tools.common.file_names import STANDARD_OUTPUT
from flutejoin_tools.common.log import Log
from flutejoin_tools.common.options import CommandLine, sender_option
from flutejoin_tools.common.program import Failed, Program, find
from flutejoin_tools.common.signals import answer_stops, end_run, exit_status
from flutejoin_tools.formats.records import Cut, ReadFault
from flutejoin_tools.gather.gathering import Gathering


def arguments() -> argparse.Namespace:
    parser = CommandLine("flutejoin-gather", __doc__)
    add = parser.add_argument
    add("-o", metavar="FOLDER", dest="folder", required=True, help="where all is kept")
    add(
        "--source",
        type=sender_option,
        metavar="ADDRESS",
        help="the sender of datagram files whose names have none",
    )
    add(
        "--as",
        type=sender_option,
        metavar="ADDRESS",
        dest="one",
        help="keep what all senders sent as of this one, where it agrees: of one session that "
        "has two uplinks",
    )
    add(
        "--delivered",
        metavar="FILE",
        help="a list of files that were delivered, as flutejoin-files --delivered keeps it: of an "
        "object that has eight generations the one that was delivered first goes for another one "
        "(default: delivered.jsonl in FOLDER, if it is there)",
    )
    add(
        "--flutejoin",
        metavar="PROGRAM",
        help="the program flutejoin (default: the one beside this tool, or on the PATH)",
    )
    add(
        "input",
        nargs="+",
        metavar="INPUT",
        help="a datagram file, a journal, or a document of a folder fdt; - is a journal on "
        "standard input",
    )
    args = parser.parse_args()
    if not args.folder or args.folder == "-":
        parser.error("-o is a folder; ./- is one of that name")
    return args


def lock(folder: str) -> int:
    """Waits until no other run works in this folder."""
    os.makedirs(folder, exist_ok=True)
    descriptor = os.open(folder, os.O_RDONLY | os.O_DIRECTORY)
    fcntl.flock(descriptor, fcntl.LOCK_EX)
    return descriptor


def gather(args: argparse.Namespace, report: Log) -> None:
    program = Program(find(args.flutejoin), lambda: None)
    held = lock(args.folder)
    folder = os.path.abspath(args.folder)
    gathering = Gathering(folder, program, report, args.source, args.one, args.delivered)
    try:
        for path in args.input:
            gather_one(gathering, path, report)
    finally:
        gathering.end()
        os.close(held)
    for line in gathering.lines(args.folder):
        report.say(line)


def gather_one(gathering: Gathering, path: str, report: Log) -> None:
    shown = "standard input" if path == STANDARD_OUTPUT else texts.shown(path)
    try:
        gathering.take(standard_input(gathering) if path == STANDARD_OUTPUT else path)
    except ReadFault as fault:
        report.fault(1, f"{shown}: {fault}")
    except Cut:
        report.fault(1, f"{shown}: Cut")
    except Failed as fault:
        report.fault(fault.answer.status, f"{shown}: {fault}")
    except OSError as fault:
        report.fault(3, f"{fault.filename or shown}: {fault.strerror}")


def standard_input(gathering: Gathering) -> str:
    """Copies standard input to a file, since a journal is read several times."""
    path: Optional[str] = gathering.temporary("input")
    assert path
    with open(path, "wb") as out:
        shutil.copyfileobj(sys.stdin.buffer, out)
    return path


def main() -> int:
    """Runs flutejoin-gather, and returns its status."""
    args = arguments()
    report = Log("flutejoin-gather")

    def work() -> None:
        try:
            answer_stops(end_run)
            gather(args, report)
        except Fault as fault:
            report.fault(fault.status, str(fault))
        except OSError as fault:
            report.fault(3, f"{fault.filename or 'flutejoin-gather'}: {fault.strerror}")

    return exit_status(work, report)
