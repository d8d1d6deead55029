"""Fetches by HTTP what no station has of files, as datagrams of their sender.

  flutejoin-repair --base http://example.com/news/ -o more.fldg all
  flutejoin join --any-size --source 10.0.0.1 -o all all more.fldg

FDT Instances say where files lie: by their Content-Location, and for 3GPP
services by Alternate-Content-Location-1 and -2, with Base-URL-1 and -2. What
flutejoin gaps --ranges says is missing is asked for there as byte ranges, many
in one request. With --symbols each URL of --base is a file repair server of
3GPP TS 26.346, which is asked for symbols by their numbers.

What comes is cut into symbols, and OUT is a datagram file that flutejoin join
takes like any other. A file whose length, ETag, date or MD5 does not fit is
reported, and nothing of it is written. The MD5 is compared with all of the
object, with what JOURNAL has of it. Of a file that is not complete OUT has what
came, which was compared by length and ETag alone, as is a file without an MD5.
Of an object that has several generations beside JOURNAL, as flutejoin-gather keeps
them, what each lacks is asked for by the FDT Instance whose MD5 fits it.
If the object is encoded (Content-Encoding), the whole of it is asked for, and
taken if the server sends it in the same encoding.

An FDT Instance is text of whoever sent it. So a URL is only asked if it is
below one of --base, http or https, and at an address of the public network, or
one that --base has as a number or --allow names. Redirects have to be so too,
at most five, and never lead from https to http. No user, password or cookie is
sent, and no proxy is used. Certificates are checked. What comes, and what time
it takes, have bounds: --most and --seconds.

Status 0: nothing of a described file is missing any more, once OUT is joined.
1: something is, or JOURNAL or an FDT Instance is at fault. 2: the command line.
3: JOURNAL cannot be read, flutejoin cannot be run, or OUT cannot be made or
written. 128 + N: signal N ended it.
"""
from __future__ import annotations

import argparse
import os
import time
from typing import Any, Callable, Iterator

from flutejoin_tools.common.faults import Fault
from flutejoin_tools.common.file_names import STANDARD_OUTPUT
from flutejoin_tools.common.log import Log
from flutejoin_tools.common.options import CommandLine, number_below, number_of_bytes, sender_option
from flutejoin_tools.common.program import Program, find
from flutejoin_tools.common.shell import MOST_INPUTS, gather_lines, join_lines
from flutejoin_tools.common.signals import answer_stops, end_run, exit_status
from flutejoin_tools.files.session import address_of
from flutejoin_tools.repair import repairs
from flutejoin_tools.repair.further import generations_beside
from flutejoin_tools.repair.origins import network_of


def checked(kind: Callable[[str], Any]) -> Callable[[str], Any]:
    """A type of an option whose faults keep their words."""

    def value(text: str) -> Any:
        try:
            return kind(text)
        except ValueError as fault:
            raise argparse.ArgumentTypeError(str(fault)) from None

    return value


def arguments() -> argparse.Namespace:
    parser = CommandLine("flutejoin-repair", __doc__)
    add = parser.add_argument
    add(
        "-o",
        metavar="OUT",
        required=True,
        help="the datagram file to write, which must not be there yet, or - for standard output",
    )
    add(
        "--base",
        type=checked(repairs.base_of),
        action="append",
        default=[],
        metavar="URL",
        help="files below this URL may be asked for, and names that are no URL are below it; may "
        "be given several times",
    )
    add(
        "--allow",
        type=checked(network_of),
        action="append",
        default=[],
        metavar="ADDRESS",
        help="connect to this address, or to this network, as 10.0.0.0/8, though it is not public; "
        "may be given several times",
    )
    add("--symbols", action="store_true", help="ask for symbols by their numbers, of the --base")
    add(
        "--source",
        type=sender_option,
        metavar="ADDRESS",
        help="only what this sender sent, as 10.0.0.1 or 2001:db8::1, or by 32 hexadecimal "
        "digits, or 8 of IPv4; needed if JOURNAL has several",
    )
    add(
        "--tsi",
        type=number_below(1 << 48),
        action="append",
        default=[],
        metavar="N",
        help="only this session; may be given up to 64 times",
    )
    add(
        "--fdt",
        action="append",
        default=[],
        metavar="FILE",
        help="take the FDT Instance in this file too; may be given several times",
    )
    add_bounds(add)
    add("--json", action="store_true", help="print a JSON object for each file, and one for all")
    add(
        "--flutejoin",
        metavar="PROGRAM",
        help="the program flutejoin (default: the one beside this tool, or on the PATH)",
    )
    add("journal", metavar="JOURNAL", help="the journal of which something is missing")
    args = parser.parse_args()
    if max(len(args.tsi), len(args.base), len(args.allow)) > MOST_INPUTS:
        parser.error(f"more than {MOST_INPUTS} of one kind")
    if args.symbols and not args.base:
        parser.error("--symbols needs --base, which names the servers")
    if args.journal == "-":
        parser.error(
            "a journal is read several times, and cannot be standard input; "
            "./- is a file of that name"
        )
    return args


def add_bounds(add: Callable[..., Any]) -> None:
    """Adds the options that say when, how much and how long."""
    add(
        "--after",
        type=checked(repairs.duration),
        default=0.0,
        metavar="SECONDS",
        help="wait first until JOURNAL has not changed for so long; 10m and 2h are times too",
    )
    add(
        "--spread",
        type=checked(repairs.duration),
        default=0.0,
        metavar="SECONDS",
        help="then wait for a random part of this time, so that not all stations ask at once",
    )
    add(
        "--most",
        type=number_of_bytes,
        default=repairs.MOST,
        metavar="BYTES",
        help="the most bytes that servers may send in all (default: 1000000000); 64M and 2G are "
        "numbers too",
    )
    add(
        "--seconds",
        type=checked(repairs.duration),
        default=repairs.SECONDS,
        metavar="SECONDS",
        help="the longest that all requests may take together (default: 3600)",
    )


def wait(args: argparse.Namespace, settings: repairs.Settings) -> None:
    """Waits until JOURNAL is old enough, for no longer than that takes from now; then at random."""
    age = time.time() - os.stat(args.journal).st_mtime
    time.sleep(max(0.0, min(settings.after - age, settings.after)) + settings.wait())


def work(args: argparse.Namespace, report: Log) -> None:
    """Asks for what the journals lack, and tells what came."""
    settings = repairs.Settings(
        tuple(args.base),
        tuple(args.allow),
        args.symbols,
        args.after,
        args.spread,
        args.most,
        args.seconds,
    )
    inputs = repairs.Inputs(args.journal, args.source, args.tsi, args.fdt)
    program = Program(find(args.flutejoin))
    repairs.see(args.journal)
    wait(args, settings)
    result = repairs.repair(settings, inputs, args.o, program, report)
    if args.json:
        for line in result.json_lines():
            report.say(line)
        return
    report.say(result.line())
    if result.datagrams and args.o != STANDARD_OUTPUT:
        for line in next_lines(result, args):
            report.say(line)


def next_lines(result: repairs.Result, args: argparse.Namespace) -> Iterator[str]:
    """Yields the command that joins what came: by what agrees, if there are several journals."""
    if not generations_beside(args.journal):
        return join_lines(result.sender, args.journal, [args.o])
    folder = os.path.dirname(args.journal) or "."
    return gather_lines(folder, [args.o], address_of(result.sender))


def main() -> int:
    """Runs flutejoin-repair, and returns its status."""
    args = arguments()
    report = Log("flutejoin-repair", args.o)

    def run() -> None:
        try:
            answer_stops(end_run)
            work(args, report)
        except Fault as fault:
            report.fault(fault.status, str(fault))
        except OSError as fault:
            report.fault(3, f"{fault.filename or 'flutejoin-repair'}: {fault.strerror}")

    return exit_status(run, report)
