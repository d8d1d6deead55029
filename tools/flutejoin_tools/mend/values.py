"""Prints the values that datagram files and journals have of one symbol.

  flutejoin-values --tsi 7 --toi 1 --symbol 3/5 station*/10.0.0.1*.fldg all
  flutejoin-values --tsi 7 --toi 1 --symbol 3/5 --without f30ce618 \\
      -o good.fldg station2/10.0.0.1.fldg

Where two values of a symbol came, a journal keeps neither: it is in conflict,
for good. Datagram files have both. For each value there is a line with the
first 8 digits of its SHA-256, its length and how often it came, the most
frequent first, and then a line for each file with how often it is there:

  value 28181702 length 1400 times 7
  in 4 station1/10.0.0.1.fldg
  in 3 station3/10.0.0.1.fldg
  value f30ce618 length 1400 times 1
  in 1 station2/10.0.0.1.fldg
  conflict times 1
  in 1 all

--without writes a datagram file again without the datagrams that carry one
value, which more digits can name too. Join the others again, into a new
journal. OUT must be another file and not be there yet; its bytes go to
OUT.partial first, which gets OUT's name once it is whole. With -o - they go to
standard output, and the line to standard error.

With --source a file counts that has that sender in its name, as 10.0.0.1.fldg,
or none; a file of another sender is passed over, with a line. Of a journal it
names the sender. Without --source all senders are taken as one.

Memory does not grow with the files: of one symbol 4,096 values are listed,
and further ones are counted.

Status 0: a value was found, or OUT written. 1: none was, or a file is at fault;
what the others have is printed. 2: the command line. 3: a file cannot be read,
or an output cannot be made or written. 128 + N: signal N ended it.
"""
from __future__ import annotations

import argparse
import collections
import hashlib
import os
import re
from typing import BinaryIO, Iterator, NamedTuple

from flutejoin_tools.common import outputs
from flutejoin_tools.common.addresses import sender_bytes
from flutejoin_tools.common.file_names import PARTIAL, STANDARD_OUTPUT, name_of
from flutejoin_tools.common.log import Log
from flutejoin_tools.common.opening import is_same, opened
from flutejoin_tools.common.options import CommandLine, number_below, sender_option
from flutejoin_tools.common.signals import answer_stops, end_run, exit_status
from flutejoin_tools.formats import entries, records
from flutejoin_tools.formats.reading import entries_of, packet_of

MOST_VALUES = 4096  # that are printed
DIGITS = 8  # digits of a value's SHA-256 that are printed
CUT = "Cut: flutejoin-mend makes a right file of what is whole in it"


class Wanted(NamedTuple):
    """The symbol that is looked for."""

    source: bytes | None
    tsi: int
    tag: int
    number: int
    symbol: bytes  # source block number and encoding symbol ID, as in packets and journals

    def is_in(self, payload: bytes) -> bytes:
        """The value of the symbol that a datagram carries; empty if it carries none."""
        if self.symbol not in payload:
            return b""
        packet = packet_of(payload)
        if packet is None or packet.tsi != self.tsi or packet.payload_id != self.symbol:
            return b""
        is_file = self.tag == entries.FILE
        number = packet.toi if is_file or packet.toi else packet.instance
        return packet.symbol if number == self.number and is_file == (packet.toi > 0) else b""

    def is_at(self, address: entries.Address) -> bool:
        return address[1:] == self[1:] and self.source in (None, address.source)

    def is_of_other(self, name: str) -> bool:
        """Whether the name of a datagram file names another sender than the wanted one."""
        named = name_of(os.path.basename(name))
        if named is None or self.source is None:
            return False
        return sender_bytes(str(named.address)) != self.source


class Values:
    """The values that were found, by SHA-256: their lengths, and how often each file has them.

    A journal keeps no value of a symbol in conflict: it counts under the empty text.
    """

    def __init__(self) -> None:
        self.found: dict[str, collections.Counter[str]] = {}
        self.lengths: dict[str, int] = {}
        self.more = 0

    def add(self, value: bytes, name: str) -> None:
        """Counts a value that an input has; empty if the input has it in conflict."""
        digits = hashlib.sha256(value).hexdigest() if value else ""
        if digits not in self.found and len(self.found) >= MOST_VALUES:
            self.more += 1
            return
        self.lengths[digits] = len(value)
        self.found.setdefault(digits, collections.Counter())[name] += 1

    def lines(self) -> Iterator[str]:
        """Yields the lines about the values: those that most came with first."""
        times = {digits: sum(names.values()) for digits, names in self.found.items()}
        found = sorted(self.found.items(), key=lambda of: (not of[0], -times[of[0]], of[0]))
        size = self.digits()
        for digits, names in found:
            what = "conflict"
            if digits:
                what = f"value {digits[:size]} length {self.lengths[digits]}"
            yield f"{what} times {times[digits]}"
            for name, count in names.items():
                yield f"in {count} {name}"
        if self.more:
            yield f"more values, times {self.more}"

    def digits(self) -> int:
        """How many digits distinguish the values."""
        size = DIGITS
        while len({digits[:size] for digits in self.found}) < len(self.found):
            size += 1
        return size


def look(name: str, wanted: Wanted, values: Values) -> None:
    """Adds the values that an input has of the symbol."""
    with opened(name) as file:
        reader = entries.reader_of(file)
        if isinstance(reader, entries.Entries):
            for entry in entries_of(reader):
                if entry.address.symbol and wanted.is_at(entry.address):
                    values.add(entry.value, name)
            return
        for payload in reader:
            value = wanted.is_in(payload)
            if value:
                values.add(value, name)


def tell_values(args: argparse.Namespace, wanted: Wanted, report: Log) -> None:
    """Prints the values of the symbol, and which inputs have each."""
    values, passed_over = Values(), []
    for name in args.file:
        if wanted.is_of_other(name):
            passed_over.append(name)
            continue
        try:
            look(name, wanted, values)
        except records.ReadFault as fault:
            report.fault(1, f"{name}: {fault}")
        except records.Cut:
            report.fault(1, f"{name}: {CUT}")
        except OSError as fault:
            report.fault(3, f"{name}: {fault.strerror}")
    for line in values.lines():
        report.say(line)
    for name in passed_over:
        report.say(f"left out {name}: of another sender by its name")
    if not values.found and not report.status:
        report.fault(1, "no value of this symbol")


def write_without(args: argparse.Namespace, wanted: Wanted, report: Log) -> None:
    """Writes a datagram file again without the datagrams that carry one value."""
    (name,) = args.file
    if wanted.is_of_other(name):
        raise records.ReadFault("of another sender by its name")
    with opened(name) as file:
        reader = entries.reader_of(file)
        if isinstance(reader, entries.Entries):
            raise records.ReadFault("is a journal, and not a datagram file")
        named = {hashlib.sha256(value).hexdigest() for value in map(wanted.is_in, reader) if value}
        named = {digits for digits in named if digits.startswith(args.without)}
        if len(named) != 1:
            told = "begin several of its values" if named else "begin no value of its symbol"
            raise records.ReadFault(f"the digits {args.without} {told}")
        (digits,) = named
        file.seek(0)
        kept = Kept(records.Records(file), wanted, digits)
        outputs.write_new(args.o, PARTIAL, kept.write)
        prefix = "" if args.o == STANDARD_OUTPUT else f"{args.o}: "
        report.say(f"{prefix}{kept.count} datagrams, without {kept.left_out}")


class Kept:
    """The datagrams of a file that do not carry one value."""

    def __init__(self, reader: records.Records, wanted: Wanted, digits: str) -> None:
        self.reader, self.wanted, self.digits = reader, wanted, digits
        self.count = self.left_out = 0

    def write(self, out: BinaryIO) -> None:
        """Writes a datagram file without the datagrams that have the value."""
        out.write(records.HEADER)
        for payload in self.reader:
            value = self.wanted.is_in(payload)
            if value and hashlib.sha256(value).hexdigest() == self.digits:
                self.left_out += 1
                continue
            out.write(records.LENGTH.pack(len(payload)) + payload)
            self.count += 1


def symbol(text: str) -> bytes:
    """An option's value as a symbol: its source block and its number, as in a journal."""
    place = re.fullmatch(r"(\d{1,5})/(\d{1,5})", text, re.ASCII)
    numbers = [int(number) for number in place.groups()] if place else [65536]
    if max(numbers) > 65535:
        raise argparse.ArgumentTypeError(f"{text!r} is no source block and symbol, as 3/5")
    return b"".join(number.to_bytes(2, "big") for number in numbers)


def digits(text: str) -> str:
    """An option's value as the first digits of a hash."""
    if not re.fullmatch(f"[0-9a-fA-F]{{{DIGITS},64}}", text):
        raise argparse.ArgumentTypeError(f"{text!r} is not {DIGITS} to 64 hexadecimal digits")
    return text.lower()


def arguments() -> argparse.Namespace:
    parser = CommandLine("flutejoin-values", __doc__)
    add = parser.add_argument
    add(
        "--source",
        type=sender_option,
        metavar="ADDRESS",
        help="the sender (default: all of them), as 10.0.0.1 or 2001:db8::1, or by 32 hexadecimal "
        "digits, or 8 of IPv4",
    )
    add("--tsi", type=number_below(1 << 48), metavar="N", required=True, help="the session")
    add(
        "--toi",
        type=number_below(1 << 112),
        metavar="N",
        help="the object's number in the session",
    )
    add(
        "--fdt",
        type=number_below(1 << 20),
        metavar="N",
        help="the number of the FDT Instance, which is an object of --toi 0",
    )
    add(
        "--symbol",
        type=symbol,
        metavar="S/I",
        required=True,
        help="the source block and the symbol in it, as flutejoin gaps tells them",
    )
    add(
        "--without",
        type=digits,
        metavar="DIGITS",
        help="write FILE, a datagram file, again without the datagrams of this value",
    )
    add(
        "-o",
        metavar="OUT",
        help="with --without: the file to write, which must not be there yet, or - for standard "
        "output",
    )
    add("file", nargs="+", metavar="FILE", help="a datagram file or a journal")
    args = parser.parse_args()
    if (args.fdt is None) == (not args.toi):
        parser.error("one of --toi and --fdt is needed; --toi 0 needs --fdt")
    if (args.without is None) != (args.o is None):
        parser.error("--without and -o need one another")
    if args.without is not None and len(args.file) > 1:
        parser.error("--without takes one FILE")
    is_named = args.o is not None and args.o != STANDARD_OUTPUT
    if is_named and is_same(args.o, args.file[0]):
        parser.error("OUT is FILE")
    return args


def main() -> int:
    """Runs flutejoin-values, and returns its status."""
    args = arguments()
    tag, number = entries.FILE, args.toi
    if args.fdt is not None:
        tag, number = entries.FDT_INSTANCE, args.fdt
    wanted = Wanted(args.source, args.tsi, tag, number, args.symbol)
    report = Log("flutejoin-values", args.o)

    def work() -> None:
        try:
            answer_stops(end_run)
            if args.without is None:
                tell_values(args, wanted, report)
            else:
                write_without(args, wanted, report)
        except records.ReadFault as fault:
            report.fault(1, f"{args.file[0]}: {fault}")
        except records.Cut:
            report.fault(1, f"{args.file[0]}: {CUT}")
        except OSError as fault:
            report.fault(3, f"{fault.filename or args.o}: {fault.strerror}")

    return exit_status(work, report)
