"""Makes datagram files for flutejoin out of packet captures: one for each sender.

  flutejoin-capture monday.pcap          lists who sends to which group and port
  flutejoin-capture --port 4001 -o monday monday.pcap   makes monday/SENDER.fldg
  tcpdump -i eth0 -s 0 -U -w - udp | flutejoin-capture --port 4001 -o monday -

A capture is pcap or pcapng, also compressed by gzip; `-` is standard input,
where it may still grow. Out of gzip may come 262,144 packets, and then one for
each 16 bytes that go in: each KiB counts as one more, and as several each
fragment and each packet that is like none before. More is damage: gunzip it
before, if it is right. A capture is of Ethernet, with VLAN tags or LLC/SNAP or
without, of Linux "any" (SLL and SLL2), of raw IP, or of loopback. Several
captures are read one after another. IPv4 and IPv6 fragments are put together.
Of a list, "like FLUTE" counts the datagrams with a right LCT header (RFC
5651): version 1, TSI and TOI, codepoint 0, a length that holds its fields and
lies within the datagram, whole extensions; or one that can be written so.

A journal never forgets, so what was not received whole and right is left out,
and counted by its cause: a packet that the capture cut short, a UDP checksum
that does not hold (over IPv6 also none), a wrong IPv4 header checksum, a lost
fragment, fragments that overlap or disagree (RFC 5722), that are more than 256
or come more than 30 seconds apart, an ICMP error that quotes a datagram.
Tunnels (GRE, VXLAN and others) are not opened, and counted, as frames of
unknown kinds are.

On the sending host a capture sees checksums that are filled in later: there,
--any-checksum takes each datagram whatever its UDP and IPv4 header checksums
are. There a sender's datagrams may also be one, until the network card takes
them apart (UDP segmentation offload, GSO): those that carry the length of their
symbols (EXT_FTI) are taken apart, and others of more than 1,472 bytes are left
out and counted. Capture at a station, and no such question comes up.

What differs from FLUTE 2 (RFC 6726) in its form alone is written as FLUTE 2,
with one symbol in each datagram, and reported once for each sender: FLUTE 1
(RFC 3926), EXT_CENC, the fields SCT and ERT of RFC 3451, and several symbols in
a packet, where EXT_FTI tells their length. No symbol changes, and what isn't
certain stays as it came. What can't be written so (another FEC Encoding ID,
ROUTE and others) is left out, and counted. --as-received keeps all as it came.

The files: A sender 2001:db8::1 has 2001-db8--1.fldg, then 2001-db8--1.2.fldg
and so on where it takes several. Where an FDT Instance comes with other contents
than before, as of a sender that starts again, that is reported, and the line at
the end is one of flutejoin-gather, which keeps apart what differs.
A file is written as NAME.partial, and gets its name
once it is whole: at the end of the captures, at Ctrl-C, SIGTERM and SIGHUP
too, and on a full disk with the datagrams that fit. A file that is there
already, or its NAME.partial, is never touched: that sender's datagrams are
left out, and the status is 3. What a killed run left as NAME.partial is whole,
and needs only another name, or it is cut: flutejoin-mend says which, and makes
a whole file of it. What came is written once a second. The lines
at the end are the next step; a journal that is there already
is joined, and not lost.

Memory does not grow with a capture: of the last 256 datagrams that came in
fragments the fragments are kept (up to 16 MiB), of at most 200 senders a file
is open and the newest 4,096 facts of FDT Instances known, and at most 65,536
flows are listed; what is beyond is left out and counted. A section of pcapng
has at most 65,536 interfaces.

Whoever can send to a port can make senders up. Of more than 200 the first 200
have files. Captures that are all files are then read again, for the 200 others
that sent most bytes; a pipe is read once. Of those that are left out even so
the one that sent most is named: --from takes the senders that it names.

Status 0: datagrams were written, or listed. 1: none came, a sender was left
out, all datagrams are left out, or a capture is damaged, cut at its end or none
at all; what was read before is kept. 2: the command line. 3: a capture cannot
be opened or read, or an output cannot be made or written. 128 + N: signal N
came when all was written, and nobody took the lines for a second.
"""
from __future__ import annotations

import argparse
import collections
import ipaddress
import os
from typing import Callable, Container, Iterator

from flutejoin_tools.capture import captures, datagrams, inputs, parts
from flutejoin_tools.capture.runs import Runs
from flutejoin_tools.common.addresses import address_text
from flutejoin_tools.common.disk import MOST_BYTES
from flutejoin_tools.common.log import Log
from flutejoin_tools.common.options import CommandLine
from flutejoin_tools.common.signals import answer_late_stops, exit_status
from flutejoin_tools.formats import adapting, packets

MOST_FLOWS = 1 << 16  # that are listed
FLOWS = f"more than {MOST_FLOWS} flows"


class Flows:
    """Counts the datagrams of each sender, group and port, and how many of them are like FLUTE."""

    def __init__(self) -> None:
        # By sender, group and port: the number of datagrams, and how many of them are like FLUTE
        self.counts: dict[tuple[bytes, bytes, int], list[int]] = {}
        self.causes: dict[tuple[bytes, bytes, int], str] = {}  # why the first is left out
        self.left_out: collections.Counter[str] = collections.Counter()
        self.work = 0  # that datagrams took more than a small one

    def add(self, source: bytes, target: bytes, port: int, payload: bytes) -> None:
        """Counts a datagram of a flow: of one sender to one group and port."""
        flow = source, target, port
        count = self.counts.get(flow)
        if count is None:
            if len(self.counts) >= MOST_FLOWS:
                self.left_out[FLOWS] += 1
                return
            count = self.counts[flow] = [0, 0]
        count[0] += 1
        self.work += parts.ADAPTED_WORK
        taken = adapting.Adapting().take(payload)
        count[1] += packets.is_like_flute(payload) or taken.is_flute()
        if taken.left_out:
            self.causes.setdefault(flow, taken.left_out)

    def lines(self) -> Iterator[str]:
        """Yields a line for each flow, those with most datagrams like FLUTE first."""
        flows = sorted(self.counts.items(), key=lambda flow: (-flow[1][1], -flow[1][0], flow[0]))
        for (source, target, port), (count, like) in flows:
            flow = f"from {address_text(source)} to --group {address_text(target)} --port {port}"
            cause = self.causes.get((source, target, port))
            why = f" ({cause})" if cause else ""
            yield f"{flow}: {count} datagrams, {like} like FLUTE{why}"


def number_up_to(most: int) -> Callable[[str], int]:
    """Returns what reads an option's value as a number from 1 to `most`."""

    def number(text: str) -> int:
        if not text.isascii() or not text.isdigit() or not 1 <= int(text) <= most:
            raise argparse.ArgumentTypeError(f"{text!r} is not a number from 1 to {most}")
        return int(text)

    return number


def arguments() -> argparse.Namespace:
    parser = CommandLine("flutejoin-capture", __doc__)
    parser.add_argument(
        "--port",
        type=number_up_to(65535),
        action="append",
        metavar="N",
        help="take what is sent to this UDP port; may be given several times; without it the "
        "flows are listed",
    )
    parser.add_argument(
        "--group",
        type=ipaddress.ip_address,
        action="append",
        metavar="ADDRESS",
        help="only what is sent to this address; may be given several times",
    )
    parser.add_argument(
        "--from",
        dest="senders",
        type=ipaddress.ip_address,
        action="append",
        metavar="SENDER",
        help="only what this address sent; may be given several times",
    )
    parser.add_argument(
        "-o",
        metavar="FOLDER",
        help="where the datagram files go (default: the current folder); it is made, in a folder "
        "that is there",
    )
    parser.add_argument(
        "--split",
        type=number_up_to(MOST_BYTES),
        default=MOST_BYTES,
        metavar="BYTES",
        help="the most bytes of a file (default and most: 4294967295), but at least one datagram; "
        "and never more than 16,777,216 datagrams, which flutejoin reads of one file",
    )
    parser.add_argument(
        "--any-checksum",
        action="store_true",
        help="take datagrams whatever their UDP and IPv4 header checksums are: of a capture on "
        "the sending host alone",
    )
    parser.add_argument("--as-received", action="store_true", help=adapting.WITHOUT_CHANGE)
    parser.add_argument(
        "capture", nargs="+", metavar="CAPTURE", help="a capture, or - for standard input"
    )
    args = parser.parse_args()
    if args.o is not None and not args.port:
        parser.error(
            "-o needs --port, which tells what to write; without both, the flows are listed"
        )
    return args


def take_all(
    args: argparse.Namespace,
    wanted: datagrams.Datagrams,
    into: parts.Files | Flows,
    report: Log,
    is_told: bool = False,
) -> bool:
    """Takes the datagrams of all captures. Returns False if a signal ended it, it failed, or one
    was too much.

    A fault in one capture is reported, unless that was done already, and the next one is read.
    """
    stop, is_too_much = inputs.Stop(), False
    out = into if isinstance(into, parts.Files) else None

    def work() -> int:
        return wanted.work + into.work

    try:
        for name in args.capture:
            if name != "-":
                os.stat(name)
        if out:
            out.make_folder()
        for name in args.capture:
            try:
                tick = out.flush_all if out else lambda: None
                more = Runs(wanted, out, args.as_received).take if out else lambda *_: 0
                told = captures.read(name, stop, tick, wanted.take, more, work)
                if told and not is_told:
                    report.warn(f"{name}: {told}")
            except inputs.TooMuch as fault:
                is_too_much = True
                report.fault(1, f"{name}: {fault}")
            except inputs.CaptureFault as fault:
                if not is_told:
                    report.fault(1, f"{name}: {fault}")
            if stop.asked:
                break
    except parts.Unwritable as fault:
        report.fault(3, str(fault))
    except OSError as fault:
        report.fault(3, f"{fault.filename or name}: cannot be read: {fault.strerror}")
    wanted.finish()
    return not stop.asked and not is_too_much and report.status < 3


def take_others(
    args: argparse.Namespace, out: parts.Files, report: Log, is_whole: bool
) -> parts.Files:
    """Reads captures of too many senders again, for those others that sent most.

    Returns their files. Who is left out even so is reported.
    """
    more, chosen = parts.Files(out.folder, args.split, report), set()
    if is_whole and all(map(is_readable_again, args.capture)):
        chosen.update(out.largest_beyond())

        def add(source: bytes, target: bytes, port: int, payload: bytes) -> None:
            (more.add if args.as_received else more.take)(source, payload)

        wanted = wanted_of(args, add, chosen)
        take_all(args, wanted, more, report, is_told=True)
        out.left_out[parts.SENDERS] -= wanted.count
    left = [sender for sender in out.beyond if sender not in chosen]
    if left:
        most = max(left, key=lambda sender: out.beyond[sender])
        report.fault(
            1,
            f"senders are left out, of whom {address_text(most)} sent most, "
            f"{out.beyond[most]} bytes; --from takes the ones that it names",
        )
    more.finish()
    return more


def is_readable_again(name: str) -> bool:
    return name != "-" and os.path.isfile(name)


def wanted_of(
    args: argparse.Namespace, add: datagrams.HandOn, senders: Container[bytes]
) -> datagrams.Datagrams:
    """What finds the datagrams that the options ask for, of these senders."""
    ports, groups = set(args.port or ()), {group.packed for group in args.group or ()}
    return datagrams.Datagrams(ports, groups, args.any_checksum, add, senders)


def capture(args: argparse.Namespace, report: Log) -> None:
    """Reads all captures, and writes datagram files or lists the flows."""
    flows = Flows()
    out = parts.Files(args.o or ".", args.split, report) if args.port else None

    def add(source: bytes, target: bytes, port: int, payload: bytes) -> None:
        if out:
            (out.add if args.as_received else out.take)(source, payload)
        else:
            flows.add(source, target, port, payload)

    wanted = wanted_of(args, add, {sender.packed for sender in args.senders or ()})
    is_whole = take_all(args, wanted, out or flows, report)
    written = []
    if out:
        out.finish()
        written.append(out)
        if out.beyond:
            written.append(take_others(args, out, report, is_whole))
    answer_late_stops()
    tell(args, wanted, flows, written, report)


def tell(
    args: argparse.Namespace,
    wanted: datagrams.Datagrams,
    flows: Flows,
    written: list[parts.Files],
    report: Log,
) -> None:
    """Prints the flows, what was left out, and the lines to join what was written."""
    for line in flows.lines():
        report.say(line)
    left_out = sum((each.left_out for each in written), wanted.left_out + flows.left_out)
    for cause, count in left_out.items():
        report.say(f"left out {count}: {cause}")
    for each in written:
        for line in each.join_lines():
            report.say(line)
    if left_out[datagrams.CHECKSUM] + left_out[datagrams.NO_CHECKSUM] > wanted.count:
        report.warn(
            "most UDP checksums do not hold; if this was captured on the sending host, where they "
            "are filled in later, use --any-checksum"
        )
    is_written = any(each.is_used() for each in written)
    if written and wanted.count and not is_written and not report.status:
        report.fault(1, "nothing is written, since all datagrams are left out")
    if not wanted.count and not report.status:
        where = ""
        if args.port:
            ports = " or ".join(map(str, args.port))
            where = f" to port {ports}; without --port all flows are listed"
        report.fault(1, "no UDP datagrams" + where)


def main() -> int:
    """Runs flutejoin-capture, and returns its status."""
    args = arguments()
    report = Log("flutejoin-capture")
    return exit_status(lambda: capture(args, report), report)
