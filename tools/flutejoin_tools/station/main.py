"""Runs a station by itself: receives datagrams, and keeps what they carry as one
journal for each sender.

  flutejoin-station --group 239.1.1.1 --port 4001 --interface eth0 -o news
  flutejoin-station --config /etc/flutejoin/news.toml -o /var/lib/flutejoin/news

flutejoin-receive runs as a child. What it writes to FOLDER/in is joined, each
minute, whenever a file is full, and at once when an object may have become whole
by it, by flutejoin join, at a low priority and beside the receiving, which never
waits for it. A datagram file is removed once
a journal with all its contents is on the disk. A kill at any moment loses
nothing that was on the disk, and a new start goes on with what is there. It
runs until Ctrl-C, SIGTERM, SIGHUP (not under nohup) or --seconds, and then
joins what is left; at a second signal it ends at once.

what is in FOLDER:
  journals/10.0.0.1.journal  what the sender 10.0.0.1 sent, with 10.0.0.1.TIME.journal:
                             what came since. Some are joined once there are 48,
                             and all at --nightly. Of a TOI that came with other
                             contents too, in 10.0.0.1.g2.journal, and so on
  recent/                    what is being joined
  in/                        the datagram files that are being received; the
                             last one of each sender stays
  raw/                       with --keep-raw, the newest datagram files of those
                             that are joined
  deliver/                   with --deliver, journals of what was new since the last round
  outbox/                    with --outbox, journals of what was new until somebody
                             takes them away; at most eight for each sender, and full ones
  fdt/                       FDT Instances, as flutejoin-gather keeps them
  aside/                     what is at fault: datagram files that were not
                             joined, damaged journals; each is reported; and
                             other values of symbols, in 10.0.0.1.v1.journal
  joined.json                how much of each file in in/ is joined
"""
from __future__ import annotations

import argparse
import datetime
import json
import os
import select
import signal
import sys
import time
from typing import Optional

from flutejoin_tools.centre.origin import repairing_in
from flutejoin_tools.centre.service import Service, of_station
from flutejoin_tools.common.faults import Fault
from flutejoin_tools.common.joining import MOST_SESSIONS
from flutejoin_tools.common.options import CommandLine, number_of_bytes
from flutejoin_tools.common.outputs import replace_text
from flutejoin_tools.common.program import Program, find
from flutejoin_tools.common.service_log import ServiceLog, instant
from flutejoin_tools.common.shelves import take_lock
from flutejoin_tools.common.signals import answer_stops, end_run, exit_status
from flutejoin_tools.common.systemd import Systemd
from flutejoin_tools.formats.adapting import WITHOUT_CHANGE
from flutejoin_tools.receive.sdp import sessions_in
from flutejoin_tools.receive.settings import AS_RECEIVED, seconds, words_of_station
from flutejoin_tools.station.keeping import Keeper
from flutejoin_tools.station.kept import Settings
from flutejoin_tools.station.kinds import same_senders, session, time_of_day, window
from flutejoin_tools.station.receiver import OF_RECEIVER, Receiver, receiver_words
from flutejoin_tools.station.voice import status_of

EPILOG = """
examples:
  flutejoin-station --group 239.1.1.1 --port 4001 --keep-raw 2G -o news
  flutejoin join --any-size -o - news/journals/10.0.0.1.[j2]* | flutejoin gaps --any-size -

the file of settings:
  [station]                  the options below by their names, as every = 60,
                             keep-raw = "2G", outbox = true
  [[session]]                for each group or port: port, group, from,
                             interface, as for flutejoin-receive; or sdp, a
                             session description, whose sessions alone are kept
                             if all have a TSI (flute-tsi)
  [repair]                   with --deliver, as for flutejoin-centre
  [[same]]                   for a session of several uplinks: senders, a list
                             of their addresses
and above these senders, buffer and as-received, as for flutejoin-receive.

faults:
  A join that fails is told and tried again, first after 10 seconds and then
  after 5 minutes at most, or once the disk has room; its datagram files stay
  until then. On a full disk the files in raw go first. A datagram file that is
  at fault goes to aside; of one that is full the 64 sessions with most datagrams
  are joined before. A journal that takes no more is kept under another name, and
  another is begun. A receiver that ends is begun again, within a minute; one
  that cannot start ends the run, with its status.
  Refused datagrams are told within a minute, and what did not agree.

Status 0: all that came is joined. 1: something was set aside, or nothing came.
2: the command line or the settings. 3: the folder, the disk or flutejoin is at
fault, and something is left in FOLDER/in for the next run. 128 + N: signal N
came after another.

Needs Python 3.11 or later and flutejoin. Made for Linux.
"""

LOOK = 0.2  # seconds between two looks at what came
TELL_EACH = 10  # seconds between two writes of --status
TRIES = 4  # at the end of a run, without a success
AFTER_FAULT = 10  # seconds until a folder that cannot be read is looked at again


class Station:
    def __init__(self, options: argparse.Namespace, report: ServiceLog) -> None:
        self.options, self.report = options, report
        self.signals, self.is_asked = 0, False
        self.end_at = time.monotonic() + options.seconds
        self.tell_at, self.night = float("-inf"), self.next_night()
        folder = os.path.abspath(options.folder)
        self.lock = take_lock(folder)
        # What a join to standard output puts aside goes to the disk that has room for it.
        os.environ["TMPDIR"] = folder
        program = Program(find(options.flutejoin), self.tend, options.tsi or [])
        same = tuple(pair for pairs in options.same or () for pair in pairs)
        settings = Settings(
            *(options.every, options.keep_raw, options.outbox, options.most, same),
            options.deliver is not None,
        )
        self.keeper = Keeper(folder, program, settings, report)
        self.service = self.delivering(program.path)
        if 0 < options.keep_raw < options.window:
            report.warn("--keep-raw is less than --window, the length of a datagram file")
        told = os.path.join(folder, "receiver.json")
        self.receiver = Receiver(receiver_words(options), self.keeper.incoming.path, told, report)
        self.systemd, self.is_ready = Systemd(), False
        self.wake, wake = os.pipe()
        for end in self.wake, wake:
            os.set_blocking(end, False)
        signal.set_wakeup_fd(wake)
        answer_stops(self.stop)
        signal.signal(signal.SIGUSR1, self.ask)

    def delivering(self, program: str) -> Optional[Service]:
        """What delivers, if the station does."""
        if self.options.deliver is None:
            return None
        folder, on_file = self.options.deliver, self.options.on_file
        repair = self.options.repair
        settings = of_station(folder, self.keeper.folder, on_file, program, repair)
        return Service(settings, self.report, self.tend)

    def stop(self, number: int, frame: object) -> None:
        self.signals += 1
        if self.signals > 1:
            end_run(number, frame)

    def ask(self, *_: object) -> None:
        self.is_asked = True

    def run(self) -> None:
        try:
            while not self.signals and time.monotonic() < self.end_at:
                self.tend()
                if not self.work():
                    self.pause()
        finally:
            self.systemd.stopping()
            self.receiver.stop(at_once=self.signals > 1)
        self.finish()

    def tend(self) -> None:
        """Looks after the receiver, also during a join."""
        if not self.receiver.is_stopped:
            self.receiver.tend()
            if not self.is_ready and self.receiver.is_listening():
                self.is_ready = True
                self.systemd.ready()
        if self.is_asked:
            self.is_asked = False
            self.say_status()
        self.report.flush()
        if self.options.status and time.monotonic() >= self.tell_at:
            self.tell_at = time.monotonic() + TELL_EACH
            self.write_status()

    def work(self) -> bool:
        """Joins what is due, and returns whether anything was joined."""
        try:
            self.look_at_lock()
            night = self.next_night()
            if night != self.night:  # it came, or the clock was set
                self.night = night
                self.keeper.merge_all()
            has_worked = self.keeper.work(True)
            self.report.works("joining")
            if self.service and not has_worked:
                if self.keeper.completing.take_news():
                    self.service.hurry()
                self.service.work_at_times()
            return has_worked
        except OSError as fault:
            told = f"{fault.filename or self.options.folder}: {fault.strerror}"
            self.report.fails("joining", told)
            self.pause(max(0, min(AFTER_FAULT, self.end_at - time.monotonic())))
            return False

    def look_at_lock(self) -> None:
        """Locks the folder again if it was removed or moved. Raises Fault if another run has it."""
        folder = self.keeper.folder
        os.makedirs(folder, exist_ok=True)
        if not os.path.samestat(os.stat(folder), os.fstat(self.lock)):
            os.close(self.lock)
            self.lock = take_lock(folder)

    def pause(self, length: float = LOOK) -> None:
        select.select([self.wake], [], [], length)
        try:
            os.read(self.wake, 4096)
        except BlockingIOError:
            pass

    def next_night(self) -> Optional[datetime.datetime]:
        if not self.options.nightly:
            return None
        now = datetime.datetime.now()
        night = datetime.datetime.combine(now.date(), self.options.nightly)
        return night if night > now else night + datetime.timedelta(days=1)

    def finish(self) -> None:
        """Joins what is left, and removes what is joined, also if nothing is left to join.

        If a try joins nothing, the input at fault may be set aside.
        """
        waiting, tries, is_over = self.keeper.waiting(), TRIES, False
        while not is_over:
            self.keeper.work(False, has_patience=False)
            left = self.keeper.waiting()
            tries = tries - 1 if left == waiting else TRIES
            waiting, is_over = left, not left or not tries
        self.keeper.finish()
        if self.service and not self.service.finish(lambda: self.signals > 0):
            self.report.fault(3, f"not all is delivered to {self.options.deliver}")
        if waiting:
            self.report.fault(3, f"{waiting} bytes of datagrams are left for the next run")
        status = self.receiver.status
        if status not in (2, 3):  # it may be of one that a signal ended, or of the last of several
            status = int(status != 0 and not self.keeper.incoming.has_come)
        self.report.status = max(self.report.status, status)
        if self.options.status:
            self.write_status()

    def status(self) -> dict[str, object]:
        return {"time": instant(), **status_of(self.keeper), "receiver": self.receiver.told()}

    def say_status(self) -> None:
        try:
            self.report.print(json.dumps(self.status()))  # however often it is asked for
        except OSError as fault:
            self.report.warn(f"{fault.filename or self.options.folder}: {fault.strerror}")

    def write_status(self) -> None:
        """Replaces the status file in one step."""
        path = self.options.status
        try:
            replace_text(path, json.dumps(self.status(), indent=1) + "\n")
            self.report.works("status")
        except OSError as fault:
            self.report.fails("status", f"{path}: {fault.strerror}")


def parser_of_options() -> argparse.ArgumentParser:
    parser = CommandLine("flutejoin-station", __doc__, EPILOG)
    add = parser.add_argument
    add("-o", metavar="FOLDER", dest="folder", required=True, help="where all is kept")
    add("--config", metavar="FILE", help="take settings from a file of TOML")
    for name, metavar in OF_RECEIVER.items():
        told = "as flutejoin-receive takes it"
        add(f"--{name}", dest=name, action="append", metavar=metavar, help=told)
    add(f"--{AS_RECEIVED}", action="store_true", help=WITHOUT_CHANGE)
    add(
        "--tsi",
        action="append",
        type=session,
        metavar="N",
        help="keep these sessions alone, of up to 64 (default: all)",
    )
    add(
        "--same",
        action="append",
        type=same_senders,
        metavar="A,B",
        help="keep what these senders sent as of the first one, where it agrees: of a session "
        "that has several uplinks; may be given several times",
    )
    add(
        "--every",
        type=seconds,
        default=60,
        metavar="S",
        help="join what a sender sent each S seconds (default: 60), and at once what may have made "
        "an object whole",
    )
    add(
        "--window",
        type=window,
        default=1 << 26,
        metavar="BYTES",
        help="and whenever a datagram file has so many bytes (default: 64M)",
    )
    add(
        "--keep-raw",
        type=number_of_bytes,
        default=0,
        metavar="BYTES",
        help="keep the newest datagram files, of so many bytes, to find wrong values in "
        "(default: 0)",
    )
    add(
        "--most",
        type=number_of_bytes,
        metavar="BYTES",
        help="keep at most so many bytes of the disk: what is kept raw or set aside goes first, "
        "then senders with few bytes that are silent, never the one with most (default: all)",
    )
    add(
        "--nightly",
        type=time_of_day,
        metavar="HH:MM",
        help="join all journals of each sender at this time too",
    )
    add(
        "--outbox",
        action="store_true",
        help="keep journals of what came for who takes them away, as examples/push.sh",
    )
    add(
        "--deliver",
        metavar="FOLDER",
        help="write each file once it is whole to FOLDER/files, once, as flutejoin-centre does, "
        "with a line in FOLDER/delivered.jsonl and a page in FOLDER/page",
    )
    add("--on-file", metavar="COMMAND", help="run this for each such file, with its path")
    add("--answer", metavar="FOLDER", help="answer a centre; takes --status and --flutejoin alone")
    add("--status", metavar="FILE", help="write there each 10 seconds what is kept, as JSON")
    add("--seconds", type=seconds, default=float("inf"), metavar="S", help="end after S seconds")
    add(
        "--flutejoin",
        metavar="PROGRAM",
        help="the program flutejoin (default: the one beside this tool, or on the PATH)",
    )
    return parser


def command_line() -> argparse.Namespace:
    parser = parser_of_options()
    options, repair = parser.parse_args(), None
    if options.config is not None:
        try:
            words = list(words_of_station(options.config))
            repair = repairing_in(options.config)
        except (ValueError, AttributeError, TypeError) as fault:
            parser.error(str(fault))
        options = parser.parse_args([*words, *sys.argv[1:]])
    if options.sdp and not options.config and not options.tsi:
        try:
            options.tsi = sessions_in(options.sdp)
        except ValueError as fault:
            parser.error(str(fault))
    if not options.folder:
        parser.error("argument -o: is empty")
    options.repair = repair
    for name, value in ("--on-file", options.on_file), ("[repair]", repair):
        if value and options.deliver is None:
            parser.error(f"{name} needs --deliver")
    try:
        os.fsencode(os.path.abspath(options.folder)).decode()
    except UnicodeDecodeError:
        parser.error("argument -o: the path is not UTF-8, and flutejoin takes text alone")
    if len(options.tsi or []) > MOST_SESSIONS:
        parser.error(f"argument --tsi: is given more than {MOST_SESSIONS} times")
    return options


def main() -> int:
    """Runs flutejoin-station, and returns its status."""
    options = command_line()
    report = ServiceLog("flutejoin-station")

    def work() -> None:
        try:
            Station(options, report).run()
        except Fault as fault:
            report.fault(fault.status, str(fault))
        except OSError as fault:
            report.fault(3, f"{fault.filename or options.folder}: {fault.strerror}")
        report.finish()

    return exit_status(work, report)
