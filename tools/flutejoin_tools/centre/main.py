"""Runs a centre by itself: delivers each file that became whole, once, of what stations bring.

  flutejoin-centre --config /etc/flutejoin/centre.toml
  flutejoin-centre --config centre.toml --once
  flutejoin-centre --config centre.toml --check
  flutejoin-centre --folder /srv/centre --missing

Stations are asked over ssh what they have (flutejoin-station --answer), and in turn for what is
still missing; or they push to folders of their own (examples/push.sh), or are on this machine. What
came is joined with what waits of each object. Once every symbol of an object is at any station, its
file is made, decoded, compared with the MD5 of its FDT Instance, and given its name when it is
whole and on the disk. Only what is new is read and written. A file is delivered once: what somebody
moves away isn't written again, nor what comes again of it. A kill at any moment loses nothing, and
delivers nothing twice. Questions are answered from what a centre that runs wrote last.
It runs until Ctrl-C, SIGTERM or SIGHUP (not under nohup).

what is in the folder:
  files/            the files, by their names
  delivered.jsonl   a line of JSON for each: serial, time, path, name, bytes, md5, sender, tsi,
                    toi, and how much of it each station had, in percent
  pending/STATION   journals of what is not delivered yet
  gathered/         the same, of the stations that are asked
  asked/STATION     what such a station told that it has
  kept/             journals of what was delivered, until --keep is over or its FDT expired
  let-go.jsonl      a line for each file that never became whole, with what was missing
  fdt/              FDT Instances, of all stations
  aside/            journals at fault; each is reported
  origin/           with [repair], what came of servers, and what failed
  page/             index.html, status.json and metrics.prom (for the textfile collector of
                    Prometheus), each replaced in one step, pictures of at most 64 files that are
                    not whole, and a link to the files; it may be served by whatever serves files
  ledger.db         which files were delivered, with a sum of each of their symbols
  taken, ready, round, work   what is on its way
"""
from __future__ import annotations

import argparse
import os
import select
import signal
import time
from typing import Optional

from flutejoin_tools.centre.service import Service
from flutejoin_tools.centre.settings import Settings, settings_of
from flutejoin_tools.common.faults import Fault
from flutejoin_tools.common.options import CommandLine
from flutejoin_tools.common.service_log import ServiceLog
from flutejoin_tools.common.signals import answer_stops, end_run, exit_status
from flutejoin_tools.common.systemd import Systemd
from flutejoin_tools.pages.asking import answer
from flutejoin_tools.pages.serving import Serving

QUESTIONS = {
    "check": "print one line, as Nagios takes it: status 0 if all is well, 1: a warning, 2: "
    "something fails or the centre does not run, 3: there is no status",
    "stations": "print which stations are alive, and how much each had of what was delivered",
    "missing": "print what is missing, by name",
    "shares": "print how much of each file that is not whole each station has, and what only it "
    "has",
}

EPILOG = """
the file of settings:
  [centre]
  folder = "/var/lib/flutejoin-centre"   where all is kept
  files = "/srv/files"      which gets the files, on the same disk (default: files in folder)
  every = "10s"             how often it is looked what came, and stations are asked where nothing
                            is new; within a second where the folder of a station changed, or one
                            that is asked has something new
  keep = "7d"               how long journals of what was delivered are kept, and the sums by which
                            it is known again when it comes again
  keep-partial = "30d"      how long an object waits of which nothing comes
  most = "100G"             of the disk, beside the files (default: all). What is over goes, and is
                            told: journals of what was delivered first, then what was set aside,
                            then what waits of the objects of which nothing came for longest
  on-file = "COMMAND"       is run for each file, with its path as the last word, and with
                            FLUTEJOIN_SERIAL, _MD5, _SENDER, _TSI and _TOI; one that fails is run
                            again, 5 times in all, as is one that a kill cut
  silent = "10m"            after which a station of which nothing comes is told
  listen = "127.0.0.1:8080" serves the page there
  flutejoin = "PROGRAM"
  [[station]]               for each station:
  name = "north"
  ssh = "flutejoin@host"    where it is asked; or a list of words of ssh that ends so
  folder = "/srv/push/north"    else: the TARGET of its pushes, or the folder of a station here,
  outbox = true                 which runs with --outbox
  status = "FILE"               its --status (default: status.json in folder)
  [repair]                  if it is there, what no station has is asked for where FDT Instances
                            say that the files lie, as flutejoin-repair does
  base = "https://example.com/news/"    below which files may be asked for; or a list of them
  after = "10m"             since something of a file came
  most = "1G"               bytes that may come in a day
  seconds, spread, allow, symbols       as the options of flutejoin-repair

Status 0: it ended as it was asked to. 1: something was set aside, or could not be delivered. 2: the
command line or the settings. 3: the folder, the disk or flutejoin is at fault. 128 + N: signal N
came after another.

Needs Python 3.11 or later and flutejoin. Made for Linux.
"""
LOOK = 0.2  # seconds between two looks at what came; a child that ends ends a pause


class Centre:
    """A run of the centre: delivers until a signal ends it, or once."""

    def __init__(self, settings: Settings, report: ServiceLog) -> None:
        self.settings, self.report = settings, report
        self.signals = 0
        self.systemd, self.service = Systemd(), Service(settings, report, self.tend)
        folder = self.service.telling.folder
        self.serving = Serving(settings.listen, folder) if settings.listen else None
        self.wake, wake = os.pipe()
        for end in self.wake, wake:
            os.set_blocking(end, False)
        signal.set_wakeup_fd(wake)
        signal.signal(signal.SIGCHLD, lambda *_: None)
        answer_stops(self.stop)

    def stop(self, number: int, frame: object) -> None:
        """Takes a signal: the first ends the run after what it is at, the second at once."""
        self.signals += 1
        if self.signals > 1:
            end_run(number, frame)

    def tend(self) -> None:
        """Is called often: writes waiting lines, and tells systemd that the run lives."""
        self.report.flush()
        self.systemd.live()

    def run(self) -> None:
        """Delivers until a signal comes."""
        self.systemd.ready()
        if self.serving:
            self.report.warn(f"the page is at http://{self.serving.start()}/")
        try:
            while not self.signals:
                self.service.work_at_times(self.settings.every)
                self.systemd.say(self.service.telling.summary)
                self.tend()
                self.pause(min(LOOK, self.service.next - time.monotonic()))
        finally:
            self.systemd.stopping()
            if self.serving:
                self.serving.stop()
            self.service.stop()

    def once(self) -> None:
        """Takes and delivers what is there, and waits for the commands."""
        if not self.service.finish(lambda: self.signals > 0):
            self.report.status = 3

    def page(self) -> None:
        """Makes the page of what is there: nothing is taken or delivered."""
        self.service.deliverer.begin()
        self.service.telling.write(seconds=float("inf"))

    def pause(self, length: float) -> None:
        """Waits so many seconds, or until a signal comes."""
        select.select([self.wake], [], [], max(0, length))
        try:
            os.read(self.wake, 4096)
        except BlockingIOError:
            pass


def command_line() -> tuple[argparse.Namespace, Optional[Settings]]:
    """The options, and the settings, unless a question needs none."""
    parser = CommandLine("flutejoin-centre", __doc__, EPILOG)
    add = parser.add_argument
    add("--config", metavar="FILE", help="the file of settings, in TOML")
    add(
        "--folder",
        metavar="FOLDER",
        help="for a question, in the place of the settings: the folder of a centre, or that of "
        "flutejoin-station --deliver",
    )
    ways = parser.add_mutually_exclusive_group()
    ways.add_argument("--once", action="store_true", help="deliver what is there, and end")
    ways.add_argument(
        "--page-only", action="store_true", help="make the page of what is there, and end"
    )
    for name, told in QUESTIONS.items():
        ways.add_argument(
            f"--{name}", dest="question", action="store_const", const=name, help=told
        )
    ways.add_argument(
        "--file",
        metavar="NAME",
        help="print whether a file is complete, by a part of its name, and when it likely will be; "
        "status 1 if there is none",
    )
    add("--json", action="store_true", help="print an answer as JSON, an object in each line")
    options = parser.parse_args()
    if options.file is not None:
        options.question = "file"
    if options.json and not options.question:
        parser.error("--json is of a question")
    if (options.config is None) == (options.folder is None):
        parser.error("--config is needed, or with a question --folder")
    if options.folder is not None and not options.question:
        parser.error("--folder is for a question")
    settings = None
    if options.config is not None:
        try:
            settings = settings_of(options.config)
        except ValueError as fault:
            parser.error(str(fault))
    return options, settings


def ask(options: argparse.Namespace, folder: str, report: ServiceLog) -> None:
    """Answers a question from what the running centre has written, and sets the status."""
    status, lines = answer(folder, options.question, options.file, options.json)
    for line in lines:
        report.say(line)
    if status == 3 and not lines:
        report.warn(f"{folder}: there is no status of a centre")
    report.status = max(report.status, status)


def main() -> int:
    """Runs flutejoin-centre, and returns its status."""
    options, settings = command_line()
    report = ServiceLog("flutejoin-centre")

    def work() -> None:
        try:
            if options.question:
                ask(options, settings.folder if settings else options.folder, report)
                return
            assert settings
            centre = Centre(settings, report)
            if options.page_only:
                centre.page()
            elif options.once:
                centre.once()
            else:
                centre.run()
        except Fault as fault:
            report.fault(fault.status, str(fault))
        except OSError as fault:
            place = settings.folder if settings else options.folder
            report.fault(3, f"{fault.filename or place}: {fault.strerror}")
        report.finish()

    return exit_status(work, report)
