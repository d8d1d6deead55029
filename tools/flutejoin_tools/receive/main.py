"""Receives datagrams from the network and keeps them as datagram files, one for
each sender, for flutejoin to join.

With --group it joins that multicast group (IPv4 or IPv6), and with --from that
one sender in it (RFC 4607). Without --group it receives what is sent to this
machine itself. Each sender's datagrams go to FOLDER/ADDRESS.fldg, as in
10.0.0.1.fldg or 2001-db8--1.fldg (fe80--1%eth0.fldg where an address is of one
link alone), and once a file is full to ADDRESS.2.fldg and so on: a session is
named by its sender's address and its TSI, and datagrams do not contain the
address. It runs until Ctrl-C, SIGTERM, SIGHUP (not under nohup), --count or
--seconds, and then prints each file that grew, and for each sender the line
that makes a journal of its files:

  $ flutejoin-receive --group 239.1.1.1 --port 4001 --interface eth0 -o station1
  flutejoin-receive: listening at 239.1.1.1 port 4001 on eth0 (up), with a receive
  buffer of 16777216 bytes
  ^C
  station1/10.0.0.1.fldg: 373 datagrams from 10.0.0.1
  flutejoin join --any-size --source 0a000001 -o station1/10.0.0.1.journal station1/10.0.0.1.fldg

Of several sessions in one run --port, --group, --from and --interface are given
several times: the first ones belong together, and so on, and one that is given
once holds for all. --config takes sessions from a file.
"""
from __future__ import annotations

import argparse
import collections
import os
import selectors
import signal
import time
from typing import Iterator, Optional

from flutejoin_tools.common.faults import Fault
from flutejoin_tools.common.signals import answer_late_stops, answer_stops, exit_status
from flutejoin_tools.common.texts import shown
from flutejoin_tools.receive.batches import MOST
from flutejoin_tools.receive.senders import OUTDONE, Senders
from flutejoin_tools.receive.sessions import Session
from flutejoin_tools.receive.settings import KEEP_FREE, SessionOptions, command_line
from flutejoin_tools.receive.sockets import Interface, dropped_by_system
from flutejoin_tools.receive.status import Status
from flutejoin_tools.receive.voice import LOG, EachMinute, note
from flutejoin_tools.receive.writer import Folder, Writer

HAND_OVER = 0.02  # seconds for which datagrams wait at least, while others come
LAST = 1  # seconds of its processor that a run may take at its end for what still comes
STATUS_EACH = 10  # seconds between two status lines

EPILOG = """
examples:
  flutejoin-receive --group 239.1.1.1 --port 4001 -o station1
  flutejoin-receive --group 232.1.1.1 --from 10.0.0.1 --port 4001 --interface 192.0.2.7 -o station1
  flutejoin-receive --group ff3e::8000:1 --from 2001:db8::1 --port 4001 --interface eth0 -o station1
  flutejoin-receive --group 239.1.1.1 --port 4001 --group 239.1.1.2 --port 4002 -o station1
  flutejoin-receive --sdp news.sdp --interface eth0 -o station1
  flutejoin-receive --config station1.toml

a file of settings:
  folder = "/var/lib/flutejoin/station1"
  status = "/run/flutejoin/station1.json"
  [[session]]
  group = "239.1.1.1"
  port = 4001
  interface = "eth0"

what a file holds:
  Only whole records are written, each with its length and its bytes at once,
  once a second at least. So a kill (SIGKILL) loses less than a second, or what
  one write was at, and a clean end loses nothing. A later run with the same
  FOLDER goes on after the last whole record of each sender's last file. What a
  kill cut is reported, and moved to NAME.fldg.cut beside it: where
  a length in a file is wrong, it is more than one record. (Where no run goes
  on, flutejoin-mend makes a whole file of a cut one.) A file of such a name
  that is no datagram file, or is a link, is reported and left as it is, and
  another is begun. Two runs cannot write into one FOLDER. What a lost power
  leaves is up to the system: nothing is waited for until it is on the disk.

a sender that starts again:
  It numbers its FDT Instances from the beginning, with other contents, and uses
  TOIs again; others renew Expires. All is written in the order in which it came.
  Once an FDT Instance comes with other contents, that is reported, and the line at
  the end is one of flutejoin-gather, which keeps apart what differs.

other forms of FLUTE:
  What differs from FLUTE 2 (RFC 6726) in its form alone is written as FLUTE 2,
  with one symbol in each datagram, and reported once for each sender: FLUTE 1
  (RFC 3926), EXT_CENC, the fields SCT and ERT of RFC 3451, and several symbols
  in a packet, where EXT_FTI tells their length. No symbol changes. What isn't
  certain stays as it came. --as-received keeps all as it came.

in a long run:
  - A full disk is reported, and tried again each second; up to 64 MiB wait
    until then, and the rest is left out. So is one of which less is free than
    --keep-free.
  - A folder or a growing file that is removed or moved is noticed within a
    second, and begun anew. What a removed file held is written anew.
  - An interface that is removed and made again is listened at again within 10
    seconds (of an IPv6 group, if --interface names it).
  - --most removes the oldest files before more is written, and reports it.
  - Where there are too few descriptors, the file of the sender that was silent longest is closed.
  - A sender is kept once a datagram of it is like FLUTE (as flutejoin-capture
    counts), or by --from, and then all that it sends, but for what is left out
    by its cause; join counts as refused what is no packet of FLUTE, and a
    sender of whom it will refuse all is reported.
  - Lines on standard error have the time in front where that is no terminal.
    One that is stopped (Ctrl-S) keeps nothing up.

where senders may be made up, by whoever can send to the port:
  - Where --senders have their places, a new one takes the place of the one that
    sent least, once it sent more in the last seconds. The sender of most bytes,
    in earlier runs too, is the last to lose its place. Files stay.
  - As many new senders as --senders have files at once. Beyond that 16 in a
    minute have, and each of which 64 KiB came: those of most bytes first, after
    16 datagrams or 50 seconds.
  - Until then what came waits in memory, up to 24 MiB of all and for a minute
    at most. A kill loses it.
  - Where so much comes that the receive buffer fills, a filter of the socket
    passes what known senders send, and of the others a share (on Linux).

what is left out, and counted by its cause (reported at once, then each minute):
  - What the system dropped, since its receive buffer was full or a checksum did
    not hold; the latter it counts for all programs together. The buffer is
    asked for by --buffer; where the system gives much less, the setting to
    raise is named.
  - With --from, what others sent. Where the system joins a group of one sender
    alone, it does not get here.
  - What came of senders of whom nothing was like FLUTE, and of new senders
    that got no place or no file. If one of these sent more than one that was
    kept, that is reported, and the status is 1. --from names the one sender
    whose datagrams are kept.
  - Packets that can't be written as FLUTE 2: of another FEC Encoding ID, ROUTE,
    another version of FLUTE or LCT, an unknown content encoding; and those that
    end a session, without a TOI. --as-received keeps them, once their sender is
    kept.
  - Datagrams of more than 65,535 bytes, which no datagram file can hold.
  - What could not be written.
Fragments are put together and checksums tested by the system.

Status 0: datagrams came and were kept. 1: none came, or a sender was left out
that sent more than one that was kept. 2: the command line. 3: the network, the
folder or the disk is at fault, or standard output cannot be written; what was
received until then is in the files. 128 + N: signal N came when all was
written, and nobody took the lines for a second. After a full disk too each file
ends behind its last whole record.

Needs Python 3.8 or later, --config 3.11, and nothing else. Made for Linux;
other systems may not tell what they dropped.
"""


class Station:
    """Takes datagrams from sockets to the files until the run is to end."""

    def __init__(self, options: argparse.Namespace) -> None:
        self.options = options
        self.count = options.count if options.count is not None else float("inf")
        self.seconds = options.seconds if options.seconds is not None else float("inf")
        self.is_stopped = self.is_asked = self.has_waiting = False
        self.minutely = EachMinute()
        self.selector = selectors.DefaultSelector()
        self.wake, wake = os.pipe()
        os.set_blocking(self.wake, False)
        os.set_blocking(wake, False)
        signal.set_wakeup_fd(wake, warn_on_full_buffer=False)
        answer_stops(self.stop)
        signal.signal(signal.SIGUSR1, self.ask)

    def stop(self, *_: object) -> None:
        """Takes a signal that ends the run."""
        # An exception here could come between any two steps, as could a change of what the run
        # changes itself.
        self.is_stopped = True

    def ask(self, *_: object) -> None:
        """Takes the signal that asks for the status."""
        self.is_asked = True

    def open(self) -> None:
        """Opens everything that a run needs: first folders and files, then the sockets."""
        options = self.options
        interfaces = [Interface(session.interface) for session in options.sessions]
        folders: dict[str, Folder] = {}
        for session in options.sessions:
            place = os.path.realpath(session.folder)
            folders[place] = folders.get(place) or Folder(session.folder)
        reserved = 2 * len(folders) + len(options.sessions)
        reserve = getattr(options, KEEP_FREE)
        self.writer = Writer(folders.values(), options.most, reserved, reserve)
        self.folders = {}
        for place, folder in folders.items():
            self.folders[place] = Senders(folder, self.writer, options.senders, options.split)
        self.look(options.sessions)
        self.sessions = []
        for session, interface in zip(options.sessions, interfaces):
            self.sessions.append(Session(session, interface, self.senders_of(session)))
        self.status = Status(options.status, self.sessions, self.folders.values(), self.writer)
        self.selector.register(self.wake, selectors.EVENT_READ)
        for session in self.sessions:
            self.selector.register(session.udp, selectors.EVENT_READ)
        if options.most is not None:
            self.writer.entries()
        self.writer.start()

    def senders_of(self, session: SessionOptions) -> Senders:
        """The senders of the folder into which a session is received."""
        return self.folders[os.path.realpath(session.folder)]

    def look(self, sessions: list[SessionOptions]) -> None:
        """Looks through the files that earlier runs left of the senders that may be received."""
        for senders in self.folders.values():
            wanted = [each.sender for each in sessions if self.senders_of(each) is senders]
            only = {sender for sender in wanted if sender is not None}
            senders.look(frozenset() if None in wanted else only)

    def run(self) -> None:
        """Receives until the end, and then what the receive buffers hold at that time."""
        now = time.monotonic()
        self.end = now + self.seconds
        self.hand_over_at, self.second_at, self.status_at = now, now + 1, now
        last: Optional[float] = None
        while self.left() > 0 and not self.writer.fault:
            if last is None and (self.is_stopped or now >= self.end):
                last = time.thread_time() + LAST
            is_quiet = self.receive(now)
            now = time.monotonic()
            is_due = is_quiet and now >= self.hand_over_at or now >= self.second_at
            if self.has_waiting and is_due:
                self.hand_over(now)
            if now >= self.second_at:
                self.each_second(now)
            if last is not None and (is_quiet or time.thread_time() >= last):
                return
            if is_quiet:
                self.wait(now)

    def left(self) -> float:
        """How many datagrams are still to be kept."""
        return float(self.count - sum(session.datagrams for session in self.sessions))

    def receive(self, now: float) -> bool:
        """Takes a batch from each socket, and returns whether no more datagrams wait."""
        is_quiet = True
        for session in self.sessions:
            most = int(max(0, min(MOST, self.left())))
            came, kept = session.receive(most, now)
            self.has_waiting = self.has_waiting or kept > 0
            is_quiet = is_quiet and came < most
        return is_quiet

    def wait(self, now: float) -> None:
        """Waits until datagrams come, the next second begins, or waiting ones are due."""
        until = min(self.second_at, self.end)
        if self.has_waiting:
            until = min(until, self.hand_over_at)
        for key, _ in self.selector.select(max(0, until - now)):
            if key.fd == self.wake:
                os.read(self.wake, 4096)

    def hand_over(self, now: float) -> None:
        """Hands what waits to the writer."""
        for senders in self.folders.values():
            senders.hand_over()
        self.hand_over_at, self.has_waiting = now + HAND_OVER, False

    def each_second(self, now: float) -> None:
        """What is done once a second: looks at sockets, tells what is left out, status."""
        self.second_at = now + 1
        for session in self.sessions:
            session.look(now)
        self.tell_left_out(now)
        if self.is_asked:
            self.is_asked = False
            self.status.order(self.status.tell)
        if self.options.status is not None and now >= self.status_at:
            self.status_at = now + STATUS_EACH
            self.status.order(self.status.write)
        LOG.flush()

    def tell_left_out(self, now: float) -> None:
        """Tells what was left out since it was told last, at most once a minute."""
        for session in self.sessions:
            session.each_second(now)
        for cause, count in self.status.drops.by_cause().items():
            self.minutely.tell(cause, count, now, "the system dropped {} datagrams ({})")
        for senders in self.folders.values():
            senders.each_second(now)

    def close(self) -> list[Fault]:
        """Ends the writing, and returns faults for what was not written or kept."""
        now = time.monotonic()
        for senders in self.folders.values():
            senders.give_places(now, is_end=True)
        self.tell_left_out(now)
        self.hand_over(0)
        self.writer.end()
        for senders in self.folders.values():
            senders.finish()
        self.status.write(self.status.counted(), self.writer.found())
        faults = [Fault(3, f"cannot write: {self.writer.fault!r}")] if self.writer.fault else []
        outdone = sum(senders.outdone for senders in self.folders.values())
        if outdone:
            faults.append(Fault(1, f"{outdone} {OUTDONE} were left out"))
        unwritten = sum(senders.unwritten() for senders in self.folders.values())
        if unwritten:
            faults.append(Fault(3, f"{unwritten} datagrams could not be written"))
        return faults

    def report(self) -> Iterator[str]:
        """Yields the lines that a run prints at its end.

        They name the files that grew, count the datagrams that were left out by cause, and show the
        commands that join the files.
        """
        for senders in self.folders.values():
            yield from map(shown, senders.lines())
        for cause, count in self.left_out().items():
            yield f"left out {count}: {cause}"
        for senders in self.folders.values():
            yield from senders.join_lines()

    def left_out(self) -> collections.Counter[str]:
        """How many datagrams were left out in this run, by cause."""
        causes: collections.Counter[str] = collections.Counter()
        for session in self.sessions:
            causes.update(session.left_out())
        for senders in self.folders.values():
            causes.update(senders.left_out())
        for cause, count in self.status.drops.by_cause().items():
            causes[f"dropped by the system ({cause})"] = count
        return causes


def receive(options: argparse.Namespace) -> None:
    """Receives until the end, and tells what came and each fault."""
    station = Station(options)
    station.open()
    faults: list[Fault] = []
    try:
        station.run()
    except Fault as fault:
        faults.append(fault)
    except OSError as error:
        faults.append(Fault(3, f"cannot receive: {error.strerror}"))
    faults += station.close()
    for each in faults:
        LOG.fault(each.status, str(each))
    answer_late_stops()
    if dropped_by_system(station.sessions[0].udp) is None:
        note("this system does not tell how many datagrams it dropped")
    for line in station.report():
        LOG.say(line)
    if not LOG.status and not any(session.datagrams for session in station.sessions):
        LOG.fault(1, "no datagrams came")


def main() -> int:
    """Runs flutejoin-receive, and returns its status."""
    options = command_line(__doc__, EPILOG)

    def work() -> None:
        try:
            receive(options)
        except Fault as fault:
            LOG.fault(fault.status, str(fault))
        LOG.finish()

    return exit_status(work, LOG)
