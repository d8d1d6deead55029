"""The status of a run as JSON: in a file that is replaced in one step, or on standard error.

The receiving thread hands over what it counts, and the writer's adds what that knows.
"""
from __future__ import annotations

import collections
import json
import time
from typing import Callable, Iterable, NamedTuple, Optional

from flutejoin_tools.common.addresses import IPAddress
from flutejoin_tools.common.outputs import replace_text
from flutejoin_tools.receive.growing import Growing
from flutejoin_tools.receive.sender import Sender
from flutejoin_tools.receive.senders import Senders
from flutejoin_tools.receive.sessions import Session
from flutejoin_tools.receive.sockets import Drops
from flutejoin_tools.receive.voice import LOG, note
from flutejoin_tools.receive.writer import Entry, Writer

# Seconds of its processor: where a look takes more, it is repeated after so many times as long
LONG, TIMES = 0.2, 20


def instant(seconds: Optional[float]) -> Optional[str]:
    """A time in UTC, as text."""
    if seconds is None:
        return None
    return time.strftime("%Y-%m-%dT%H:%M:%SZ", time.gmtime(seconds))


class Counted(NamedTuple):
    """What the receiving thread counted."""

    dropped: dict[str, int]
    sessions: list[dict[str, object]]
    senders: list[tuple[str, Growing, dict[str, object]]]  # each with its folder


class Status:
    """The status that a run reports."""

    def __init__(
        self,
        path: Optional[str],
        sessions: list[Session],
        folders: Iterable[Senders],
        writer: Writer,
    ) -> None:
        self.path, self.sessions, self.folders = path, sessions, list(folders)
        self.writer, self.began = writer, time.time()
        self.drops = Drops(
            (session.udp for session in sessions),
            lambda: any(session.flood.has_filtered for session in sessions),
        )
        self.is_failing = False
        # The bytes of all files, and of those of some senders, at the last look
        self.bytes = 0
        self.held: collections.Counter[tuple[str, IPAddress]] = collections.Counter()
        self.look_at = float("-inf")

    def order(self, report: Callable[[Counted, Iterable[Entry]], None]) -> None:
        """Orders `tell` or `write` of the writer, with what is counted until now."""
        counted = self.counted()
        self.writer.report(lambda entries: report(counted, entries))

    def counted(self) -> Counted:
        """What is counted now."""
        return Counted(
            self.drops.by_cause(),
            [self.of_session(session) for session in self.sessions],
            [
                (senders.folder.path, sender.growing, self.of_sender(senders.folder.path, sender))
                for senders in self.folders
                for sender in senders.heard()
            ],
        )

    def of_session(self, session: Session) -> dict[str, object]:
        """What the status has of a session."""
        options = session.options
        return {
            "group": options.group and str(options.group),
            "port": options.port,
            "interface": options.interface,
            "from": options.sender and str(options.sender),
            "folder": session.senders.folder.path,
            "datagrams": session.datagrams,
            "bytes": session.bytes,
            "dropped": session.dropped(),
            "left_out": dict(session.left_out()),
            "last_seen": instant(session.seen_at),
        }

    @staticmethod
    def of_sender(folder: str, sender: Sender) -> dict[str, object]:
        """What the status has of a sender."""
        return {
            "sender": str(sender.growing.address),
            "folder": folder,
            "datagrams": sender.datagrams,
            "bytes": sender.bytes,
            "left_out": dict(sender.left_out),
            "adapted": dict(sender.adapting.forms),
            "refused": dict(sender.adapting.refused),
            "last_seen": instant(sender.seen_at),
        }

    def of_files(self, folder: str, growing: Growing) -> dict[str, object]:
        """What the status has of a sender's files, as the writer knows them."""
        return {
            "file": growing.path() if growing.identity else None,
            "bytes_on_disk": self.held[folder, growing.address],
        }

    def look(self, counted: Counted, entries: Iterable[Entry]) -> None:
        """Adds up the bytes of the files, unless that took long a short time ago."""
        if time.monotonic() < self.look_at:
            return
        begun = time.thread_time()
        wanted = {(folder, growing.address) for folder, growing, _ in counted.senders}
        self.bytes, self.held = 0, collections.Counter()
        for entry in entries:
            self.bytes += entry.size
            of = entry.folder, entry.name.address
            if of in wanted:
                self.held[of] += entry.size
        took = time.thread_time() - begun
        self.look_at = time.monotonic() + (TIMES * took if took > LONG else 0)

    def text(self, counted: Counted, entries: Iterable[Entry]) -> str:
        """The status as JSON."""
        self.look(counted, entries)
        told = {
            "time": instant(time.time()),
            "since": instant(self.began),
            "dropped": counted.dropped,
            "waiting_bytes": self.writer.given - self.writer.taken,
            "bytes_on_disk": self.bytes,
            "removed_files": self.writer.removed,
            "sessions": counted.sessions,
            "senders": [
                {**sender, **self.of_files(folder, growing)}
                for folder, growing, sender in counted.senders
            ],
        }
        return json.dumps(told, indent=1)

    def tell(self, counted: Counted, entries: Iterable[Entry]) -> None:
        """Says the status on standard error."""
        LOG.print(f"status\n{self.text(counted, entries)}")

    def write(self, counted: Counted, entries: Iterable[Entry]) -> None:
        """Replaces the status file, if one is wanted. A fault is reported once."""
        if self.path is None:
            return
        try:
            replace_text(self.path, self.text(counted, entries) + "\n")
            self.is_failing = False
        except OSError as fault:
            if not self.is_failing:
                note(f"cannot write {self.path}: {fault.strerror}; it is tried again")
            self.is_failing = True
