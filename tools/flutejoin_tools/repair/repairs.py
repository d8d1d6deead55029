"""A repair from a journal to a datagram file: its settings, its run and its result.

`flutejoin-repair` is its command line. A service calls it itself: it makes Settings of its section
`[repair]` by `settings_of`, waits until a journal lacks something and has not changed for
`Settings.after` seconds, then `Settings.wait()`, which is drawn anew at each call so that not all
stations ask at once, and calls `repair`. The datagrams of the file that this writes are joined into
the journal like others of that sender.
"""
from __future__ import annotations

import argparse
import contextlib
import errno
import json
import os
import random
import re
import stat
from typing import (
    Any,
    Dict,
    Iterator,
    List,
    Mapping,
    NamedTuple,
    Optional,
    Protocol,
    Sequence,
    Tuple,
)

from flutejoin_tools.common import outputs
from flutejoin_tools.common.faults import Fault
from flutejoin_tools.common.file_names import PARTIAL
from flutejoin_tools.common.log import Log
from flutejoin_tools.common.options import number_of_bytes
from flutejoin_tools.common.places import Scratch, scratch_folder
from flutejoin_tools.common.program import Program
from flutejoin_tools.common.texts import shown
from flutejoin_tools.files.catalogue import Told
from flutejoin_tools.files.delivery import Delivery, Wanted
from flutejoin_tools.files.session import address_of
from flutejoin_tools.formats.records import Records
from flutejoin_tools.gather.beside import beside
from flutejoin_tools.repair.fetched import write
from flutejoin_tools.repair.further import Further, generations_beside
from flutejoin_tools.repair.http import Client, Spending
from flutejoin_tools.repair.lacking import Lack, Lacking, Located
from flutejoin_tools.repair.origins import Network, Origins, Refused, Url, network_of, url_of
from flutejoin_tools.repair.ranges import size_of
from flutejoin_tools.repair.repairing import Repair

MOST, SECONDS = 10**9, 3600.0  # unless told
LONGEST = 10**9  # seconds
DURATION = re.compile(r"(\d{1,10}(?:\.\d{1,9})?)([smhd]?)", re.ASCII)
UNITS = {"": 1, "s": 1, "m": 60, "h": 3600, "d": 86400}
MOST_BASES = 64  # URLs of --base


class Settings(NamedTuple):
    """What the operator allows, and how long and how much."""

    base: Tuple[Url, ...] = ()  # the URLs below which files may be asked for
    allow: Tuple[Network, ...] = ()  # addresses that may be connected to, though not public
    symbols: bool = False  # whether the bases are file repair servers of 3GPP
    after: float = 0  # seconds since the journal changed
    spread: float = 0  # seconds; a random part of them is waited before the first request
    most: int = MOST  # bytes that may come in all
    seconds: float = SECONDS  # that all requests may take

    def wait(self) -> float:
        """A random part of the time over which requests are spread, in seconds."""
        return random.SystemRandom().uniform(0, self.spread)


def duration(text: str) -> float:
    """A number of seconds, or as 90s, 10m, 2h and 1d. Raises ValueError."""
    found = DURATION.fullmatch(text)
    value = float(found[1]) * UNITS[found[2]] if found else -1
    if not 0 <= value <= LONGEST:
        raise ValueError(f"{text!r} is no time, as 90, 10m or 2h")
    return value


def base_of(text: str) -> Url:
    """A URL below which files may be asked for. Raises ValueError."""
    try:
        url = url_of(text)
    except Refused as fault:
        raise ValueError(f"{text!r} {fault}") from None
    if url.query or "#" in text:
        raise ValueError(f"{text!r} has a query or a fragment")
    return url


def list_of(value: Any) -> List[str]:
    """A setting that is a text or a list of them. Raises ValueError."""
    every = value if isinstance(value, list) else [value]
    if not all(isinstance(each, str) for each in every) or len(every) > MOST_BASES:
        raise ValueError("is no text, and no list of at most 64")
    return every


def settings_of(table: Mapping[str, Any]) -> Settings:
    """The settings of a section `[repair]`. Raises ValueError, with the name of the setting.

    `base` and `allow` are texts or lists of them, `symbols` is true or false, `after`, `spread` and
    `seconds` are numbers of seconds or texts as "10m", `most` is a number of bytes or a text as
    "64M".
    """
    given: Dict[str, Any] = {}
    for name, value in table.items():
        try:
            given[name] = setting_of(name, value)
        except (ValueError, argparse.ArgumentTypeError) as fault:
            raise ValueError(f"{name}: {fault}") from None
    return Settings(**given)


def setting_of(name: str, value: Any) -> Any:
    """A setting by its name. Raises ValueError."""
    if name == "symbols":
        if not isinstance(value, bool):
            raise ValueError("is true or false")
        return value
    if name == "base":
        return tuple(map(base_of, list_of(value)))
    if name == "allow":
        return tuple(map(network_of, list_of(value)))
    if isinstance(value, bool) or not isinstance(value, (str, int, float)):
        raise ValueError("is no number and no text")
    if name in ("after", "spread", "seconds"):
        return duration(str(value))
    if name == "most":
        return number_of_bytes(str(value))
    raise ValueError("there is no such setting")


class Inputs(NamedTuple):
    """A journal, of which of its sessions, and FDT Instances beside it."""

    journal: str
    source: Optional[bytes] = None  # of a sender; None if the journal has one alone
    tsis: Sequence[int] = ()
    instances: Sequence[str] = ()  # files

    def read(self, program: Program, scratch: Scratch, catalogue: Located) -> Delivery:
        """Reads the journal, and the FDT Instances that describe its files."""
        wanted, folders = Wanted(self.source, self.tsis), beside([self.journal]).folders
        delivery = Delivery(program, [self.journal], wanted, scratch, catalogue, folders)
        delivery.read(self.instances, [])
        return delivery


class Reading(Protocol):
    """What is to be repaired: a journal, of a sender if it has several, and how it is read."""

    @property
    def journal(self) -> str: ...

    @property
    def source(self) -> Optional[bytes]: ...

    def read(self, program: Program, scratch: Scratch, catalogue: Located) -> Delivery: ...


class Result:
    """What a run did, and what is still missing."""

    def __init__(self, sender: bytes) -> None:
        self.sender = sender
        self.asked = self.requests = self.received = self.wanted = self.datagrams = 0
        self.complete: List[Lack] = []
        self.left: List[Lack] = []  # of which something is missing
        self.spent = ""  # why no more was asked for; empty if all was
        self.notes: List[str] = []  # what else is missing

    def is_whole(self) -> bool:
        """Whether nothing of the files is missing any more."""
        return not self.left and not self.notes

    def line(self) -> str:
        """The line that a run prints at its end."""
        def count(number: int, name: str) -> str:
            return f"{number:,} {name}{'' if number == 1 else 's'}"

        left = f", {len(self.left):,} not" if self.left else ""
        return (
            f"asked {count(self.asked, 'symbol')} in {count(self.requests, 'request')}; "
            f"fetched {count(self.received, 'byte')} for {self.wanted:,}; "
            f"{count(len(self.complete), 'file')} complete{left}"
        )

    def json_lines(self) -> Iterator[str]:
        """Yields a JSON object for each file of which something was missing, and one for all."""
        every = [*((lack, True) for lack in self.complete), *((lack, False) for lack in self.left)]
        for lack, is_complete in sorted(every, key=lambda of: of[0].key):
            yield json.dumps(
                {
                    "sender": address_of(lack.key.source),
                    "tsi": lack.key.tsi,
                    "toi": str(lack.key.number),
                    "name": lack.name,
                    "missing": size_of(lack.ranges),
                    "complete": is_complete,
                    "told": None if is_complete else lack.why,
                }
            )
        yield json.dumps(
            {
                "asked": self.asked,
                "requests": self.requests,
                "fetched": self.received,
                "missing": self.wanted,
                "datagrams": self.datagrams,
                "complete": len(self.complete),
                "left": len(self.left),
                "notes": self.notes,
            }
        )


def see(journal: str) -> None:
    """Raises OSError or Fault unless this is a regular file, and no datagram file."""
    if not stat.S_ISREG(os.stat(journal).st_mode):
        raise OSError(errno.ESPIPE, "is no regular file", journal)
    with open(journal, "rb") as file:
        if file.read(4) == Records.magic:
            told = "is a datagram file; flutejoin join makes a journal of it"
            raise Fault(1, f"{shown(journal)}: {told}")


def sender_of(catalogue: Located, source: Optional[bytes]) -> bytes:
    """The sender whose datagrams are written. Raises Fault if there are several."""
    senders = {session.source for session in catalogue}
    if source is not None:
        return source
    if len(senders) > 1:
        raise Fault(2, f"the journal has {len(senders)} senders: name one by --source")
    return next(iter(senders), bytes(16))


def repair(
    settings: Settings, inputs: Reading, out: str, program: Program, report: Log
) -> Result:
    """Asks for what is missing, and writes OUT, a new datagram file of one sender.

    OUT is whole or not there; without anything that came it has no datagrams. Why something is left
    is reported. Raises Fault and OSError.
    """
    see(inputs.journal)
    origins = Origins(settings.base, settings.allow)
    spending = Spending(settings.most, settings.seconds)
    catalogue = Located(report)
    with scratch_folder() as scratch:
        program.kept = (scratch.folder,)
        delivery = inputs.read(program, scratch, catalogue)
        result = Result(sender_of(catalogue, inputs.source))
        further = Further(delivery, catalogue, generations_beside(inputs.journal))
        lacking = Lacking(delivery, catalogue, origins, settings.symbols)
        journal = lacking.read()
        further.choose(lacking)
        run = Repair(Client(origins, spending), settings.symbols)
        with contextlib.closing(run):
            run.run([lack for lack in lacking.lacks.values() if not lack.why], journal)
            further.ask(run, lacking, origins, journal)
            outputs.write_new(out, PARTIAL, lambda file: write(file, [*run.right.values()]))
        take(result, run, spending)
        settle(result, run, lacking)
        result.notes += further.notes
    tell(result, report)
    return result


def take(result: Result, run: Repair, spending: Spending) -> None:
    """Notes the numbers of a run in its result."""
    result.requests, result.received = spending.requests, spending.received
    result.spent = run.spent
    result.asked = sum(lack.symbols() for lack in run.asked.values())
    result.wanted = sum(size_of(lack.ranges) for lack in run.asked.values())
    result.datagrams = sum(len(of.at) for of in run.right.values())


def settle(result: Result, run: Repair, lacking: Lacking) -> None:
    """Notes which files are complete, and what is missing."""
    for key, lack in lacking.lacks.items():
        if key in run.complete:
            result.complete.append(lack)
        else:
            lack.why = lack.why or lacking.still(lack)
            result.left.append(lack)
    replaced = {*lacking.replaced(result.left, run.complete)}
    result.left = [lack for lack in result.left if lack.key not in replaced]
    result.notes = [*lacking.notes()]


def tell(result: Result, report: Log) -> None:
    """Tells which files still lack something, and sets the status."""
    told = Told(report)
    for lack in result.left:
        told.tell(f"{lack.key.text()}: {shown(lack.name)}: {lack.why}")
    told.finish("such files")
    for note in result.notes:
        report.warn(note)
    if not result.is_whole():
        report.status = max(report.status, 1)
