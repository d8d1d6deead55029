"""Stations that a centre asks, for tests: folders of stations without receivers, and a program
`ssh` of the test's own, which runs the forced command of each, counts bytes, and does what a test
tells it to do wrong; or answers that are given at once in the test's process."""
from __future__ import annotations

import functools
import os
import pathlib
import random
import sys
import time
from typing import Any, Iterable, Optional, Sequence
from unittest import mock

import datagram_files
from flutejoin_tools.common.addresses import IPAddress
from flutejoin_tools.common.faults import Fault
from flutejoin_tools.common.file_names import PARTIAL
from flutejoin_tools.common.program import Program
from flutejoin_tools.exchange import asked
from flutejoin_tools.exchange.answering import Answering
from flutejoin_tools.exchange.asked import Asker
from flutejoin_tools.exchange.exchange import Refused
from flutejoin_tools.journals.holdings import entries
from flutejoin_tools.station.keeping import Keeper
from flutejoin_tools.station.kept import Settings
from tests.centre.case import SENDER, CentreCase
from tests.support import run
from tests.support.flute_sender import Sent
from tests.support.kept_log import KeptLog
from tests.support.run import ROOT

LOSS = 0.3  # part of the datagrams that each station loses
SSH = '''#!{python}
import os, pathlib, subprocess, sys, time
at = sys.argv.index("flutejoin-station")
root, host, asked = pathlib.Path({root!r}), sys.argv[at - 1], sys.argv[at:]
assert asked[1] == "--answer" and "BatchMode=yes" in sys.argv[:at], sys.argv
request = sys.stdin.buffer.read()
number = f"{{time.time_ns():020}}"
(root / f"asked.{{host}}").mkdir(exist_ok=True)
(root / f"asked.{{host}}" / number).write_bytes(request)
wrong = root / f"wrong.{{host}}"
given = {{"request": request, "os": os, "sys": sys, "time": time, "data": b"", "status": 0}}
if wrong.exists():
    exec(wrong.read_text().partition("# after")[0], given)
words = [sys.executable, {tool!r}, "--answer", str(root / host), "--flutejoin", {program!r}]
environment = {{**os.environ, "SSH_ORIGINAL_COMMAND": " ".join(asked)}}
done = subprocess.run(words, input=request, capture_output=True, env=environment)
given["data"] = done.stdout
if wrong.exists():
    exec(wrong.read_text().partition("# after")[2], given)
(root / f"sent.{{host}}").mkdir(exist_ok=True)
(root / f"sent.{{host}}" / number).write_bytes(given["data"])
sys.stderr.buffer.write(done.stderr)
sys.stdout.buffer.write(given["data"])
sys.stdout.buffer.flush()
sys.exit(given["status"] or done.returncode)
'''


class Station:
    """A station without a receiver, which hears what is written to its folder."""

    def __init__(self, folder: pathlib.Path, draw: random.Random) -> None:
        self.folder, self.draw, self.loss = folder, draw, LOSS
        self.is_away = False
        # Addresses of senders that are kept as another one
        self.same: tuple[tuple[IPAddress, IPAddress], ...] = ()
        self.said: list[str] = []
        self.begin()

    def begin(self) -> None:
        """Opens the station's journals anew, as a run of it does that starts."""
        log = KeptLog("station", self.said)
        program = Program(str(run.PROGRAM), lambda: None)
        settings = Settings(0, 0, False, None, self.same)
        self.keeper = Keeper(str(self.folder), program, settings, log)

    def hear(self, sent: Iterable[bytes], sender: str = SENDER) -> None:
        """Receives datagrams, of which it loses some, and joins them."""
        heard = [it for it in sent if self.draw.random() >= self.loss]
        if self.is_away or not heard:
            return
        path = self.folder / "in" / f"{sender}.fldg"
        data = datagram_files.content(heard)
        with open(path, "ab") as file:
            file.write(data[6:] if path.exists() and path.stat().st_size else data)
        while self.keeper.waiting():
            self.keeper.work(False)


class CallWithoutSsh:
    """A centre's call of a station, without ssh: answered in this process as flutejoin-station
    --answer does, when it begins."""

    child = None
    wait: Optional[int] = None  # that the station hears of

    def __init__(
        self,
        root: pathlib.Path,
        command: Sequence[str],
        request: Iterable[str],
        path: str,
        most: int,
        _seconds: float,
    ) -> None:
        host = command[command.index("flutejoin-station") - 1]
        number = f"{time.time_ns():020}"
        given, said = "".join(request).encode(), []  # type: bytes, list[str]
        self.path, self.most = path + PARTIAL, most
        self.failure: Optional[str] = None
        with open(self.path, "w+b") as out:
            try:
                of = Answering(
                    str(root / host), None, str(run.PROGRAM), out, said.append, self.wait
                )
                of.answer(given)
            except (Refused, Fault) as fault:
                self.failure = str(fault)
            out.truncate(min(most, out.tell()))
        data = pathlib.Path(self.path).read_bytes()
        self.size = len(data)
        for kind, content in ("asked", given), ("sent", data):
            (root / f"{kind}.{host}").mkdir(exist_ok=True)
            (root / f"{kind}.{host}" / number).write_bytes(content)

    def is_over(self) -> bool:
        return True

    def is_too_long(self) -> bool:
        return self.size >= self.most

    def stop(self) -> None:
        pathlib.Path(self.path).unlink(missing_ok=True)


class AskedCase(CentreCase):
    """A centre that asks the stations `north`, `south` and `west`."""

    names: tuple[str, ...] = ("north", "south", "west")
    is_by_ssh = True  # whether stations are asked by processes

    def setUp(self) -> None:
        self.asker: Optional[Asker] = None
        super().setUp()
        tool = str(ROOT / "tools/flutejoin-station")
        given = {"python": sys.executable, "root": str(self.folder), "tool": tool}
        (self.bin / "ssh").write_text(SSH.format(**given, program=str(run.PROGRAM)))
        (self.bin / "ssh").chmod(0o755)
        path = f"{self.bin}:{os.environ['PATH']}"
        patch = mock.patch.dict(os.environ, {"PATH": path, "PYTHONDONTWRITEBYTECODE": "1"})
        patch.start()
        self.addCleanup(patch.stop)
        if not self.is_by_ssh:
            call = functools.partial(CallWithoutSsh, self.folder)
            own = mock.patch.object(asked, "Call", call)
            own.start()
            self.addCleanup(own.stop)
        self.stations = {
            name: Station(self.path(name), random.Random(at)) for at, name in enumerate(self.names)
        }
        self.addCleanup(self.stop_asking)

    def tables(self) -> tuple[dict[str, Any], list[dict[str, Any]]]:
        centre, _ = super().tables()
        return centre, [{"name": name, "ssh": name} for name in self.names]

    def stop_asking(self) -> None:
        """Ends the calls of the centre that run."""
        if self.asker:
            self.asker.stop()

    def open(self) -> None:
        """Opens the centre anew, as a run of it does that starts, and its stations' calls."""
        self.stop_asking()
        super().open()
        self.asker = Asker(self.centre, self.told)

    def ask(self) -> int:
        """Asks all stations until nothing is wanted, and delivers; returns how many files."""
        assert self.asker
        count = self.centre.work()
        for each in self.asker.stations:
            each.was_asked, each.next, each.next_try = False, float("-inf"), float("-inf")
        while self.asker.is_busy():
            if self.asker.tend(float("inf")):
                count += self.centre.work()
            self.pause()
        return count + self.centre.work()

    def pause(self) -> None:
        """Waits until a call of the centre has ended."""
        assert self.asker
        calls = [each.call for each in self.asker.stations if each.call]
        if calls:
            run.until(lambda: any(it.child is None or it.child.poll() is not None for it in calls))

    def hear(self, sent: list[bytes], each: int = 400) -> None:
        """Has all stations hear datagrams; after so many the centre asks."""
        for at in range(0, len(sent), each):
            for station in self.stations.values():
                station.hear(sent[at : at + each])
            self.ask()

    def wrong(self, host: str, before: str = "", after: str = "") -> None:
        """Has ssh do something else: `before` the station is asked, or `after` it answered `data`
        to `request`. Without both it does what is right."""
        path = self.path(f"wrong.{host}")
        path.unlink(missing_ok=True)
        if before or after:
            path.write_text(f"{before}\n# after\n{after}\n")

    def sent(self, host: Optional[str] = None) -> int:
        """How many bytes a station answered, or all did."""
        return sum(
            path.stat().st_size
            for name in ([host] if host else self.names)
            for path in self.path(f"sent.{name}").glob("*")
        )

    def asked(self, host: str) -> list[str]:
        """The lines of all requests to a station."""
        paths = sorted(self.path(f"asked.{host}").glob("*"))
        return [line for path in paths for line in path.read_text().splitlines()]

    def contents(self, folder: str) -> dict[str, bytes]:
        """All files in a folder of the centre, by their paths, but for what changes by itself."""
        root = self.path(f"centre/{folder}")
        return {
            str(path.relative_to(root)): path.read_bytes()
            for path in sorted(root.rglob("*"))
            if path.is_file()
        }

    def conflicts(self) -> int:
        """How many symbols are in conflict in any journal at the centre."""
        count = 0
        for path in self.path("centre").glob("gathered/**/*.journal"):
            with open(path, "rb", buffering=0) as file:
                count += sum(kind in (2, 4) for kind, _, _ in entries(file))
        return count

    def wanted(self, files: Iterable[Sent]) -> dict[str, bytes]:
        return {it.location.removeprefix("http://"): it.content for it in files}
