"""Stations and a centre for tests: what stations push is made of a sender's datagrams."""
from __future__ import annotations

import hashlib
import json
import os
import pathlib
from typing import Any, Iterable, Optional, Sequence

import datagram_files
from flutejoin_tools.centre.delivering import Deliverer
from flutejoin_tools.centre.settings import Settings, settings_in
from flutejoin_tools.common.program import Program
from flutejoin_tools.gather.gathering import Gathering
from tests.support import run
from tests.support.flute_sender import EXPIRES, Sent, fdt, instance
from tests.support.kept_log import KeptLog
from tests.support.run import Run

SENDER, TSI = "10.0.0.1", 7


class Clock:
    """A clock that is set."""

    def __init__(self, now: float = 1_790_000_000) -> None:
        self.now = now

    def __call__(self) -> float:
        return self.now


def announced(files: Sequence[Sent], number: int = 1, expires: int = EXPIRES) -> list[bytes]:
    """The packets of an FDT Instance."""
    return instance(TSI, number, fdt(files, expires))


def packets(files: Iterable[Sent]) -> list[bytes]:
    return [packet for file in files for packet in file.packets(TSI)]


class CentreCase(run.Case):
    """A centre with the stations `north` and `south`, which is run in this process."""

    names: tuple[str, ...] = ("north", "south")
    more: dict[str, Any] = {}
    centre: Deliverer

    def setUp(self) -> None:
        super().setUp()
        self.clock, self.told = Clock(), KeptLog("centre")
        self.count = 0
        for name in self.names:
            self.path(f"push/{name}").mkdir(parents=True)
        self.open()

    def tables(self) -> tuple[dict[str, Any], list[dict[str, Any]]]:
        """The settings, as a file of TOML has them."""
        stations = [{"name": it, "folder": str(self.path(f"push/{it}"))} for it in self.names]
        centre = {"folder": str(self.path("centre")), "flutejoin": str(run.PROGRAM)}
        return {**centre, **self.more}, stations

    def settings(self) -> Settings:
        return settings_in(*self.tables())

    def write_settings(self, **more: object) -> pathlib.Path:
        """Writes the file of settings, and returns its path."""
        centre, stations = self.tables()
        lines = ["[centre]"]
        lines += [f"{key} = {json.dumps(it)}" for key, it in {**centre, **more}.items()]
        for station in stations:
            lines.append("[[station]]")
            lines += [f"{key} = {json.dumps(it)}" for key, it in station.items()]
        self.write("centre.toml", "\n".join(lines) + "\n")
        return self.path("centre.toml")

    def open(self) -> None:
        """Begins the centre, as a new process would."""
        if hasattr(self, "centre"):
            self.centre.ledger.close()
        self.path("centre").mkdir(exist_ok=True)
        self.centre = Deliverer(self.settings(), str(run.PROGRAM), self.told, self.clock)

    def push(
        self,
        name: str,
        datagrams: Iterable[bytes],
        sender: str = SENDER,
        at: Optional[float] = None,
    ) -> None:
        """Has a station push datagrams, as examples/push.sh does. `at` is when they came."""
        path = self.path(f"{sender}.fldg")
        datagram_files.write(str(path), datagrams)
        if at is not None:
            os.utime(path, (at, at))
        program = Program(str(run.PROGRAM), lambda: None)
        folder, seconds = str(self.path(f"push/{name}")), self.centre.settings.keep
        gathering = Gathering(folder, program, self.told, seconds=seconds)
        gathering.take(str(path))
        gathering.end()

    def work(self) -> int:
        return self.centre.work()

    def files(self) -> dict[str, bytes]:
        """The files that are delivered, by their paths."""
        folder = self.path("centre/files")
        return {
            str(path.relative_to(folder)): path.read_bytes()
            for path in sorted(folder.rglob("*"))
            if path.is_file()
        }

    def lines(self) -> list[dict[str, Any]]:
        """The lines of the log of what was delivered."""
        path = self.path("centre/delivered.jsonl")
        return [*map(json.loads, path.read_text().splitlines())] if path.exists() else []

    def tool_run(self, *words: object, **how: Any) -> Run:
        return self.tool("flutejoin-centre", ["--config", self.write_settings(), *words], **how)


def file_of(toi: int, size: int = 5000, name: Optional[str] = None, seed: int = 0) -> Sent:
    """A file with bytes of its own, by its TOI and a seed."""
    front = hashlib.sha256(b"%d %d" % (toi, seed)).digest()
    content = (front * (size // 32 + 1))[:size]
    marked = b"".join(
        content[at : at + 1392] + at.to_bytes(8, "big") for at in range(0, size, 1400)
    )
    return Sent(toi, marked[:size], name or f"http://data.example/day/{toi:05}.bin")
