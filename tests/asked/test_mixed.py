"""Tests of a centre with stations of both kinds, those that it asks and those that push to it: what
its page shows of them, and what it asks for."""
from __future__ import annotations

import json
from typing import Any

from flutejoin_tools.pages.telling import Telling
from tests.asked.case import AskedCase
from tests.centre.case import TSI, announced, file_of


class Mixed(AskedCase):
    """The station `east` pushes; `north` and `south` are asked."""

    names = "north", "south"
    is_by_ssh = False

    def tables(self) -> tuple[dict[str, Any], list[dict[str, Any]]]:
        self.path("push/east").mkdir(parents=True, exist_ok=True)
        centre, stations = super().tables()
        return centre, [*stations, {"name": "east", "folder": str(self.path("push/east"))}]

    def setUp(self) -> None:
        super().setUp()
        for station in self.stations.values():
            station.loss = 0
        self.one = file_of(1, 140_000)
        self.symbols = self.one.packets(TSI)

    def wanted_of(self, name: str) -> int:
        """How many symbols a station was asked for."""
        lines = (it for it in self.asked(name) if " partial missing " in it)
        return sum(int(it.split()[-5]) for it in lines)

    def test_what_each_has(self) -> None:
        """Each brings what the other lacks."""
        self.push("east", announced([self.one]) + self.symbols[:50])
        self.stations["north"].hear(self.symbols[50:])
        self.ask()
        self.holds("it is delivered", [*self.files().values()] == [self.one.content])
        shares = self.lines()[0]["stations"]
        self.holds("of both", shares == {"east": 50.0, "north": 50.0}, shares)

    def test_what_is_here_is_not_asked_for(self) -> None:
        """Nor is what came by itself after that."""
        self.push("east", announced([self.one]) + self.symbols[:50])
        self.work()
        self.stations["north"].hear(self.symbols[:80])
        self.ask()
        self.holds("what is missing", self.wanted_of("north") == 30, self.asked("north"))
        self.push("east", self.symbols[80:90])
        self.work()
        self.stations["south"].hear(self.symbols)
        self.ask()
        self.holds("what is missing then", self.wanted_of("south") == 10, self.asked("south"))
        self.holds("it is delivered", [*self.files().values()] == [self.one.content])
        shares = self.lines()[0]["stations"]
        wanted = {"east": 60.0, "north": 80.0, "south": 100.0}
        self.holds("what each has", shares == wanted, shares)

    def test_another_file_of_its_number(self) -> None:
        """What differs from what a station brought is asked for whole."""
        other = file_of(1, 140_000, seed=1)
        other.packets(TSI)
        self.push("east", announced([self.one]) + self.symbols[:50])
        self.work()
        self.stations["north"].hear(announced([other], 2) + other.packets(TSI))
        self.ask()
        self.holds("all of it", self.wanted_of("north") == 100, self.asked("north"))
        self.holds("it is delivered", [*self.files().values()] == [other.content])

    def test_what_is_damaged(self) -> None:
        """What a station brought, and is damaged at the centre, is asked for of others."""
        self.push("east", announced([self.one]) + self.symbols[:50])
        self.work()
        (path,) = self.path("centre/pending/east").glob("*.journal")
        path.write_bytes(path.read_bytes()[:-40])
        self.stations["north"].hear(self.symbols)
        self.ask()
        self.holds("it is delivered", [*self.files().values()] == [self.one.content])

    def test_page(self) -> None:
        """The picture and the status say of each what it has."""
        self.push("east", announced([self.one]) + self.symbols[:50])
        self.stations["north"].hear(self.symbols[40:70])
        self.ask()
        Telling(self.centre, self.told).tell()
        (row,) = json.loads(self.path("centre/page/status.json").read_text())["files"]
        self.holds("the shares", row["stations"] == {"east": 50.0, "north": 30.0}, row)
        self.holds("what one has alone", row["only"] == {"east": 40, "north": 20}, row)
        self.holds("what is missing", row["missing_symbols"] == 30, row)
        (picture,) = self.path("centre/page/pictures").iterdir()
        for told in "held 50", "held 30", "held 70", "missing 50", "missing 70", "missing 30":
            self.holds(f"the picture tells {told}", f">{told}<" in picture.read_text())
