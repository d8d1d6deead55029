"""Tests of the pictures beside a centre's page, of the page's colours, and of its size where there
are many stations and files."""
from __future__ import annotations

import math
import re
import xml.etree.ElementTree as xml
from unittest import mock

from flutejoin_tools.centre.arrivals import Arrival
from flutejoin_tools.centre.symbols import Symbols
from flutejoin_tools.common.addresses import sender_bytes
from flutejoin_tools.common.file_names import PARTIAL
from flutejoin_tools.formats.entries import FILE
from flutejoin_tools.journals.holdings import Key
from flutejoin_tools.pages import drawn
from flutejoin_tools.pages.page import HEAD
from flutejoin_tools.pages.telling import Telling
from tests.centre.case import SENDER, TSI, CentreCase, announced, file_of
from tests.centre.test_tells import Parsed
from tests.support.flute_sender import Sent

SOURCE = sender_bytes(SENDER)
MOST = 500_000  # bytes of a page
# Of text and of what is drawn, on its ground (WCAG 2.1, 1.4.3 and 1.4.11)
TEXT, DRAWN = 4.5, 3.0  # least contrast of text, and of what is drawn (WCAG 2, level AA)
GROUNDS = {"bg": ("fg", "dim", "full", "bad", "ok"), "badbg": ("fg", "dim", "bad", "full")}


def luminance(colour: str) -> float:
    """The relative luminance of a colour (WCAG 2)."""
    digits = colour[1:] if len(colour) == 7 else "".join(2 * it for it in colour[1:])
    parts = [int(digits[at : at + 2], 16) / 255 for at in (0, 2, 4)]
    linear = [
        it / 12.92 if it <= 0.04045 else math.pow((it + 0.055) / 1.055, 2.4) for it in parts
    ]
    return 0.2126 * linear[0] + 0.7152 * linear[1] + 0.0722 * linear[2]


def contrast(one: str, other: str) -> float:
    """The contrast ratio of two colours (WCAG 2)."""
    low, high = sorted(map(luminance, (one, other)))
    return (high + 0.05) / (low + 0.05)


class Draws(CentreCase):
    def setUp(self) -> None:
        super().setUp()
        self.telling = Telling(self.centre, self.told)

    def pictures(self) -> dict[str, str]:
        """The pictures beside the page, by their names."""
        folder = self.path("centre/page/pictures")
        return {it.name: it.read_text() for it in sorted(folder.iterdir())}

    def page(self) -> str:
        return self.path("centre/page/index.html").read_text()

    def links(self) -> list[str]:
        """The links to pictures on the page."""
        elements = Parsed(self.page()).elements
        found = [it.get("href") or "" for tag, it in elements if tag == "a"]
        return [it for it in found if it.startswith("pictures/")]

    def lacking(self, count: int) -> list[Sent]:
        """Has stations push parts of so many files, and returns these."""
        files = [file_of(toi, 14_000) for toi in range(1, count + 1)]
        sent = [file.packets(TSI) for file in files]
        self.push("north", announced(files) + [it for of in sent for it in of[:5]])
        self.push("south", [it for of in sent for it in of[4:8]])
        self.work()
        return files

    def test_one(self) -> None:
        files = self.lacking(1)
        self.telling.tell()
        name = f"{SOURCE.hex()}-{TSI}-1.svg"
        self.holds("a picture", [*self.pictures()] == [name], self.pictures())
        self.holds("a link to it", self.links() == [f"pictures/{name}"], self.links())
        root = xml.fromstring(self.pictures()[name])
        texts = [it.text for it in root.iter() if it.tag.endswith("}text")]
        for wanted in "all joined", "north", "south", "held 8", "missing 2", "held 5", "held 4":
            self.holds(f"it tells {wanted}", wanted in texts, texts)
        self.push("north", files[0].packets(TSI)[8:9])
        self.work()
        self.telling.tell()
        self.holds("it is drawn anew", "missing 1<" in self.pictures()[name])
        self.push("south", files[0].packets(TSI)[9:])
        self.holds("it is whole", self.work() == 1)
        self.telling.tell()
        self.holds("then it goes", not self.pictures() and not self.links(), self.pictures())

    def test_bounds(self) -> None:
        self.lacking(5)
        with mock.patch.object(drawn, "MOST", 3):
            self.telling.tell(at_once=True)
            self.holds("so many", len(self.pictures()) == 3, [*self.pictures()])
            self.holds("and links", len(self.links()) == 3, self.links())
        with mock.patch.object(drawn, "MOST_BYTES", 100):
            self.telling.pictures.made.clear()
            self.telling.tell(at_once=True)
            self.holds("none is so short", not self.pictures() and not self.links())
        self.telling.write(0)
        self.holds("there is no time", not self.pictures() and not self.links())
        self.telling.write()
        sizes = [len(it) for it in self.pictures().values()]
        with mock.patch.object(drawn, "MOST_BYTES", min(sizes) - 1):
            self.telling.pictures.made.clear()
            self.telling.write()
            self.holds("without stations", "north" not in "".join(self.pictures().values()))
            self.holds("all joined", len(self.pictures()) == 5, sizes)

    def test_what_a_run_before_left(self) -> None:
        self.lacking(1)
        folder = self.path("centre/page/pictures")
        folder.mkdir(parents=True)
        old, own = f"{SOURCE.hex()}-{TSI}-9.svg", "mine.svg"
        for name in old, own, f"x{PARTIAL}":
            (folder / name).write_text("")
        self.telling.tell()
        names = [*self.pictures()]
        self.holds("what is another's stays", own in names and old not in names, names)
        self.holds("nothing partial", len(names) == 2, names)

    def test_hostile_names(self) -> None:
        names = "<script>alert(1)</script>", "\u202e]]>&amp;", "a\x01b\ud800", "x" * 3000
        files = [file_of(toi, 14_000, name=name) for toi, name in enumerate(names[:2], 1)]
        self.push("north", announced(files) + [it for of in files for it in of.packets(TSI)[:3]])
        self.work()
        self.telling.tell()
        for text in self.pictures().values():
            tags = {it.tag.rpartition("}")[2] for it in xml.fromstring(text).iter()}
            self.holds("no element is made", "script" not in tags, tags)
            self.holds("nothing turns text around", "\u202e" not in text)
        self.holds("pictures", len(self.pictures()) == 2)

    def test_page_only(self) -> None:
        self.lacking(2)
        self.centre.ledger.close()
        self.check("the page alone", self.tool_run("--page-only"), 0, "", None)
        self.holds("its pictures", len(self.links()) == len(self.pictures()) == 2, self.links())

    def test_page_without_pictures(self) -> None:
        """Where no picture can be made, the page is made without, and that is told."""
        self.lacking(1)
        self.path("centre/page").mkdir(exist_ok=True)
        self.write("centre/page/pictures", "in the way")
        self.telling.tell()
        self.holds("a page without", "80.0 %" in self.page() and not self.links())
        self.holds("it is told", any("pictures" in it for it in self.told.printed))

    def test_contrasts(self) -> None:
        found = re.findall(r"--(\w+):(#[0-9a-f]{3,6})\b", HEAD)
        light = dict(found[: len(found) // 2])
        for colours in light, {**light, **dict(found[len(found) // 2 :])}:
            for ground, inks in GROUNDS.items():
                for ink in inks:
                    ratio = contrast(colours[ink], colours[ground])
                    self.holds(f"{ink} on {ground}: {ratio:.2f}", ratio >= TEXT, colours)
            for part in "full", "part", "bad":
                ratio = contrast(colours[part], colours["bg"])
                self.holds(f"{part} on bg: {ratio:.2f}", ratio >= DRAWN, colours)


class Many(CentreCase):
    """64 stations with 4,000 files."""

    names = tuple(f"station{number:02}" for number in range(64))
    FILES, SYMBOLS = 4000, 16

    def fill(self) -> None:
        """Has the centre take very many files of which each station has a part."""
        files = [
            file_of(toi, self.SYMBOLS * 1400, name=f"http://data.example/day/region/{toi:05}.bin")
            for toi in range(1, self.FILES + 1)
        ]
        self.push(self.names[0], announced(files[: self.FILES // 2]))
        self.push(self.names[0], announced(files[self.FILES // 2 :], 2))
        self.work()
        for at, each in enumerate(self.centre.arrivals):
            for toi in range(1, self.FILES + 1):
                bits = ((toi * 7919 + at * 104729) ^ toi >> 3) & 0x7FFF
                self.come(each, toi, bits)

    def come(self, arrival: Arrival, toi: int, bits: int) -> None:
        """Has symbols of an object come of a station, without a journal."""
        key = Key(SOURCE, TSI, FILE, toi)
        symbols = Symbols()
        symbols.blocks[0] = bits
        arrival.pending.objects[key] = symbols
        self.centre.union.setdefault(key, Symbols()).unite(symbols)
        self.centre.dirty.add(key)

    def test_many(self) -> None:
        self.fill()
        telling = Telling(self.centre, self.told)
        telling.write()
        page = self.path("centre/page/index.html")
        self.holds("the page is small", page.stat().st_size <= MOST, page.stat().st_size)
        parsed = Parsed(page.read_text())
        self.holds("each element is closed", not parsed.open, parsed.open)
        rows = [it for tag, it in parsed.elements if tag == "th" and it.get("scope") == "row"]
        self.holds("all stations", len(rows) > 64, len(rows))
        for toi in range(100, 160):
            self.come(self.centre.arrivals[9], toi, 0x7FFF)
        with mock.patch.object(telling.model, "row", wraps=telling.model.row) as made:
            telling.write()
        self.holds("what did not change is not made anew", made.call_count == 60, made.call_count)
