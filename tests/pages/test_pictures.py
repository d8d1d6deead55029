"""Tests the pictures of docs/pictures: that of the crates is what crates.txt says; files of the
code that one names are there; each is well formed, asks for nothing from elsewhere, has its text as
text that can be read 400 pixels wide, and colours for light and dark; and each is on a page."""
from __future__ import annotations

import re
import sys
import xml.etree.ElementTree as xml

from tests.support import run
from tests.support.run import ROOT

NEEDS_PROGRAM = False
FOLDER = ROOT / "docs" / "pictures"
PICTURES = sorted(FOLDER.glob("*.svg"))
DRAWN = {"map.svg", "centre.svg"}  # by tools, whose own tests say how they look
PAGES = ROOT / "README.md", *sorted((ROOT / "docs").glob("*.md"))
LEAST = 9  # pixels of a letter's height in a picture that is 400 wide


def texts_of(picture: xml.Element) -> list[str]:
    return [it.text or "" for it in picture.iter() if it.tag.endswith("}text")]


def links_of(picture: xml.Element) -> list[str]:
    found = [it.attrib.items() for it in picture.iter()]
    return [value for of in found for name, value in of if re.search("(href|src)$", name)]


class Pictures(run.Case):
    def test_crates(self) -> None:
        done = self.command([sys.executable, FOLDER / "crates.py"])
        self.check("the crates", done, 0, (FOLDER / "crates.svg").read_text())

    def test_files(self) -> None:
        files = {path.name for path in (ROOT / "crates").glob("*/src/**/*.rt")}
        for path in PICTURES:
            named = set(re.findall(r"\w+\.rt\b", path.read_text()))
            self.holds(f"{path.name}: files of the code", named <= files, named - files)

    def test_form(self) -> None:
        self.assertGreater(len(PICTURES), 2)
        for path in PICTURES:
            page = path.read_text()
            picture = xml.fromstring(page)
            left, top, width, _ = map(float, picture.attrib["viewBox"].split())
            self.holds(f"{path.name}: texts", left == top == 0 and texts_of(picture))
            others = re.findall(r"url\((?!#)[^)]*|@import|<script|<image|<foreignObject", page)
            others += [it for it in links_of(picture) if not it.startswith("#")]
            self.holds(f"{path.name}: nothing from elsewhere", not others, others)
            if path.name not in DRAWN:
                sizes = [int(it) for it in re.findall(r"font: (?:bold )?(\d+)px", page)]
                is_read = sizes and min(sizes) * 400 / width >= LEAST
                self.holds(f"{path.name}: letters", is_read, (sizes, width))
                self.holds(f"{path.name}: dark too", "(prefers-color-scheme: dark)" in page)

    def test_pages(self) -> None:
        shown = set()
        for page in PAGES:
            for link in re.findall(r"!\[[^\]]+\]\(([^)]+)\)", page.read_text()):
                self.holds(f"{page.name} shows {link}", (page.parent / link).is_file())
                shown.add((page.parent / link).resolve())
        lost = set(PICTURES) - shown
        self.holds("each picture is on a page", not lost, lost)
