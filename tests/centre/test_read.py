"""Tests of how a centre's page is read, without a script and in a browser, and of the lines that
systemd's journal gets."""
from __future__ import annotations

import re
import shutil
import struct

from flutejoin_tools.pages.telling import Telling
from tests.centre.case import CentreCase, announced, file_of, packets
from tests.centre.test_tells import Parsed

CHROMIUM = shutil.which("chromium")
PHONE, DESK, HEIGHT = 400, 1200, 900  # pixels
SHOT = "--headless --no-sandbox --disable-gpu --hide-scrollbars --enable-logging=stderr --v=0"


class PageCase(CentreCase):
    def page(self) -> str:
        """The page of two files that are delivered, and one that is not whole."""
        files = [file_of(toi, 14_000) for toi in (1, 2, 3)]
        sent = announced(files) + packets(files[:2])
        self.push("north", sent + files[2].packets(7)[:5])
        self.push("south", packets(files[:1]) + files[2].packets(7)[4:8])
        self.work()
        Telling(self.centre, self.told).tell()
        return self.path("centre/page/index.html").read_text()


class Reads(PageCase):
    def test_without_a_script(self) -> None:
        """Each file and station has a row whose head names it, before any script runs."""
        page = re.sub("<script.*?</script>", "", self.page(), flags=re.DOTALL)
        heads = re.findall(r'<th scope="row">(.*?)</th>', page, re.DOTALL)
        texts = [re.sub("<.*?>", "", it).strip() for it in heads]
        for name in "north", "south", "data.example/day/00001.bin", "data.example/day/00002.bin":
            self.holds(f"{name} has a row", texts.count(name) == 1, texts)
        waiting = [it for it in texts if it.startswith("http://data.example/day/00003.bin")]
        self.holds("so has what is not whole", len(waiting) == 1, texts)
        self.holds("what is missing is told", "11,200–13,999" in page)

    def test_two_columns(self) -> None:
        """On a narrow screen each table has two columns: the others are hidden there."""
        page = self.page()
        hidden = re.search(r"@media\(max-width:(\d+)rem\)\{th\.m,td\.m\{display:none\}\}", page)
        self.holds("they are hidden", hidden and PHONE < 16 * int(hidden[1]) < DESK)
        tables = re.findall(r"<thead>(.*?)</thead>", page)
        self.holds("three tables", len(tables) == 3, len(tables))
        for table in tables:
            heads = re.findall(r'<th scope="col" class="(.*?)">', table)
            self.holds("two are left", sum("m" not in it.split() for it in heads) == 2, heads)
        for _, attributes in (it for it in Parsed(page).elements if it[0] == "th"):
            self.holds("each head has a scope", attributes.get("scope") in ("row", "col"))


class Browser(PageCase):
    def setUp(self) -> None:
        if not CHROMIUM:
            self.skipTest("since there is no chromium (Debian: chromium)")
        super().setUp()

    def shot(self, page: str, width: int) -> tuple[tuple[int, int], list[str]]:
        """The size of a screenshot in pixels, and what the browser logged of the page."""
        size = f"--window-size={width},{HEIGHT}"
        words = [CHROMIUM, *SHOT.split(), f"--user-data-dir={self.path('browser')}", size]
        image = self.path("shot.png")
        image.unlink(missing_ok=True)
        done = self.command([*words, f"--screenshot={image}", f"file://{self.path(page)}"])
        self.holds(f"{page} at {width}: a screenshot", image.exists(), done.err[-600:])
        head = image.read_bytes()[:24]
        self.holds("it is a PNG", head[:8] == b"\x89PNG\r\n\x1a\n", head)
        lines = [it for it in done.err.decode(errors="replace").splitlines() if "CONSOLE" in it]
        wide, high = struct.unpack(">II", head[16:24])
        return (wide, high), lines

    def test_screenshots(self) -> None:
        page = self.page()
        for width in PHONE, DESK:
            size, logged = self.shot("centre/page/index.html", width)
            self.holds(f"its size at {width}", size == (width, HEIGHT), size)
            self.holds(f"the browser logs nothing at {width}", not logged, logged)
        self.write("wrong.html", page.replace("<main>", "<main><script>wrong(</script>"))
        self.holds("what is wrong would be", self.shot("wrong.html", PHONE)[1])


class InJournal(CentreCase):
    """Standard error is a file that JOURNAL_STREAM names, as systemd does of its journal."""

    def said(self, is_journal: bool) -> list[str]:
        self.write("err", "")
        of = self.path("err").stat()
        stream = f"{of.st_dev}:{of.st_ino if is_journal else of.st_ino + 1}"
        tool = self.bin / "flutejoin-centre"
        child = self.start(
            [tool, "--config", self.write_settings(), "--once"],
            to="out", err="err", env={"JOURNAL_STREAM": stream},
        )
        child.wait()
        return self.read("err").decode().splitlines()

    def test_priorities(self) -> None:
        """A line has a priority there and no time, and elsewhere a time."""
        for number, is_journal in enumerate((True, False), 1):
            self.push("north", announced([file_of(number)], number) + packets([file_of(number)]))
            self.write("push/south/10.0.0.2.journal", b"no journal")
            found = self.said(is_journal)
            front = r"<\d>" if is_journal else r"\d{4}-\d\d-\d\dT\d\d:\d\d:\d\dZ "
            for line in found:
                self.holds(line, re.match(f"{front}flutejoin-centre: \\D", line))
            told = [it for it in found if "delivered" in it]
            wrong = [it for it in found if "at fault" in it]
            self.holds("both are told", len(told) == len(wrong) == 1, found)
            if is_journal:
                self.holds("what is done is information", told[0].startswith("<6>"), told)
                self.holds("a fault is more", wrong[0][:3] in ("<3>", "<4>"), wrong)
