"""Runs the sessions of README, of docs/OPERATING.md and of docs/TUTORIAL.md as they are printed. A
block of commands on a page that is not run is a failure. Commands that need a network are not run:
their results are made from the files of the first session."""
from __future__ import annotations

import shutil
import sys

from tests.pages.case import Case, block, sections, steps
from tests.support import run
from tests.support.run import ROOT

README = (ROOT / "README.md").read_text()
OPERATING = (ROOT / "docs" / "OPERATING.md").read_text()
TUTORIAL = (ROOT / "docs" / "TUTORIAL.md").read_text()
CENTRE = "A centre and its page"  # the last section of the tutorial
CAROUSEL = "carousel -o {} --tsi 7 {} --symbol 1000 --block 16 {}"


class Sessions(Case):
    def short(self) -> None:
        """Runs the session of README, and puts its datagrams after those of an FDT Instance."""
        self.session(README, "A short session", "short")
        self.instance("fdt_sent", "numbers.txt", "short/file")
        self.write("all_sent", self.read("fdt_sent") + self.read("short/sent")[6:])

    def instance(self, sent: str, name: str, file: str) -> None:
        """Makes the datagrams of an FDT Instance that describes a file."""
        fdt = ROOT / "examples" / "fdt.py"
        words = [sys.executable, fdt, 1, f"http://example.com/{name}", file]
        self.write("fdt.xml", self.command(words).out)
        self.made(CAROUSEL.format(sent, "--toi 0 --fdt 1", "fdt.xml"))

    def test_readme(self) -> None:
        self.short()
        self.path("monday").mkdir()
        self.write("rows", "monday.pcap|10.0.0.1=all_sent\n")
        words = [sys.executable, run.SUPPORT / "captures.py", "make", "rows", "monday"]
        self.check("the capture", self.command(words), 0, None)
        for kept in self.path("monday").glob("*.kept"):
            shutil.rmtree(kept) if kept.is_dir() else kept.unlink()
        self.session(README, "From your network", "monday")
        self.same("the file", "short/file", "monday/files/example.com/numbers.txt")
        self.all_run(README, "A short session", "From your network")

    def test_operating(self) -> None:
        self.short()
        self.session(OPERATING, "Two stations, two senders", "session")
        # Its first two stations, as a picture, and what the one lacks of the other
        for folder, title in (
            ("picture", "What is missing, as a picture"),
            ("outbox", "Only what is missing"),
        ):
            self.path(folder).mkdir()
            for station in "station1", "station2":
                self.write(f"{folder}/{station}", self.read(f"session/{station}"))
            self.session(OPERATING, title, folder)
        self.named()
        self.events()
        self.all_run(
            OPERATING,
            *("Two stations, two senders", "What is missing, as a picture"),
            *("Only what is missing", "From objects to files", "What poisons a journal"),
        )

    def named(self) -> None:
        """Runs the session in which files are listed and written."""
        self.path("named").mkdir()
        words = [sys.executable, run.SUPPORT / "flute_sender.py", "sent"]
        self.check("datagrams", self.command(words, folder="named"), 0, None)
        self.made("join -o all --source 10.0.0.1 sent", folder="named")
        self.remove("named/sent")
        self.session(OPERATING, "From objects to files", "named")
        self.same("the file", "session/file", "named/files/example.com/news/numbers.txt")

    def events(self) -> None:
        """Makes two events: station 2 received a wrong symbol 1/2, and station 3 both values; and a
        sender restarts."""
        for station in 1, 2, 3:
            self.path(f"events/station{station}").mkdir(parents=True)
        every = self.read("all_sent")
        self.write("events/station1/10.0.0.1.fldg", every)
        self.write("other", "".join(f"{number}\n" for number in range(3_000_000, 3_005_000)))
        self.made(CAROUSEL.format("other_sent", "--toi 1", "other"))
        other = self.read("other_sent")
        begin = 6 + 16 * 1038
        wrong = other[begin : begin + 1038]
        sent = self.read("short/sent")[:begin]
        self.write("events/station2/10.0.0.1.fldg", sent + wrong)
        self.write("events/station3/10.0.0.1.fldg", every + wrong)
        self.instance("restarted", "more.txt", "other")
        self.write("sent", every + self.read("restarted")[6:] + other[6:])
        captures_of = ROOT / "examples" / "captures.py"
        words = [sys.executable, captures_of, "sent", 0, "events/week.pcap"]
        self.check("the capture of a week", self.command(words), 0, None)
        title = "What poisons a journal"
        self.session(OPERATING, title, "events")
        for folder in "files", "checked", "both":
            of_folder = f"events/{folder}/example.com/numbers.txt"
            self.same(f"the file in {folder}", "session/file", of_folder)
        self.same("the file since", "other", "events/both/example.com/more.txt")


class Tutorial(Case):
    """docs/TUTORIAL.md, in an empty folder, with an installed program."""

    def test_tutorial(self) -> None:
        share = self.bin.parent / "share" / "flutejoin"
        share.mkdir(parents=True)
        (share / "examples").symlink_to(ROOT / "examples")
        self.path("tutorial").mkdir()
        self.write("tutorial/centre.toml", block(TUTORIAL, CENTRE, "toml"))
        for title, lines in sections(TUTORIAL).items():
            if steps(lines):
                self.session(TUTORIAL, title, "tutorial")
        self.holds("the page is its end", title == CENTRE)
        self.shown("map.svg", "tutorial/map.svg")
        page = self.read("tutorial/centre/page/index.html")
        self.holds("what the page says", b"1 file delivered, none is waited for" in page)
        self.centre()

    def shown(self, name: str, made: str) -> None:
        self.same(f"{name} of the page", made, (ROOT / "docs" / "pictures" / name).read_bytes())

    def centre(self) -> None:
        """Has the first three stations push to another centre, which draws what is missing."""
        words = "exec flutejoin-centre --config ../centre.toml --once"
        for number, name in enumerate(("north", "south", "west"), 1):
            self.path(f"tutorial/drawn/push/{name}").mkdir(parents=True)
            inputs = f"station{number}/10.0.0.1.fldg fdt/10.0.0.1.fldg"
            gather = f"exec flutejoin-gather -o drawn/push/{name} {inputs}"
            self.check(f"{name} pushes", self.shell(gather, folder="tutorial"), 0, None)
        self.path("tutorial/drawn/centre").mkdir()
        self.check("a centre", self.shell(words, folder="tutorial/drawn"), 0, None)
        pictures = sorted(self.path("tutorial/drawn/centre/page/pictures").iterdir())
        self.assertEqual(len(pictures), 1)
        self.shown("centre.svg", f"tutorial/drawn/centre/page/pictures/{pictures[0].name}")
