"""Joins 100 stations by examples/tree.mk, changes some, and compares the journals, the number of
joins and the faults."""
from __future__ import annotations

import ipaddress
import os
import pathlib
import random
import re
import shutil
import sys

from flutejoin_tools.common.file_names import file_name
from tests.support import run
from tests.support.run import ROOT, Run

EXAMPLES = ROOT / "examples"
FOUR = "OUT=deep TREE=four FANIN=4"
ODD = (
    *("two words", "a'quote", 'a"b', "$HOME", "a:b", "#a", "a%b", "a\\b", "a*b", "-o", "a;b"),
    *("a&b", "~", "a=b", "é", " first", "last "),
)
NO_ADDRESSES = (
    *("10.0.0.256", "1.2.3", "1.2.3.4.0", "1.2.3.4.e1x", "01.2.3.4", "1-2", "1-2-3-4-5-6-7"),
    *("1-2-3-4-5-6-7-8-9", "1--2--3", "12345--", "g--", "1--2.e0", "1--2.x", "-1--2"),
)


class Tree(run.Case):
    """A file of 40,000 bytes as 40 datagrams. Each station lost about 97 % of them, and all lost
    the last. Stations with odd numbers are journals, the others datagram files."""

    def setUp(self) -> None:
        super().setUp()
        self.write("file", "".join(f"{number:07}\n" for number in range(1, 5001)))
        self.made("carousel -o sent --tsi 7 --toi 1 --symbol 1000 --block 16 file")
        self.write("sent_but_last", self.read("sent")[:-1038])
        self.received("sent_but_last", "stations", 100, 97)
        for number in range(1, 100, 2):
            name = f"stations/s{number:05}"
            self.made(f"join -f -o {name} {name}")
        # The program; each run adds a line to `joins`
        counted = f"#!/bin/sh\necho \"$*\" >> '{self.path('joins')}'\nexec '{run.PROGRAM}' \"$@\"\n"
        self.write("counted", counted)
        self.path("counted").chmod(0o755)

    def received(self, sent: str, folder: str, *numbers: int) -> None:
        """Makes what stations of these numbers received, each with other losses."""
        words = [sys.executable, EXAMPLES / "stations.py", sent, folder, *numbers]
        done = self.command(words)
        self.assertEqual(done.status, 0, done)

    def stations(self, folder: str = "stations") -> list[str]:
        """The paths of what stations received."""
        paths = [path for path in self.path(folder).rglob("*") if path.is_file()]
        return sorted(str(path.relative_to(self.folder)) for path in paths)

    def tree(self, words: run.Words) -> Run:
        """Runs make once."""
        self.write("joins", "")
        tree = "-f", EXAMPLES / "tree.mk", "-j2", f"FLUTEJOIN={self.path('counted')}"
        return self.command(["make", *tree, *run.split(words)])

    def joined(self, name: str, words: run.Words, count: int) -> None:
        """Checks that make succeeds, with so many joins."""
        done = self.tree(words)
        joins = self.read("joins").count(b"\n")
        self.holds(name, done.status == 0 and joins == count, f"{joins} joins, {done}")

    def refused(self, name: str, words: run.Words, text: str) -> None:
        """Checks that make fails with this text."""
        done = self.tree(words)
        self.holds(name, done.status != 0 and text.encode() in done.err, done)

    def untouched(self, name: str, words: run.Words, text: str) -> None:
        """Checks that make stops with this text before any join."""
        self.refused(name, words, text)
        self.same(f"{name}: before any join", "joins", b"")

    def as_once(self, name: str, out: str) -> None:
        """OUT is the journal of all stations: 64 are in the first join, and the others are joined
        with its journal in the second. So OUT is not the journal from before a change."""
        names = self.stations()
        self.made(["join", "-o", "first", *names[:64]])
        self.made(["join", "-o", "once", "first", *names[64:]])
        self.same(f"{name}: all at once", "once", out)

    def nothing_half_done(self, name: str) -> None:
        """Checks that no file is left that a run had only begun."""
        plans = [*self.folder.rglob("*.partial"), *self.folder.rglob("plan.?*")]
        left = [path for path in plans if path.name != "plan.mk"]
        self.holds(f"{name}: nothing half done", not left, left)


class Stations(Tree):
    def test_trees(self) -> None:
        self.joined("the tree of 64", "INPUTS=stations OUT=all", 3)
        self.as_once("the tree of 64", "all")
        self.joined("nothing changed", "INPUTS=stations OUT=all", 0)
        self.joined("the tree of 4", f"INPUTS=stations {FOUR}", 35)
        self.same("the tree of 4: all at once", "once", "deep")
        names = self.stations()
        self.write("list", "".join(f"{name}\n" for name in reversed(names)))
        self.joined("a list in another order", "LIST=list OUT=listed TREE=seven FANIN=7", 19)
        self.same("the list: all at once", "once", "listed")
        self.made(["join", "-o", "merged", *names[-64:]])
        for name in names[:-64]:
            self.made(f"join -o single {name}")
            self.made("merge -o next merged single")
            self.path("next").rename(self.path("merged"))
        self.same("merges one by one", "merged", "all")

    def test_changes(self) -> None:
        """A station receives all datagrams, also the last."""
        self.tree("INPUTS=stations OUT=all")
        self.tree(f"INPUTS=stations {FOUR}")
        before = self.read("all")
        self.received("sent", "more", 1, 0, 500)
        shutil.copy2(self.path("stations/s00050"), self.path("kept"))
        shutil.copy(self.path("more/s00500"), self.path("stations/s00050"))
        self.joined("its path alone, by 64", "INPUTS=stations OUT=all", 2)
        self.as_once("one station changed", "all")
        self.holds("it tells more", self.read("all") != before)
        self.joined("its path alone, by 4", f"INPUTS=stations {FOUR}", 4)
        self.same("one station changed, by 4: all at once", "once", "deep")
        self.path("kept").rename(self.path("stations/s00050"))
        self.joined("an older file in its place", "INPUTS=stations OUT=all", 2)
        self.same("an older file: the journal of before", "all", before)

    def test_additions_and_removals(self) -> None:
        self.tree("INPUTS=stations OUT=all")
        before = self.read("all")
        self.received("sent", "more", 1, 0, 500)
        shutil.copy(self.path("more/s00500"), self.path("stations/s00000b"))
        self.joined("one station added", "INPUTS=stations OUT=all", 2)
        self.as_once("one station added", "all")
        self.remove("stations/s00000b")
        self.joined("one station taken away", "INPUTS=stations OUT=all", 2)
        self.same("the journal of before", "all", before)
        self.tree(f"INPUTS=stations {FOUR}")
        self.remove(*(f"stations/s0000{number}" for number in range(4)))
        self.joined("a group taken away", f"INPUTS=stations {FOUR}", 3)
        self.as_once("a group taken away", "deep")
        self.absent("its journal and list are gone", "four/1-0.journal", "four/1-0.list")

    def test_damage(self) -> None:
        """A damaged input leaves OUT unchanged."""
        self.tree("INPUTS=stations OUT=all")
        before = self.read("all")
        shutil.copy2(self.path("stations/s00011"), self.path("kept"))
        self.write("stations/s00011", self.read("kept")[:100])
        cut = ": Cut, which is stations/s00011"
        self.refused("a cut station is named", "INPUTS=stations OUT=all", cut)
        self.same("a cut station: OUT is what it was", "all", before)
        self.nothing_half_done("a cut station")
        self.refused("it is named again", "INPUTS=stations OUT=all", cut)
        self.write("stations/s00011", "no journal at all\n")
        kind = ": unknown kind, which is stations/s00011"
        self.refused("an unknown kind is named", "-k INPUTS=stations OUT=all", kind)
        self.same("an unknown kind: OUT is what it was", "all", before)
        self.path("kept").rename(self.path("stations/s00011"))
        self.joined("the station is mended", "INPUTS=stations OUT=all", 2)
        self.as_once("the station is mended", "all")


class Names(Tree):
    def odd(self) -> None:
        """Makes stations whose names are hard for a shell or make."""
        self.path("odd").mkdir()
        for number, name in enumerate(ODD, 10):
            self.write(f"odd/{name}", self.read(f"stations/s{number:05}"))

    def test_odd_characters(self) -> None:
        self.odd()
        self.joined("names", "INPUTS=odd OUT=of_odd TREE=odd_tree FANIN=5", 5)
        self.made(["join", "-o", "once", *(f"odd/{name}" for name in ODD)])
        self.same("names: all at once", "once", "of_odd")
        self.path("a folder's").mkdir()
        self.write("a folder's/s", self.read("stations/s00010"))
        self.joined("a folder", ["INPUTS=a folder's", "OUT=of_folder", "TREE=folder_tree"], 2)
        self.write("list", "-o\n")
        self.write("-o", self.read("stations/s00010"))
        self.joined("an option", "LIST=list OUT=of_option TREE=option_tree", 2)

    def test_names_that_are_refused(self) -> None:
        self.odd()
        self.write("odd/line\nfeed", self.read("stations/s00010"))
        self.untouched("a line feed", "INPUTS=odd OUT=none", "a name has a line feed")
        self.remove("odd/line\nfeed")
        self.write(os.fsdecode(b"odd/\xff"), self.read("stations/s00010"))
        self.untouched("no UTF-8", "INPUTS=odd OUT=none", "a name is not UTF-8")
        self.absent("nothing is made", "none")

    def test_words(self) -> None:
        for words in (
            *("OUT=a:b", "OUT=-o", "TREE=a%b", "OUT=a~b", "TREE=", "FANIN=1", "FANIN=65"),
            *("FANIN=x", "INPUTS=missing", "OUT=stations/all", "TREE=stations/tree"),
        ):
            self.untouched(words, f"INPUTS=stations OUT=none {words}", "tree.mk: ")
        self.untouched("LIST=missing", "LIST=missing OUT=none", "tree.mk: ")
        self.path("nothing").mkdir()
        self.untouched("no inputs", "INPUTS=nothing OUT=none", "there are no inputs")
        self.untouched("none of both", "OUT=none", "INPUTS or LIST is needed")
        self.write("list", "stations/missing\n")
        self.untouched("not there", "LIST=list OUT=none", "an input is not there")
        self.absent("nothing is made", "none")


class Senders(Tree):
    """Datagram files that the tools named: two senders with one session, but different bytes."""

    def setUp(self) -> None:
        super().setUp()
        self.write("other_file", "".join(f"{number:07}\n" for number in range(5000, 0, -1)))
        of = "--tsi 7 --toi 1 --symbol 1000 --block 16 other_file"
        self.made(f"carousel -o other_sent {of}")
        self.received("sent", "of_first", 3, 40)
        self.received("other_sent", "of_second", 2, 40)
        for source, name in (
            ("of_first/s00000", "a/10.0.0.1.fldg"),
            ("of_first/s00001", "a/10.0.0.1.2.fldg"),
            ("of_first/s00002", "b/10.0.0.1.fldg"),
            ("of_second/s00000", "a/2001-db8--1.fldg"),
            ("of_second/s00001", "b/2001-db8--1.e2.fldg"),
        ):
            self.path(f"named/{name}").parent.mkdir(parents=True, exist_ok=True)
            self.path(source).rename(self.path(f"named/{name}"))
        for out, source, of in (
            ("first", "0a000001", "10.0.0.1"),
            ("second", "20010db8000000000000000000000001", "2001-db8--1"),
        ):
            names = [name for name in self.stations("named") if f"/{of}." in name]
            self.made(["join", "-o", out, "--source", source, *names])

    def test_two_senders(self) -> None:
        self.joined("by their files' names", "INPUTS=named OUT=of_named TREE=named_tree", 3)
        self.made("merge -o once first second")
        self.same("each as its own", "once", "of_named")
        gaps = self.made("gaps of_named").out.decode()
        self.holds("no conflict", not re.search("conflicting [1-9]", gaps), gaps)
        self.made("join -o named/a/third --source 0a000003 sent")
        self.tree("INPUTS=named OUT=of_named TREE=named_tree")
        self.made("merge -o merged once named/a/third")
        self.same("a journal beside them", "merged", "of_named")

    def test_source(self) -> None:
        other = "of another sender than SOURCE: named/a/2001-db8--1.fldg"
        for sender in "10.0.0.1", "0A000001", "00000000000000000000ffff0a000001":
            words = f"INPUTS=named OUT=none TREE=none_tree SOURCE={sender}"
            self.untouched(f"SOURCE={sender} and a file of another", words, other)
            out = f"OUT=of_{sender} TREE=tree_{sender} SOURCE={sender}"
            self.tree(f"INPUTS=named PATTERN='10.*' {out}")
            self.same(f"SOURCE={sender} and its files", "first", f"of_{sender}")
        words = "INPUTS=named OUT=none SOURCE=10.0.0"
        self.untouched("no address", words, "SOURCE is no address: 10.0.0")
        shutil.copy(self.path("named/b/2001-db8--1.e2.fldg"), self.path("named/a"))
        self.untouched("two runs", "INPUTS=named OUT=none", "two runs of one sender")

    def all_names(self) -> dict[str, str]:
        """Names that the tools give, and others, with the digits of their senders."""
        draw, found = random.Random(1), {}
        for number in range(300):
            if number % 3:
                widths = [draw.choice((4, 16)) for _ in range(8)]
                words = [draw.choice((0, 0, 0, draw.randrange(1 << width))) for width in widths]
                address = ipaddress.ip_address(":".join(f"{word:x}" for word in words))
                digits = address.packed.hex()
            else:
                address = ipaddress.IPv4Address(draw.randrange(1 << 32))
                digits = "0" * 20 + "ffff" + address.packed.hex()
            if address.version == 6 and address.ipv4_mapped:
                continue
            part, epoch = draw.choice((1, 1, 2, 15)), draw.choice((1, 1, 2, 11))
            found[f"addresses/{number}/{file_name(str(address), part, epoch)}"] = digits
        for name in NO_ADDRESSES:
            found[f"addresses/other/{name}.fldg"] = ""
        found["addresses/other/10.0.0.1.journal"] = ""
        return found

    def test_all_names(self) -> None:
        wanted = self.all_names()
        for name in wanted:
            self.path(name).parent.mkdir(parents=True, exist_ok=True)
            self.write(name, "")
        steps = [EXAMPLES / "tree_steps.sh", "plan", "addresses", "", "*", "none", "none_tree", 64]
        self.check("the plan", self.command([*steps, ""]), 0, None, None)
        lists: list[pathlib.Path] = sorted(self.path("none_tree").glob("1-*.list"))
        planned, mixed = {}, []
        for path in lists:
            pairs = [line.split(" ", 1) for line in path.read_text().splitlines()]
            senders = {name: key.partition(":")[0] for key, name in pairs}
            planned.update(senders)
            mixed += [path.name] if len({*senders.values()}) != 1 else []
        self.holds("the senders in all names", planned == wanted)
        self.holds("a group has one sender", lists and not mixed, mixed)
