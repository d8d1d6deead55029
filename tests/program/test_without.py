"""Tests of `join --without`: objects of a list, of each kind of input and of random ones."""
from __future__ import annotations

import random

import datagram_files
from tests.program.case import HEADER2, Case, ended, joined
from tests.program.test_filled import SHOWN
from tests.program.test_merge import left
from tests.program.test_minus import drawn, drawn_places, entries_of
from tests.support import run

PAIRS = 60  # of inputs and lists that are drawn
KEYS = "session 7 object 1\n"
INFORMATION = "40040000 00000005 00000004 00000002"


def datagram(tsi: int, name: str, rest: str) -> bytes:
    """One that carries the first symbol of an object, a file or an FDT Instance of a session."""
    kind, _, number = name.rpartition(" ")
    if kind == "fdt":
        words = f"10A00900 00000000 {tsi:08X} 00000000 C02{int(number):05X} {INFORMATION}"
    else:
        words = f"10A00800 00000000 {tsi:08X} {int(number):08X} {INFORMATION}"
    return bytes.fromhex(words + "00000000" + rest)


class Without(Case):
    """Objects that the lines of KEYS begin with are of no input, and counted as others."""

    def setUp(self) -> None:
        super().setUp()
        self.write("keys", KEYS)

    def test_names(self) -> None:
        for told, words, out in (
            ("a journal", "whole", joined(0, 0, 0, 3)),
            ("a datagram file", "sent", joined(2, 0, 0, 2)),
            ("both, and a refused one", "sent refused whole", joined(3, 0, 1, 5)),
            ("with a session", "--tsi 7 whole", joined(0, 0, 0, 3)),
            ("of no session", "--tsi 8 sent", joined(2, 0, 0, 2)),
        ):
            self.makes(told, f"join -o got --without keys {words}", out, "empty2")
            words = f"join -o got --without - {words}"
            self.makes(f"{told}, by standard input", words, out, "empty2", stdin=KEYS.encode())
        for told, content in (
            ("no line", ""),
            ("another session", "session 8 object 1\n"),
            ("a name that goes on", "session 7 object 10\n"),
            ("an FDT Instance", "session 7 object fdt 1\n"),
            ("another sender", f"source {'0' * 31}1 session 7 object 1\n"),
        ):
            self.write("other", content)
            words = "join -o got --without other sent whole"
            self.makes(told, words, joined(2, 3, 0, 0), "whole2")
        words = f"join -o got --source {'0' * 31}1 --without other sent"
        self.makes("of that sender", words, joined(2, 0, 0, 2), "empty2")

    def test_limits(self) -> None:
        """What is left out doesn't count towards the limits."""
        self.write("more", datagram_files.content([datagram(64, "1", "68656C6C")]))
        self.write("keys", "session 64 object 1\n")
        self.row("too much", "join -o none many more", 1, "", "full")
        words = "join -o got --without keys many more"
        self.makes("without it", words, joined(1, 64, 0, 1), "many2")

    def test_faults(self) -> None:
        """The list is opened after the inputs, and read before them."""
        self.write("wrong", KEYS + "object 1\n")
        inputs = " ".join(["whole"] * 64)
        join = "join -o got --without"
        self.rows(
            ("no input", f"{join} nowhere missing", 3, "", "cannot open input 1"),
            ("no list", f"{join} nowhere whole others", 3, "", "cannot open input 3"),
            ("a folder", f"{join} . whole", 3, "", "cannot open input 2"),
            ("no list of 64 inputs", f"{join} nowhere {inputs}", 3, "", "cannot open input 65"),
            ("65 inputs", f"{join} nowhere {inputs} whole", 2, "", "too many inputs"),
            ("a list that cannot be read", f"{join} /proc/self/mem whole", 3, "", "input 2: Read"),
            ("a line that names none", f"{join} wrong cut bad content", 1, "", "list: line 2"),
            ("no output", "join -o no/got --without wrong cut", 1, "", "list: line 2"),
            ("a file behind it", f"{join} keys cut bad", 1, "", "input 1: Cut"),
            ("a journal behind it", f"{join} keys whole bad", 1, "", "input 2: Trailing"),
            ("no known kind", f"{join} keys bad content", 1, "", "input 2: unknown kind"),
            ("OUT is the list", "join -o keys --without keys whole", 2, "", "output is an input"),
            ("a bad key", f"{join} - --toi 0 -", 2, "", "bad key"),
            ("twice", f"{join} - whole -", 2, "", "standard input twice"),
            ("of two lists", f"{join} keys --without keys whole", 2, "", None),
        )
        self.absent("no file after them", "got")
        self.same("the list stays", "keys", KEYS.encode())
        self.makes("64 inputs", f"{join} keys {inputs}", joined(0, 0, 0, 192), "empty2")
        self.row("in its place", "join -f -o keys --without keys whole", 0, joined(0, 0, 0, 3))
        self.same("the list is gone", "keys", "empty2")


class WithoutDrawn(Case):
    """Random journals and datagram files: objects are left out by a join, after it or before it."""

    def held(self, name: str, entries: list[str]) -> None:
        self.file(name, HEADER2, *entries, ended(len(entries)))

    def sent(self, draw: random.Random, name: str) -> list[tuple[str, bytes]]:
        """Makes a datagram file: its datagrams, with the names of their objects. A refused one has
        none."""
        made = []
        for _ in range(draw.randrange(12)):
            tsi = draw.randrange(7, 9)
            object_ = f"{draw.choice(['', 'fdt '])}{draw.randrange(1, 4)}"
            if draw.random() < 0.1:
                made.append(("", b"\x10\xA0\0"))
            else:
                words = datagram(tsi, object_, draw.choice(["68656C6C", "776F726C"]))
                made.append((f"session {tsi} object {object_}", words))
        self.write(name, datagram_files.content(words for _, words in made))
        return made

    def test_joins(self) -> None:
        some = 0
        for number in range(PAIRS):
            draw = random.Random(number)
            places = drawn_places(draw)
            first = drawn(draw, places)
            for name, held in ("a", first), ("b", drawn(draw, places, first)):
                self.held(name, entries_of(places, held))
            sent = {name: self.sent(draw, name) for name in ("c", "d")}
            self.made("join -o all a b c d")
            shown = {name: self.made(f"show {name}").lines()[:-1] for name in ("a", "b", "all")}
            objects = sorted({run.match_of(SHOWN, line)[1] for line in shown["all"]})
            named = [it for it in objects if draw.random() < 0.5]
            draw.shuffle(named)
            self.write("keys", "".join(f"{it} whole 5\n" for it in named))

            entries = shown["a"] + shown["b"]
            others = sum(run.match_of(SHOWN, line)[1] in named for line in entries)
            others += sum(name in named for it in sent.values() for name, _ in it)
            datagrams = [name for it in sent.values() for name, _ in it]
            kept = [line for line in shown["all"] if run.match_of(SHOWN, line)[1] not in named]
            order = draw.sample("abcd", 4)
            out = joined(len(datagrams), len(kept), datagrams.count(""), others)
            words = ["join", "-o", "got", "--without", "keys", *order]
            self.row(f"{number}: {order}", words, 0, out)
            after = "forget -o late --list keys all"
            self.row(f"{number}: after", after, 0, left(len(shown["all"]) - len(kept), len(kept)))
            self.same(f"{number}: left out by a join or after it", "got", "late")

            for name in "ab":
                self.made(f"forget -f -o {name}.left --list keys {name}")
            for name, made in sent.items():
                rest = datagram_files.content(words for it, words in made if it not in named)
                self.write(f"{name}.left", rest)
            self.made("join -o early a.left b.left c.left d.left")
            self.same(f"{number}: or before it", "got", "early")
            some += 0 < len(kept) < len(shown["all"])
        self.holds("many lists name some", some > PAIRS // 2, some)

    def test_many(self) -> None:
        """A list of 100,000 names, in any order, of which many inputs have some."""
        names = [f"session 7 object {toi}\n" for toi in range(1, 100_001)]
        random.Random(1).shuffle(names)
        self.write("keys", "".join(names))
        words = ["join", "-o", "got", "--without", "keys", *["whole"] * 63, "sent"]
        self.row("many", words, 0, joined(2, 0, 0, 191))
