"""Tests of `packet`, `show` and `gaps`."""
from __future__ import annotations

import os
import subprocess

from tests.program.case import (
    CONFLICTING,
    CONFLICT_LINE,
    FIRST,
    FIRST_LINE,
    HEADER,
    INFO,
    INFO_LINE,
    KEY,
    LAST,
    LAST_LINE,
    PART,
    SYMBOL,
    WHOLE,
    Case,
    conflicts,
    ended,
    lines,
)
from tests.support import run

FULL = {"to": "/dev/full"}
INSTANCE = lines("session 7 object fdt 3 symbol 0/0 length 1 3c", "entries 1")
SHOWN = lines(INFO_LINE, FIRST_LINE, LAST_LINE, "entries 3")


class Packet(Case):
    def test_symbol(self) -> None:
        wanted = lines("session 7", "object 1", "info none", "symbol 0/0 length 4 68656c6c")
        self.row("a symbol", f"packet {SYMBOL}", 0, wanted)

    def test_no_hexadecimal(self) -> None:
        self.rows(
            ("text that is not hexadecimal", "packet zz", 1, "", "bad hex"),
            ("an odd number of digits", "packet 10A", 1, "", "bad hex"),
            ("a space between digits", ["packet", "10 A0"], 1, "", "bad hex"),
        )

    def test_refused(self) -> None:
        info = (
            "10A00800000000000000000700000001400400000000000500000000000000020000000068656C6C"
        )
        short = "10A00300000000000000000700000001"
        self.rows(
            ("an empty datagram", ["packet", ""], 1, "", "refused: 2 TooShort"),
            ("a datagram of one byte", "packet 00", 1, "", "refused: 2 TooShort"),
            ("a header that is too short", f"packet {short}", 1, "", "refused: 4 HeaderLength"),
            (
                "information that is not valid",
                *(f"packet {info}", 1, "", "refused: 12 Information SymbolLength"),
            ),
            ("65,535 zero bytes", ["packet", "00" * 65_535], 1, "", "refused: 3 LctVersion"),
        )


class Show(Case):
    def test_entries(self) -> None:
        self.rows(
            ("a whole object", "show whole", 0, SHOWN),
            ("an empty journal", "show empty", 0, "entries 0"),
            ("a conflict", "show conflict", 0, lines(CONFLICT_LINE, "entries 1")),
            ("an FDT Instance", "show instance", 0, INSTANCE),
        )
        self.row("standard input", "show /dev/stdin", 0, SHOWN, stdin=self.path("whole"))

    def fault(self, name: str, text: str, *before: str) -> None:
        """Checks a fault of a journal: its name, its bytes and the lines before it."""
        self.file("bad", text)
        self.row(name, "show bad", 1, lines(*before), f"input 1: {name}")

    def test_faults(self) -> None:
        self.fault("Magic", "474C4A4E0001 FF 0000000000000000")
        self.fault("Version", "464C4A4E0003 FF 0000000000000000")
        self.fault("Kind", f"{HEADER} 05 {KEY}")
        key = "000000000007 02 0000000000000000000000000001"
        self.fault("Key", f"{HEADER} 02 {key} {ended(1)}")
        info = f"01 {KEY} 000000000005 0000 00000002"
        self.fault("Information SymbolLength", f"{HEADER} {info} {ended(1)}")
        empty = f"03 {KEY} 0000 0000 0000"
        self.fault("EmptySymbol", f"{HEADER} {INFO} {empty} {ended(2)}", INFO_LINE)
        self.fault("Order", f"{HEADER} {INFO} {LAST} {FIRST} {ended(3)}", INFO_LINE, LAST_LINE)
        self.fault("Count", f"{HEADER} {INFO} {ended(2)}", INFO_LINE)
        self.fault("Cut", f"{HEADER} {INFO} {FIRST}", INFO_LINE, FIRST_LINE)
        self.fault("Trailing", f"{HEADER} {INFO} {ended(1)} 00", INFO_LINE)
        self.row("an empty file", "show nothing", 1, "", "input 1: Cut")

    def test_inputs(self) -> None:
        self.path("folder").mkdir()
        self.rows(
            ("a file that is not there", "show missing", 3, "", "cannot open input 1"),
            ("a folder", "show folder", 3, "", "cannot open input 1"),
            ("a file that cannot be read", "show /proc/self/mem", 3, "", "input 1: Read"),
        )

    def test_output(self) -> None:
        self.row("a full standard output", "show whole", 3, "", "cannot write", **FULL)
        name, told = "a bad journal, to a full standard output", "input 1: Trailing"
        self.row(name, "show bad", 1, "", told, **FULL)
        done = self.shell("flutejoin show whole | head -n 1")
        self.check("a reader of one line", done, None, INFO_LINE, None)

    def test_reader_that_goes_away(self) -> None:
        # More than a pipe holds, so that the reader is gone before the end
        symbols = [f"03 {KEY} 0000 {number:04X} FFFF {'00' * 65_535}" for number in range(4)]
        self.file("long", HEADER, *symbols, ended(4))
        child = subprocess.Popen(
            [run.PROGRAM, "show", "long"],
            cwd=self.folder,
            stdout=subprocess.PIPE,
            stderr=subprocess.PIPE,
        )
        assert child.stdout
        read = os.read(child.stdout.fileno(), 10)
        child.stdout.close()
        told = child.communicate(timeout=run.LONGEST)[1]
        done = run.Run(child.returncode, read, told)
        self.check("its reader is gone", done, 3, b"session 7 ", "cannot write")
        done = self.program("show long")
        self.check("it is shown", done, 0, None)
        self.holds("all of it", len(done.out) == 524_466, len(done.out))

    def test_choice(self) -> None:
        of_symbol = lines(FIRST_LINE, "entries 1")
        conflict = lines(CONFLICT_LINE, "entries 1")
        two = "show --tsi 8 --tsi 7 --toi 1 symbol"
        self.rows(
            ("conflicts", "show --conflicts conflict", 0, conflict),
            ("conflicts where there is none", "show --conflicts whole", 0, "entries 0"),
            ("an object of one of two sessions", two, 0, of_symbol),
            ("another object", "show --tsi 7 --toi 2 whole", 0, "entries 0"),
            ("another sender", "show --source 0a000001 whole", 0, "entries 0"),
            ("the sender zero", "show --source :: symbol", 0, of_symbol),
            ("an FDT Instance", "show --toi 0 --fdt 3 instance", 0, INSTANCE),
            ("another FDT Instance", "show --toi 0 --fdt 4 instance", 0, "entries 0"),
            ("an FDT Instance without the TOI 0", "show --fdt 3 whole", 2, "", "bad key"),
            ("a session that is no number", "show --tsi x whole", 2, "", "bad number: --tsi"),
            ("a sender that is none", "show --source nobody whole", 2, "", "bad source"),
            ("nothing of a bad journal", "show --toi 2 bad", 1, "", "input 1: Trailing"),
        )


class Gaps(Case):
    def test_objects(self) -> None:
        self.rows(
            ("a whole object", "gaps whole", 0, WHOLE),
            ("a part", "gaps part", 0, PART + "gap 0/1-1 missing"),
            ("no information", "gaps symbol", 0, "session 7 object 1 no information"),
            ("information in conflict", "gaps conflict", 0, CONFLICTING),
            ("an empty journal", "gaps empty", 0, ""),
            ("a bad journal", "gaps bad", 1, "", "input 1: Trailing"),
            ("a file that is not there", "gaps missing", 3, "", "cannot open input 1"),
        )
        self.row("a full standard output", "gaps whole", 3, "", "cannot write", **FULL)

    def test_choice(self) -> None:
        number = "gaps --toi x --source nobody part"
        self.rows(
            ("an object", "gaps --tsi 7 --toi 1 part", 0, PART + "gap 0/1-1 missing"),
            ("another object", "gaps --toi 2 part", 0, ""),
            ("another sender", "gaps --source 0a000001 part", 0, ""),
            ("other sessions", "gaps --tsi 8 --tsi 9 part", 0, ""),
            ("an FDT Instance that is a file", "gaps --toi 1 --fdt 3 part", 2, "", "bad key"),
            ("no object of no sender", number, 2, "", "bad number: --toi"),
            ("nothing of a bad journal", "gaps --toi 2 bad", 1, "", "input 1: Trailing"),
        )


class Objects(Case):
    """As many objects of one session as a store holds, and one more."""

    def objects(self, count: int) -> None:
        """Makes a journal of objects whose FEC OTI is in conflict."""
        keys = [f"000000000007 01 {number:028X}" for number in range(1, count + 1)]
        self.file("objects", HEADER, conflicts(*keys), ended(count))

    def test_as_many_as_a_store_holds(self) -> None:
        self.objects(4096)
        states = [f"session 7 object {n} conflicting information" for n in range(1, 4097)]
        self.row("gaps", "gaps objects", 0, lines(*states))
        words = "extract -o got --tsi 7 --toi 4096 objects"
        self.row("extract", words, 1, "", "conflicting information")

    def test_one_more(self) -> None:
        self.objects(4097)
        self.row("gaps", "gaps objects", 1, "", "full")
        self.row("extract", "extract -o got --tsi 7 --toi 1 objects", 1, "", "full")
        self.absent("no file after it", "got")
