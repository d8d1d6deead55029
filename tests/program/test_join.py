"""Tests of `join`: its inputs, its outputs, and the limits of what it joins."""
from __future__ import annotations

from tests.program.case import FIELDS, HEADER, KEY, NAME, Case, ended, joined, lines, sessions

FULL = {"to": "/dev/full"}


class Join(Case):
    def test_inputs(self) -> None:
        self.makes("a datagram file", "join -o got sent", joined(2, 3), "whole2")
        words = "join -o got sent whole sent"
        self.makes("files and journals", words, joined(4, 3), "whole2")
        self.makes("journals", "join -o got whole others", joined(0, 4), "joined2")
        self.makes("a refused datagram", "join -o got refused", joined(1, 0, 1), "empty2")
        self.file("no_datagram", "464C44470001")
        self.makes("nothing", "join -o got no_datagram empty", joined(0, 0), "empty2")
        self.row("over another journal", "join -o got whole others", 0, joined(0, 4))
        self.same("the other journal is gone", "got", "joined2")

    def test_number_of_inputs(self) -> None:
        words = ["join", "-o", "got", *["whole"] * 63]
        self.makes("as many as may be", [*words, "others"], joined(0, 4), "joined2")
        self.row("one more", [*words, "whole", "whole"], 2, "", "too many inputs")
        self.row("none", "join -o got", 2, "", None)
        # Only the last input has a symbol.
        self.file("last_alone", HEADER, f"03 {KEY} 0000 0001 0001 6F", ended(1))
        for count in 33, 34, 48, 62, 63:
            words = ["join", "-o", "got", *["part"] * (count - 1), "last_alone"]
            self.makes(f"{count} inputs", words, joined(0, 3), "whole2")

    def test_memory(self) -> None:
        """The journal does not depend on how much memory may be used."""
        for size in "1", "1K", "2M", "3G", "4611686018427387904", "4294967296G":
            words = f"join -o got --memory {size} sent whole"
            self.makes(f"at most {size}", words, joined(2, 3), "whole2")
        for size in "0", "0K", "''", "K", "1k", "1MB", "-1", "4294967297G", "1" + "0" * 39:
            words = f"join -o none --memory={size} sent"
            self.row(f"a memory of {size}", words, 2, "", "bad number: --memory")
        key = "join -o none --memory x --source x --toi 0 missing"
        self.rows(
            ("the first bad number", "join -o none --memory x --toi x missing", 2, "",
             "bad number: --toi"),
            ("before a bad source", key, 2, "", "bad number: --memory"),
            ("twice", "join -o none --memory 1 --memory 1 sent", 2, "", None),
            ("of another command", "merge -o none --memory 1 whole others", 2, "", None),
        )
        self.absent("no file after a fault", "none")

    def test_faults(self) -> None:
        mem = "join -o got whole /proc/self/mem"
        self.rows(
            ("no inputs", "join -o got missing missing", 3, "", "cannot open input 1"),
            ("no second input", "join -o got whole missing", 3, "", "cannot open input 2"),
            ("no known kind", "join -o got bad content", 1, "", "input 2: unknown kind"),
            ("a bad journal", "join -o got whole bad", 1, "", "input 2: Trailing"),
            ("a datagram file that is cut", "join -o got cut", 1, "", "input 1: Cut"),
            ("an input that cannot be read", mem, 3, "", "input 2: Read"),
        )
        self.absent("no file after a fault", "got")

    def test_outputs(self) -> None:
        self.rows(
            ("no folder", "join -o no/got whole", 3, "", "cannot create output"),
            ("a full output", "join -o /dev/full whole", 3, "", "cannot write"),
        )
        words = "join -o got whole"
        self.row("a full standard output", words, 3, "", "cannot write", **FULL)

    def test_faults_before_the_output(self) -> None:
        """A fault of the inputs is reported before an OUT that cannot be created or written."""
        for out in "no/got", "/dev/full":
            many = f"info -o {out} --tsi 64 --toi 1 {FIELDS} many"
            kind = f"join -o {out} bad content"
            self.rows(
                (f"a bad journal, {out}", f"join -o {out} whole bad", 1, "", "input 2: Trailing"),
                (f"cut, {out}", f"join -o {out} whole cut", 1, "", "input 2: Cut"),
                (f"no known kind, {out}", kind, 1, "", "input 2: unknown kind"),
                (f"info, {out}", f"info -o {out} {NAME} {FIELDS} bad", 1, "", "input 1: Trailing"),
                (f"info of one session too many, {out}", many, 1, "", "full"),
            )

    def test_pipes(self) -> None:
        words = "join -o got others -"
        self.makes("standard input", words, joined(2, 4), "joined2", stdin=self.read("sent"))
        with self.piped("pipe", self.read("sent")):
            self.makes("datagrams", "join -o got pipe others", joined(2, 4), "joined2")
        with self.piped("pipe", self.read("others")):
            self.makes("a journal", "join -o got sent pipe sent", joined(4, 4), "joined2")


class Reasons(Case):
    """Why datagrams are refused: a line for each reason that occurred, in the order of FORMATS."""

    FIXED = "00000000 00000007 00000001"
    INSTANCE = "00000000 00000007 00000000"
    # Each reason that a datagram of a file may have, and one
    REFUSED = {
        "2 TooShort": "10A004",
        "3 LctVersion": f"20A00400 {FIXED}",
        "4 HeaderLength": f"10A00300 {FIXED}",
        "5 HeaderCut": f"10A00500 {FIXED}",
        "6 NoTsi": "10200300 00000000 00000001",
        "7 NoToi": "10800300 00000000 00000007",
        "8 Codepoint": f"10A00405 {FIXED}",
        "9 ExtensionLength": f"10A00500 {FIXED} 01000000",
        "10 Repeated": f"10A00600 {FIXED} C0200000 C0200000",
        "11 FtiLength": f"10A00500 {FIXED} 40010000",
        "12 Information SymbolLength": f"10A00800 {FIXED} 40040000 00000005 00000000 00000002",
        "12 Information BlockLength": f"10A00800 {FIXED} 40040000 00000005 00000004 00000000",
        "12 Information TooManyBlocks": f"10A00800 {FIXED} 40040000 00010001 00000001 00000001",
        "12 Information BlockTooLong": f"10A00800 {FIXED} 40040000 00010001 00000001 00010001",
        "13 NoInstance": f"10A00400 {INSTANCE}",
        "14 FluteVersion": f"10A00500 {INSTANCE} C0100000",
        "15 ContentEncoded": f"10A00500 {FIXED} C1010000",
        "16 PayloadIdCut": f"10A00400 {FIXED} 00",
    }

    def datagrams(self, name: str, *texts: str) -> None:
        """Makes a datagram file of these datagrams, in hexadecimal."""
        records = [bytes.fromhex(text) for text in texts]
        self.write(name, b"FLDG\0\1" + b"".join(
            len(record).to_bytes(2, "big") + record for record in records
        ))

    def reported(self, datagrams: int, counts: dict[str, int], *others: str) -> str:
        """What `join --reasons` prints of datagrams of which these are refused."""
        reasons = [f"refused {count}: {reason}" for reason, count in counts.items()]
        refused = f"refused {sum(counts.values())}"
        return lines(f"datagrams {datagrams}", refused, *reasons, *others)

    def test_each(self) -> None:
        """Each alone, as often as its place says, and as `packet` tells it."""
        for number, (reason, text) in enumerate(self.REFUSED.items(), 1):
            self.datagrams("some", *[text] * number)
            wanted = self.reported(number, {reason: number}, "entries 0")
            self.makes(reason, "join --reasons -o got some", wanted, "empty2")
            self.row(f"{reason} of packet", ["packet", text.replace(" ", "")], 1, "",
                     f"refused: {reason}")

    def test_all(self) -> None:
        """In several files, in any order, with packets between; in the order of the reasons."""
        counts = {reason: 2 * number for number, reason in enumerate(self.REFUSED, 1)}
        texts = [
            text for number, text in enumerate(self.REFUSED.values(), 1) for _ in range(number)
        ]
        self.datagrams("some", *texts)
        self.datagrams("turned", *reversed(texts))
        wanted = self.reported(2 * len(texts) + 2, counts, "entries 3")
        self.makes("all", "join --reasons -o got some sent turned whole", wanted, "whole2")
        wanted = self.reported(2 * len(texts) + 2, counts, "others 2", "entries 0")
        self.makes("of no session", "join -o got --tsi 8 --reasons some sent turned", wanted,
                   "empty2")
        wanted = self.reported(2 * len(texts) + 2, counts, "entries 3")
        self.makes("put aside meanwhile", "join --reasons --memory 1 -o got some sent turned",
                   wanted, "whole2")

    def test_first_reason(self) -> None:
        """Of several reasons the first counts."""
        self.datagrams("some", "20A00305", f"10A00305 {self.FIXED}", f"10A00405 {self.INSTANCE}")
        counts = {"3 LctVersion": 1, "4 HeaderLength": 1, "8 Codepoint": 1}
        wanted = self.reported(3, counts, "entries 0")
        self.makes("the first", "join --reasons -o got some", wanted, "empty2")

    def test_none(self) -> None:
        self.makes("no refused datagram", "join --reasons -o got sent", joined(2, 3), "whole2")
        self.makes("no datagram file", "join --reasons -o got whole", joined(0, 3), "whole2")
        self.rows(
            ("a journal at fault", "join -o none --reasons refused bad", 1, "",
             "input 2: Trailing"),
            ("twice", "join -o none --reasons --reasons refused", 2, "", None),
            ("with a value", "join -o none --reasons=8 refused", 2, "", None),
            ("of another command", "merge -o none --reasons whole others", 2, "", None),
        )
        self.absent("no file after a fault", "none")

    def test_standard_output(self) -> None:
        """With the journal on standard output the lines go to standard error."""
        wanted = self.reported(1, {"2 TooShort": 1}, "entries 0")
        done = self.program("join --reasons -o - refused")
        self.assertEqual((done.status, done.err.decode()), (0, wanted), done)


class JoinLimits(Case):
    """A fault of any input is reported before `full` of all inputs together."""

    def setUp(self) -> None:
        super().setUp()
        self.file("more", HEADER, sessions(range(40, 65)), ended(25))

    def test_one_session_too_many(self) -> None:
        for out in "kept", "got", "no/got", "/dev/full":
            self.write("kept", "before")
            self.row(f"to {out}", f"join -o {out} many more", 1, "", "full")
            self.same(f"the output that was there, to {out}", "kept", b"before")
            self.absent(f"nothing is left, to {out}", "kept.partial", "got", "got.partial")

    def test_faults_before_the_limits(self) -> None:
        self.write("cut_more", self.read("more")[:100])
        self.rows(
            ("a fault", "join -o got many more bad", 1, "", "input 3: Trailing"),
            ("a cut journal", "join -o got many cut_more", 1, "", "input 2: Cut"),
            ("a cut datagram file beside a journal", "join -o got many cut", 1, "", "input 2: Cut"),
        )
        self.absent("nothing is left after a fault", "got", "got.partial")


class Symbols(Case):
    """As many symbols of one object as a store holds, from the network and from a journal, and one
    more of each."""

    MOST = 1 << 20

    def setUp(self) -> None:
        super().setUp()
        self.write("border", bytes(self.MOST))
        of = f"{NAME} --symbol 1 --block 65536"
        words = f"carousel -o border.sent {of} border"
        self.row("carousel of as many", words, 0, f"datagrams {self.MOST}")
        words = "join -o border.joined border.sent"
        self.row("join of as many", words, 0, joined(self.MOST, self.MOST + 1))
        self.file("further", f"{HEADER} 03 {KEY} 0010 0000 0001 00 {ended(1)}")

    def test_as_many(self) -> None:
        words = "join -o got border.joined border.joined"
        self.makes("join with itself", words, joined(0, self.MOST + 1), "border.joined")
        words = f"info -o got {NAME} --length 1048576 --symbol 1 --block 65536 border.joined"
        self.row("info", words, 0, f"entries {self.MOST + 1}")
        self.row("gaps", "gaps border.joined", 0, f"session 7 object 1 whole {self.MOST}")
        words = f"extract -f -o got {NAME} border.joined"
        self.makes("extract", words, f"bytes {self.MOST}", "border")

    def test_one_more(self) -> None:
        self.write("beyond", bytes(self.MOST + 1))
        words = f"carousel -o beyond.sent {NAME} --symbol 1 --block 65536 beyond"
        self.row("carousel", words, 0, f"datagrams {self.MOST + 1}")
        self.rows(
            ("join of a datagram file", "join -o got beyond.sent", 1, "", "full"),
            ("join together", "join -o got border.joined further", 1, "", "full"),
            ("join of a file, together", "join -o got border.sent further", 1, "", "full"),
        )
        self.absent("no file after a full join", "got")
        words = "merge -o more border.joined further"
        self.row("merge", words, 0, f"entries {self.MOST + 2}")
        self.rows(
            ("limits before a later fault", "join -o got more bad", 1, "", "input 2: Trailing"),
            ("a fault before the limits", "join -o got bad more", 1, "", "input 1: Trailing"),
            ("gaps", "gaps more", 1, "", "full"),
            ("extract", f"extract -o got {NAME} more", 1, "", "full"),
            ("full before no object", "extract -o got --tsi 7 --toi 9 more", 1, "", "full"),
        )
        self.absent("no file after them", "got")
