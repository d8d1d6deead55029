"""Tests of `join` limited to some sessions and objects."""
from __future__ import annotations

from tests.program.case import CUT, NAME, Case, joined
from tests.support import run

OTHERS = range(100, 165)  # 65 sessions


class Sessions(Case):
    """Only the sessions that are named, beside 65 others."""

    def setUp(self) -> None:
        super().setUp()
        self.senders()
        strays = []
        for tsi in OTHERS:
            self.made(f"carousel -f -o stray --tsi {tsi} --toi 1 {CUT} content")
            strays.append(self.read("stray")[6:])
        header = self.read("sent")[:6]
        self.write("strays", header + b"".join(strays))
        self.write("strays64", header + b"".join(strays[:64]))
        self.write("mixed", self.read("sent") + b"".join(strays))

    def test_too_many(self) -> None:
        self.row("66 sessions", "join -o got mixed", 1, "", "full")
        self.row("65 sessions and a journal", "join -o got strays whole", 1, "", "full")
        self.absent("no file", "got")

    def test_datagrams(self) -> None:
        for words in (
            *("--tsi 7 mixed", "--tsi=7 mixed", "--tsi 7 strays sent", "--tsi 7 sent strays"),
            *("--tsi 7 --tsi 7 mixed", "--tsi 007 mixed"),
        ):
            self.makes(words, f"join -o got {words}", joined(132, 3, others=130), "whole2")
        of_sender = "join -o got --source 0a000001 --tsi 7 mixed"
        self.makes("of a sender", of_sender, joined(132, 3, others=130), "hello_v4")
        none = "join -o got --tsi 7 sent"
        self.makes("no other session", none, joined(2, 3, others=0), "whole2")
        two = "join -o got --tsi 7 --tsi 100 mixed"
        self.rows(
            ("other sessions alone", "join -o got --tsi 7 strays", 0, joined(130, 0, others=130)),
            ("two sessions", two, 0, joined(132, 6, others=128)),
        )

    def test_journals(self) -> None:
        """64 sessions are allowed; 65 are more than a store holds."""
        self.row("64 sessions", "join -o journal64 strays64", 0, joined(128, 192))
        words = "merge -o journal65 journal64 whole"
        self.row("merge of 65 sessions", words, 0, "entries 195")
        self.row("join of 65 sessions", "join -o got journal65", 1, "", "full")
        self.absent("no file of 65 sessions", "got")
        for words in (
            *("--tsi 7 journal65", "--tsi 7 journal64 whole", "--tsi 7 whole journal64"),
            *("--tsi 7 journal65 whole2", "--tsi 7 journal64 sent"),
        ):
            self.makes(words, f"join -o got {words}", None, "whole2")
        twice = "join -o got --tsi 7 journal65 journal65"
        two = "join -o got --tsi 7 --tsi 163 journal65 mixed"
        self.rows(
            ("others count in each journal", twice, 0, joined(0, 3, others=384)),
            ("two sessions of a journal and a file", two, 0, joined(132, 6, others=317)),
        )
        self.write("cut64", self.read("journal64")[:-1])
        self.row("other sessions at fault", "join -o got8 --tsi 7 whole cut64", 1, "",
                 "input 2: Cut")
        self.absent("no file after it", "got8")

    def test_faults_of_others(self) -> None:
        """Sessions that are not wanted are read and checked too, and a refused datagram is not
        counted as another session's."""
        self.write("refused_too", self.read("mixed") + b"\0\2ab")
        words = "join -o got --tsi 7 refused_too"
        self.row("a refused datagram", words, 0, joined(133, 3, 1, 130))
        self.write("cut_strays", self.read("strays")[:-1])
        words = "join -o got8 --tsi 7 sent cut_strays"
        self.row("other sessions at fault", words, 1, "", "input 2: Cut")
        self.absent("no file after it", "got8")

    def test_numbers(self) -> None:
        """At most 64 of them, each below 2^48, and checked before the source."""
        many = " ".join(f"--tsi {number}" for number in range(1, 65))
        highest = "join -o got --tsi 281474976710655 sent"
        above = "join -o got --tsi 4294967303 sent"
        self.rows(
            ("64 sessions", f"join -o got {many} mixed", 0, joined(132, 3, others=130)),
            ("65 sessions", f"join -o got8 {many} --tsi 65 mixed", 2, "", "bad number: --tsi"),
            ("the highest session", highest, 0, joined(2, 0, others=2)),
            ("a session that differs above 32 bits", above, 0, joined(2, 0, others=2)),
        )

    def test_bad_numbers(self) -> None:
        for number in "281474976710656", "seven", "0x7", "7.", "9" * 41:
            words = f"join -o got --tsi {number} sent"
            self.row(f"session {number}", words, 2, "", "bad number: --tsi")
            words = f"join -o got --tsi 7 --source zz --tsi {number} sent"
            self.row(f"{number} before a bad source", words, 2, "", "bad number: --tsi")
        self.row("no digits", "join -o got --tsi '' sent", 2, "", "bad number: --tsi")
        words = "join -o got --tsi 7 --source zz sent"
        self.row("a bad source behind a session", words, 2, "", "bad source")
        self.absent("no file", "got")


class Names(Case):
    """Session 0, and a TOI above 64 bits, are kept apart from others."""

    def test_names(self) -> None:
        self.made(f"carousel -o sent_other --tsi 9 --toi 1 {CUT} content")
        above = 2**64 + 1
        for tsi, toi in (0, 1), (4_294_967_303, 1), (7, above):
            name = f"--tsi {tsi} --toi {toi}"
            words = f"info -o alike {name} --length 0 --symbol 0 --block 0 empty"
            self.row(f"info, {name}", words, 0, "entries 1")
            words = f"join -o got --tsi {tsi} alike sent_other"
            self.makes(f"join, {name}", words, joined(2, 1, others=2), "alike")
            self.row(f"gaps, {name}", "gaps alike", 0, f"session {tsi} object {toi} whole 0")
            self.row(f"extract, {name}", f"extract -o object {name} alike", 0, "bytes 0")
            self.same(f"the object, {name}", "object", b"")
            self.remove("object")
        words = f"extract -o object {NAME} alike"
        self.row("an object that differs above 64 bits", words, 1, "", "no object")
        self.absent("no file of it", "object")

    def test_session_0(self) -> None:
        for name, tsi in ("sent_one", 1), ("sent_zero", 0):
            self.made(f"carousel -o {name} --tsi {tsi} --toi 1 {CUT} content")
        self.made("join -o wanted sent_zero")
        words = "join -o got --tsi 0 sent_one sent_zero"
        self.makes("the session 0 alone", words, joined(4, 3, others=2), "wanted")


class OnlyObjects(Case):
    """Only the object that is named, beside an FDT Instance, another file, and a file of the same
    TOI in another session."""

    def setUp(self) -> None:
        super().setUp()
        names = {"instance": "7 --toi 0 --fdt 3", "second": "7 --toi 2", "eighth": "8 --toi 1"}
        for name, of in names.items():
            self.made(f"carousel -o {name}_sent --tsi {of} {CUT} content")
        others = [self.read(f"{name}_sent")[6:] for name in names]
        self.write("objects_sent", self.read("sent") + b"".join(others))
        self.made("join -o objects_joined objects_sent")
        self.made("join -o files_joined sent second_sent eighth_sent")
        self.made("join -o instance_joined instance_sent")
        self.made("join -o first_joined sent eighth_sent")

    def asked(self, options: str, datagrams: int, entries: int, left: int, wanted: str) -> None:
        """Checks how many datagrams and entries are counted as others, and how many entries are
        left, as in WANTED: of datagrams, of their journal, and of both."""
        words = f"join -o got {options} objects_sent"
        self.makes(f"datagrams, {options}", words, joined(8, left, others=datagrams), wanted)
        words = f"join -o got {options} objects_joined"
        self.makes(f"a journal, {options}", words, joined(0, left, others=entries), wanted)
        words = f"join -o got objects_joined {options} objects_sent"
        both = joined(8, left, others=datagrams + entries)
        self.makes(f"both, {options}", words, both, wanted)

    def test_choices(self) -> None:
        self.asked("--no-fdt", 2, 3, 9, "files_joined")
        self.asked("--toi 1", 4, 6, 6, "first_joined")
        self.asked("--tsi 7 --toi 1", 6, 9, 3, "whole2")
        self.asked("--tsi 7 --tsi 9 --toi 1 --no-fdt", 6, 9, 3, "whole2")
        self.asked("--toi 0 --fdt 3", 6, 9, 3, "instance_joined")
        self.asked("--tsi 7 --toi 0 --fdt 3", 6, 9, 3, "instance_joined")

    def test_choices_of_nothing(self) -> None:
        for options in (
            *("--tsi 8 --toi 0 --fdt 3", "--toi 0 --fdt 4", "--no-fdt --toi 0 --fdt 3", "--toi 3"),
        ):
            self.asked(options, 8, 12, 0, "empty2")

    def test_files_alone(self) -> None:
        words = "join -o got --no-fdt sent refused"
        self.makes("a refused datagram", words, joined(3, 3, 1, 0), "whole2")
        words = "join -o objects_joined --no-fdt objects_joined"
        self.row("in place", words, 0, joined(0, 9, others=3))
        self.same("in place: what it wrote", "objects_joined", "files_joined")

    def test_faults(self) -> None:
        def of(options: str) -> run.Words:
            return f"join -o got {options} missing"

        self.rows(
            ("a file at fault", "join -o got --toi 9 cut", 1, "", "input 1: Cut"),
            ("a journal at fault", "join -o got --no-fdt bad", 1, "", "input 1: Trailing"),
            ("a TOI that is no number", of("--toi x --fdt y"), 2, "", "bad number: --toi"),
            ("an Instance of too many bits", of("--toi 0 --fdt 1048576"), 2, "",
             "bad number: --fdt"),
            ("an Instance without its TOI", of("--fdt 3"), 2, "", "bad key"),
            ("an Instance of a file", of("--toi 1 --fdt 3"), 2, "", "bad key"),
            ("the TOI 0 alone", of("--toi 0 --no-fdt"), 2, "", "bad key"),
            ("the TOI 0 alone, and no sender", of("--toi 0 --source x"), 2, "", "bad source"),
            ("files alone, twice", of("--no-fdt --no-fdt"), 2, "", None),
        )
        self.absent("no file after a fault", "got")
