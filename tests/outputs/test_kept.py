"""Outputs that are also inputs, and files that are not overwritten."""
from __future__ import annotations

import os
import shlex

from tests.outputs.case import CUT, FIRST, LINES_OF_BOTH, SECOND, THIRD, Case

KEY = "000000000007 01 0000000000000000000000000001"
DATAGRAMS = "output is a datagram file"
JOURNAL, INPUT = "output is a journal", "output is an input"


class InPlace(Case):
    def test_join(self) -> None:
        self.copy("one", "all")
        self.row("join", "join -o all all two", 0, LINES_OF_BOTH)
        self.same("the joined journal", "all", "both")
        self.alone("join in place", "all")

    def test_versions(self) -> None:
        """A journal with one conflict of FEC OTI, in version 1 and in version 2, where its entry is
        16 bytes longer by the sender."""
        self.journal("old", f"464C4A4E0001 02 {KEY} FF 0000000000000001")
        self.row("an old journal", "join -o old old", 0, "datagrams 0\nrefused 0\nentries 1\n")
        self.same("it is in version 2", "old", "old2")
        self.alone("an old journal", "old")

    def test_names_of_an_input(self) -> None:
        self.copy("one", "a")
        self.row("by another name", "merge -o ./a a two", 0, "entries 14")
        self.same("what was merged", "a", "both")
        self.copy("both", "a")
        self.row("minus by another name", "minus -o ./a a one", 0, "entries 3")
        self.same("what is left", "a", "two")
        self.copy("one", "a")
        os.link(self.path("a"), self.path("linked"))
        self.row("a hard link", "merge -o linked a two", 0, "entries 14")
        self.same("it has what was merged", "linked", "both")
        self.same("the input stays", "a", "one")
        self.remove("linked")
        os.link(self.path("a"), self.path("linked"))
        self.row("a name of two", "join -o a a two", 0, LINES_OF_BOTH)
        self.same("the other name keeps what was there", "linked", "one")

    def test_other_kinds(self) -> None:
        self.copy("two", "x")
        self.row("extract over its journal", f"extract -f -o x {SECOND} x", 0, "bytes 5")
        self.same("the object", "x", "other")
        self.copy("sent2", "d")
        lines = "datagrams 2\nrefused 0\nentries 3\n"
        self.row("join over its datagram file", "join --force -o d d", 0, lines)
        self.same("the journal", "d", "two")
        self.copy("other", "c")
        words = f"carousel -f -o c {SECOND} {CUT} c"
        self.row("carousel over its content", words, 0, "datagrams 2")
        self.same("the datagrams", "c", "sent2")
        self.row("info over another file", f"info -o x {THIRD} two", 0, "entries 4")
        self.copy("two", "d")
        self.row("info over its journal", f"info -o d {THIRD} d", 0, "entries 4")
        self.same("the journal with information", "d", "x")

    def test_any_other_file(self) -> None:
        self.copy("other", "d")
        self.row("extract", f"extract -o d {FIRST} both", 0, "bytes 37")
        self.write("d", "FLD")
        words = f"carousel -o d {SECOND} {CUT} other"
        self.row("carousel over three bytes", words, 0, "datagrams 2")


class Kept(Case):
    """A command refuses its output, the file stays, and nothing is made beside it. With --force the
    same command writes it."""

    def kept(self, copied: str, text: str, words: str, file: str = "d") -> None:
        """Checks this with a copy of a file."""
        self.copy(copied, file)
        self.row(words, words, 2, "", text)
        self.same(f"{words}: the file stays", file, copied)
        self.alone(words, file)
        self.row(f"{words}, forced", f"{words} --force", 0, None)
        is_another = self.read(file) != self.read(copied)
        self.holds(f"{words}, forced: the file is another", is_another)

    def test_datagram_files(self) -> None:
        for number in 1, 2:
            self.path(f"station{number}").mkdir()
            self.copy(f"sent{number}", f"station{number}/10.0.0.1.fldg")
        # The shell makes the first input OUT, if OUT is forgotten.
        stations = "station1/10.0.0.1.fldg", "station2/10.0.0.1.fldg"
        words = f"join -o {shlex.join(stations)}"
        self.kept("sent1", DATAGRAMS, words, stations[0])
        for words in (
            *("merge -o d one two", "minus -o d both one", "forget -o d --conflicts two"),
            "fill -o d --gaps /dev/null two",
            *(f"info -o d {THIRD} two", f"extract -o d {SECOND} two"),
            f"carousel -o d {SECOND} {CUT} other",
        ):
            self.kept("sent1", DATAGRAMS, words)
        self.path("to_datagrams").symlink_to("d")
        self.kept("sent1", DATAGRAMS, "join -o to_datagrams two")

    def test_journals(self) -> None:
        self.kept("two", JOURNAL, f"extract -o d {SECOND} d")
        self.kept("two", JOURNAL, f"extract -o d {SECOND} both")
        self.kept("two", JOURNAL, f"carousel -o d {SECOND} {CUT} other")

    def test_content(self) -> None:
        of = f"{SECOND} {CUT}"
        self.kept("content", INPUT, f"carousel -o d {of} d")
        self.copy("content", "d")
        os.link(self.path("d"), self.path("hard"))
        self.kept("content", INPUT, f"carousel -o d {of} hard")
        self.path("soft").symlink_to("d")
        self.kept("content", INPUT, f"carousel -o soft {of} d")
        self.kept("content", INPUT, f"carousel -o d {of} soft")

    def test_list(self) -> None:
        """LINES of `info --list` is kept, unless forced; its journal may be OUT."""
        self.write("lines", "session 7 object 3 info length 3 symbol 4 block 2\n")
        self.kept("lines", INPUT, "info -o d --list d two")
        self.copy("lines", "d")
        self.path("soft").symlink_to("d")
        self.kept("lines", INPUT, "info -o d --list soft two")
        self.copy("lines", "d")
        done = self.shell("flutejoin info -o d --list - two < d")
        self.check("on standard input", done, 2, "", INPUT)
        self.same("it stays", "d", "lines")
        self.copy("two", "d")
        self.row("over its journal", "info -o d --list lines d", 0, "entries 4")

    def test_gap_lines(self) -> None:
        """LINES of `fill` is kept, unless forced, under whatever name."""
        self.write("lines", "session 9 object 1 whole 5\n")
        self.kept("lines", INPUT, "fill -o ./d --gaps d two")
        self.copy("lines", "d")
        self.row("by the same name", "fill -f -o d --gaps d two", 2, "", INPUT)
        self.same("it stays", "d", "lines")
        done = self.shell("flutejoin fill -o d --gaps - two < d")
        self.check("on standard input", done, 2, "", INPUT)
        self.same("it stays", "d", "lines")

    def test_standard_output_is_an_input(self) -> None:
        of = f"{SECOND} {CUT}"
        for copied, words in (
            *(("two", "join -o - d one"), ("two", "join -o /dev/stdout one d")),
            *(("sent1", "join -o - d"), ("two", "merge -o - one d")),
            *(("two", "forget -o - --conflicts d"), ("two", f"info -o - {THIRD} d")),
            *(("two", f"extract -o - {SECOND} d"), ("content", f"carousel -o - {of} d")),
        ):
            self.copy(copied, "d")
            with self.path("d").open("ab") as out:
                self.row(f"{words} >> d", words, 2, None, INPUT, to=out)
            self.same(f"{words} >> d: the file stays", "d", copied)
            with self.path("d").open("ab") as out:
                self.row(f"{words} >> d, forced", f"{words} --force", 0, None, None, to=out)
        self.copy("two", "d")
        done = self.shell("flutejoin join -o - - one < d >> d")
        self.check("by way of standard input", done, 2, "", INPUT)
        self.same("the file stays", "d", "two")
        with self.path("another").open("ab") as out:
            self.row("another file", "join -o - d", 0, None, None, to=out)
        self.same("it has the journal", "another", "two")

    def test_order_of_faults(self) -> None:
        self.copy("sent1", "d")
        object_ = "extract -o d --tsi 8 --toi 9 two"
        self.rows(
            ("an input that is not there", "join -o d two nowhere", 3, "", "cannot open input 2"),
            ("before the kind of an input", "join -o d two other", 2, "", DATAGRAMS),
            ("before an object", object_, 2, "", DATAGRAMS),
            ("a bad number", "join -o d d d.partial --tsi x", 2, "", "bad number: --tsi"),
        )
        self.write("d.partial", "FLDG")
        self.row("before a leftover", "join -o d two", 2, "", DATAGRAMS)

    def test_standard_output_behind_a_journal(self) -> None:
        self.copy("two", "appended")
        with self.path("appended").open("ab") as out:
            words = f"extract -o /dev/stdout {SECOND} two"
            self.row("behind a journal", words, 0, "", "bytes 5", to=out)
        self.same("the object", "appended", self.read("two") + self.read("other"))


class Before(Case):
    """What was there before: modes, links, leftovers."""

    def test_modes(self) -> None:
        self.copy("one", "all")
        self.path("all").chmod(0o600)
        self.row("a private file", "join -o all all two", 0, None)
        self.holds("its mode is kept", self.mode("all") == "0o600", self.mode("all"))
        self.copy("one", "all")
        self.path("all").chmod(0o666)
        self.shell("umask 077 && flutejoin join -o all all two")
        self.holds("whatever the mask", self.mode("all") == "0o666", self.mode("all"))
        self.shell("umask 027 && flutejoin join -o masked one")
        self.holds("a new file", self.mode("masked") == "0o640", self.mode("masked"))

    def test_links(self) -> None:
        self.path("store").mkdir()
        self.copy("one", "store/all")
        self.path("link").symlink_to("store/all")
        self.row("a symbolic link", "join -o link link two", 0, None)
        self.holds("the link stays", self.path("link").is_symlink())
        self.same("what it leads to is written", "store/all", "both")
        self.alone("what it leads to", "store/all")
        self.alone("the link", "link")
        self.path("store/relative").symlink_to("new")
        self.path("chain").symlink_to("store/relative")
        self.row("a link that leads to nothing yet", "join -o chain two", 0, None)
        self.same("it leads to the journal", "store/new", "two")
        are_links = self.path("chain").is_symlink() and self.path("store/relative").is_symlink()
        self.holds("both links stay", are_links)
        self.row("a folder as the output", "join -o store two", 3, "", "cannot create output")

    def test_chains_of_links(self) -> None:
        self.path("circle").symlink_to("circle")
        self.row("a link to itself", "join -o circle two", 3, "", "cannot create output")
        self.copy("one", "end")
        self.path("link1").symlink_to("end")
        for number in range(2, 41):
            self.path(f"link{number}").symlink_to(f"link{number - 1}")
        self.row("as many as the system follows", "join -o link40 link40 two", 0, None)
        self.same("what they lead to is written", "end", "both")

    def test_leftovers(self) -> None:
        self.write("left.partial", "garbage")
        self.path("left.partial").chmod(0o400)
        self.row("a leftover is taken over", "join -o left two", 0, None)
        self.same("it is gone", "left", "two")
        self.alone("a leftover", "left")
        self.holds("its mode is gone", self.mode("left") == self.mode("two"), self.mode("left"))

    def test_beside(self) -> None:
        self.path("dir.partial").mkdir()
        self.row("a folder beside", "join -o dir two", 3, "", "cannot create output")
        self.absent("no output beside a folder", "dir")
        self.path("to.partial").symlink_to("one")
        before = self.read("one")
        self.row("a link beside", "join -o to two", 3, "", "cannot create output")
        self.same("what it leads to stays", "one", before)

    def test_input_beside(self) -> None:
        self.copy("one", "in.partial")
        created = 3, "", "cannot create output"
        self.row("join", "join -o in in.partial two", *created)
        self.same("the input of join stays", "in.partial", "one")
        words = "join -o in in.partial other"
        self.row("the kind of an input comes first", words, 1, "", "input 2: unknown kind")
        self.row("info", f"info -o in {THIRD} in.partial", *created)
        self.same("the input of info stays", "in.partial", "one")
        self.row("merge", "merge -o in two in.partial", *created)
        self.same("the input of merge stays", "in.partial", "one")
        self.row("minus", "minus -o in in.partial two", *created)
        self.same("the input of minus stays", "in.partial", "one")
        self.row("fill", "fill -o in --gaps /dev/null in.partial", *created)
        self.same("the input of fill stays", "in.partial", "one")
        self.row("extract", f"extract -o in {FIRST} in.partial", *created)
        self.same("the input of extract stays", "in.partial", "one")

    def test_names(self) -> None:
        created = 3, "", "cannot create output"
        self.rows(
            ("a folder that is not there", "join -o folder/ two", *created),
            ("an empty name", "join -o '' two", *created),
            ("a name with no room for another", f"join -o {'0' * 250} two", *created),
        )
