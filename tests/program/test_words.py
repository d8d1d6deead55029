"""Tests of the command line itself: no command, help and its examples, versions."""
from __future__ import annotations

import re

from tests.program.case import FIELDS, NAME, SYMBOL, Case, lines
from tests.support.run import search_of

FULL = {"to": "/dev/full"}


class Words(Case):
    def test_no_command(self) -> None:
        self.rows(
            ("a command that does not exist", "frob", 2, "", None),
            ("no command", "", 2, "", None),
            ("no datagram", "packet", 2, "", None),
            ("no text", ["packet", b"\xff\xfe"], 2, "", "an argument is not text"),
        )

    def test_standard_input_once(self) -> None:
        for words in (
            *("join -o got - -", "join -o got - whole -", "merge -o got - -", "minus -o got - -"),
            "fill -o got --gaps - -",
            *("compare - -", "compare --check --tsi 7 - -", "info -o got --list - -"),
            *("show --list - -", "gaps --list - -", "extract --all -o got --list - -"),
        ):
            self.row(words, words, 2, "", "standard input twice", stdin=self.path("whole"))
        self.absent("no file after them", "got")
        whole, words = self.path("whole"), "merge -o - - empty"
        self.row("an input, and OUT", words, 0, self.read("whole2"), "entries 3", stdin=whole)

    def test_options(self) -> None:
        rows = [
            ("extract -o got --toi 1 whole", "missing option: --tsi"),
            ("extract -o got --tsi 7 whole", "missing option: --toi"),
            ("extract -o got --tsi 7 --tsi 7 --toi 1 whole", "bad option: --tsi"),
            (f"extract -o got --all {NAME} whole", "bad option: --toi"),
            ("extract -o got -f --all whole", "bad option: --force"),
            (f"info -o got {NAME} --symbol 4 --block 2 whole", "missing option: --length"),
            (f"info -o got --list lines {NAME} {FIELDS} whole", "bad option: --tsi"),
            ("forget -o got whole", "missing option: what to forget"),
            ("forget -o got --any-size whole", "missing option: what to forget"),
        ]
        self.rows(*((words, words, 2, "", fault) for words, fault in rows))
        self.absent("no file after them", "got")

    def test_any_size(self) -> None:
        """Each command that reads a journal takes it."""
        for words in "show whole", "gaps whole", "compare whole whole":
            plain = self.row(words, words, 0, None)
            self.row(f"{words}, of any size", f"{words} --any-size", 0, plain.out)
        for words in (
            *("join -o got whole", "merge -o got whole others", "minus -o got whole others"),
            *(f"extract -o got {NAME} whole", f"info -o got {NAME} {FIELDS} whole"),
            *(f"forget -o got {NAME} others", "fill -o got --gaps /dev/null whole"),
        ):
            plain = self.row(words, words, 0, None)
            wanted = self.read("got")
            self.row(f"{words}, of any size", f"{words} --any-size", 0, plain.out)
            self.same(f"{words}: OUT", "got", wanted)
            self.remove("got")

    def test_versions(self) -> None:
        self.row("the version", "-V", 0, "flutejoin 0.2.0")
        journals = "Journals of versions 1 and 2 are read, and those of version 2 written."
        self.row("and those of journals", "--version", 0, lines("flutejoin 0.2.0", journals))

    def test_streams(self) -> None:
        self.row("a full output", f"packet {SYMBOL}", 3, "", "cannot write", **FULL)
        self.row("help to a full output", "--help", 3, "", "cannot write", **FULL)
        self.row("a closed output", f"packet {SYMBOL}", 3, "", "cannot write", closed=[1])


class Help(Case):
    """The examples of each help run as they are printed, in one folder, in their order."""

    def examples(self, text: str) -> str:
        """The commands of the examples in a help text."""
        behind = re.split("[Ee]xample", text, maxsplit=1)[-1]
        return lines(*re.findall("^  ((?:flutejoin|seq) .*)", behind, re.MULTILINE))

    def test_examples(self) -> None:
        done = self.row("help", "--help", 0, None)
        text = done.out.decode()
        self.holds("help gives an example", SYMBOL in text, text)
        listed = search_of("(?ms)^Commands:\n(.*?)^$", text)
        commands = re.findall("^  ([a-z]+) ", listed[1], re.MULTILINE)
        self.assertIn("join", commands)
        self.path("tried").mkdir()
        self.run_examples("program", text)
        self.path("tried/station2").write_bytes(self.read("tried/station1"))
        wanted = self.shell("flutejoin gaps station1", folder="tried")
        self.path("tried/wanted").write_bytes(wanted.out)
        for command in commands:
            if command != "help":
                done = self.row(f"help of {command}", f"{command} --help", 0, None)
                self.run_examples(command, done.out.decode())
        self.same("the file that comes out", "tried/file", "tried/out")

    def run_examples(self, command: str, text: str) -> None:
        """Checks that the examples in a help text can be run as they are printed."""
        examples = self.examples(text)
        self.holds(f"help of {command} gives an example", examples)
        if command == "carousel":
            self.remove("tried/sent")
        done = self.shell(f"set -e\n{examples}", folder="tried")
        self.check(f"the example of {command} runs", done, 0, None)
