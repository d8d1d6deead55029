"""Tests the man pages: groff, if it is installed, has no warnings; the worked session prints what
flutejoin.1 shows; each command's synopsis and list of options has the options of its help text,
with the same values, and no other; what pages write of a command it takes; and flutejoin.1 names
each fault of the program."""
from __future__ import annotations

import re
import shutil
import unittest

from tests.pages import help_texts
from tests.pages.case import Case as PagesCase
from tests.pages.help_texts import (
    NAMED,
    TOOLS,
    Option,
    differences,
    forms,
    operands,
    options_in,
    plain,
    section,
)
from tests.support.run import ROOT

LIMITS = "64 inputs", "16,777,216 entries", "64 sessions", "4,096 objects", "1,048,576 symbols"
# A value may be a folder, several lines, or a symbol: the help texts call it OUT, LINES or N.
OTHERS = "FOLDER", "LINES", "KEYS", "N", "BLOCK/SYMBOL"
PAGES = ROOT / "README.md", *sorted((ROOT / "docs").glob("*.md")), ROOT / "tools" / "README.md"
# What a page writes of the program or a tool, up to what a shell would take as its end
WRITTEN = re.compile(r"(?<![\w./-])(flutejoin(?:-[a-z]+| [a-z]+))((?: +[^ |;&<>`)\n]+)*)")


class Man(help_texts.Case, PagesCase):
    def has(self, page: str, *texts: str) -> None:
        """Checks that a man page has these texts."""
        of = plain(page)
        for text in sorted(set(texts)):
            self.holds(f"{page}.1 has {text}", text in of)

    @unittest.skipUnless(shutil.which("groff"), "since there is no groff")
    def test_warnings(self) -> None:
        for page in "flutejoin", *TOOLS:
            words = ["groff", "-man", "-ww", "-Tascii", "-z", ROOT / "man" / f"{page}.1"]
            self.check(page, self.command(words), None, "")

    def synopsis(self, page: str, command: str) -> None:
        """Compares the forms of a command with its help text."""
        options = self.options_of(command)
        found = [form for of, form in forms(page) if of == command]
        named = {it for form in found for it in NAMED.findall(form)} | {("--help", "")}
        differ = differences(options, named, *OTHERS)
        self.holds(f"{page}.1: the options of {command}", not differ, differ)
        told = operands(self.usage_of(command)) - {"OPTIONS"}
        words = set().union(*map(operands, found)) - {"OPTION"}
        self.holds(f"{page}.1: the files of {command}", words == told, (words, told))

    def listed(self, page: str, options: dict[str, Option]) -> None:
        """Compares the heads of a list of options with those of the help texts."""
        heads = re.findall(r"^\.TP\n(-.*)$", section(page, "OPTIONS"), re.MULTILINE)
        named = {it for head in heads for it in NAMED.findall(head)}
        differ = differences(options, named, *OTHERS)
        self.holds(f"{page}.1: its list of options", not differ, differ)

    def test_tools(self) -> None:
        for tool in TOOLS:
            self.synopsis(tool, tool)
            self.listed(tool, self.options_of(tool))

    def test_commands(self) -> None:
        options = options_in(self.help_of("flutejoin"))
        commands = self.commands()
        for command in commands:
            self.synopsis("flutejoin", f"flutejoin {command}")
            options.update(self.options_of(f"flutejoin {command}"))
        self.listed("flutejoin", options)
        named = {of.split()[-1] for of, _ in forms("flutejoin")} - {"help"}
        self.holds("flutejoin.1: the commands", named == {*commands}, named ^ {*commands})

    def test_pages(self) -> None:
        """Each command line on a page has options of its command alone; OPERATING has each command
        and each tool."""
        known = {f"flutejoin {it}": self.options_of(f"flutejoin {it}") for it in self.commands()}
        known.update({tool: self.options_of(tool) for tool in TOOLS})
        for page in PAGES:
            text = page.read_text().replace("\\\n", " ")
            for command, rest in WRITTEN.findall(text):
                if command in known:
                    others = {name for name, _ in NAMED.findall(rest)} - {*known[command]}
                    if others:
                        self.holds(f"{page.name}: {command}{rest}", False, others)
        operating = (ROOT / "docs" / "OPERATING.md").read_text()
        for command in known:
            word = command.removeprefix("flutejoin ")
            self.holds(f"OPERATING has {command}", re.search(rf"(?m)\b{word}\b", operating))

    def test_faults(self) -> None:
        """Faults as the program's source has them, up to the first number or name."""
        source = ROOT / "crates" / "flutejoin" / "src" / "command_fault.rt"
        faults = re.findall(r'^ *#\[error\("([^{"]*)', source.read_text(), re.MULTILINE)
        self.assertGreater(len(faults), 20)
        self.has("flutejoin", *map(str.rstrip, faults))

    def test_limits(self) -> None:
        self.has("flutejoin", *LIMITS)

    def test_session(self) -> None:
        shown = re.findall(r"^\.EX$(.*?)^\.EE$", plain("flutejoin"), re.MULTILINE | re.DOTALL)
        blocks = [f"```console{block}```" for block in shown]
        self.session("\n".join(["## A session", *blocks]), "A session", "session")
