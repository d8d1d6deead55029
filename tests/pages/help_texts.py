"""What help texts, man pages and pages say of the program and the tools, option by option, for the
tests that compare them."""
from __future__ import annotations

import re
from typing import Iterable, Iterator, NamedTuple

from tests.support import run
from tests.support.run import ROOT

TOOLS = sorted(path.name for path in (ROOT / "tools").glob("flutejoin-*"))
# An option in a help text, with its short name before it and the name of its value behind
HELPED = re.compile(
    r"^ {2,6}(?:(-[a-zA-Z]), )?(--?[a-zA-Z][a-z-]*)(?: <?([A-Z][A-Z_,:/]*)>?)?(?=$| )", re.MULTILINE
)
# An option in a synopsis, and the name of its value
NAMED = re.compile(r"(?<![\w-])(--?[a-zA-Z][a-z-]*)(?:\s+([A-Z][A-Z_,:/]*))?")


class Option(NamedTuple):
    name: str  # the long one, if there is one
    value: str  # what its value is called, if it takes one


def options_in(text: str) -> dict[str, Option]:
    """The options of a help text, by each of their names."""
    found = {}
    listed = re.search(r"^options:\n(.*?)(?:^$|\Z)", text, re.M | re.S | re.I)
    for short, name, value in HELPED.findall(listed[1] if listed else ""):
        option = Option(name, value)
        found[name] = option
        if short:
            found[short] = option
    return found


def plain(page: str) -> str:
    """A man page without escapes and macros for fonts."""
    text = (ROOT / "man" / f"{page}.1").read_text().replace("\\\n", "")
    text = re.sub(r"\\f[BIR]", "", text).replace("\\-", "-")
    return re.sub(r"^\.([BI]|[BIR]{2}) (.*)$", lambda it: joined(*it.groups()), text, flags=re.M)


def joined(macro: str, words: str) -> str:
    """The words of a line in fonts: those of two fonts in turn have no space between them."""
    parts = re.findall(r'"([^"]*)"|(\S+)', words)
    texts = [quoted or bare for quoted, bare in parts]
    return ("" if len(macro) == 2 else " ").join(texts)


def section(page: str, title: str) -> str:
    """A section of a man page in plain text."""
    found = re.search(rf'^\.SH "?{title}"?\n(.*?)(?=^\.SH |\Z)', plain(page), re.M | re.S)
    return found[1] if found else ""


def forms(page: str) -> Iterator[tuple[str, str]]:
    """Each form of a command in a synopsis: `flutejoin join` or a tool, and what follows."""
    text = re.sub(r"^\..*$", "", section(page, "SYNOPSIS"), flags=re.M)
    starts = r"^(flutejoin [a-z]+|flutejoin-[a-z]+)(.*?)(?=^flutejoin|\Z)"
    for command, rest in re.findall(starts, text, re.M | re.S):
        yield command, " ".join(rest.split())


def operands(form: str) -> set[str]:
    """The words of a form that are no option and no value of one."""
    return set(re.findall(r"\b[A-Z][A-Z_]*\b", NAMED.sub(" ", form)))


def differences(
    options: dict[str, Option], named: Iterable[tuple[str, str]], *others: str
) -> set[tuple[str, str]]:
    """The options of a help text that a page doesn't name, and what else it names. A value may be
    left out, but is called as in the help text; `others` may call it otherwise."""
    wanted = {it.name: it.value for it in options.values()}
    found = {(options[name].name if name in options else name, value) for name, value in named}
    wrong = {
        (name, value)
        for name, value in found
        if name not in wanted or value not in ("", wanted[name], *others)
    }
    names = {name for name, _ in found}
    return wrong | {(name, value) for name, value in wanted.items() if name not in names}


class Case(run.Case):
    helps: dict[str, str] = {}  # the texts that were printed, by their commands

    def commands(self) -> list[str]:
        """The commands of the program, by its help text."""
        listed = re.search("^Commands:\n(.*?)^$", self.made("--help").out.decode(), re.M | re.S)
        found = re.findall("^  ([a-z]+) ", listed[1], re.MULTILINE) if listed else []
        self.assertIn("join", found)
        return [command for command in found if command != "help"]

    def help_of(self, command: str) -> str:
        """The help text of a command, which is run once."""
        if command not in self.helps:
            done = self.shell(f"{command} --help")
            self.assertEqual(done.status, 0, done)
            self.assertIn("--help", done.out.decode())
            self.helps[command] = done.out.decode()
        return self.helps[command]

    def options_of(self, command: str) -> dict[str, Option]:
        return options_in(self.help_of(command))

    def usage_of(self, command: str) -> str:
        """The usage of a help text, after the command."""
        text = self.help_of(command).replace("<", "").replace(">", "")
        found = re.search(rf"^usage: {command} (.*?)\n\n", text, re.S | re.I | re.M)
        return re.sub(r"\b([A-Z]+) \[\1 \.\.\.\]", r"\1", found[1]) if found else ""
