"""Checks that the examples in the libraries' documentation (of src/lib.rt, and README.md) are, line
after line, in the crate that the page names. Each crate has a README of at most 40 lines. The links
of these and of all pages lead to files and headings that exist."""
from __future__ import annotations

import pathlib
import re
from typing import Iterator, NamedTuple, Optional

from tests.support import run
from tests.support.run import ROOT

NEEDS_PROGRAM = False
CRATES = ROOT / "crates"
MOST_LINES = 40  # of a README
PAGES = *ROOT.glob("*.md"), *ROOT.glob("docs/*.md"), *ROOT.glob("t*/README.md")
LIBRARIES = (
    *("flute_join", "flute_parts", "flute_wire", "flute_store", "flute_journal", "flute_streams"),
    *("flute_output", "flute_memory", "flutejoin", "flutejoin_replicas"),
    *("flutejoin_commands", "flutejoin_line", "flutejoin_run", "flutejoin_c"),
)
# A crate, or a file of the library itself
NAMED = re.compile(r"\(from `(\w+)(\.rt)?`[),]")


class Example(NamedTuple):
    crate: Optional[str]  # the crate that contains it, if the page names one
    lines: list[str]


def stripped(text: str) -> list[str]:
    return [line.strip() for line in text.splitlines()]


def docs_of(library: str) -> list[str]:
    """The documentation of a library."""
    text = (CRATES / library / "src" / "lib.rt").read_text()
    return [line[3:].strip() for line in text.splitlines() if line.startswith("//!")]


def readme_of(library: str) -> list[str]:
    """The README of a crate. Of its examples only those in Rust are kept."""
    text = (CRATES / library / "README.md").read_text()
    return [line.replace("```rust", "```") for line in stripped(text)]


def examples(library: str, page: list[str]) -> Iterator[Example]:
    """Yields the blocks of code on a page, each with the crate that the text before it names."""
    crate: Optional[str] = None
    example: Optional[list[str]] = None
    for line in page:
        named = NAMED.search(line)
        if named:
            crate = library if named[2] else named[1]
        if line != "```":
            if example is not None:
                example.append(line)
        elif example is None:
            example = []
        else:
            yield Example(crate, example)
            example = None


def stands(example: Example) -> bool:
    """Whether the example's lines follow one another in a file of its crate."""
    if not example.lines or not example.crate:
        return False
    size = len(example.lines)
    for path in (CRATES / example.crate / "src").rglob("*.rt"):
        lines = stripped(path.read_text())
        if any(lines[at : at + size] == example.lines for at in range(len(lines))):
            return True
    return False


def anchors_of(path: pathlib.Path) -> set[str]:
    """The headings of a page, in the form that links use."""
    heads = [line.lstrip("# ") for line in path.read_text().splitlines() if line.startswith("#")]
    return {re.sub(r"[^\w\- ]", "", head.lower()).replace(" ", "-") for head in heads}


def lost_links(page: pathlib.Path) -> list[str]:
    """The links of a page that lead nowhere."""
    links = re.findall(r"\]\(([^)]+)\)", page.read_text())
    of_page = [f"{page.name}{it}" if it.startswith("#") else it for it in links]
    return [it for it in of_page if ":" not in it and leads_nowhere(page.parent, it)]


def leads_nowhere(folder: pathlib.Path, link: str) -> bool:
    name, _, anchor = link.partition("#")
    path = folder / name
    return not path.exists() or bool(anchor) and anchor not in anchors_of(path)


class Libraries(run.Case):
    def test_examples(self) -> None:
        for library in LIBRARIES:
            for page in docs_of(library), readme_of(library):
                found = [*examples(library, page)]
                self.assertTrue(found, f"{library}: its page has no example")
                for example in found:
                    self.holds(f"{library}: an example", stands(example), example)

    def test_readmes(self) -> None:
        for crate in sorted(path.parent for path in CRATES.glob("*/src")):
            path = crate / "README.md"
            text = path.read_text() if path.exists() else ""
            nowhere = lost_links(path) if path.exists() else []
            lines = len(text.splitlines())
            is_right = not nowhere and 0 < lines <= MOST_LINES
            self.holds(f"{crate.name}/README.md", is_right, f"{lines} lines, {nowhere}")

    def test_links(self) -> None:
        for page in sorted(PAGES):
            nowhere = lost_links(page)
            self.holds(f"the links of {page.name}", not nowhere, nowhere)
