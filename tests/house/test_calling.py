"""Checks the pages CALLING.md of the libraries. A quote of a function's clauses is, line after
line, in the sources of the page's crate, and leaves out only what a line `// ..` stands for. A call
is so in the crate that the line before it names. Each word of a quoted clause is explained, by a
line `- WORD`, in that page or in one that it leads to, and a page explains no word that is none.
The README of the crate and docs/EMBEDDING.md lead to the page."""
from __future__ import annotations

import pathlib
import re
from typing import Iterator, NamedTuple, Optional

from tests.house.test_libraries import CRATES, Example, leads_nowhere, stands, stripped
from tests.support import run
from tests.support.run import ROOT

NEEDS_PROGRAM = False
EMBEDDING = ROOT / "docs" / "EMBEDDING.md"
LIBRARIES = (
    *("flute_join", "flute_parts", "flute_wire", "flute_store", "flute_journal", "flute_streams"),
    *("flute_calls", "flute_output", "flutejoin", "flutejoin_replicas", "flutejoin_c"),
)
OF_C = {"flutejoin_c"}  # no crate calls it
LEFT_OUT = "// .."
LONGEST_CALL = 10  # lines
NAMED = re.compile(r"\(from `(\w+)`\):$")
BEGINS = re.compile(r"(?:pub |final |extern \"C\" )*fn (\w+)")
CLAUSE = re.compile(r"(?:requires|ensures)\*? ")
BETWEEN = re.compile(rf"{CLAUSE.pattern}|//")
# What a file's clauses may cite: words that it imports, and what its traits say of their types
IMPORT = re.compile(r"ghost use Rattle\.([\w.]+)\.\{([^}]*)\};")
MEMBER = re.compile(r"^ *ghost (\w+): \{", re.MULTILINE)
OF_TYPE = re.compile(r"\b[A-Z]\w*\.([a-z]\w*)")
OF_RUST = {"Ok", "Err", "Some", "None", "true", "false", "List"}  # and of docs/EMBEDDING.md's table
EXPLAINED = re.compile(r"^- ((?:`\w+`(?:, )?)+)", re.MULTILINE)
LINK = re.compile(r"\]\(([^)#]+)[^)]*\)")


class Block(NamedTuple):
    """Lines of Rust on a page."""

    lines: list[str]
    crate: Optional[str]  # the one that is named before them: they are a call


class Quote(NamedTuple):
    """Where the clauses of a function are, which a page quotes."""

    source: str
    lines: list[str]


def page_of(library: str) -> pathlib.Path:
    return CRATES / library / "CALLING.md"


def blocks(page: pathlib.Path) -> Iterator[Block]:
    """Yields the blocks of code on a page, each with the paragraph before it."""
    lines: Optional[list[str]] = None
    before = last = ""  # the paragraph so far, and the one before it
    for line in stripped(page.read_text()):
        if line == "```rust":
            lines = []
        elif line == "```" and lines is not None:
            named = NAMED.search(last)
            yield Block(lines, named[1] if named else None)
            lines, last = None, ""
        elif lines is not None:
            lines.append(line)
        elif line:
            before = f"{before} {line}"
        else:
            before, last = "", before or last


def pieces(lines: list[str]) -> list[list[str]]:
    """What is quoted between two lines that stand for what is left out."""
    found: list[list[str]] = [[]]
    for line in lines:
        if line == LEFT_OUT:
            found.append([])
        else:
            found[-1].append(line)
    return found


def head_of(lines: list[str], start: int) -> list[str]:
    """The function that begins at a line, up to its body."""
    for end in range(start, len(lines)):
        if lines[end] in ("{", "{}"):
            return lines[start:end]
        if lines[end].endswith((";", " {}", " {")):
            return lines[start : end + 1]
    return []


def is_quoted(quoted: list[list[str]], head: list[str]) -> bool:
    """Whether a function has the pieces one after another, the first at its begin and the last at
    its end, and whole clauses are left out between them."""
    ends = [at for at, line in enumerate(head) if at and BETWEEN.match(line)] + [len(head)]
    place = 0
    for number, piece in enumerate(quoted):
        starts = [0] if number == 0 else [at for at in ends if at >= place]
        if number == len(quoted) - 1 and piece:
            starts = [at for at in starts if at + len(piece) == len(head)]
        found = [at for at in starts if head[at : at + len(piece)] == piece]
        if not found or found[0] + len(piece) not in ends:
            return False
        place = found[0] + len(piece)
    return True


def quote_of(library: str, lines: list[str]) -> Optional[Quote]:
    """The function of the library that the lines quote, if there is one."""
    for path in sorted((CRATES / library / "src").rglob("*.rt")):
        source = path.read_text()
        theirs = stripped(source)
        for start in (at for at, line in enumerate(theirs) if line == lines[0]):
            head = [line for line in head_of(theirs, start) if line]
            if is_quoted(pieces([line for line in lines if line]), head):
                return Quote(source, lines)
    return None


def words_of(quote: Quote) -> set[str]:
    """The words of its clauses which have a meaning that Rust doesn't give them."""
    at = [number for number, line in enumerate(quote.lines) if CLAUSE.match(line)]
    text = "\n".join(quote.lines[at[0] :]) if at else ""
    text = re.sub(r"//.*", "", text)
    known = set(MEMBER.findall(quote.source))
    for path, names in IMPORT.findall(quote.source):
        if ".declared." not in path:
            known |= set(re.findall(r"(?:as )?([A-Za-z_]\w*)(?=,|\s*$|\s*,)", names, re.MULTILINE))
    return (set(re.findall(r"[A-Za-z_]\w*", text)) & known | set(OF_TYPE.findall(text))) - OF_RUST


def explained_in(page: pathlib.Path) -> set[str]:
    lines = EXPLAINED.findall(page.read_text())
    return {word for line in lines for word in re.findall(r"\w+", line)}


def led_to(page: pathlib.Path) -> set[pathlib.Path]:
    """The page, and the pages that explain words and are linked there."""
    links = ((page.parent / link).resolve() for link in LINK.findall(page.read_text()))
    return {page} | {link for link in links if link.name == "CALLING.md" or link == EMBEDDING}


class Calling(run.Case):
    def test_quotes(self) -> None:
        for library in LIBRARIES:
            quoted = [block for block in blocks(page_of(library)) if not block.crate]
            self.assertTrue(quoted, f"{library}: its page quotes nothing")
            for block in quoted:
                name = BEGINS.match(block.lines[0])
                self.holds(
                    f"{library}: {name[1] if name else block.lines[0]}",
                    name and quote_of(library, block.lines),
                    "no function of the crate has these lines and no others",
                )

    def test_calls(self) -> None:
        for library in LIBRARIES:
            calls = [block for block in blocks(page_of(library)) if block.crate]
            self.assertTrue(calls or library in OF_C, f"{library}: its page calls nothing")
            for call in calls:
                is_short = len(call.lines) <= LONGEST_CALL
                is_there = stands(Example(call.crate, call.lines))
                self.holds(f"{library}: a call", is_short and is_there, call)

    def test_words(self) -> None:
        for library in LIBRARIES:
            page = page_of(library)
            explained = set[str]().union(*map(explained_in, led_to(page)))
            for block in blocks(page):
                quote = None if block.crate else quote_of(library, block.lines)
                if quote:
                    missing = words_of(quote) - explained
                    self.holds(f"{library}: the words of {block.lines[0]}", not missing, missing)

    def test_explained(self) -> None:
        specs = "\n".join(path.read_text() for path in CRATES.glob("*/specs/**/*.antt"))
        defined = set(re.findall(r"\bpub (?:record |data )?(\w+)", specs))
        for library in LIBRARIES:
            page = page_of(library)
            quoted = "\n".join(line for block in blocks(page) for line in block.lines)
            unknown = explained_in(page) - defined - set(re.findall(r"\w+", quoted))
            self.holds(f"{library}: the words that its page explains", not unknown, unknown)

    def test_links(self) -> None:
        overview = EMBEDDING.read_text()
        for library in LIBRARIES:
            page = page_of(library)
            readme = page.with_name("README.md").read_text()
            links = re.findall(r"\]\(([^)]+)\)", page.read_text())
            nowhere = [link for link in links if leads_nowhere(page.parent, link)]
            self.holds(f"{library}: the links of its page", not nowhere, nowhere)
            self.holds(f"{library}: its README leads there", "](CALLING.md)" in readme)
            is_led = f"](../crates/{library}/CALLING.md)" in overview
            self.holds(f"{library}: EMBEDDING leads there", is_led)

    def test_what_another_repository_takes(self) -> None:
        """The crates that EMBEDDING names, up to each line, stand on one another alone."""
        uses = {
            line.partition(":")[0].split()[0]: set(line.partition(":")[2].split())
            for line in (ROOT / "crates.txt").read_text().splitlines()
        }
        section = EMBEDDING.read_text().partition("\n## The crates\n")[2].partition("\n\nEach ")[0]
        named = set[str]()
        for group in section.split("\n- ")[1:]:
            named |= set(re.findall(r"`(\w+)`", group))
            others = set[str]().union(*(uses[name] for name in named)) & set(uses) - named
            self.holds(f"after {group.splitlines()[0]}", not others, others)
        self.holds("those with a page", named == set(LIBRARIES), named ^ set(LIBRARIES))
