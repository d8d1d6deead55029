"""Checks that no lemma takes more than eight arguments by position (docs/CHANGING.md).

A lemma is a signature in `specs/` or `proofs/` that clauses of its name follow. Of its type each
name in a group of parentheses counts, and each type before an arrow that is no such group; what
braces name does not, nor what a module around it takes.
"""
from __future__ import annotations

import pathlib
import re
from typing import Iterator

from tests.support import run
from tests.support.run import ROOT

NEEDS_PROGRAM = False
MOST = 8  # arguments by position
SIGNATURE = re.compile(r"( *)(?:abbrev |unfoldable )?(?:pub )?([^\s():{}]+) : (.*)")
GROUP = re.compile(r"([({])([^(){}:]+) : ")
OPENING, CLOSING = "([{", ")]}"


def indent_of(line: str) -> int:
    return len(line) - len(line.lstrip())


def lemmas(text: str) -> Iterator[tuple[int, str, str]]:
    """The line, the name and the type of each lemma of a file."""
    lines = text.split("\n")
    for at, line in enumerate(lines):
        head = SIGNATURE.fullmatch(line)
        if not head:
            continue
        behind = at + 1
        parts = [head[3]]
        while behind < len(lines) and indent_of(lines[behind]) > len(head[1]):
            parts.append(lines[behind].strip())
            behind += 1
        if behind < len(lines) and lines[behind].strip().startswith("unfolding "):
            behind += 1
        if behind < len(lines) and lines[behind].strip().startswith(f"{head[2]} "):
            yield at + 1, head[2], " ".join(parts)


def arguments_of(kind: str) -> list[str]:
    """What comes before the arrows of a type."""
    found, depth, start = [], 0, 0
    for at, letter in enumerate(kind):
        depth += (letter in OPENING) - (letter in CLOSING)
        if letter == "→" and not depth:
            found.append(kind[start:at].strip())
            start = at + 1
    return found


def closing(text: str) -> int:
    """The place behind the parenthesis or brace that belongs to the first letter."""
    depth = 0
    for at, letter in enumerate(text):
        depth += (letter in OPENING) - (letter in CLOSING)
        if not depth:
            return at + 1
    return len(text)


def count_of(argument: str) -> int:
    """How many arguments by position this is: the names of its groups, or one."""
    count, rest = 0, argument
    while rest:
        group = GROUP.match(rest)
        if not group:
            return 1
        count += len(group[2].split()) if group[1] == "(" else 0
        rest = rest[closing(rest) :].strip()
    return count


def files() -> Iterator[pathlib.Path]:
    for part in "specs", "proofs":
        yield from sorted((ROOT / "crates").glob(f"*/{part}/**/*.antt"))


class Lemmas(run.Case):
    def test_arguments(self) -> None:
        for path in files():
            for line, name, kind in lemmas(path.read_text()):
                count = sum(map(count_of, arguments_of(kind)))
                place = f"{path.relative_to(ROOT)}:{line}"
                self.holds(f"{place}: {name}", count <= MOST, f"{count} arguments")

    def test_count(self) -> None:
        """The count itself, on types of each form."""
        for kind, wanted in (
            ("ℕ", 0),
            ("(n m : ℕ) {k : ℕ} → n ≡ k → m ≡ k", 3),
            ("{A : Type 0} (f : A → A) (xs : List A) → length (map f xs) ≡ length xs", 2),
            ("((n : ℕ) → n ≤ k) → (x : A) × B x → C", 2),
        ):
            count = sum(map(count_of, arguments_of(kind)))
            self.holds(kind, count == wanted, f"{count}, and not {wanted}")
