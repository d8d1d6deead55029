#!/usr/bin/env python3
"""Counts the code, definitions and proofs of each crate, for docs/GATE.md.

A count is of characters, without blanks, comments and imports: lines may be filled or not.
"""
from __future__ import annotations

import re
from pathlib import Path

CRATES = Path(__file__).resolve().parent.parent.parent / "crates"
TESTS = "flute_tests", "flutejoin_tests"
SAMPLES = "embedding_sample", "join_sample", "reception_sample", "test_vectors"
KINDS = ("src", "rt"), ("specs", "antt"), ("proofs", "antt")
COMMENT = {"rt": re.compile(r"//[^\n]*"), "antt": re.compile(r"--[^\n]*")}
IMPORT = {
    "rt": re.compile(r"^\s*(?:pub )?(?:ghost )?use [^;]*;", re.MULTILINE),
    "antt": re.compile(r"^\s*(?:pub )?use [^\n{]*(?:\{[^}]*\})?[^\n]*$", re.MULTILINE),
}


def characters(text: str, suffix: str) -> int:
    text = IMPORT[suffix].sub("", COMMENT[suffix].sub("", text))
    return sum(map(len, text.split()))


def sizes(crate: Path) -> list[int]:
    """The characters of its code, of its definitions and of its proofs."""
    return [
        sum(characters(path.read_text(), suffix) for path in (crate / kind).rglob(f"*.{suffix}"))
        for kind, suffix in KINDS
    ]


def main() -> None:
    total = [0, 0, 0]
    for crate in sorted(path for path in CRATES.iterdir() if path.is_dir()):
        counts = sizes(crate)
        print(f"{crate.name:20}", *(f"{count:9,}" for count in counts))
        if crate.name not in TESTS + SAMPLES:
            total = [old + count for old, count in zip(total, counts)]
    print(f"{'the product':20}", *(f"{count:9,}" for count in total))
    code, definitions, proofs = total
    print(f"proofs for one of code and definitions: {proofs / (code + definitions):.2f}")


if __name__ == "__main__":
    main()
