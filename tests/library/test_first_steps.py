"""Runs the lines in C and Python that README and docs/EMBEDDING.md have, as they are printed."""
from __future__ import annotations

import os
import sys
import textwrap

import datagram_files
from tests.library.case import SENDER, Case, compiled
from tests.pages.case import sections
from tests.support.run import ROOT

import flutejoin

README = (ROOT / "README.md").read_text()
EMBEDDING = (ROOT / "docs" / "EMBEDDING.md").read_text()
SIX = 6  # lines of README in each language
# What the lines in C stand in: they name what two files contain
AROUND = """
#include "flutejoin.h"
#include <stdio.h>
#include <stdlib.h>

static uint8_t *content(const char *path, size_t *length) {{
    static uint8_t bytes[2][65536];
    static int number;
    FILE *file = fopen(path, "rb");
    *length = file ? fread(bytes[number], 1, sizeof bytes[number], file) : 0;
    return bytes[number++];
}}

int main(void) {{
    size_t first_length, second_length;
    uint8_t *first = content("first", &first_length), *second = content("second", &second_length);
{}
    return (int)answer.code;
}}
"""
# And what those in Python follow
BEFORE = """
import pathlib
{} = [pathlib.Path(name).read_bytes() for name in {}]
"""


def blocks(page: str, title: str, kind: str) -> list[str]:
    """The texts of all blocks of this kind in a section."""
    parts = "\n".join(sections(page)[title]).split(f"```{kind}\n")[1:]
    return [part.partition("```")[0] for part in parts]


class FirstSteps(Case):
    def setUp(self) -> None:
        super().setUp()
        self.write("file", b"hello")
        self.made("carousel -o sent --tsi 7 --toi 1 --symbol 4 --block 2 file")
        datagrams = [*datagram_files.read(str(self.path("sent")))]
        self.write("datagram", datagrams[0])
        for name, of in ("first", datagrams[:1]), ("second", datagrams[1:]):
            self.write("some", datagram_files.content(of))
            self.made(f"join -o {name} --source {SENDER} some")
        self.write("sent", datagram_files.content(datagrams[:1]))
        self.made("merge -o both first second")

    def run_c(self, lines: str) -> None:
        """Runs lines in C, which have the sizes of `first` and `second`."""
        source = self.path("steps.c")
        source.write_text(AROUND.format(textwrap.indent(lines, "    ")))
        compiled(source, self.path("steps"))

    def test_readme_in_c(self) -> None:
        (lines,) = blocks(README, "From C and Python", "c")
        self.holds("six lines", len(lines.splitlines()) == SIX, lines)
        self.run_c(lines)
        self.check("merged", self.command("./steps"), 0, self.read("both"))
        self.write("second", self.read("second")[:-1])
        self.check("a fault", self.command("./steps"), 5, "", "input 2: Cut")

    def test_embedding_in_c(self) -> None:
        merged, entries = blocks(EMBEDDING, "First steps in C", "c")
        self.run_c(f"{merged}size_t length = answer.needed;\n{entries}")
        self.check("symbols", self.command("./steps"), 0, b"hello")

    def run_python(self, lines: str, *names: str) -> str:
        """What lines in Python print that have what these files contain."""
        script = BEFORE.format(", ".join(names), names) + lines
        env = {"PYTHONPATH": str(ROOT / "python")}
        env["FLUTEJOIN_LIBRARY"] = os.environ["FLUTEJOIN_LIBRARY"]
        done = self.command([sys.executable, "-c", script], env=env)
        self.holds("it ends well", done.status == 0 and not done.err, done)
        return done.out.decode()

    def test_readme_in_python(self) -> None:
        (lines,) = blocks(README, "From C and Python", "python")
        self.holds("six lines", len(lines.splitlines()) == SIX, lines)
        told = self.run_python(lines, "first", "second", "datagram")
        (held,) = flutejoin.gaps(self.read("both"))
        self.holds("whole", told == f"{held.object} whole ()\n", told)

    def test_embedding_in_python(self) -> None:
        """Of a datagram file, a journal and the one `all` its lines fill what another lacks."""
        (lines,) = blocks(EMBEDDING, "First steps in Python", "python")
        self.write("all", self.read("both"))
        for name, path in ("other", "first"), ("first", "sent"):
            self.write(name, self.read(path))
        found = self.run_python(lines, "first", "second", "other", "datagram").splitlines()
        named = flutejoin.Object(0xFFFF0A000001, 7, 1)
        self.holds("whole", found[0] == f"{named} whole 0", found)
        wanted = f"{named} symbol {flutejoin.Symbol(0, 1, b'o')}"
        self.holds("and what the other lacks", found[1:] == [wanted], found)
