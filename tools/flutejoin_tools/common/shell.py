"""The lines for a shell that tools print: what joins the files that they wrote."""
from __future__ import annotations

import os
import shlex
from typing import Iterator

MOST_INPUTS = 64  # of one `flutejoin join`


def quoted(word: str) -> str:
    """A word quoted for the shell, with printable characters only, and no line feed at its end."""
    if word.isprintable():
        return shlex.quote(word)
    marks = {"%": "%%", "\\": "\\\\", "'": "'\\''"}
    chars = [
        marks.get(char, char)
        if char.isprintable()
        else "".join(f"\\{byte:03o}" for byte in os.fsencode(char))
        for char in word
    ]
    return f"\"$(printf '{''.join(chars)}')\""


def join_lines(sender: bytes, journal: str, inputs: list[str]) -> Iterator[str]:
    """Yields the commands that join a sender's files, with the journal that an earlier run made.

    A command takes 64 inputs. It has `--any-size`, since whoever can send to a port chooses how
    many sessions and objects there are.
    """
    inputs = [journal, *inputs] if os.path.lexists(journal) else inputs
    while inputs:
        paths = [journal, *inputs[:MOST_INPUTS]]
        paths = [f"./{path}" if path.startswith("-") else path for path in paths]
        words = ["flutejoin", "join", "--any-size", "--source", sender.hex(), "-o", *paths]
        yield " ".join(map(quoted, words))
        rest = inputs[MOST_INPUTS:]
        inputs = [journal, *rest] if rest else []


def gather_lines(folder: str, inputs: list[str], source: str = "") -> Iterator[str]:
    """Yields the command that joins a sender's files by what agrees."""
    paths = [f"./{path}" if path.startswith("-") else path for path in inputs]
    words = ["flutejoin-gather", *["--source", source] * bool(source), "-o", folder, *paths]
    yield " ".join(map(quoted, words))
