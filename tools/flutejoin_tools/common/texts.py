"""Makes texts safe to print, that came from files or from the network."""
from __future__ import annotations

import os


def shown(text: str) -> str:
    """A text that is safe to print.

    A file's name may contain terminal control characters, or characters that the encoding of this
    system lacks.
    """
    return "".join(char if char.isprintable() and has_bytes(char) else "?" for char in text)


def has_bytes(char: str) -> bool:
    """Whether the encoding of this system, which may not be UTF-8, has a character."""
    try:
        return bool(os.fsencode(char))
    except UnicodeEncodeError:
        return False
