"""Reads the states of objects as flutejoin prints them: whole, partial, no information .."""
from __future__ import annotations

import re
from typing import NamedTuple

from flutejoin_tools.common import gaps
from flutejoin_tools.formats.entries import FDT_INSTANCE, FILE
from flutejoin_tools.journals.holdings import Key

KEY = re.compile(r"(?:source ([0-9a-f]{32}) )?session (\d+) object (fdt )?(\d+)")


class State(NamedTuple):
    """What flutejoin reports about an object."""

    words: str
    wanted: int = 0  # symbols that are missing, in conflict or misfits
    disputed: int = 0  # those of them that are in conflict
    is_disputed: bool = False  # whether some of them are in conflict or misfits

    @classmethod
    def of(cls, line: re.Match[bytes]) -> State:
        """The state in a line about an object, as `gaps.STATE` matched it."""
        if line[5]:
            missing, disputed, misfits = (int(line[at]) for at in (6, 7, 8))
            wanted = missing + disputed + misfits
            return cls(gaps.PARTIAL, wanted, disputed, disputed + misfits > 0)
        words = (line[2] or line[3] or line[4]).decode()
        return cls(words, 0, 0, words == gaps.CONFLICTING_INFORMATION)

    def is_whole(self) -> bool:
        return self.words == gaps.WHOLE

    def __str__(self) -> str:
        return f"{self.words} {self.wanted}" if self.words == gaps.PARTIAL else self.words


MISSING = State("missing")


def key_of(text: str) -> Key:
    """The object that a line of flutejoin names."""
    found = KEY.fullmatch(text)
    assert found, text
    source, tsi, is_instance, number = found.groups()
    tag = FDT_INSTANCE if is_instance else FILE
    return Key(bytes.fromhex(source) if source else bytes(16), int(tsi), tag, int(number))
