"""Keeps journals of what a centre delivered for a time, and copies from them what is asked for."""
from __future__ import annotations

import errno
import os

from flutejoin_tools.centre.ledger import Ledger
from flutejoin_tools.centre.pending import ENDING, copies, only
from flutejoin_tools.common.program import Program
from flutejoin_tools.common.shell import MOST_INPUTS
from flutejoin_tools.common.shelves import bring_to_disk, move
from flutejoin_tools.fdt.described import Described
from flutejoin_tools.journals.holdings import Key


class Past:
    """What was delivered, in one folder. The name of a journal says until when it is kept."""

    def __init__(
        self, folder: str, seconds: float, program: Program, ledger: Ledger, described: Described
    ) -> None:
        self.folder, self.seconds = folder, seconds
        self.program, self.ledger, self.described = program, ledger, described

    def copy(self, keys: frozenset[Key], folder: str) -> list[str]:
        """Writes to a folder what was delivered before of some objects, as far as it is kept."""
        names = sorted({name for key in keys for name in self.ledger.kept(key)})
        paths = [os.path.join(self.folder, name) for name in names]
        return copies([path for path in paths if os.path.exists(path)], keys, folder)

    def keep(self, keys: set[Key], journals: list[str], now: float, is_all: bool) -> None:
        """Keeps the entries of what was delivered in a journal. Raises OSError.

        These journals are used up; `is_all` tells that they have nothing else.
        """
        expires = [self.described.expires(key) for key in keys]
        over = [now + self.seconds if it is None else it for it in expires]
        until = int(min(now + self.seconds, max(over, default=now)))
        if until <= now:
            return
        os.makedirs(self.folder, exist_ok=True)
        number = len(os.listdir(self.folder))
        while os.path.lexists(path := os.path.join(self.folder, f"{until}.{number}{ENDING}")):
            number += 1
        parts = journals if is_all else [*filter(None, (only(it, keys) for it in journals))]
        if len(parts) == 1:
            move(parts.pop(), path)
            bring_to_disk(path)
        for begin in range(0, len(parts), MOST_INPUTS - 1):
            some = parts[begin : begin + MOST_INPUTS - 1] + [path] * (begin > 0)
            answer = self.program.run(["join", "--any-size", "-o", path, *some])
            if answer.status:
                raise OSError(errno.EIO, answer.told, path)
        self.ledger.keep(os.path.basename(path), keys)
