"""Lets go of what a centre need not keep: what was delivered, and what never became whole."""
from __future__ import annotations

import contextlib
import json
import os
import re
from typing import Iterable

from flutejoin_tools.centre.delivering import Deliverer
from flutejoin_tools.common.service_log import ServiceLog
from flutejoin_tools.common.shelves import remove
from flutejoin_tools.fdt.stems import NAME
from flutejoin_tools.journals.holdings import Key
from flutejoin_tools.pages.health import size
from flutejoin_tools.pages.model import Model, Row
from flutejoin_tools.receive.status import instant

EACH = 600  # seconds between two looks
LOG = "let-go.jsonl"
KEPT = re.compile(r"(\d{1,12})\.\d+\.journal", re.ASCII)


class House:
    """What is let go of, by the clock of the centre."""

    def __init__(self, deliverer: Deliverer, model: Model, report: ServiceLog) -> None:
        self.deliverer, self.model, self.report = deliverer, model, report
        self.next = float("-inf")

    def keep_at_times(self) -> None:
        """Lets go of what is over, once in so many seconds."""
        now = self.deliverer.clock()
        if now >= self.next:
            self.next = now + EACH
            self.keep()

    def keep(self) -> None:
        """Lets go of what is over now. Raises OSError; the next call goes on."""
        now, settings = self.deliverer.clock(), self.deliverer.settings
        self.forget_partial(now - settings.keep_partial)
        self.remove_kept(now)
        self.remove_documents(now - settings.keep)
        self.remove_aside(now - settings.keep_partial)
        longest = max(settings.keep, settings.keep_partial)
        gone = self.deliverer.ledger.forget(now - settings.keep, now - longest)
        self.deliverer.read_done(gone)

    def forget_partial(self, since: float) -> None:
        """Forgets the objects of which nothing came since a time, and tells what they lack."""
        keys = frozenset(self.deliverer.ledger.silent(since))
        if keys:
            self.let_go(keys)

    def let_go(self, keys: frozenset[Key]) -> None:
        """Forgets what waits of some objects, and tells what they lack."""
        self.tell(self.model.rows_of(keys))
        self.deliverer.forget(keys)
        self.deliverer.unite(keys)
        for key in keys:
            self.deliverer.wrong.pop(key, None)
        self.deliverer.ledger.end_waiting(keys)

    def tell(self, rows: Iterable[Row]) -> None:
        """Adds a line to the log of what was let go for each file that was not whole."""
        lines = []
        for row in rows:
            lacks = f"{row.missing} symbols, {size(row.missing_bytes)} missing at every station"
            name = row.name or row.key.text()
            self.report.warn(f"{name}: never became whole, {row.percent} %: {lacks}; it is let go")
            lines.append(json.dumps({"time": instant(self.deliverer.clock()), **row.told()}) + "\n")
        if lines:
            with open(self.deliverer.at(LOG), "a", encoding="utf-8") as file:
                file.writelines(lines)
                file.flush()
                os.fsync(file.fileno())

    def remove_kept(self, now: float) -> None:
        """Removes the journals of what was delivered, whose time is over."""
        for name in names_in(self.deliverer.at("kept")):
            found = KEPT.fullmatch(name)
            if found and int(found[1]) <= now:
                remove(self.deliverer.at("kept", name))
                self.deliverer.ledger.drop_kept(name)

    def remove_documents(self, since: float) -> None:
        """Removes the FDT Instances that expired and came last before a time, unless something
        waits that they describe."""
        for path, known in [*self.deliverer.described.documents.items()]:
            if not known.keys.isdisjoint(self.deliverer.union):
                continue
            with contextlib.suppress(FileNotFoundError):
                came = os.stat(path).st_mtime
                if max(came, known.expires or 0) < since:
                    self.remove_document(path, known.keys)

    def remove_document(self, path: str, keys: frozenset[Key]) -> None:
        """Removes an FDT Instance, and forgets what it described."""
        remove(path)
        self.deliverer.described.drop(path)
        of = NAME.fullmatch(os.path.basename(path))
        gone = [key for key in keys if key not in self.deliverer.described.by_object]
        if of:
            self.deliverer.documents.documents.known_of(of[1]).leave_out(gone)
        self.deliverer.dirty.update(gone)

    def remove_aside(self, since: float) -> None:
        """Removes what was set aside before a time."""
        for name in names_in(self.deliverer.at("aside")):
            with contextlib.suppress(FileNotFoundError):
                if os.stat(self.deliverer.at("aside", name)).st_mtime < since:
                    remove(self.deliverer.at("aside", name))


def names_in(folder: str) -> list[str]:
    """What is in a folder; nothing if there is none."""
    try:
        return sorted(os.listdir(folder))
    except FileNotFoundError:
        return []
