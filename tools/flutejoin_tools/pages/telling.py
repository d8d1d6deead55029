"""Writes what a centre tells: its page, status.json and metrics.prom, each replaced in one step."""
from __future__ import annotations

import contextlib
import json
import os
import time
from typing import Any, Optional

from flutejoin_tools.centre.delivering import Deliverer
from flutejoin_tools.centre.fetching import Fetching
from flutejoin_tools.centre.ledger import Delivery
from flutejoin_tools.common.outputs import replace_text
from flutejoin_tools.common.service_log import ServiceLog
from flutejoin_tools.journals.holdings import Key
from flutejoin_tools.pages.drawn import SECONDS, Pictures
from flutejoin_tools.pages.health import LATELY, metrics, order, problems, status_of
from flutejoin_tools.pages.model import Model, Row
from flutejoin_tools.pages.page import Page

EACH = 30  # seconds between two pages of which nothing changed but times
MOST_ROWS = 4096  # files in the status


class Telling:
    """The folder `page`: what is in it may be served by whatever serves files."""

    def __init__(self, deliverer: Deliverer, report: ServiceLog) -> None:
        self.deliverer, self.report = deliverer, report
        self.folder = deliverer.at("page")
        self.model = Model(deliverer, deliverer.clock())
        self.next = float("-inf")
        os.makedirs(self.folder, exist_ok=True)
        self.pictures = Pictures(self.folder, self.model)
        self.page = Page(self.model, self.link_files(), self.pictures.has)
        self.summary = ""
        self.texts: dict[Key, tuple[Row, str]] = {}  # rows of the status as JSON
        self.fetching: Optional[Fetching] = None  # what repairs

    def link_files(self) -> bool:
        """Makes the link `files` beside the page. Returns whether it is there."""
        path, to = os.path.join(self.folder, "files"), self.deliverer.settings.files
        with contextlib.suppress(OSError):
            if os.path.islink(path) and os.readlink(path) != to:
                os.unlink(path)
            if not os.path.lexists(path):
                os.symlink(to, path)
        return os.path.islink(path)

    def tell(self, at_once: bool = False) -> None:
        """Writes all, if anything changed or it is time again. A fault is told, and tried again."""
        now = time.monotonic()
        if not (at_once or self.deliverer.dirty or now >= self.next):
            return
        self.next = now + EACH
        try:
            self.write()
            self.report.works("page")
        except OSError as fault:
            self.report.fails("page", f"{fault.filename or self.folder}: {fault.strerror}")

    def draw(self, rows: list[Row], seconds: float) -> None:
        """Draws pictures. A page without them is better than none."""
        try:
            self.pictures.draw(rows, seconds)
            self.report.works("pictures")
        except OSError as fault:
            self.report.fails("pictures", f"{fault.filename or self.folder}: {fault.strerror}")

    def write(self, seconds: float = SECONDS) -> None:
        """Writes all. Drawing takes so many seconds at most."""
        self.model.update()
        rows = sorted(self.model.rows.values(), key=order)
        self.draw(rows, seconds)
        newest: list[Delivery] = self.deliverer.ledger.newest(LATELY)
        stations = self.model.stations(newest)
        found = problems(self.model, stations, self.report)
        status = status_of(self.model, found, self.report, stations)
        status["repair"] = self.fetching and self.fetching.told()
        self.summary = "; ".join([*status["problems"], status["summary"]])
        told = "\n".join(metrics(status, stations, self.deliverer.clock())) + "\n"
        self.replace("status.json", self.status_text(status, rows[:MOST_ROWS]))
        self.replace("metrics.prom", told)
        self.page.repair = status["repair"]
        self.replace("index.html", self.page.text(rows, stations, found, newest))

    def status_text(self, status: dict[str, Any], rows: list[Row]) -> str:
        """The status as JSON. The text of a row is kept until the row is another."""
        before, self.texts = self.texts, {}
        for row in rows:
            known = before.get(row.key)
            if known is None or known[0] is not row:
                known = row, json.dumps(row.told())
            self.texts[row.key] = known
        front = json.dumps({**status, "files": []}).removesuffix("]}")
        return front + ", ".join(text for _, text in self.texts.values()) + "]}\n"

    def replace(self, name: str, text: str) -> None:
        replace_text(os.path.join(self.folder, name), text)
