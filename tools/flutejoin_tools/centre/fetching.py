"""Repairs what is missing at every station by itself: `[repair]` of a centre (docs/OPERATING.md).

One process at a time asks (`errand`), and what comes of it is taken like a station's. So
deliveries never wait for a server; and what a server sends is compared before it is delivered, and
forgotten if it does not fit.
"""
from __future__ import annotations

import json
import os
import shutil
import subprocess
import sys
import time
from typing import Callable, Optional

from flutejoin_tools import TOOLS
from flutejoin_tools.centre.delivering import Deliverer
from flutejoin_tools.centre.errand import JOB, RESULT, Job
from flutejoin_tools.centre.origin import NAME, Repairing, folder_of, status_of
from flutejoin_tools.centre.pending import ENDING
from flutejoin_tools.centre.tries import COUNTS, LEAST_PAUSE, Tries, instant, pause
from flutejoin_tools.common.children import NICE, die_with_parent
from flutejoin_tools.common.log import WARNING
from flutejoin_tools.common.outputs import replace_text
from flutejoin_tools.common.service_log import ServiceLog
from flutejoin_tools.fdt.content import Verdict
from flutejoin_tools.journals.holdings import Key
from flutejoin_tools.pages.health import age, size
from flutejoin_tools.pages.model import EXPIRED, WAITING, WRONG, Model, Row, read_file
from flutejoin_tools.repair.repairing import WRONG_FILE

ASKED = WAITING, EXPIRED  # the states of files that are asked for
LEFT = Verdict.LEFT.value
MOST_FILES = 64  # of one run
MOST_TOLD = 8  # lines about the files of one run
LEAST = 1 << 16  # bytes of a day that a run is begun with
FRONT = 1 << 20  # bytes that answers may have beside files
GRACE = 600  # seconds that a run may take beside its requests
MOST_RESULT = 1 << 22  # bytes
LONGEST_DELAY = 3600  # seconds until the next run, after runs of which nothing came
# What Python runs for a run, with the folder of the tools and that of the run
ERRAND = (
    "import sys; sys.path[0] = sys.argv[1]; "
    "from flutejoin_tools.centre.errand import main; sys.exit(main(sys.argv[2]))"
)


class Fetching:
    """The repairs of a centre."""

    def __init__(self, deliverer: Deliverer, model: Model, report: ServiceLog) -> None:
        repairing = deliverer.settings.repair
        assert repairing
        self.deliverer, self.model, self.report = deliverer, model, report
        self.repairing: Repairing = repairing
        self.settings = repairing.settings
        self.folder, self.work = folder_of(deliverer.folder), deliverer.at("repairing")
        os.makedirs(self.folder, exist_ok=True)
        shutil.rmtree(self.work, ignore_errors=True)
        self.pending = next(it.pending for it in deliverer.arrivals if it.station.name == NAME)
        path = os.path.join(self.folder, "tries.json")
        self.tries = Tries(path, self.settings.after, deliverer.clock)
        self.child: Optional[subprocess.Popen[bytes]] = None
        self.asked: list[Row] = []  # by the child
        self.reserved = 0  # bytes for it, of those of the day
        self.ends = self.look_at = float("-inf")
        self.begin_at: Optional[float] = None  # after the random wait
        self.failures = 0  # runs of which nothing came, one after another
        self.is_spent = False  # whether it was told that the bytes of this day are spent

    def tend(self) -> bool:
        """Looks after the run, or begins the next one. Returns whether one goes on."""
        now = time.monotonic()
        if self.child is not None and self.child.poll() is None:
            if now > self.ends:
                self.child.kill()
            return True
        if self.child is not None:
            self.end(self.child.returncode)
        if now < self.look_at or self.is_waited_for():
            return False
        self.look_at = now + self.deliverer.settings.every
        self.forget_wrong()
        rows = self.due()
        if rows and self.begin_at is None:
            self.begin_at = now + self.settings.wait()
        if not rows or self.begin_at is None or now < self.begin_at:
            self.begin_at = self.begin_at if rows else None
            return False
        self.begin_at = None
        self.start(rows)
        return self.child is not None

    def is_waited_for(self) -> bool:
        """Whether what came is still to be taken, or has changed what is missing."""
        if self.deliverer.dirty:
            return True
        return any(it.endswith(ENDING) for it in os.listdir(self.folder))

    def due(self) -> list[Row]:
        """The files of one sender that are asked for next, those that lack least first."""
        rows = sorted(filter(self.is_due, self.model.rows.values()), key=order)
        rows = [row for row in rows if row.key.source == rows[0].key.source][:MOST_FILES]
        left = self.settings.most - self.tries.today()
        if not rows or left < LEAST:
            self.tell_spent(bool(rows))
            return []
        self.is_spent = False
        found = rows[:1]  # the first one also if it lacks more: then it comes in parts
        for row in rows[1:]:
            left -= row.missing_bytes
            if left >= found[0].missing_bytes:
                found.append(row)
        return found

    def is_due(self, row: Row) -> bool:
        if row.state not in ASKED or not row.missing or row.name is None:
            return False
        since = self.tries.known_since(row.key) if row.seen is None else row.seen
        return self.deliverer.clock() >= since + self.settings.after and self.tries.may_ask(row.key)

    def tell_spent(self, is_missing: bool) -> None:
        """Tells once a day that its bytes are spent, if anything is missing."""
        if is_missing and not self.is_spent:
            self.is_spent = True
            most = size(self.settings.most)
            self.report.warn(f"repair: {most} came today (most): the rest waits until tomorrow")

    def start(self, rows: list[Row]) -> None:
        """Begins a run. Raises OSError."""
        left = self.settings.most - self.tries.today()
        lengths = sum(row.bytes or row.missing_bytes for row in rows)
        self.reserved = min(left, FRONT + lengths + lengths // 8)
        self.tries.totals["runs"] += 1
        self.tries.spend(self.reserved)  # as long as nobody knows how many come
        self.tries.write()
        shutil.rmtree(self.work, ignore_errors=True)
        os.mkdir(self.work)
        job = json.dumps(self.job(rows)._asdict())
        replace_text(os.path.join(self.work, JOB), job)
        self.asked, self.ends = rows, time.monotonic() + self.settings.seconds + GRACE
        self.child = subprocess.Popen(
            [sys.executable, "-B", "-c", ERRAND, TOOLS, self.work],
            stdin=subprocess.DEVNULL,
            stdout=subprocess.DEVNULL,
            stderr=subprocess.DEVNULL,
            env={**os.environ, "TMPDIR": self.work},
            preexec_fn=in_background(),
        )

    def job(self, rows: list[Row]) -> Job:
        """The job of a run for these files, which are of one sender."""
        keys = [row.key for row in rows]
        return Job(
            self.deliverer.program.path,
            dict(self.repairing.table),
            self.reserved,
            [each.folder for each in self.deliverer.pendings()],
            self.folder,
            keys[0].source.hex(),
            [(key.tsi, key.number) for key in keys],
            [
                (each.path, each.tsi, each.number, each.digest)
                for each in self.deliverer.described.documents_of(set(keys))
            ],
        )

    def end(self, status: int) -> None:
        """Notes what a run did. Raises OSError."""
        rows, self.asked, self.child = self.asked, [], None
        told = read_file(os.path.join(self.work, RESULT), MOST_RESULT)
        shutil.rmtree(self.work, ignore_errors=True)
        fault: str = told.get("fault") or ""
        if not fault and "files" not in told:
            fault = f"ended by signal {-status}" if status < 0 else f"ended with status {status}"
        why = {(it["tsi"], it["toi"]): it["told"] for it in told.get("files", ())}
        if "fetched" in told:
            self.tries.spend(told["fetched"] - self.reserved)
            for name in COUNTS:
                self.tries.totals[name] += told[name]
        self.reserved = 0
        if told.get("requests"):
            self.report.warn(f"repair: {told['line']}")
        # What the bound of a day left is no failure of a server.
        if not told.get("spent") or self.settings.most - self.tries.today() >= LEAST:
            self.fail(rows, [fault or why.get((it.key.tsi, it.key.number), "") for it in rows])
        self.failures = 0 if told.get("datagrams") else self.failures + 1
        self.look_at = float("-inf")
        if self.failures:
            delay = pause(min(LEAST_PAUSE, self.settings.after), self.failures)
            self.look_at = time.monotonic() + min(LONGEST_DELAY, delay)
        self.tries.totals["files"] += sum(not each for each in why.values())
        self.tries.keep(self.model.rows.keys())
        self.tries.write()
        self.write_status()

    def fail(self, rows: list[Row], why: list[str]) -> None:
        """Notes why files still lack something, and tells what is new of it."""
        lines = 0
        for row, told in zip(rows, why):
            if not told:
                self.tries.tried.pop(row.key, None)
                continue
            self.tries.totals["failed"] += 1
            if told == WRONG_FILE:  # what came of it before may be wrong too
                self.forget([row.key])
            lines += self.tell_failed(row.key, row.name or row.key.text(), told, lines < MOST_TOLD)
        if lines > MOST_TOLD:
            self.report.warn(f"repair: {lines - MOST_TOLD} such files more", WARNING)

    def tell_failed(self, key: Key, name: str, told: str, is_told: bool = True) -> bool:
        """Notes why an object still lacks something. Returns whether that is new, and tells it."""
        length = self.tries.fail(key, told)
        if length is not None and is_told:
            told = f"repair: {name}: {told}; it is asked for again in {age(length)}"
            self.report.warn(told, WARNING)
        return length is not None

    def forget_wrong(self) -> None:
        """Forgets what came of objects that lack nothing and are not right: it may be wrong."""
        rows = [self.model.rows[key] for key in self.pending.objects if key in self.model.rows]
        wrong = [row for row in rows if row.state in ASKED and not row.missing]
        wrong += [row for row in rows if row.state == WRONG and not row.why.startswith(LEFT)]
        if not wrong:
            return
        self.forget([row.key for row in wrong])
        for row in wrong:
            self.deliverer.wrong.pop(row.key, None)
            told = f"what came does not fit{f': {row.why}' * bool(row.why)}; it is forgotten"
            self.tell_failed(row.key, row.name or row.key.text(), told)
        self.tries.write()
        self.write_status()

    def forget(self, keys: list[Key]) -> None:
        """Takes what came of these objects out of what waits. What stations have stays."""
        if not self.pending.objects.keys().isdisjoint(keys):
            self.pending.forget(frozenset(keys))
            self.deliverer.unite(keys)
            self.deliverer.touched.update(keys)

    def fault(self) -> str:
        """What fails; empty if nothing does."""
        told = [each.told for key, each in self.tries.tried.items() if key in self.model.rows]
        more = f" ({len(told)} files)" if len(told) > 1 else ""
        return told[-1] + more if told else ""

    def write_status(self) -> None:
        """Writes what a station's status has, for the page and who asks. Raises OSError."""
        now, fault = instant(self.deliverer.clock()), self.fault()
        told = {
            "time": now,
            "datagrams": self.tries.totals["datagrams"],
            "last fault": {"fault": fault, "time": now, "ended": None} if fault else None,
        }
        replace_text(status_of(self.deliverer.folder), json.dumps(told) + "\n")

    def told(self) -> dict[str, object]:
        """What a centre's status has of repairs."""
        return {
            "running": self.child is not None,
            **self.tries.totals,
            "today": self.tries.today() - self.reserved,
            "most": self.settings.most,
            "fault": self.fault() or None,
        }

    def stop(self) -> None:
        """At the end of a run of the centre: the child is ended, and nothing of it is kept."""
        if self.child is not None:
            self.child.terminate()
            try:
                self.child.wait(LEAST_PAUSE)
            except subprocess.TimeoutExpired:
                self.child.kill()
                self.child.wait()
            self.child, self.reserved = None, 0
            shutil.rmtree(self.work, ignore_errors=True)


def order(row: Row) -> tuple[int, Key]:
    """Files that lack least come first."""
    return row.missing_bytes, row.key


def in_background() -> Callable[[], None]:
    """Returns what a run calls first: it has a low priority, and ends with the centre."""
    ask = die_with_parent()

    def prepare() -> None:
        os.nice(NICE)
        ask()

    return prepare
