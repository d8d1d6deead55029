"""What a centre tells of itself: a status as JSON, metrics for Prometheus, and one line for
Nagios."""
from __future__ import annotations

import time
from typing import Any, Iterable, Iterator, NamedTuple, Optional

from flutejoin_tools.common.service_log import ServiceLog
from flutejoin_tools.journals.holdings import Key
from flutejoin_tools.pages.model import EXPIRED, WRONG, Model, Row, StationRow, seconds_of
from flutejoin_tools.receive.status import instant

LATELY = 4000  # files that were delivered last, by which stations are compared
OK, WARNING, CRITICAL, UNKNOWN = range(4)  # as Nagios has them
WORDS = "OK", "WARNING", "CRITICAL", "UNKNOWN"
LATE = 120  # seconds after which a status is too old, beside three times --every
FEW = 4  # names in a line
LEAST_FREE = 64 << 20  # bytes of the disk


class Problem(NamedTuple):
    """What is not well, and how much that matters: a warning or a failure."""

    level: int
    text: str


def problems(model: Model, stations: list[StationRow], report: ServiceLog) -> list[Problem]:
    """What is wrong, the worst first."""
    found = [Problem(CRITICAL, told) for told in report.failing.values()]
    if model.free() < LEAST_FREE:
        found.append(Problem(CRITICAL, f"the disk has {model.free()} bytes left"))
    silent = [it for it in stations if it.is_silent]
    if silent:
        now = model.deliverer.clock()
        told = ", ".join(f"{it.name} ({since(it.seen, now)})" for it in silent[:FEW])
        more = ", .." if len(silent) > FEW else ""
        quiet = sum(it.station.is_quiet for it in model.deliverer.arrivals)
        level = CRITICAL if len(silent) == len(stations) - quiet else WARNING
        count = f"{len(silent)} of {len(stations)} stations silent"
        found.append(Problem(level, f"{count}: {told}{more}"))
    rows = model.rows.values()
    for state, told in (
        (WRONG, "whole, but not as its FDT Instance says"),
        (EXPIRED, "not whole, and the FDT Instance expired"),
    ):
        of = [it for it in rows if it.state == state]
        if of:
            files = f"{len(of)} file{'s' * (len(of) > 1)}"
            found.append(Problem(WARNING, f"{files} {told}"))
    for it in stations:
        if it.fault:
            found.append(Problem(WARNING, f"station {it.name}: {it.fault}"))
    return sorted(found, key=lambda it: -it.level)


def since(seen: Optional[float], now: float) -> str:
    """How long ago something was heard, in words."""
    return "never" if seen is None else age(now - seen)


def age(seconds: float) -> str:
    """A time in words, as 44 min."""
    for size, name, most in ((1, "s", 120), (60, "min", 7200), (3600, "h", 172800)):
        if seconds < most:
            return f"{int(max(0, seconds) // size)} {name}"
    return f"{int(seconds // 86400)} days"


def waiting_line(rows: Iterable[Row], delivered: int) -> str:
    """How many files are delivered, and what is missing of the others."""
    every = [*rows]
    told = f"{delivered} file{'s' * (delivered != 1)} delivered"
    if not every:
        return f"{told}, none is waited for"
    missing = sum(it.missing_bytes for it in every)
    return f"{told}, {len(every)} not whole, {size(missing)} missing at every station"


def size(count: Optional[int]) -> str:
    """A number of bytes in few characters."""
    if count is None:
        return "?"
    value, unit = float(count), 0
    while value >= 1000 and unit < 4:
        value, unit = value / 1000, unit + 1
    short = f"{value:.1f}" if unit and value < 100 else f"{value:.0f}"
    return f"{short} {('B', 'kB', 'MB', 'GB', 'TB')[unit]}"


def status_of(
    model: Model, found: list[Problem], report: ServiceLog, stations: list[StationRow]
) -> dict[str, Any]:
    """The status of a centre, but for the rows of files."""
    rows, count = model.rows.values(), model.deliverer.ledger.count()
    return {
        "time": instant(model.deliverer.clock()),
        "since": instant(model.began),
        "every": model.deliverer.settings.every,
        "level": WORDS[max((it.level for it in found), default=OK)],
        "problems": [it.text for it in found],
        "summary": waiting_line(rows, count),
        "delivered": count,
        "not_whole": len(rows),
        "undescribed_left": model.left(),
        "missing_bytes": sum(it.missing_bytes for it in rows),
        "free": model.free(),
        "last_fault": report.last_fault(),
        "stations": [{**it._asdict(), "seen": instant(it.seen)} for it in stations],
    }


def order(row: Row) -> tuple[bool, float, str, Key]:
    """What is wrong comes first, then what is nearest to be whole."""
    return row.state != WRONG, -row.percent, row.name or "", row.key


def check(status: Optional[dict[str, Any]], now: Optional[float] = None) -> tuple[int, str]:
    """The exit status and the line of a check, as Nagios takes them."""
    if status is None:
        return UNKNOWN, "UNKNOWN: there is no status of a centre"
    try:
        told_at = seconds_of(status["time"])
        if told_at is None:
            raise ValueError("no time")
        late = (now or time.time()) - told_at
        level = WORDS.index(status["level"])
        told = [*status["problems"], status["summary"]]
        if late > LATE + 3 * float(status["every"]):
            level, told = CRITICAL, [f"the centre told nothing for {age(late)}", *told]
        numbers = " ".join(
            f"{name}={int(status[name])}" for name in ("delivered", "not_whole", "missing_bytes")
        )
        return level, f"{WORDS[level]}: {'; '.join(map(str, told))} | {numbers}"
    except (KeyError, TypeError, ValueError):
        return UNKNOWN, "UNKNOWN: the status is not one of a centre"


METRICS = (
    ("delivered_total", "counter", "Files that were delivered.", "delivered"),
    ("not_whole", "gauge", "Files that are not whole.", "not_whole"),
    ("missing_bytes", "gauge", "Bytes that are missing at every station.", "missing_bytes"),
    ("free_bytes", "gauge", "Bytes that are free on the disk.", "free"),
)
OF_REPAIR = (
    ("repair_running", "gauge", "Whether servers are asked now.", "running"),
    ("repair_runs_total", "counter", "Runs that asked servers.", "runs"),
    ("repair_requests_total", "counter", "Requests to servers.", "requests"),
    ("repair_symbols_total", "counter", "Symbols that servers were asked for.", "asked"),
    ("repair_bytes_total", "counter", "Bytes that servers sent.", "fetched"),
    ("repair_files_total", "counter", "Files that were complete then.", "files"),
    ("repair_failed_total", "counter", "Files that were not.", "failed"),
    ("repair_today_bytes", "gauge", "Bytes that servers sent today.", "today"),
)
OF_STATION = (
    ("station_silent", "gauge", "Whether nothing comes of a station.", "is_silent"),
    ("station_seen_seconds", "gauge", "When something came of a station last.", "seen"),
    ("station_datagrams", "gauge", "Datagrams that came since it began.", "datagrams"),
    ("station_dropped", "gauge", "Datagrams that its system dropped.", "dropped"),
    ("station_refused", "gauge", "Datagrams that flutejoin refused.", "refused"),
    ("station_set_aside", "gauge", "Files that a station set aside.", "aside"),
    ("station_free_bytes", "gauge", "Bytes that are free on a station's disk.", "free"),
    ("station_had_ratio", "gauge", "What it had of the files delivered lately.", "had"),
)


def metrics(status: dict[str, Any], stations: list[StationRow], now: float) -> Iterator[str]:
    """Yields the lines of a text file for Prometheus."""
    for name, kind, told, key in METRICS:
        yield from head(name, kind, told)
        yield f"flutejoin_centre_{name} {status[key]}"
    yield from head("level", "gauge", "0: all is well. 1: a warning. 2: something fails.")
    yield f"flutejoin_centre_level {WORDS.index(status['level'])}"
    yield from head("told_seconds", "gauge", "When this was written.")
    yield f"flutejoin_centre_told_seconds {int(now)}"
    repair = status.get("repair") or {}
    for name, kind, told, key in OF_REPAIR if repair else ():
        yield from head(name, kind, told)
        yield f"flutejoin_centre_{name} {int(repair[key])}"
    for name, kind, told, key in OF_STATION:
        values = [(it.name, getattr(it, key)) for it in stations]
        known = [(station, value) for station, value in values if value is not None]
        if known:
            yield from head(name, kind, told)
        for station, value in known:
            number = value / 100 if key == "had" else int(value)
            yield f'flutejoin_centre_{name}{{station="{station}"}} {number}'


def head(name: str, kind: str, told: str) -> Iterator[str]:
    """Yields the lines before the values of a metric."""
    yield f"# HELP flutejoin_centre_{name} {told}"
    yield f"# TYPE flutejoin_centre_{name} {kind}"
