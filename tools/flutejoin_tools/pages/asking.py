"""Everyday questions to a centre, each answered in a few lines, or as JSON."""
from __future__ import annotations

import collections
import contextlib
import json
import os
from typing import Any, Dict, Iterator, Optional

from flutejoin_tools.centre.ledger import Ledger
from flutejoin_tools.centre.shipping import LOG, line_of
from flutejoin_tools.common.texts import shown
from flutejoin_tools.fdt.content import Verdict
from flutejoin_tools.pages.health import check, size
from flutejoin_tools.pages.model import read_file

FEW = 6  # stations in a line
MOST = 1000  # delivered files that an answer has
Told = Dict[str, Any]  # of the status


def status_in(folder: str) -> Optional[Told]:
    """The status that a centre wrote last; None if there is none."""
    told = read_file(os.path.join(folder, "page", "status.json"), 1 << 26)
    return told if told else None


def stations(status: Told, _: object) -> Iterator[tuple[Told, str]]:
    """Which stations are alive, and how much each had of what was delivered."""
    for it in status["stations"]:
        state = "silent" if it["is_silent"] else "alive"
        had = "" if it["had"] is None else f", had {it['had']} % of what was delivered"
        had += "" if it["had"] is None else f" (lost {round(100 - it['had'], 1)} %)"
        counts = [
            f"{it[key]} {key}" for key in ("datagrams", "dropped", "refused") if it[key] is not None
        ]
        told = f", {', '.join(counts)}" if counts else ""
        fault = f"; {it['fault']}" if it["fault"] else ""
        yield it, f"{it['name']}: {state}, heard {it['seen'] or 'never'}{had}{told}{fault}"


def missing(status: Told, _: object) -> Iterator[tuple[Told, str]]:
    """What is missing, by name."""
    for it in status["files"]:
        bytes_ = ", ".join(f"{begin}-{end - 1}" for begin, end in it["ranges"])
        told = f" (bytes {bytes_})" if bytes_ else ""
        lacks = f"{symbols(it['missing_symbols'])}, {size(it['missing_bytes'])}{told}"
        yield it, f"{named(it)}: {it['state']}, {it['percent']} %, missing {lacks}"


def shares(status: Told, _: object) -> Iterator[tuple[Told, str]]:
    """How much of each file that is not whole each station has, and what only it had."""
    for it in status["files"]:
        parts = []
        for name, share in it["stations"].items():
            only = it["only"].get(name)
            parts.append(f"{name} {share} %" + (f" ({symbols(only)} alone)" if only else ""))
        yield it, f"{named(it)}: {', '.join(parts) or 'no station has any'}"


def file(status: Told, name: str, folder: str) -> Iterator[tuple[Told, str]]:
    """Whether a file is complete, and when it likely will be."""
    for told in delivered(folder, name):
        verdict = Verdict.VERIFIED if told["verified"] else Verdict.NO_MD5
        at = f"delivered {told['time']} as {told['path']}, {told['bytes']} bytes"
        yield told, f"{told['name']}: {at}, {verdict.value}{from_stations(told['stations'])}"
    for row in status["files"]:
        if row["name"] and name in row["name"]:
            at = f"; at this rate whole {row['whole_at']}" if row["whole_at"] else ""
            lacks = f"{row['state']}, {row['percent']} %, {symbols(row['missing_symbols'])} missing"
            yield row, f"{named(row)}: {lacks}{at}"


def delivered(folder: str, name: str) -> Iterator[Told]:
    """What was delivered in whose name or path a text is, the newest first: as the database has it,
    and what was before as the log has it."""
    newest = collections.deque(logged(os.path.join(folder, LOG), name), MOST)
    found = {told["serial"]: told for told in newest}
    ledger = Ledger(os.path.join(folder, "ledger.db"))
    found.update((it.serial, line_of(it)) for it in ledger.named(name, MOST))
    ledger.close()
    yield from (found[serial] for serial in sorted(found, reverse=True)[:MOST])


def logged(path: str, name: str) -> Iterator[Told]:
    """The lines of the log of what was delivered in whose name or path a text is."""
    with contextlib.suppress(FileNotFoundError), open(path, "rb") as log:
        for line in log:
            with contextlib.suppress(ValueError, TypeError, KeyError):
                told = json.loads(line)
                if name in told["name"] or name in told["path"]:
                    yield told


def from_stations(shares: dict[str, float]) -> str:
    """Which stations have how much of a file, in words."""
    told = [f"{name} {share} %" for name, share in shares.items()]
    more = ", .." * (len(told) > FEW)
    return f" (of {', '.join(told[:FEW])}{more})" if told else ""


def symbols(count: int) -> str:
    """A number of symbols, in words."""
    return f"{count} symbol{'s' * (count != 1)}"


def named(it: Told) -> str:
    """The name of a file, or else of its object."""
    return it["name"] or f"sender {it['sender']} session {it['tsi']} object {it['toi']}"


QUESTIONS = {"stations": stations, "missing": missing, "shares": shares}


def answer(folder: str, question: str, name: Optional[str], is_json: bool) -> tuple[int, list[str]]:
    """The status and the lines of an answer. Raises OSError."""
    status = status_in(folder)
    if question == "check":
        level, line = check(status)
        return level, [json.dumps({"status": level, "line": line}) if is_json else shown(line)]
    if status is None:
        return 3, []
    try:
        if question == "file":
            answers = [*file(status, name or "", folder)]
        else:
            answers = [*QUESTIONS[question](status, None)]
    except (KeyError, TypeError):
        return 3, []
    lines = [json.dumps(told) if is_json else line for told, line in answers]
    return (1 if question == "file" and not lines else 0), lines
