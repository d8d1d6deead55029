"""The lines of JSON that the library gives, as values."""
from __future__ import annotations

import json
from typing import Any, Iterator

from flutejoin.values import Compared, Gap, Held, Object


def lines_of(text: bytes) -> Iterator[dict[str, Any]]:
    return map(json.loads, text.splitlines())


def object_of(line: dict[str, Any]) -> Object:
    """The name in a line."""
    sender = int(line.get("source", "0"), 16)
    return Object(sender, line["tsi"], int(line.get("toi", "0")), line.get("fdt"))


def held_in(text: bytes) -> list[Held]:
    """What lines of `gaps` say of each object."""
    found: list[Held] = []
    missing: list[Gap] = []
    for line in lines_of(text):
        if "sbn" in line:
            missing.append(Gap(line["sbn"], line["first"], line["last"], line["reason"]))
            continue
        if found:
            found[-1] = found[-1]._replace(gaps=tuple(missing))
        missing = []
        found.append(Held(object_of(line), line["status"], line.get("length"), ()))
    if found:
        found[-1] = found[-1]._replace(gaps=tuple(missing))
    return found


def compared_in(text: bytes) -> list[Compared]:
    """What lines of `compare` say of each object."""
    return [
        Compared(object_of(line), *(line[name] for name in Compared._fields[1:]))
        for line in lines_of(text)
    ]
