"""The origin of files as a source of a centre: its settings `[repair]`, and its folder, which is
taken like a station's."""
from __future__ import annotations

import os
from typing import Any, Mapping, NamedTuple, Optional

from flutejoin_tools.centre.inbox import Station
from flutejoin_tools.common.texts import shown
from flutejoin_tools.receive.settings import read_config
from flutejoin_tools.repair.repairs import Settings, settings_of

NAME = "origin"
AFTER = "10m"


class Repairing(NamedTuple):
    """What a centre repairs: the settings, and the section that they are of."""

    settings: Settings
    table: Mapping[str, Any]


def repairing_of(table: Any) -> Repairing:
    """A section `[repair]`. Its `most` are bytes of a day. Raises ValueError."""
    if not isinstance(table, dict):
        raise ValueError("repair is no [repair]")
    try:
        settings = settings_of({"after": AFTER, **table})
    except ValueError as fault:
        raise ValueError(f"[repair]: {fault}") from None
    if not settings.base:
        raise ValueError("[repair] has no base, below which files may be asked for")
    return Repairing(settings, {"after": AFTER, **table})


def repairing_in(path: str) -> Optional[Repairing]:
    """The section `[repair]` of a file of TOML; None if it has none. Raises ValueError."""
    given = read_config(path)
    try:
        return repairing_of(given["repair"]) if "repair" in given else None
    except ValueError as fault:
        raise ValueError(f"argument --config: {shown(path)}: {fault}") from None


def folder_of(folder: str) -> str:
    """The folder of what was fetched, in that of a centre."""
    return os.path.join(folder, NAME)


def station_of(folder: str) -> Station:
    """The origin as a station of a centre with this folder. Nothing need come of it."""
    return Station(NAME, folder_of(folder), True, "", True)


def status_of(folder: str) -> str:
    """The path of what is told of it, as a station's status."""
    return os.path.join(folder_of(folder), "status.json")
