"""The file of settings of flutejoin-centre."""
from __future__ import annotations

import os
import re
from argparse import ArgumentTypeError
from typing import Any, NamedTuple, Optional

from flutejoin_tools.centre.inbox import Station
from flutejoin_tools.centre.origin import NAME as ORIGIN
from flutejoin_tools.centre.origin import station_of as origin_of
from flutejoin_tools.centre.origin import Repairing, repairing_of, status_of
from flutejoin_tools.common.options import number_of_bytes
from flutejoin_tools.common.texts import shown
from flutejoin_tools.receive.settings import read_config

DAY = 86400  # seconds
UNITS = {"": 1, "s": 1, "m": 60, "h": 3600, "d": DAY, "w": 7 * DAY}
NAME = re.compile(r"[A-Za-z0-9][A-Za-z0-9_.-]{0,62}", re.ASCII)
HOST = re.compile(r"[A-Za-z0-9_\[][A-Za-z0-9_.:@%\[\]-]{0,254}", re.ASCII)
MOST_STATIONS = 64


class Settings(NamedTuple):
    """What a centre does. Times are in seconds."""

    folder: str  # where all is kept
    files: str  # which gets the files
    stations: tuple[Station, ...]
    status: dict[str, str]  # of each station the path of its status
    every: float = 10
    keep: float = 7 * DAY
    keep_partial: float = 30 * DAY
    silent: float = 600  # after which a station of which nothing comes is told
    on_file: Optional[str] = None
    flutejoin: Optional[str] = None
    listen: Optional[str] = None
    most: Optional[int] = None  # bytes of the disk, beside the files
    repair: Optional[Repairing] = None

    def with_repair(self, repair: Repairing) -> Settings:
        """The settings, with the origin as a further station."""
        status = {**self.status, ORIGIN: status_of(self.folder)}
        stations = (*self.stations, origin_of(self.folder))
        return self._replace(stations=stations, status=status, repair=repair)


def duration(text: str) -> float:
    """A time, as 90, 45s, 10m, 12h, 7d or 4w, in seconds. Raises ValueError."""
    found = re.fullmatch(r"(\d{1,9})([smhdw]?)", text, re.ASCII)
    if not found:
        raise ValueError(f"{text!r} is no time, as 45s, 10m, 12h or 7d")
    return float(int(found[1]) * UNITS[found[2]])


def size(text: str) -> int:
    """A number of bytes, as 100G. Raises ValueError."""
    try:
        return number_of_bytes(text)
    except ArgumentTypeError as fault:
        raise ValueError(str(fault)) from None


TIMES = {"every": "every", "keep": "keep", "keep-partial": "keep_partial", "silent": "silent"}
TEXTS = {"on-file": "on_file", "flutejoin": "flutejoin", "listen": "listen"}
PATHS = "folder", "files"
OF_STATION = "name", "folder", "outbox", "status", "ssh"
# Asks for nothing by a terminal, and ends where the other side is gone. The station's sshd runs its
# forced command, whatever is asked for; another one would refuse these words.
SSH = ("ssh", "-T", "-a", "-x", "-o", "BatchMode=yes")
LIMITS = ("-o", "ConnectTimeout=15", "-o", "ServerAliveInterval=15", "-o", "ServerAliveCountMax=3")
REMOTE = ("flutejoin-station", "--answer")


def settings_of(path: str) -> Settings:
    """The settings in a file of TOML. Raises ValueError."""
    given = read_config(path)
    front = f"argument --config: {shown(path)}: "
    try:
        unknown = given.keys() - {"centre", "station", "repair"}
        if unknown:
            raise ValueError(f"there is no setting {min(unknown)}")
        settings = settings_in(given.get("centre", {}), given.get("station", []))
        if "repair" not in given:
            return settings
        if any(station.name == ORIGIN for station in settings.stations):
            raise ValueError(f"with [repair] no [[station]] has the name {ORIGIN}")
        return settings.with_repair(repairing_of(given["repair"]))
    except ValueError as fault:
        raise ValueError(front + str(fault)) from None


def settings_in(table: Any, tables: Any) -> Settings:
    """The settings in the tables [centre] and [[station]]. Raises ValueError."""
    if not isinstance(table, dict):
        raise ValueError("centre is no [centre]")
    if not isinstance(tables, list) or not all(isinstance(each, dict) for each in tables):
        raise ValueError("station is no [[station]]")
    values: dict[str, Any] = {}
    for key, value in table.items():
        if key in TIMES:
            values[TIMES[key]] = duration(str(value))
        elif key == "most":
            values[key] = size(str(value))
        elif key not in TEXTS and key not in PATHS:
            raise ValueError(f"[centre]: there is no setting {key}")
        else:
            values[TEXTS.get(key, key)] = text(f"[centre]: {key}", value)
    if "folder" not in values:
        raise ValueError("[centre] has no folder, where all is kept")
    values["folder"] = os.path.abspath(values["folder"])
    files = values.get("files") or os.path.join(values["folder"], "files")
    values["files"] = os.path.abspath(files)
    stations = [station_of(each, values["folder"]) for each in tables]
    names = [station.name for station, _ in stations]
    if not names:
        raise ValueError("there is no [[station]]")
    if len(names) > MOST_STATIONS:
        raise ValueError(f"there are more than {MOST_STATIONS} [[station]]")
    if len(set(names)) < len(names):
        raise ValueError("two [[station]] have one name")
    status = {station.name: path for station, path in stations}
    return Settings(stations=tuple(it for it, _ in stations), status=status, **values)


def text(what: str, value: Any) -> str:
    """A setting that is text. Raises ValueError if it is none."""
    if not isinstance(value, str) or not value:
        raise ValueError(f"{what} is no text")
    return value


def station_of(table: dict[str, Any], centre: str) -> tuple[Station, str]:
    """A station, and the path of its status. `centre` is the folder of the centre."""
    unknown = table.keys() - {*OF_STATION}
    if unknown:
        raise ValueError(f"[[station]]: there is no setting {min(unknown)}")
    name = text("[[station]]: name", table.get("name"))
    if not NAME.fullmatch(name):
        told = "is no name of letters, digits and _ . -, of at most 63"
        raise ValueError(f"[[station]]: {name!r} {told}")
    ask = ssh_of(table["ssh"]) if "ssh" in table else ()
    if ask and ("folder" in table or "outbox" in table):
        raise ValueError(f"[[station]]: {name} has ssh, and so no folder")
    own = os.path.join(centre, "asked", name) if ask else None
    folder = os.path.abspath(own or text("[[station]]: folder", table.get("folder")))
    is_own = table.get("outbox", False)
    if not isinstance(is_own, bool):
        raise ValueError("[[station]]: outbox is true or false")
    status = text("[[station]]: status", table.get("status", os.path.join(folder, "status.json")))
    station = Station(name, folder, is_own, "outbox" if is_own else "", ask=ask)
    return station, os.path.abspath(status)


def ssh_of(value: Any) -> tuple[str, ...]:
    """The command that asks a station: `value` is user@host, or words of ssh of which that is the
    last one."""
    words = [value] if isinstance(value, str) else value
    if not isinstance(words, list) or not all(isinstance(it, str) and it for it in words):
        raise ValueError("[[station]]: ssh is user@host, or a list of words that ends in it")
    if not words or not HOST.fullmatch(words[-1]):
        raise ValueError(f"[[station]]: ssh: {(words or [''])[-1]!r} is no user@host")
    return (*SSH, *words[:-1], *LIMITS, words[-1], *REMOTE)
