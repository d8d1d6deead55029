"""What the command lines and the file of settings of flutejoin-receive and -station ask for."""
from __future__ import annotations

import argparse
import ipaddress
from typing import Any, Callable, Container, Iterator, Optional

from flutejoin_tools.common.addresses import IPAddress
from flutejoin_tools.common.disk import MOST_BYTES
from flutejoin_tools.common.options import CommandLine
from flutejoin_tools.common.texts import shown
from flutejoin_tools.formats.adapting import WITHOUT_CHANGE
from flutejoin_tools.receive.found import address_of
from flutejoin_tools.receive.reserve import NOTHING, reserve
from flutejoin_tools.receive.sdp import read as read_sdp
from flutejoin_tools.receive.sdp import sessions_in

OF_SESSION = "group", "port", "from", "interface", "sdp", "folder"
OF_STATION = (
    *("every", "window", "keep-raw", "keep-free", "most", "nightly", "outbox", "tsi", "status"),
    *("flutejoin", "deliver", "on-file"),
)


def number_within(least: int, most: int) -> Callable[[str], int]:
    """Returns what reads an option's value as a number within bounds."""

    def number(text: str) -> int:
        if not text.isascii() or not text.isdigit() or not least <= int(text) <= most:
            raise argparse.ArgumentTypeError(f"{text!r} is not a number from {least} to {most}")
        return int(text)

    return number


def seconds(text: str) -> float:
    """An option's value as a number of seconds."""
    value = float(text)
    if not 0 <= value <= 1e9:
        raise argparse.ArgumentTypeError(f"{text!r} is not a number of seconds")
    return value


def plain_address(text: str) -> IPAddress:
    """An option's value as an address that names no link."""
    if "%" in text:
        raise argparse.ArgumentTypeError(f"{text}: name the link by --interface")
    try:
        return address_of(text)
    except ValueError:
        raise argparse.ArgumentTypeError(f"{text!r} is not an address")


def name(text: str) -> str:
    """An option's value as a name, without a NUL."""
    if "\0" in text:
        raise argparse.ArgumentTypeError(f"{text!r} is no name")
    return text


def interface_version(text: Optional[str]) -> Optional[int]:
    """The version of IP of an interface's address; None if it is a name."""
    try:
        return ipaddress.ip_address(text).version if text else None
    except ValueError:
        return None


class SessionOptions:
    """What is received at one port, and in which folder it is kept."""

    def __init__(
        self,
        port: int,
        group: Optional[IPAddress] = None,
        sender: Optional[IPAddress] = None,
        interface: Optional[str] = None,
        folder: str = "",
    ) -> None:
        self.port, self.group, self.sender = port, group, sender
        self.interface: Optional[str] = interface
        self.folder, self.buffer = folder, BUFFER
        self.as_received = False

    def wrong(self) -> Optional[str]:
        """Which of these options contradict each other, as a message; None if they fit."""
        group, sender = self.group, self.sender
        if group and not group.is_multicast:
            return f"argument --group: {group} is no multicast group"
        if sender and sender.is_multicast:
            return f"argument --from: {sender} is a group, and no sender"
        if group and sender and group.version != sender.version:
            return "argument --from: the group is of the other version of IP"
        if group and interface_version(self.interface) not in (None, group.version):
            return "argument --interface: the group is of the other version of IP"
        return None


# Type, name of the value, and help of each option that the file of settings may have too
SETTINGS = {
    "group": (
        plain_address,
        "ADDRESS",
        "the multicast group to join (default: none; what is sent to this machine is received)",
    ),
    "port": (number_within(1, 65535), "N", "the UDP port"),
    "from": (plain_address, "SENDER", "the one sender whose datagrams are kept"),
    "interface": (
        name,
        "NAME_OR_ADDRESS",
        "the interface to receive on, by its name or one of its addresses (default: with --group "
        "as the system chooses, and else all)",
    ),
    "sdp": (
        name,
        "FILE",
        "take group, port and sender from a session description (RFC 8866; source filters: RFC "
        "4570), in their place; one session for each of its media of FLUTE/UDP",
    ),
    "folder": (
        name,
        "FOLDER",
        "where the files go (default: the current folder); it is made, in a folder that is there",
    ),
    "senders": (
        number_within(1, 500),
        "N",
        "keep the datagrams of N senders at a time (default: 64)",
    ),
    "split": (
        number_within(1, MOST_BYTES),
        "BYTES",
        "the most bytes of a file (default and most: 4294967295), but at least one datagram; and "
        "never more than 16,777,216 datagrams, which flutejoin reads of one file",
    ),
    "most": (
        number_within(1, 1 << 62),
        "BYTES",
        "keep datagram files that take at most so many bytes of the disk, by its blocks, or one "
        "datagram that has more: the oldest files are removed before more is written (default: all "
        "are kept); then a file has a quarter of it at most",
    ),
    "keep-free": (
        reserve,
        "BYTES",
        "write nothing that leaves less of the disk free, in bytes, as 2G, or of all, as 5%% "
        "(default: 0), so that others have room there, as the joins of a station",
    ),
    "buffer": (
        number_within(1, (1 << 30) - 1),
        "BYTES",
        "the receive buffer to ask the system for (default: 16777216)",
    ),
    "status": (
        name,
        "FILE",
        "write there each 10 seconds what came, as JSON; SIGUSR1 tells the same",
    ),
}
AS_RECEIVED, KEEP_FREE = "as-received", "keep-free"
BUFFER = 1 << 24  # bytes
DEFAULTS = {
    "folder": ".", "senders": 64, "split": MOST_BYTES, "buffer": BUFFER, "keep-free": NOTHING
}


def command_line(description: str, epilog: str) -> argparse.Namespace:
    """The options of a run: `sessions`, and those that concern the whole run."""
    parser = CommandLine("flutejoin-receive", description, epilog)
    for key, (kind, metavar, text) in SETTINGS.items():
        word = "-o" if key == "folder" else f"--{key}"
        action = "append" if key in OF_SESSION[:5] else "store"
        parser.add_argument(
            word, dest=key, type=kind, metavar=metavar, help=text, action=action
        )
    parser.add_argument(f"--{AS_RECEIVED}", action="store_true", help=WITHOUT_CHANGE)
    parser.add_argument(
        "--count",
        type=number_within(1, 1 << 62),
        metavar="N",
        help="end once N datagrams were kept",
    )
    parser.add_argument("--seconds", type=seconds, metavar="S", help="end after S seconds")
    parser.add_argument(
        "--config",
        metavar="FILE",
        help="take settings from a file of TOML: the options above by their names, and for each "
        "session a table [[session]] with port, group, from, interface and folder",
    )
    options = parser.parse_args()
    try:
        complete(options)
    except ValueError as fault:
        parser.error(str(fault))
    return options


def complete(options: argparse.Namespace) -> None:
    """Adds the settings of the file, and the defaults."""
    file = read_config(options.config) if options.config is not None else {}
    file.pop("station", None)  # settings of flutejoin-station
    file.pop("same", None)
    file.pop("repair", None)
    tables = file.pop("session", [])
    if not isinstance(tables, list) or not all(isinstance(table, dict) for table in tables):
        raise ValueError(f"{shown(options.config)}: session is no [[session]]")
    as_received = file.pop(AS_RECEIVED, False)
    if not isinstance(as_received, bool):
        raise ValueError(f"{shown(options.config)}: {AS_RECEIVED} is true or false")
    options.as_received = options.as_received or as_received
    given = {key: value_of(options.config, key, file[key]) for key in file}
    for key in ("folder", "senders", "split", "most", KEEP_FREE, "buffer", "status"):
        if getattr(options, key) is None:
            setattr(options, key, given.get(key, DEFAULTS.get(key)))
    options.sessions = sessions_of(options)
    for table in tables:
        options.sessions += sessions_in_table(options.config, table)
    if not options.sessions:
        raise ValueError("the following arguments are required: --port, --sdp or --config")
    if options.most is not None:
        options.split = min(options.split, max(1, options.most // 4))
    for session in options.sessions:
        session.buffer, session.folder = options.buffer, session.folder or options.folder
        session.as_received = options.as_received
        wrong = session.wrong()
        if wrong:
            raise ValueError(wrong)


def sessions_in_table(path: str, table: dict[str, Any]) -> list[SessionOptions]:
    """The sessions of a table [[session]]. Raises ValueError."""
    fields = {key: value_of(path, key, table[key], OF_SESSION) for key in table}
    description = fields.pop("sdp", None)
    if description is not None:
        for key in "port", "group", "from":
            if key in fields:
                raise ValueError(f"{shown(path)}: a [[session]] has sdp, and {key} beside it")
        return sessions_described(description, **fields)
    if "port" not in fields:
        raise ValueError(f"{shown(path)}: a [[session]] has no port")
    fields["sender"] = fields.pop("from", None)
    return [SessionOptions(**fields)]


def sessions_described(
    path: str, interface: Optional[str] = None, folder: str = ""
) -> list[SessionOptions]:
    """The sessions of a session description, each once. Raises ValueError."""
    found = dict.fromkeys((it.port, it.group, it.sender) for it in read_sdp(path))
    return [SessionOptions(*each, interface, folder) for each in found]


def sessions_of(options: argparse.Namespace) -> list[SessionOptions]:
    """The sessions of the command line. Raises ValueError.

    Options that were given several times belong together in their order; an option that was given
    once belongs to all sessions.
    """
    if options.sdp:
        return sessions_of_descriptions(options)
    lists = {key: getattr(options, key) or [None] for key in ("port", "group", "from", "interface")}
    if lists["port"] == [None]:
        if any(values != [None] for values in lists.values()):
            raise ValueError("the following arguments are required: --port")
        return []
    count = max(map(len, lists.values()))
    for key, values in lists.items():
        if len(values) not in (1, count):
            raise ValueError(f"argument --{key}: is given {len(values)} times, and not {count}")
    columns = (values if len(values) == count else values * count for values in lists.values())
    return [
        SessionOptions(port, group, sender, interface)
        for port, group, sender, interface in zip(*columns)
    ]


def sessions_of_descriptions(options: argparse.Namespace) -> list[SessionOptions]:
    """The sessions of the files of --sdp, each with its --interface. Raises ValueError."""
    for key in "port", "group", "from":
        if getattr(options, key):
            raise ValueError(f"argument --{key}: not allowed with argument --sdp")
    interfaces = options.interface or [None]
    if len(interfaces) not in (1, len(options.sdp)):
        told = f"is given {len(interfaces)} times, and not {len(options.sdp)}"
        raise ValueError(f"argument --interface: {told}")
    interfaces *= len(options.sdp) // len(interfaces)
    return [
        session
        for path, interface in zip(options.sdp, interfaces)
        for session in sessions_described(path, interface)
    ]


def read_config(path: str) -> dict[str, Any]:
    """The settings in a file of TOML. Raises ValueError."""
    try:
        import tomllib
    except ImportError:
        raise ValueError("argument --config: needs Python 3.11 or later") from None
    try:
        with open(path, "rb") as file:
            settings = tomllib.load(file)
    except OSError as fault:
        raise ValueError(f"argument --config: {shown(path)}: {fault.strerror}") from None
    except ValueError as fault:  # not UTF-8, or not TOML
        raise ValueError(f"argument --config: {shown(path)}: {fault}") from None
    except RecursionError:
        raise ValueError(f"argument --config: {shown(path)}: is nested too deeply") from None
    wrong = with_nul(settings)
    if wrong is not None:
        raise ValueError(f"argument --config: {shown(path)}: {wrong} is no name")
    return dict(settings)


def with_nul(settings: dict[str, Any]) -> Optional[str]:
    """A setting with a NUL in it, which no path and no interface may have."""
    waiting: list[tuple[str, Any]] = list(settings.items())
    while waiting:
        key, value = waiting.pop()
        if isinstance(value, dict):
            waiting += value.items()
        elif isinstance(value, list):
            waiting += [(key, each) for each in value]
        if "\0" in key or isinstance(value, str) and "\0" in value:
            return f"{key}: {value!r}"
    return None


def value_of(path: str, key: str, value: Any, keys: Container[str] = tuple(SETTINGS)) -> Any:
    """A value of the file of settings, as the option of that name takes it. Raises ValueError."""
    at = f"argument --config: {shown(path)}: {key}"
    if key not in keys or keys is not OF_SESSION and key in OF_SESSION[:5]:
        raise ValueError(f"{at}: there is no such setting there")
    if not isinstance(value, (str, int)) or isinstance(value, bool):
        raise ValueError(f"{at}: is no number and no text")
    try:
        return SETTINGS[key][0](str(value))
    except (ValueError, argparse.ArgumentTypeError) as fault:
        raise ValueError(f"{at}: {fault}") from None


def words_of_station(path: str) -> Iterator[str]:
    """Yields the settings of a station from a file, as words of its command line.

    Raises ValueError.
    """
    settings = read_config(path)
    tables, table = settings.get("session", []), settings.get("station", {})
    if not isinstance(tables, list) or not all(isinstance(each, dict) for each in tables):
        raise ValueError(f"{path}: session is no [[session]]")
    if not isinstance(table, dict):
        raise ValueError(f"{path}: station is no [station]")
    if "most" in settings or any("folder" in each for each in [settings, *tables]):
        told = "a station chooses folder by itself, and most is a setting of [station]"
        raise ValueError(f"{path}: {told}")
    if "tsi" not in table and tables and all(isinstance(each.get("sdp"), str) for each in tables):
        yield from (f"--tsi={tsi}" for tsi in sessions_in(each["sdp"] for each in tables))
    for senders in same_senders(path, settings.get("same", [])):
        yield f"--same={senders}"
    for key in table:
        if key not in OF_STATION:
            raise ValueError(f"{path}: [station]: there is no setting {key}")
        for value in table[key] if isinstance(table[key], list) else [table[key]]:
            if key != "outbox":
                yield f"--{key}={value}"
            elif not isinstance(value, bool):
                raise ValueError(f"{path}: [station]: outbox is true or false")
            elif value:
                yield "--outbox"


def same_senders(path: str, tables: Any) -> Iterator[str]:
    """Yields the senders of each [[same]], with commas between. Raises ValueError."""
    for table in tables if isinstance(tables, list) else [None]:
        senders = table.get("senders") if isinstance(table, dict) and len(table) == 1 else None
        if not isinstance(senders, list) or not all(isinstance(it, str) for it in senders):
            raise ValueError(f"{path}: [[same]] has one setting, senders, a list of addresses")
        yield ",".join(senders)
