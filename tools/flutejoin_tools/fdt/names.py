"""Makes paths below a folder of the names that a sender gives its files (RFC 3986).

A name is text of whoever sent it. Its host and its path become a path that never leaves the folder,
and has no hidden files, control characters, or other unsafe bytes: these become `%` and two
hexadecimal digits. Several names may give one path; `assign` makes their paths different.
"""
from __future__ import annotations

import hashlib
import ipaddress
import re
from typing import Callable, NamedTuple, Optional, Sequence

from flutejoin_tools.common.file_names import stem
from flutejoin_tools.common.texts import has_bytes
from flutejoin_tools.journals.holdings import Key

MOST_PART, MOST_PATH = 180, 900  # bytes of a part of a path, and of a path
MOST_DEPTH = 16  # folders in one another
ENDING = 12  # bytes of an ending that a name keeps when it is shortened
INDEX = "index"  # the file name for a name that ends in a folder
UNVERIFIED = ".unverified"
FROM = ".from-"  # and a sender, whose file it is, where another sender has the name
OWN_ENDINGS = (".partial", UNVERIFIED)
OWN_SENDER = re.compile(r"\.from-[0-9A-Fa-f.-]*\Z")

URI = re.compile(
    r"(?:[A-Za-z][A-Za-z0-9+.-]*:)?(?://([^/?#]*))?([^?#]*)(\?[^#]*)?(?:#.*)?", re.DOTALL
)
ENCODED = re.compile(rb"%([0-9A-Fa-f]{2})")
ESCAPE_CUT = re.compile(r"%[0-9A-F]?\Z")


def decoded(text: str) -> str:
    """A text without percent-encoding. Bytes that are not UTF-8 become surrogates."""
    raw = ENCODED.sub(lambda of: bytes.fromhex(of[1].decode()), text.encode(errors="replace"))
    return raw.decode(errors="surrogateescape")


def encoded(text: str) -> str:
    """Text with each of its bytes percent-encoded."""
    return "".join(f"%{byte:02X}" for byte in text.encode(errors="surrogateescape"))


def is_safe(char: str) -> bool:
    return char.isprintable() and char not in "/%\\" and has_bytes(char)


def part(text: str) -> str:
    """A safe part of a path, from a text without percent-encoding."""
    chars = [char if is_safe(char) else encoded(char) for char in text]
    if chars and chars[0] in (".", "-"):
        chars[0] = encoded(chars[0])
    for ending in OWN_ENDINGS:
        if text.endswith(ending):
            chars[-len(ending)] = encoded(".")
    own = OWN_SENDER.search(text)
    if own:
        chars[own.start()] = encoded(".")
    # `~` marks the names that this module makes different.
    chars[1:] = [encoded(char) if char == "~" else char for char in chars[1:]]
    name = "".join(chars)
    return shortened(name, name) if len(name.encode()) > MOST_PART else name


def shortened(name: str, whole: str) -> str:
    """A name with its middle replaced by digits of a hash."""
    digits = hashlib.sha256(whole.encode()).hexdigest()[:16]
    _, dot, ending = name.rpartition(".")
    ending = dot + ending if len(ending.encode()) < ENDING else ""
    front = name.removesuffix(ending).encode()[: MOST_PART - len(ending.encode()) - 17]
    return f"{ESCAPE_CUT.sub('', front.decode(errors='ignore'))}~{digits}{ending}"


def path_of(location: str) -> str:
    """The path below a folder for a Content-Location."""
    uri = URI.fullmatch(location)
    assert uri, "it is of any text"
    authority, path, query = uri[1] or "", uri[2], uri[3] or ""
    steps: list[str] = []
    for step in path.split("/")[:-1]:
        descend(steps, decoded(step))
    last = decoded(path.rpartition("/")[2])
    is_folder = last in ("", ".", "..")
    descend(steps, last)
    if is_folder:
        steps.append(INDEX)
    steps[-1] += decoded(query)
    parts = [part(step) for step in steps]
    host = decoded(authority.rpartition("@")[2]).lower()
    if host:
        parts.insert(0, part(host))
    whole = "/".join(parts)
    if len(parts) > MOST_DEPTH or len(whole.encode()) > MOST_PATH:
        return "/".join([*parts[: bool(host)], shortened(parts[-1], whole)])
    return whole


def descend(steps: list[str], step: str) -> None:
    """Takes one step of a path, without leaving the folder (RFC 3986, section 5.2.4)."""
    if step == "..":
        del steps[-1:]
    elif step not in ("", "."):
        steps.append(step)


class Claim(NamedTuple):
    """A file that asks for the path that its description names.

    Claims are sorted by `certainty`, so of several for a path the first has it. `rank` decides
    between files of one name in a session: that of the newer FDT Instance has it.
    """

    key: Key
    path: str
    session: tuple[bytes, int]
    instance: str  # its FDT Instance; a later claim from another of the session is an older file
    rank: tuple[int, int]  # of that FDT Instance: the newer has the greater one (`fdt.Instance`)
    certainty: int  # that its file is right: 3 verified, 2 without MD5, 1 wrong, 0 not there
    mark: str  # added to the path if another claim has it


# The sender whose file has a path already; None if there is none, or that is unknown
OwnerOf = Callable[[str], Optional[bytes]]


class Paths(NamedTuple):
    """The paths of files."""

    by_object: dict[Key, str]
    owners: dict[Key, bytes]  # the sender that has the path that was asked for, if it is another
    replaced: set[Key]  # older files of the same name, which have no path


def folders_of(claims: Sequence[Claim]) -> set[str]:
    """The folders of the paths that claims ask for."""
    folders = set()
    for claim in claims:
        place = claim.path.find("/")
        while place >= 0:
            folders.add(claim.path[:place])
            place = claim.path.find("/", place + 1)
    return folders


def assign(claims: Sequence[Claim], owner_of: OwnerOf) -> Paths:
    """The path of each claim, of which earlier ones have priority.

    If another sender has the path, the claim's sender is added to it; if another claim of the same
    sender has it, or has a file below it, the claim's mark. A newer file that is not there yet
    does not replace an older one.
    """
    folders = folders_of(claims)
    taken: dict[str, Claim] = {}
    paths = Paths({}, {}, set())
    for claim in claims:
        owner, asked = owner_of(claim.path), claim.path
        if owner is None and asked in taken:
            owner = taken[asked].key.source
        is_of_other = owner not in (None, claim.key.source)
        if is_of_other:
            asked = f"{asked}{FROM}{stem_of(claim.key.source)}"
        first = taken.get(asked)
        if first and first.session == claim.session and first.instance != claim.instance:
            if claim.rank <= first.rank:
                paths.replaced.add(claim.key)
                continue
            if not claim.certainty:
                continue
        if owner and is_of_other:
            paths.owners[claim.key] = owner
        path, count = asked, 1
        while path in taken or path in folders:
            path = f"{asked}~{claim.mark}" + (f"-{count}" if count > 1 else "")
            count += 1
        taken[path] = claim
        paths.by_object[claim.key] = path
    return paths


def stem_of(source: bytes) -> str:
    """A sender's address as it is in names."""
    address = ipaddress.IPv6Address(source)
    return stem(str(address.ipv4_mapped or address))
