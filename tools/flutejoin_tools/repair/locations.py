"""Where FDT Instances say that files lie, beside their Content-Location (3GPP TS 26.346, 7.2.10).

A File has elements Alternate-Content-Location-1 and -2, whose text is a place, or which have
elements Alternate-Content-Location; the FDT Instance has Base-URL-1 and -2, which a place may be
relative to. All are known by their local names, and are taken as attributes too. None of them is
trusted: each becomes a URL that is checked (`origins`).
"""
from __future__ import annotations

import contextlib
from typing import BinaryIO, Dict, Iterator, List, NamedTuple, Optional, Sequence, Tuple

from flutejoin_tools.fdt import fdt
from flutejoin_tools.repair.origins import Refused, joined

ALTERNATES = "Alternate-Content-Location-1", "Alternate-Content-Location-2"
INNER = "Alternate-Content-Location"
BASES = "Base-URL-1", "Base-URL-2"
MOST_PLACES = 8  # of a file, and of an FDT Instance
MOST_TEXTS = 1 << 20  # characters of all that are kept of an FDT Instance


class Places(NamedTuple):
    """The texts of an FDT Instance: of each file by its TOI, and the bases of all."""

    of_files: Dict[int, List[str]]
    bases: List[str]


class Reader(fdt.Reader):
    """Reads an FDT Instance, and keeps where its files lie."""

    def __init__(self, budget: fdt.XmlBudget) -> None:
        super().__init__(budget)
        self.parser.CharacterDataHandler = self.take
        self.places = Places({}, [])
        self.current: List[str] = []  # the places of the File element that is read
        self.text: List[str] = []  # of the element that is read, and its length
        self.length = 0
        self.is_wanted, self.texts = False, 0

    def start(self, name: str, attributes: Dict[str, str]) -> None:
        """Takes the start of an element: called by the parser."""
        super().start(name, attributes)
        local, named = name.rpartition(":")[2], fdt.local_names(attributes)
        if self.depth == 1:
            for each in BASES:
                self.keep(self.places.bases, named.get(each, ""))
        elif self.depth == 2 and local == "File":
            self.current = []
            toi = fdt.number(named.get("TOI", ""), fdt.ENDS[0]) or 0
            if toi in self.files and toi not in self.places.of_files:
                self.places.of_files[toi] = self.current
            for each in ALTERNATES:
                self.keep(self.current, named.get(each, ""))
        self.is_wanted = local in BASES if self.depth == 2 else local in (*ALTERNATES, INNER)
        self.text, self.length = [], 0

    def take(self, text: str) -> None:
        """Takes text of an element: called by the parser."""
        if self.is_wanted and self.length <= fdt.MOST_LOCATION:
            self.text.append(text)
            self.length += len(text)

    def end(self, name: str) -> None:
        """Takes the end of an element: called by the parser."""
        if self.is_wanted:
            places = self.places.bases if self.depth == 2 else self.current
            self.keep(places, "".join(self.text))
        self.is_wanted, self.text = False, []
        super().end(name)

    def keep(self, places: List[str], text: str) -> None:
        """Adds a place, unless there are too many, or it is too long."""
        text = text.strip(" \t\r\n")
        if not text or len(text) > fdt.MOST_LOCATION or len(places) >= MOST_PLACES:
            return
        self.texts += len(text)
        if self.texts <= MOST_TEXTS:
            places.append(text)


def read_from(
    file: BinaryIO, number: Optional[int], name: str, budget: fdt.XmlBudget
) -> Tuple[fdt.Instance, Places]:
    """Reads an FDT Instance, and where its files lie. Raises fdt.Refused, and fdt.Spent."""
    reader = Reader(budget)
    reader.read(file)
    instance = fdt.Instance(number, name, reader.expires, reader.files, reader.notes)
    of_files = {toi: places for toi, places in reader.places.of_files.items() if places}
    return instance, reader.places._replace(of_files=of_files)


def urls_of(location: str, alternates: Sequence[str], bases: Sequence[str]) -> Iterator[str]:
    """Yields the URLs that places of a file may be: each as it is, or relative to each base."""
    for place in dict.fromkeys([location.strip(" "), *alternates]):
        if "://" in place.partition("?")[0]:
            yield place
            continue
        for base in bases:
            with contextlib.suppress(Refused):
                yield joined(base, place)
