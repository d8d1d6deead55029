"""Pictures of files that are not whole, beside the page of a centre: what each station has, and all
together, as flutejoin-map draws it. They are bounded in number and bytes, and go once a file is
whole."""
from __future__ import annotations

import os
import re
import time
from typing import Callable, Iterable, Iterator, Optional, Tuple

from flutejoin_tools.centre.symbols import Symbols
from flutejoin_tools.common.file_names import PARTIAL
from flutejoin_tools.common.gaps import MISSING
from flutejoin_tools.common.outputs import replace_text
from flutejoin_tools.common.shelves import remove
from flutejoin_tools.common.texts import shown
from flutejoin_tools.formats.partition import Partition
from flutejoin_tools.journals.holdings import Key
from flutejoin_tools.map.grids import Grid, partition_words
from flutejoin_tools.map.pictures import Drawing, Left, Panel, shape, svg_lines
from flutejoin_tools.pages.model import Model, Row

FOLDER = "pictures"
MOST = 64  # pictures: of the files that come first on the page
MOST_BYTES = 1 << 20  # of a picture
MOST_STATIONS = 15  # in a picture: those that have most
FINENESS = 4  # a picture has as many cells as one of so many objects
SECONDS = 0.5  # of drawing in a round; what is left is drawn in the next ones
NAME = re.compile(r"[0-9a-f]{32}-\d{1,15}-\d{1,34}\.svg", re.ASCII)


def name_of(key: Key) -> str:
    """The name of an object's picture."""
    return f"{key.source.hex()}-{key.tsi}-{key.number}.svg"


class Pictures:
    """The folder `pictures` beside a page."""

    def __init__(self, folder: str, model: Model) -> None:
        self.folder, self.model = os.path.join(folder, FOLDER), model
        self.made: dict[Key, Row] = {}  # the rows that were drawn

    def draw(self, rows: Iterable[Row], seconds: float = SECONDS) -> None:
        """Draws the first of these rows that changed, and removes other pictures. Raises OSError.

        Some stay as they were if there is no time for them.
        """
        chosen = {row.key: row for row in self.chosen(rows)}
        os.makedirs(self.folder, exist_ok=True)
        names = {name_of(key) for key in chosen}
        for name in os.listdir(self.folder):
            if name not in names and (NAME.fullmatch(name) or name.endswith(PARTIAL)):
                remove(os.path.join(self.folder, name))
        self.made = {key: row for key, row in self.made.items() if key in chosen}
        end = time.monotonic() + seconds
        for key, row in chosen.items():
            if time.monotonic() >= end:
                return
            if self.made.get(key) != row:
                self.draw_one(key, row)

    def chosen(self, rows: Iterable[Row]) -> Iterator[Row]:
        """The files that get a picture: those that are there in part, up to a number."""
        left = MOST
        for row in rows:
            if row.percent and row.shares and left:
                left -= 1
                yield row

    def draw_one(self, key: Key, row: Row) -> None:
        """Draws an object; without a row for each station if that is too long."""
        text = self.text(key, row, MOST_STATIONS)
        if text is not None and len(text) > MOST_BYTES:
            text = self.text(key, row, 0)
        path = os.path.join(self.folder, name_of(key))
        if text is None or len(text) > MOST_BYTES:
            remove(path)
            return
        replace_text(path, text)
        self.made[key] = row

    def has(self, key: Key) -> bool:
        return key in self.made

    def text(self, key: Key, row: Row, most: int) -> Optional[str]:
        """The picture, with at most so many stations. None if the object's length is unknown."""
        deliverer = self.model.deliverer
        union = deliverer.union.get(key, Symbols())
        partition = self.model.partition(key, union)
        if partition is None:
            return None
        names = sorted(row.shares, key=lambda it: -row.shares[it])[:most]
        holdings = {it.station.name: it.symbols().get(key, Symbols()) for it in deliverer.arrivals}
        sizes = shape(len(names) + 1, FINENESS)
        panels = [panel("all joined", union, partition, sizes, True)]
        panels += [panel(name, holdings[name], partition, sizes, False) for name in names]
        left = len(row.shares) - len(names)
        notes = [f"{left} more stations have some of it."] if left and most else []
        title = shown(row.name or key.text())
        drawing = Drawing(title, partition_words(partition), panels)
        lines = svg_lines(f"What is missing: {title}", [drawing], notes, Left(0, 0))
        return "".join(f"{line}\n" for line in lines)


# How many rows a grid may have, and how many columns then
Shape = Tuple[int, Callable[[int], int]]


def panel(
    name: str, symbols: Symbols, partition: Partition, sizes: Shape, is_all: bool
) -> Panel:
    """A panel of what a station, or all together, have of an object."""
    grid = Grid(partition, *sizes)
    for block in range(partition.blocks):
        for first, last in symbols.runs_missing(partition, block):
            grid.add(block, first, last, MISSING)
    return Panel(shown(name), "whole" if not grid.counts[MISSING] else "partial", grid, is_all)
