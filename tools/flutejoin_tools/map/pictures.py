"""Draws what stations hold of objects, as a page of SVG and as text.

Source blocks are rows of cells.
"""
from __future__ import annotations

import html
import math
from typing import Callable, Iterator, NamedTuple

from flutejoin_tools.common.gaps import CONFLICTING, HELD, MISFIT, MISSING
from flutejoin_tools.map.grids import NAMES, Counts, Grid, scales

# They differ in lightness too, for readers who see fewer colours, and on paper.
COLOURS = ("#7db8dc", "#c44500", "#1a1a1a", "#ffe436")
SIGNS = ("#", ".", "!", "?")


class Panel(NamedTuple):
    """The panel of a station, or of all stations: its name, its words, and its grid.

    There is no grid if the object's symbols are not known.
    """

    name: str
    words: str
    grid: Grid | None
    is_all: bool


class Drawing(NamedTuple):
    """An object that is drawn, or an overview of many: its title, its words, and its panels.

    `is_whole` drawings are left out first if a page has no room.
    """

    title: str
    words: str
    panels: list[Panel]
    is_whole: bool = False

    def scale(self) -> str:
        return scales(panel.grid for panel in self.panels)


class Left(NamedTuple):
    """How many objects are not drawn, and how many of them are whole."""

    objects: int
    whole: int

    def notes(self) -> Iterator[str]:
        """Yields a line about the objects that are not drawn."""
        if self.objects:
            yield (
                f"{self.objects} more objects are not drawn, {self.whole} of them whole; "
                "--tsi and --toi name one"
            )


# Text

TEXT_ROWS, TEXT_COLUMNS = 64, 64  # of a panel with characters, at most


def kinds_words(names: tuple[str, ...]) -> str:
    """The legend: the kind that each sign means."""
    return "  ".join(f"{sign} {name}" for sign, name in zip(SIGNS, names))


def text_lines(title: str, drawings: list[Drawing], notes: list[str]) -> Iterator[str]:
    """Yields the lines of the pictures with characters."""
    yield title
    yield f"{kinds_words(NAMES)}  1 to 9 of several symbols: tenths missing"
    for drawing in drawings:
        yield ""
        yield f"{drawing.title}: {drawing.words}" if drawing.words else drawing.title
        scale = drawing.scale()
        if scale:
            yield scale
        for panel in drawing.panels:
            yield ""
            yield from panel_lines(panel, scale)
    if notes:
        yield ""
        yield from notes


def panel_lines(panel: Panel, scale: str) -> Iterator[str]:
    """Yields the lines of one panel with characters."""
    if not panel.grid:
        yield f"{panel.name}: {panel.words}"
        return
    yield f"{panel.name}: {panel.words}: {panel.grid.words()}"
    if not scale and panel.grid.rows:
        yield panel.grid.scale_words()
    for row in range(panel.grid.rows):
        yield f"{panel.grid.label(row):>7} |{''.join(map(sign, panel.grid.row_cells(row)))}|"


def sign(counts: Counts) -> str:
    """The sign of a cell. Rare kinds that matter most have priority."""
    for reason in (CONFLICTING, MISFIT):
        if counts[reason]:
            return SIGNS[reason]
    if counts[HELD] and counts[MISSING]:
        return str(min(9, max(1, round(10 * counts[MISSING] / sum(counts)))))
    return SIGNS[HELD] if counts[HELD] else SIGNS[MISSING]


# SVG

WIDTH, MARGIN, LABEL = 1280, 24, 46  # pixels
MOST_ROWS = 64  # of cells
LEAST_CELL, MOST_CELL = 3, 18  # pixels
LEAST_ROW, LEAST_SHARED_ROW = 6, 12  # high enough to show shares
MOST_CELLS = 40000  # of a page, which limits it to a few megabytes
MOST_HEIGHT = 32000  # of a page; some programs show no more than 32,767


def per_line(panels: int) -> int:
    """How many panels stand side by side."""
    return min(panels, 4)


def plot_width(panels: int) -> int:
    """The width of a panel's grid."""
    return (WIDTH - MARGIN) // per_line(panels) - LABEL - MARGIN


def shape(panels: int, objects: int) -> tuple[int, Callable[[int], int]]:
    """How many rows a grid may have, and a function from that to the number of columns."""
    cells = max(64, min(6144, MOST_CELLS // (panels * objects)))
    rows = min(MOST_ROWS, max(8, math.isqrt(cells)))
    columns = plot_width(panels) // LEAST_CELL
    return rows, lambda count: min(columns, max(8, cells // max(1, count)))


def placed(drawings: list[Drawing], top: float) -> tuple[list[str], float, Left]:
    """Places drawings one below the other: the lines, the end, and what has no room.

    Whole objects are left out first.
    """
    made = [drawing_svg(drawing) for drawing in drawings]
    order = sorted(range(len(drawings)), key=lambda place: drawings[place].is_whole)
    end = top
    kept: set[int] = set()
    for place in order:
        if kept and end + made[place][1] > MOST_HEIGHT:
            continue
        kept.add(place)
        end += made[place][1]
    body = []
    for place in sorted(kept):
        lines, height = made[place]
        label = html.escape(drawings[place].title)
        body += [f'<g role="group" aria-label="{label}" transform="translate(0,{top:g})">', *lines]
        body.append("</g>")
        top += height
    left = [drawing for place, drawing in enumerate(drawings) if place not in kept]
    return body, top, Left(len(left), sum(drawing.is_whole for drawing in left))


def svg_lines(title: str, drawings: list[Drawing], notes: list[str], left: Left) -> Iterator[str]:
    """Yields the lines of the page. `left` counts objects that are already left out."""
    body, top, more = placed(drawings, 84)
    for note in [*notes, *Left(left.objects + more.objects, left.whole + more.whole).notes()]:
        top += 22
        body.append(text(MARGIN, top, note))
    height = top + MARGIN
    yield '<?xml version="1.0" encoding="UTF-8"?>'
    yield (
        f'<svg xmlns="http://www.w3.org/2000/svg" width="{WIDTH}" height="{height}" '
        f'viewBox="0 0 {WIDTH} {height}" role="img" shape-rendering="crispEdges" '
        'font-family="DejaVu Sans, Verdana, Arial, sans-serif" font-size="12" fill="#222">'
    )
    yield f"<title>{html.escape(title)}</title>"
    yield (
        "<desc>Each row of cells is a source block, or several. A cell has the colour of its "
        "symbol; one of several symbols shows the share of each kind.</desc>"
    )
    yield f'<rect width="{WIDTH}" height="{height}" fill="#fff"/>'
    yield text(MARGIN, 32, title, 'font-size="18" font-weight="bold"')
    for number, name in enumerate(NAMES):
        yield swatch(MARGIN + 110 * number, 48, number, name)
    yield text(MARGIN + 110 * len(NAMES), 58, "A cell of several symbols shows the share of each.")
    yield from body
    yield "</svg>"


def text(x: float, y: float, words: str, more: str = "") -> str:
    """An element of text."""
    return f'<text x="{x:g}" y="{y:g}"{" " + more if more else ""}>{html.escape(words)}</text>'


def swatch(x: float, y: float, kind: int, words: str) -> str:
    """A square in the colour of a kind, and its words: for the legend."""
    square = (
        f'<rect x="{x:g}" y="{y:g}" width="11" height="11" fill="{COLOURS[kind]}" '
        'stroke="#555" stroke-width=".5"/>'
    )
    return square + text(x + 16, y + 10, words)


def drawing_svg(drawing: Drawing) -> tuple[list[str], float]:
    """Draws an object, and returns its lines and its height."""
    body: list[str] = []
    top: float = 24
    body.append(f'<path d="M{MARGIN} {top - 20}H{WIDTH - MARGIN}" stroke="#bbb"/>')
    body.append(text(MARGIN, top, drawing.title, 'font-size="15" font-weight="bold"'))
    scale = drawing.scale()
    for words in (drawing.words, scale and scale[0].upper() + scale[1:] + "."):
        if words:
            top += 17
            body.append(text(MARGIN, top, words))
    line, width = per_line(len(drawing.panels)), plot_width(len(drawing.panels))
    lefts = [MARGIN + place * ((WIDTH - MARGIN) // line) for place in range(line)]
    for begin in range(0, len(drawing.panels), line):
        panels = drawing.panels[begin : begin + line]
        ends = [
            panel_svg(body, panel, left, top + 26, width, scale)
            for left, panel in zip(lefts, panels)
        ]
        top = max(ends, default=top)
    return body, top + 8


def panel_svg(body: list[str], panel: Panel, x: float, y: float, width: int, scale: str) -> float:
    """Draws a panel into `body`, and returns where it ends."""
    grid = panel.grid
    told = f"{panel.name}: {panel.words}" + (f": {grid.words()}" if grid else "")
    body.append(f'<g><title>{html.escape(told)}</title>')
    style = 'font-size="13" font-weight="bold"' + (' fill="#004a80"' if panel.is_all else "")
    body.append(text(x, y, shortened(panel.name, (width + LABEL) // 8), style))
    for words in wrapped(panel.words, (width + LABEL) // 7):
        y += 16
        body.append(text(x, y, words))
    if grid:
        for number, count in enumerate(grid.counts):
            left, high = x + number % 2 * max(132, width // 3), y + 8 + number // 2 * 16
            body.append(swatch(left, high, number, f"{grid.names[number]} {count}"))
        y += 44
        if not scale and grid.rows:
            y += 12
            body.append(text(x, y, grid.scale_words()))
        y = grid_svg(body, grid, x + LABEL, y + 4, width)
    body.append("</g>")
    return y + 6


def grid_svg(body: list[str], grid: Grid, x: float, y: float, width: int) -> float:
    """Adds the rows of a grid to a page, and returns where they end."""
    if not grid.rows:
        return y
    cell = min(MOST_CELL, width / grid.columns)
    least = LEAST_ROW if grid.is_fine() else LEAST_SHARED_ROW
    height = max(least, min(MOST_CELL, 384 // grid.rows))
    if grid.is_fine():
        step = next(step for step in (1, 2, 5, 10, 20, 50, 100) if step * cell >= 30 or step == 100)
        y += 10
        for number in range(0, grid.columns, step):
            middle = x + (number + 0.5) * cell
            style = 'font-size="9" text-anchor="middle" fill="#666"'
            body.append(text(middle, y - 2, str(number), style))
    every = -(-12 // height)
    for row in range(grid.rows):
        at = y + row * height
        if row % every == 0:
            low = at + max(height - 1, 8) / 2 + 3
            style = 'font-size="9" text-anchor="end" fill="#666"'
            body.append(text(x - 5, low, str(grid.label(row)), style))
        for begin, end, counts in grid.row_runs(row):
            words = f"{grid.range_words(row, begin, end)}: {grid.words(counts, True)}"
            parts = bars(counts, x + begin * cell, x + end * cell, at, height - 1)
            body.append(f"<g><title>{html.escape(words)}</title>{''.join(parts)}</g>")
    if cell >= 5:
        lines = "".join(
            f"M{edge(x + number * cell)} {edge(y)}v{grid.rows * height}"
            for number in range(1, grid.columns)
        )
        body.append(f'<path d="{lines}" stroke="#fff" stroke-width=".8"/>')
    return y + grid.rows * height


def edge(place: float) -> str:
    """A coordinate as text.

    Two neighbours write the edge between them by the same number, so that they meet exactly.
    """
    return f"{place:.2f}".rstrip("0").rstrip(".")


def bars(counts: Counts, left: float, right: float, y: float, height: float) -> Iterator[str]:
    """Yields a bar for the share of each kind, one above the other.

    Even the smallest can be seen.
    """
    kinds = [kind for kind in (MISSING, CONFLICTING, MISFIT, HELD) if counts[kind]]
    parts = {kind: max(1, height * counts[kind] / sum(counts)) for kind in kinds}
    most = max(kinds, key=lambda kind: parts[kind])
    parts[most] -= sum(parts.values()) - height
    for kind, part in parts.items():
        outline = f"M{edge(left)} {edge(y)}H{edge(right)}V{edge(y + part)}H{edge(left)}Z"
        yield f'<path d="{outline}" fill="{COLOURS[kind]}"/>'
        y += part


def shortened(words: str, most: int) -> str:
    """Words shortened to `most` characters.

    A part of their beginning stays, and most of their end, in which the names of files differ.
    """
    if len(words) <= most:
        return words
    front = (most - 3) // 3
    return words[:front] + "..." + words[front + 3 - most :]


def wrapped(words: str, most: int) -> Iterator[str]:
    """Yields lines of about `most` characters."""
    line = ""
    for word in words.split():
        if line and len(line) + 1 + len(word) > most:
            yield line
            line = ""
        line = f"{line} {word}" if line else word
    yield line
