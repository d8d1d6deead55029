#!/usr/bin/env python3
"""Draws the crates of crates.txt by layers, as a picture of SVG: a crate is above those that it
uses. An arrow leads to each crate that is used, unless another one that is used leads there too.

usage: docs/pictures/crates.py > docs/pictures/crates.svg
"""
from __future__ import annotations

import pathlib

ROOT = pathlib.Path(__file__).resolve().parent.parent.parent
PROGRAM = "flutejoin_cli"
# Those of which the program doesn't consist, in dashed boxes; tests and samples have none.
BESIDE = "flute_memory", "flutejoin_c", "flutejoin_memory", "flutejoin_replicas"
# The column of a crate that is not in the first one
COLUMNS = {
    **{"flute_asides": 1, "flute_calls": 1, "flute_output": 1, "flutejoin_c": 1},
    **{"flutejoin_replicas": 1},
    **{"flute_memory": 2, "flutejoin_memory": 2},
}
WIDTH, HIGH, WIDE, STEP = 480, 26, 148, 46
STYLE = """\
  <style>
    text { font: 13px monospace; fill: #1f2328; text-anchor: middle }
    .ground { fill: #ffffff }
    .box { fill: #f6f8fa; stroke: #818b98 }
    .beside { stroke-dasharray: 4 3 }
    .way { fill: none; stroke: #59636e; stroke-width: 1.5 }
    .head { fill: #59636e }
    @media (prefers-color-scheme: dark) {
      text { fill: #f0f6fc }
      .ground { fill: #0d1117 }
      .box { fill: #151b23; stroke: #656c76 }
      .way { stroke: #9198a1 }
      .head { fill: #9198a1 }
    }
  </style>
  <marker id="head" markerWidth="8" markerHeight="8" refX="6" refY="4" orient="auto">
    <path class="head" d="M0 0.5L7 4L0 7.5z"/>
  </marker>"""


def crates() -> dict[str, list[str]]:
    """The crates of this repository, each with those that it uses."""
    lines = (ROOT / "crates.txt").read_text().splitlines()
    rows = {name.split()[0]: uses.split() for name, _, uses in (it.partition(":") for it in lines)}
    return {name: [it for it in uses if it in rows] for name, uses in rows.items()}


def all_used(rows: dict[str, list[str]], name: str) -> set[str]:
    """What a crate uses, itself or by others."""
    return {it for used in rows[name] for it in (used, *all_used(rows, used))}


def layer(rows: dict[str, list[str]], name: str) -> int:
    return max((layer(rows, used) + 1 for used in rows[name]), default=0)


def arrows(rows: dict[str, list[str]], name: str) -> list[str]:
    """The crates that it uses and that none of them uses."""
    used = rows[name]
    return [it for it in used if not any(it in all_used(rows, other) for other in used)]


def picture() -> str:
    rows = crates()
    drawn = [name for name in rows if name in (PROGRAM, *BESIDE, *all_used(rows, PROGRAM))]
    top = layer(rows, PROGRAM)
    gap = (WIDTH - 3 * WIDE) // 4

    def place(name: str) -> tuple[int, int]:
        """The middle of a box's upper edge."""
        column = COLUMNS.get(name, 0)
        left = gap + column * (WIDE + gap)
        return left + WIDE // 2, 8 + (top - layer(rows, name)) * STEP

    ways, boxes = [], []
    for name in drawn:
        x, y = place(name)
        kind = "box beside" if name in BESIDE else "box"
        boxes += [
            f'  <rect class="{kind}" x="{x - WIDE // 2}" y="{y}" width="{WIDE}" height="{HIGH}"/>',
            f'  <text x="{x}" y="{y + 18}">{name}</text>',
        ]
        for used in arrows(rows, name):
            to_x, to_y = place(used)
            aside = 70 if to_x > x else 0, 50 if to_x < x else 0
            at = f"M{x + aside[0]} {y + HIGH}L{to_x + aside[1]} {to_y - 1}"
            ways.append(f'  <path class="way" marker-end="url(#head)" d="{at}"/>')
    height = 8 + top * STEP + HIGH + 8
    size = f'width="{WIDTH}" height="{height}"'
    lines = [
        f'<svg xmlns="http://www.w3.org/2000/svg" {size}',
        f'  viewBox="0 0 {WIDTH} {height}" role="img">',
        "  <title>The crates, each above those that it uses</title>",
        STYLE,
        f'  <rect class="ground" {size}/>',
        *ways,
        *boxes,
        "</svg>",
    ]
    return "".join(f"{line}\n" for line in lines)


if __name__ == "__main__":
    print(picture(), end="")
