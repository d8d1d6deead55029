"""The page of a centre: HTML of one file, which needs no script to be read and nothing from
elsewhere. What a sender names is text in it, and never more."""
from __future__ import annotations

import base64
import hashlib
import html
import json
import urllib.parse
from typing import Any, Callable, Iterable, Optional, Sequence

from flutejoin_tools.centre.ledger import Delivery
from flutejoin_tools.common.texts import shown
from flutejoin_tools.files.session import address_of
from flutejoin_tools.journals.holdings import Key
from flutejoin_tools.pages.drawn import name_of as picture_name
from flutejoin_tools.pages.drawn import FOLDER
from flutejoin_tools.pages.health import Problem, since, size, waiting_line
from flutejoin_tools.pages.model import WRONG, Model, Row, StationRow
from flutejoin_tools.receive.status import instant

MOST_NAME = 200  # characters of a name
MOST_BYTES = 180_000  # of the rows of files that are not whole, and of the list that is searched
SHOWN = 100  # whole files that are there without a script
HEIGHT = 16  # of a bar


def text(value: object) -> str:
    """A text in HTML, without characters that can't be seen or that turn others around."""
    found = safe(str(value))
    found = found if len(found) <= MOST_NAME else f"{found[:MOST_NAME]}.."
    return html.escape(found, quote=True)


def safe(value: str) -> str:
    """A text as `shown` gives it, which most are already."""
    return value if value.isascii() and value.isprintable() else shown(value)


def strip(shares: dict[str, float], names: list[str]) -> str:
    """A bar for each station, as high as its share: it is read without colour too."""
    width = 6 if len(names) <= 16 else 3
    paths: dict[str, list[str]] = {"full": [], "part": [], "none": []}
    for kind, first, last, height in bars([shares.get(name, 0.0) for name in names]):
        long = (last - first + 1) * width - 1
        paths[kind].append(f"M{first * width} {HEIGHT - height}h{long}v{height}h-{long}z")
    drawn = "".join(f'<path class="{it}" d="{"".join(of)}"/>' for it, of in paths.items() if of)
    whole = sum(shares.get(name, 0.0) >= 100 for name in names)
    told = f"whole at {whole} of {len(names)} stations"
    least = min(names, key=lambda name: shares.get(name, 0.0))
    if whole < len(names):
        told += f"; least at {least}: {shares.get(least, 0.0):.1f} %"
    box = f'width="{len(names) * width}" height="{HEIGHT}"'
    return f'<svg role="img" aria-label="{text(told)}" {box}>{drawn}</svg>'


def bars(shares: list[float]) -> Iterable[tuple[str, int, int, int]]:
    """The kind of each bar, its first and last station, and its height. Like ones are one bar."""
    begin = 0
    for at in range(1, len(shares) + 1):
        if at < len(shares) and bar(shares[at]) == bar(shares[begin]):
            continue
        yield (bar(shares[begin])[0], begin, at - 1, bar(shares[begin])[1])
        begin = at


def bar(share: float) -> tuple[str, int]:
    """The class and the height of a station's bar, by its share of a file."""
    if share >= 100:
        return "full", HEIGHT
    return ("part", max(2, round(HEIGHT * share / 100))) if share > 0 else ("none", 1)


def name_of(name: Optional[str], key: Key) -> str:
    """A file's name, or else its object's."""
    if not name:
        return f"session {key.tsi} object {key.number} of {text(address_of(key.source))}"
    return f"<bdi>{text(name)}</bdi>"


class Page:
    """Makes the page. The HTML of a row is kept until the row is another."""

    def __init__(
        self, model: Model, has_files: bool, is_drawn: Callable[[Key], bool] = lambda _: False
    ) -> None:
        """`has_files` tells whether a folder `files` beside the page has the files, and `is_drawn`
        of which objects there are pictures."""
        self.model, self.has_files, self.is_drawn = model, has_files, is_drawn
        self.names = [each.station.name for each in model.deliverer.arrivals]
        self.made: dict[Key, tuple[Row, bool, str]] = {}
        self.repair: Optional[dict[str, Any]] = None  # what the status has of repairs

    def text(
        self,
        rows: list[Row],
        stations: list[StationRow],
        found: list[Problem],
        newest: list[Delivery],
    ) -> str:
        """The page. `rows` are those of files that are not whole, in order."""
        now = self.model.deliverer.clock()
        count = self.model.deliverer.ledger.count()
        summary = waiting_line(rows, count)
        title = found[0].text if found else summary
        files = [it for it in newest if it.path]
        return "".join(
            (
                self.head(("✗ " if found else "✓ ") + title),
                f'<h1>Reception</h1><p class="dim">Made {instant(now)}; {len(self.names)} '
                "stations. The page renews itself each minute.</p>",
                verdict(found, summary),
                self.not_whole(rows),
                repaired(self.repair),
                self.stations(stations, len(newest), now),
                self.whole(files, count),
                "</main></body></html>\n",
            )
        )

    def head(self, title: str) -> str:
        """The head of the page. Its policy allows the page's own script alone."""
        digest = base64.b64encode(hashlib.sha256(self.script().encode()).digest()).decode()
        return HEAD.replace("@SCRIPT@", digest).replace("@TITLE@", text(title))

    def not_whole(self, rows: list[Row]) -> str:
        """The table of files that are not whole."""
        made, length = [], 0
        for row in rows:
            made.append(self.row(row))
            length += len(made[-1])
            if length > MOST_BYTES:
                break
        self.made = {key: it for key, it in self.made.items() if key in self.model.rows}
        front = f'<h2 id="not-whole">Not whole ({len(rows)})</h2>'
        if not rows:
            return front + "<p>None.</p>"
        left = len(rows) - len(made)
        more = f'<p>{left} more are in <a href="status.json">status.json</a>.</p>' if left else ""
        ends = self.names[0] + (f" to {self.names[-1]}" if len(self.names) > 1 else "")
        heads = [("File", ""), ("Size", "n m"), ("All joined", "n")]
        heads += [(f"At each station, {ends}", "m"), ("Missing", "n m"), ("Bytes", "m")]
        return front + table(heads, "".join(made)) + more

    def row(self, row: Row) -> str:
        """A row of that table; kept, since most are the same the next time."""
        known, is_drawn = self.made.get(row.key), self.is_drawn(row.key)
        if known and known[:2] == (row, is_drawn):
            return known[2]
        ranges = ", ".join(f"{begin:,}–{end - 1:,}" for begin, end in row.ranges[:2])
        told = ranges + (" .." if len(row.ranges) > 2 else "")
        told = told if row.state == "waiting" else f"{row.state} {row.why} {told}"
        kind = ' class="bad"' if row.state == WRONG else ""
        made = (
            f'<tr{kind}><th scope="row">{name_of(row.name, row.key)}'
            f"{picture_of(row) if is_drawn else ''}</th>"
            f'<td class="n m">{size(row.bytes)}</td>'
            f'<td class="n"><b>{min(row.percent, 99.9)} %</b></td>'
            f'<td class="m">{strip(row.shares, self.names)}</td>'
            f'<td class="n m">{size(row.missing_bytes)}</td>'
            f'<td class="m r">{text(told)}</td></tr>\n'
        )
        self.made[row.key] = row, is_drawn, made
        return made

    def stations(self, stations: list[StationRow], files: int, now: float) -> str:
        """The table of stations."""

        def line(it: StationRow) -> str:
            silent = "silent " if it.is_silent else ""
            seen = "never" if it.seen is None else f"{silent}{since(it.seen, now)} ago"
            had = "–" if it.had is None else f"{it.had} %"
            kind = ' class="bad"' if it.is_silent or it.fault else ""
            counts = (it.datagrams, it.dropped, it.refused, it.aside)
            cells = "".join(
                f'<td class="n m">{"–" if count is None else f"{count:,}"}</td>' for count in counts
            )
            fault = f'<br><span class="r">{text(it.fault)}</span>' if it.fault else ""
            return (
                f'<tr{kind}><th scope="row">{text(it.name)}{fault}</th><td>{seen}</td>'
                f'<td class="n m">{had}</td><td class="n m">{it.whole} of {files}</td>'
                f"{cells}</tr>\n"
            )

        order_of = sorted(stations, key=lambda it: (it.seen is not None, it.seen or 0))
        names = "Had", "Whole files", "Datagrams", "Dropped", "Refused", "Set aside"
        heads = [("Station", ""), ("Heard", ""), *((name, "n m") for name in names)]
        made = table(heads, "".join(map(line, order_of)))
        front = f'<h2 id="stations">Stations ({len(stations)}), longest silent first</h2>'
        return front + made

    def whole(self, files: list[Delivery], count: int) -> str:
        """The table of files that were delivered, and what searches in their names."""
        rows = "".join(map(self.whole_row, files[:SHOWN]))
        front = f'<h2 id="whole">Delivered ({count:,})</h2>'
        if not files:
            return front + "<p>None yet.</p>"
        found, length = [], 0
        for it in files:
            name = safe(it.path or "")[:MOST_NAME]
            found.append([name, it.told.bytes, self.whole_at(it)])
            length += len(name) + 14
            if length > MOST_BYTES:
                break
        data = json.dumps(found, ensure_ascii=True, separators=(",", ":"))
        for char in "<>&":
            data = data.replace(char, f"\\u{ord(char):04x}")
        told = f"The {min(SHOWN, len(files))} newest." if len(files) > SHOWN else ""
        search = (
            '<p><label>Find <input id="q" type="search" autocomplete="off"></label> '
            f'<span id="c" class="dim" aria-live="polite">{told}</span></p>'
        )
        heads = ("File", ""), ("Size", "n"), ("Whole at", "n m")
        hidden = f'<script type="application/json" id="d">{data}</script>'
        return f"{front}{search}{table(heads, rows, 'w')}{hidden}<script>{self.script()}</script>"

    def script(self) -> str:
        """What searches the files that were delivered."""
        is_linked = "true" if self.has_files else "false"
        return SCRIPT.replace("@N@", str(len(self.names))).replace("@LINKED@", is_linked)

    def whole_at(self, delivery: Delivery) -> int:
        """How many stations had the whole file."""
        return sum(share >= 100 for share in delivery.shares.values())

    def whole_row(self, it: Delivery) -> str:
        name = f"<bdi>{text(it.path)}</bdi>"
        if self.has_files:
            name = f'<a href="{link(it.path or "")}" download>{name}</a>'
        whole = f"{self.whole_at(it)} of {len(self.names)}"
        cells = f'<td class="n">{size(it.told.bytes)}</td><td class="n m">{whole}</td>'
        return f'<tr><th scope="row">{name}</th>{cells}</tr>\n'


def picture_of(row: Row) -> str:
    """The link to the picture of a file, with a name of its own for who hears it."""
    told = text(f"Picture of {row.name or row.key.text()}")
    path = f"{FOLDER}/{picture_name(row.key)}"
    return f' <a class="r" href="{path}" aria-label="{told}">picture</a>'


def repaired(repair: Optional[dict[str, Any]]) -> str:
    """What servers were asked for."""
    if repair is None:
        return ""
    files = f"{repair['files']} file{'s' * (repair['files'] != 1)} complete"
    told = f"{files} by {size(repair['fetched'])} of servers, {size(repair['today'])} today"
    now = "; they are asked now" if repair["running"] else ""
    return f'<p class="dim">Repair: {told} of {size(repair["most"])}{now}.</p>'


def link(path: str) -> str:
    """Where a file is, beside the page: never another scheme, whatever its name."""
    return html.escape("files/" + urllib.parse.quote(path), quote=True)


def verdict(found: list[Problem], summary: str) -> str:
    """What is not well, or that all is."""
    if not found:
        return f'<section class="v ok" role="status">All is well: {text(summary)}.</section>'
    lines = "".join(f"<li>{text(it.text)}</li>" for it in found)
    return f'<section class="v" role="status"><ul>{lines}<li>{text(summary)}</li></ul></section>'


def table(heads: Sequence[tuple[str, str]], rows: str, name: str = "") -> str:
    """A table. Of each column the head and its classes: n of numbers, m of wide screens alone."""
    cells = "".join(f'<th scope="col" class="{kind}">{head}</th>' for head, kind in heads)
    body = f' id="{name}"' if name else ""
    return f"<table><thead><tr>{cells}</tr></thead><tbody{body}>\n{rows}</tbody></table>"


HEAD = """<!doctype html>
<html lang="en"><head><meta charset="utf-8"><title>@TITLE@</title>
<meta name="viewport" content="width=device-width,initial-scale=1">
<meta http-equiv="refresh" content="60"><meta name="color-scheme" content="light dark">
<meta name="referrer" content="no-referrer">
<meta http-equiv="Content-Security-Policy" content="default-src 'none'; style-src 'unsafe-inline'; \
script-src 'sha256-@SCRIPT@'; base-uri 'none'; form-action 'none'">
<style>
:root{--bg:#fff;--fg:#16202c;--dim:#5a6673;--line:#dbe1e8;--full:#1f5f99;--part:#4c86b8;\
--bad:#a3260b;--badbg:#fdf0ec;--ok:#1b6b36}
@media(prefers-color-scheme:dark){:root{--bg:#12171d;--fg:#e6ebf0;--dim:#9aa7b4;--line:#2b343e;\
--full:#7fb8ea;--part:#5a8fbf;--bad:#ff9b82;--badbg:#2a1a16;--ok:#7ed69a}}
body{font:15px/1.45 system-ui,sans-serif;background:var(--bg);color:var(--fg);margin:0}
main{max-width:76rem;margin:1.2rem auto;padding:0 1rem}
h1{font-size:1.35rem;margin:0}h2{font-size:1.05rem;margin:1.6rem 0 .4rem}
.v{margin:.6rem 0;padding:.6rem .9rem;border-left:4px solid var(--bad);background:var(--badbg)}
.v.ok{border-color:var(--ok);background:none}.v ul{margin:0;padding-left:1.1rem}
table{border-collapse:collapse;width:100%}
th,td{text-align:left;padding:.22rem .6rem .22rem 0;border-bottom:1px solid var(--line)}
thead th{color:var(--dim);font-weight:600;font-size:.85rem}
tbody th{font-weight:500;overflow-wrap:anywhere}
th.n,td.n{text-align:right;font-variant-numeric:tabular-nums;white-space:nowrap}
.r{color:var(--dim);font-size:.85rem}tr.bad th,tr.bad td{color:var(--bad)}
.dim{color:var(--dim)}.full{fill:var(--full)}.part{fill:var(--part)}.none{fill:var(--bad)}
svg{display:block}a,a.r{color:var(--full)}
input{font:inherit;padding:.25rem .5rem;width:22rem;max-width:100%;background:var(--bg);\
color:var(--fg);border:1px solid var(--dim);box-sizing:border-box}
@media(max-width:40rem){th.m,td.m{display:none}}
</style></head><body><main>
"""

SCRIPT = """
(() => {
const q = document.getElementById('q'), c = document.getElementById('c');
const w = document.getElementById('w'), first = [...w.children], told = c.textContent;
const all = JSON.parse(document.getElementById('d').textContent);
const size = n => { let u = 0; while (n >= 1000 && u < 4) { n /= 1000; u++; }
return (u && n < 100 ? n.toFixed(1) : n.toFixed(0)) + ' ' + ['B', 'kB', 'MB', 'GB', 'TB'][u]; };
const row = f => { const r = document.createElement('tr'), h = document.createElement('th');
h.scope = 'row'; const n = document.createElement('bdi'); n.textContent = f[0];
if (@LINKED@) { const a = document.createElement('a'); a.download = '';
a.href = 'files/' + f[0].split('/').map(encodeURIComponent).join('/'); a.append(n); h.append(a); }
else h.append(n);
const s = document.createElement('td'), m = document.createElement('td');
s.className = m.className = 'n'; s.textContent = size(f[1]); m.textContent = f[2] + ' of @N@';
r.append(h, s, m); return r; };
q.oninput = () => { const t = q.value.toLowerCase();
if (!t) { w.replaceChildren(...first); c.textContent = told; return; }
const found = all.filter(f => f[0].toLowerCase().includes(t));
c.textContent = found.length + ' files'; w.replaceChildren(...found.slice(0, 200).map(row)); };
})();
"""
