"""Tests of what a centre tells: its page, its status, metrics, checks and questions."""
from __future__ import annotations

import html.parser
import json
import os
import random
import re
import signal
import socket
import sys
import time
from typing import Any, Optional

from flutejoin_tools.centre.ledger import Ledger, Waited
from flutejoin_tools.centre.symbols import Symbols, ranges
from flutejoin_tools.formats.entries import FILE
from flutejoin_tools.formats.partition import Partition
from flutejoin_tools.journals.holdings import Key
from flutejoin_tools.pages.health import check
from flutejoin_tools.pages.page import bars, text
from flutejoin_tools.pages.telling import Telling
from tests.centre.case import CentreCase, announced, file_of, packets
from tests.support import run


class Parsed(html.parser.HTMLParser):
    """The elements of a page, and what is open at its end."""

    VOID = "meta", "input", "br", "link"

    def __init__(self, page: str) -> None:
        super().__init__()
        self.open: list[str] = []
        self.elements: list[tuple[str, dict[str, Optional[str]]]] = []
        self.texts: list[str] = []
        self.feed(page)
        self.close()

    def handle_starttag(self, tag: str, attrs: list[tuple[str, str | None]]) -> None:
        self.elements.append((tag, dict(attrs)))
        if tag not in self.VOID:
            self.open.append(tag)

    def handle_startendtag(self, tag: str, attrs: list[tuple[str, str | None]]) -> None:
        self.elements.append((tag, dict(attrs)))

    def handle_endtag(self, tag: str) -> None:
        assert self.open and self.open[-1] == tag, (self.open, tag)
        self.open.pop()

    def handle_data(self, data: str) -> None:
        self.texts.append(data)


class Tells(CentreCase):
    def telling(self) -> Telling:
        return Telling(self.centre, self.told)

    def page(self) -> str:
        return self.path("centre/page/index.html").read_text()

    def status(self) -> dict[str, Any]:
        told: dict[str, Any] = json.loads(self.path("centre/page/status.json").read_text())
        return told

    def some(self) -> None:
        """Two files that are delivered, and one of which two symbols are missing."""
        files = [file_of(toi, 14_000) for toi in (1, 2, 3)]
        sent = files[2].packets(7)
        self.push("north", announced(files) + packets(files[:2]) + sent[:5])
        self.push("south", packets(files[:1]) + sent[4:8])
        self.work()

    def test_page(self) -> None:
        self.some()
        telling = self.telling()
        telling.tell()
        page = self.page()
        parsed = Parsed(page)
        self.holds("each element is closed", not parsed.open, parsed.open)
        words = " ".join(" ".join(parsed.texts).split())
        self.holds("the verdict", "2 files delivered, 1 not whole, 2.8 kB missing" in words, words)
        self.holds("its share", "80.0 %" in words, words)
        self.holds("the bytes that are missing", "11,200–13,999" in words, words)
        heads = [it for tag, it in parsed.elements if tag == "th"]
        self.holds("each head has a scope", all("scope" in it for it in heads))
        for tag, attributes in parsed.elements:
            for name in "src", "href":
                to = attributes.get(name) or ""
                self.holds("nothing is from elsewhere", ":" not in to and "//" not in to, to)
        self.holds("no address is in the style", "url(" not in page and "@import" not in page)

    def test_hostile_names(self) -> None:
        names = [
            "</script><script>alert(1)</script>",
            '"><img src=x onerror=alert(1)>',
            "javascript:alert(1)",
            "\u202egnp.exe",
            "a&lt;b",
            "x" * 2000,
        ]
        files = [file_of(toi, name=name) for toi, name in enumerate(names, 1)]
        self.push("north", announced(files) + packets(files[:3]) + files[4].packets(7)[:1])
        self.work()
        self.telling().tell()
        page = self.page()
        parsed = Parsed(page)
        tags = {tag for tag, _ in parsed.elements}
        self.holds("no element is made", not tags & {"img", "iframe", "object"}, tags)
        scripts = [it for tag, it in parsed.elements if tag == "script"]
        self.holds("no script either", len(scripts) == 2, scripts)
        self.holds("nor an attribute", not re.search(r"<[^>]* on\w+=", page))
        self.holds("no link has a scheme", "href=\"javascript" not in page)
        self.holds("nothing turns text around", "\u202e" not in page)
        self.holds("long names are cut", "x" * 300 not in page)

    def test_status(self) -> None:
        self.some()
        senders = [{"datagrams": 30, "last_seen": "2026-09-21T00:00:00Z"}]
        said: dict[str, object] = {
            "time": "2026-09-21T00:00:00Z",
            "receiver": {"senders": senders, "dropped": {"buffer": 2}},
            **{"refused": 1, "set aside": 0, "free": 5},
            "last fault": {"fault": "disk full", "time": "x", "ended": None},
        }
        self.write("push/north/status.json", json.dumps(said))
        telling = self.telling()
        telling.tell()
        told = self.status()
        (row,) = told["files"]
        self.holds("what is missing", (row["missing_symbols"], row["missing_bytes"]) == (2, 2800))
        self.holds("by name", row["name"] == file_of(3).location, row)
        self.holds("the stations", row["stations"] == {"north": 50.0, "south": 40.0}, row)
        self.holds("what one has alone", row["only"] == {"north": 4, "south": 3}, row)
        north, south = told["stations"]
        self.holds("its datagrams", (north["datagrams"], north["dropped"]) == (30, 2), north)
        self.holds("what it had", (north["had"], south["had"]) == (100.0, 50.0), (north, south))
        self.holds("its fault is a problem", told["problems"] == ["station north: disk full"])
        self.holds("a warning", told["level"] == "WARNING")
        lines = self.path("centre/page/metrics.prom").read_text().splitlines()
        self.holds("the metrics", "flutejoin_centre_not_whole 1" in lines, lines)
        told_of = 'flutejoin_centre_station_dropped{station="north"} 2'
        self.holds("of a station", told_of in lines, lines)
        form = re.compile(r'(# (HELP|TYPE) \w+ .+|\w+(\{station="[\w.-]+"\})? -?[\d.]+)')
        self.holds("each line has the form", all(map(form.fullmatch, lines)), lines)

    def test_silent(self) -> None:
        self.some()
        telling = self.telling()
        self.clock.now += 3600
        telling.tell(True)
        told = self.status()
        self.holds("both are silent", told["level"] == "CRITICAL", told["problems"])
        self.push("south", packets([file_of(1)]))
        self.work()
        telling.tell(True)
        told = self.status()
        self.holds("one is", told["problems"] == ["1 of 2 stations silent: north (60 min)"], told)

    def test_status_is_pushed(self) -> None:
        """examples/push.sh sends the status of a station too."""
        self.path("news/outbox").mkdir(parents=True)
        self.write("status", json.dumps({"refused": 12}))
        words = [run.ROOT / "examples/push.sh", "news", "push/north", "sh", "-c"]
        done = self.command(words, env={"STATUS": str(self.path("status"))})
        self.check("a push", done, 0, "", "")
        self.some()
        self.telling().tell()
        self.holds("it is told", self.status()["stations"][0]["refused"] == 12)
        done = self.command(words, env={"STATUS": str(self.path("nothing"))})
        self.check("without one", done, 0, "", "")

    def test_hostile_status(self) -> None:
        for content in ("[" * 5000, "[]", '{"receiver": 3}', '{"receiver": {"senders": [4]}}',
                        '{"last fault": {"fault": "<b>x"}}', '{"time": 7}', "\0"):
            self.write("push/north/status.json", content)
            self.telling().tell()
            self.holds(content[:20], "<b>" not in self.page() and not self.told.failing)

    def test_check(self) -> None:
        base = {"time": "2026-09-21T00:00:00Z", "every": 10, "level": "OK", "problems": [],
                "summary": "x", "delivered": 1, "not_whole": 0, "missing_bytes": 0}
        now = 1789948800 + 60
        self.holds("well", check(base, now)[0] == 0, check(base, now))
        self.holds("a warning", check({**base, "level": "WARNING"}, now)[0] == 1)
        self.holds("late", check(base, now + 600)[0] == 2, check(base, now + 600))
        self.holds("none", check(None)[0] == 3)
        self.holds("another", check({})[0] == 3)

    def test_what_lacks(self) -> None:
        """The missing bytes are the same as by a look at each symbol of each block."""
        draw = random.Random(7)
        for _ in range(400):
            partition = Partition(draw.randint(1, 200), draw.randint(1, 4), draw.randint(1, 20))
            symbols, length = Symbols(), partition.numbers[1]
            for _ in range(draw.choice((0, 1, 5, 40, 300))):
                block, number = draw.randint(0, partition.blocks), draw.randint(0, 20)
                symbols.blocks[block] = symbols.blocks.get(block, 0) | 1 << number
            every = [partition.id_at(place) for place in range(partition.symbols)]
            lacks = [not symbols.blocks.get(block, 0) >> it & 1 for block, it in every]
            found = [*ranges(symbols.missing(partition), partition)]
            told = {at for begin, end in found for at in range(begin, end)}
            wanted = {at for at in range(partition.numbers[0]) if lacks[at // length]}
            self.holds("the bytes", told == wanted, (partition.numbers, symbols.blocks, found))
            self.holds("their count", symbols.held(partition) == lacks.count(False))

    def test_whole_at(self) -> None:
        """When a file will be whole, from how its symbols came."""
        file = file_of(1, 14_000)
        sent = file.packets(7)
        self.push("north", announced([file]) + sent[:2])
        self.work()
        telling = self.telling()
        telling.tell()
        self.clock.now += 100
        self.push("north", sent[2:6])
        self.work()
        telling.tell()
        (row,) = self.status()["files"]
        wanted = time.strftime("%Y-%m-%dT%H:%M:%SZ", time.gmtime(self.clock.now + 100))
        self.holds("in as long again", row["whole_at"] == wanted, row)
        self.clock.now += 400  # a carousel comes round, with all but one of what is missing
        self.push("north", sent[6:9])
        self.work()
        telling.tell()
        (row,) = self.status()["files"]
        wanted = time.strftime("%Y-%m-%dT%H:%M:%SZ", time.gmtime(self.clock.now + 400))
        self.holds("not before the next round", row["whole_at"] == wanted, row)
        self.clock.now += 50
        telling.tell(at_once=True)
        self.holds("that stays", self.status()["files"][0]["whole_at"] == wanted, row)

    def test_bars(self) -> None:
        found = [*bars([100, 100, 50.0, 0, 0])]
        wanted = [("full", 0, 1, 16), ("part", 2, 2, 8), ("none", 3, 4, 1)]
        self.holds("like ones are one", found == wanted, found)
        self.holds("markup is text", text('<a "&') == "&lt;a &quot;&amp;")

    def test_few_of_many_that_wait(self) -> None:
        """Some objects are looked up by their names, and not by reading all that wait."""
        ledger = Ledger(str(self.path("many.db")))
        self.addCleanup(ledger.close)
        keys = [Key(bytes(16), 7, FILE, toi) for toi in range(1, 20_001)]
        ledger.wait(keys, 5.0)
        steps: list[int] = []
        ledger.base.set_progress_handler(lambda: steps.append(1000), 1000)
        found = ledger.waited(keys[:500])
        self.holds("when they came", found == {key: Waited(5.0, 5.0) for key in keys[:500]})
        self.holds("few steps of the database", sum(steps) < 100 * 500, sum(steps))


class Asks(CentreCase):
    """The tool's questions, its server, and what it tells systemd."""

    def some(self) -> None:
        """Pushes one file whole and one of which symbols are missing."""
        files = [file_of(toi, 14_000) for toi in (1, 2)]
        self.push("north", announced(files) + packets(files[:1]) + files[1].packets(7)[:5])
        self.push("south", files[1].packets(7)[4:8])

    def ask(self, *words: str) -> tuple[int, list[str]]:
        """Asks the centre a question, and returns the status and the lines."""
        done = self.tool_run(*words)
        return done.status, done.lines()

    def test_questions(self) -> None:
        none = "UNKNOWN: there is no status of a centre"
        self.check("before a run", self.tool_run("--check"), 3, none)
        self.some()
        self.check("a run", self.tool_run("--once"), 0, "", None)
        status, (line,) = self.ask("--check")
        self.holds("all is well", status == 0 and line.startswith("OK: 1 file delivered"), line)
        status, lines = self.ask("--stations")
        self.holds("the stations", lines[0].startswith("north: alive, heard 2"), lines)
        status, (line,) = self.ask("--missing")
        wanted = "2 symbols, 2.8 kB (bytes 11200-13999)"
        self.holds("what is missing", wanted in line and "00002.bin" in line, line)
        status, (line,) = self.ask("--shares")
        self.holds("who has what", "north 50.0 % (4 symbols alone), south 40.0 %" in line, line)
        status, (line,) = self.ask("--file", "00001")
        self.holds("a file that is there", ": delivered 2" in line and "verified" in line, line)
        status, (line,) = self.ask("--file", "00002")
        self.holds("one that waits", "waiting, 80.0 %, 2 symbols missing" in line, line)
        self.holds("none", self.ask("--file", "another") == (1, []))
        status, (line,) = self.ask("--file", "00001", "--json")
        self.holds("as JSON", json.loads(line)["toi"] == 1, line)
        for question in "--check", "--stations", "--missing", "--shares", "--file=00002":
            by_folder = self.tool("flutejoin-centre", ["--folder", self.path("centre"), question])
            same = by_folder.out.splitlines() == [it.encode() for it in self.ask(question)[1]]
            self.holds(f"{question} of a folder", by_folder.status == 0 and same, by_folder)
            told = self.ask(question, "--json")[1]
            self.holds(f"{question} as JSON", all(isinstance(json.loads(it), dict) for it in told))
        for words in ["--check"], ["--folder", "x"], ["--folder", "x", "--config", "y", "--check"]:
            done = self.tool("flutejoin-centre", words)
            self.holds(f"{words}", done.status == 2 and b"--folder" in done.err, done)
        status, (line,) = self.ask("--check", "--json")
        self.holds("the check too", json.loads(line)["status"] == 0, line)
        os.unlink(self.path("centre/page/index.html"))
        self.check("the page alone", self.tool_run("--page-only"), 0, "", None)
        self.holds("it is made", self.path("centre/page/index.html").exists())

    def test_service(self) -> None:
        """READY, STATUS and WATCHDOG to systemd, the page by HTTP, and the end by a signal."""
        self.some()
        address = str(self.path("notify"))
        with socket.socket(socket.AF_UNIX, socket.SOCK_DGRAM) as heard:
            heard.bind(address)
            heard.settimeout(run.LONGEST)
            self.more = {"listen": "127.0.0.1:0", "every": "1s"}
            tool = run.ROOT / "tools/flutejoin-centre"
            words = [sys.executable, tool, "--config", self.write_settings()]
            env = {"NOTIFY_SOCKET": address, "WATCHDOG_USEC": "2000000"}
            child = self.start(words, to="out", err="err", env=env)
            told: list[str] = []
            wanted = {"STATUS=1 file delivered", "WATCHDOG=1"}
            while not wanted <= {it.partition(",")[0] for it in told}:
                told.append(heard.recv(4096).decode())
            self.holds("it is ready", told[0] == "READY=1", told)
            place = re.search(rb"http://127.0.0.1:(\d+)/", self.read("err"))
            assert place
            self.serve(int(place[1]))
            child.send_signal(signal.SIGTERM)
            self.holds("it ends with status 0", child.wait(run.LONGEST) == 0, self.read("err"))
            heard.settimeout(0.1)
            while told[-1] != "STOPPING=1":
                told.append(heard.recv(4096).decode())

    def get(self, port: int, path: str) -> tuple[bytes, bytes]:
        """Gets a path of the page's server: the head and the body of the answer."""
        with socket.create_connection(("127.0.0.1", port)) as to:
            to.sendall(f"GET {path} HTTP/1.0\r\n\r\n".encode())
            found = b"".join(iter(lambda: to.recv(1 << 16), b""))
        head, _, body = found.partition(b"\r\n\r\n")
        return head, body

    def serve(self, port: int) -> None:
        """Checks what the page's server gives and refuses."""
        self.holds("the page", b"<h1>Reception" in self.get(port, "/")[1])
        head, body = self.get(port, "/files/data.example/day/00001.bin")
        self.holds("a file", body == file_of(1, 14_000).content)
        self.holds("is never shown as a page", b"attachment" in head and b"nosniff" in head, head)
        os.symlink("/etc/passwd", self.path("centre/files/link"))
        for path in ("/../ledger.db", "/files/../../ledger.db", "/files/%2e%2e/%2e%2e/ledger.db",
                     "/files/link", "/files/", "/files", "/nothing", "//etc/passwd", "/files/%00"):
            head, body = self.get(port, path)
            self.holds(path, b" 404 " in head.splitlines()[0], head)
