"""Tests the command line of flutejoin-repair, the settings of a service, and nginx as origin."""
from __future__ import annotations

import os
import shutil
import sys
import unittest
from typing import Sequence, Mapping

from flutejoin_tools.repair import repairs
from tests.repair.case import BLOCK, SENDER, SYMBOL, Case, content
from tests.support import run
from tests.support.flute_sender import Sent, fdt
from tests.support.ports import free_port
from tests.support.run import until

CONF = """
daemon off; pid {folder}/nginx.pid; error_log {folder}/error.log;
events {{}}
http {{
    access_log off; client_body_temp_path {folder}/b; proxy_temp_path {folder}/p;
    fastcgi_temp_path {folder}/f; uwsgi_temp_path {folder}/u; scgi_temp_path {folder}/s;
    server {{ listen 127.0.0.1:{port}; root {folder}/www; }}
}}
"""


class Words(Case):
    """The command line, and what is printed."""

    def setUp(self) -> None:
        super().setUp()
        self.every = [self.sent(1, content(1)), self.sent(2, content(2))]
        self.journal_without("all", self.every, {1: [3], 2: [4]})

    def wrong(self, words: str, told: str, status: int = 2) -> None:
        """Checks that a command line is refused with this text, and no server asked."""
        done = self.tool("flutejoin-repair", f"--flutejoin {run.PROGRAM} {words}")
        self.check(words, done, status, "", None)
        self.holds(f"{words}: told", told in done.err.decode(), done.err.decode()[-300:])
        self.holds("nothing was asked", self.origin.connections == 0)

    def test_command_line(self) -> None:
        self.wrong("all", "required: -o")
        self.wrong("-o more", "required: JOURNAL")
        self.wrong("-o more -", "cannot be standard input")
        self.wrong("-o more --symbols all", "--symbols needs --base")
        self.wrong("-o more --base ftp://h/ all", "is no URL of http or https")
        self.wrong("-o more --base http://user@h/ all", "has a name of a user")
        self.wrong("-o more --base http://h/?a all", "has a query")
        self.wrong("-o more --allow 10.0.0.300 all", "10.0.0.300")
        self.wrong("-o more --most 1X all", "is not a number of bytes")
        self.wrong("-o more --after soon all", "is no time")
        self.wrong("-o more --spread -1 all", "argument")
        self.wrong(f"-o more {'--tsi 7 ' * 65} all", "more than 64")

    def test_files(self) -> None:
        self.wrong("-o more none", "none: No such file", 3)
        self.wrong("-o more all.sent", "is a datagram file", 1)
        self.write("cut", self.read("all")[:900])
        self.wrong("-o more cut", "Cut", 1)
        self.write("more", "mine")
        base = f"--base {self.origin.url}/ -o more --flutejoin {run.PROGRAM} all"
        done = self.tool("flutejoin-repair", base)
        self.check("OUT is there", done, 3, None, None)
        self.same("OUT stays", "more", b"mine")
        self.absent("nothing beside it", "more.partial")

    def test_json(self) -> None:
        self.origin.files.pop("/news/2.bin")
        done = self.repair("--json")
        self.check("--json", done, 1, None, None)
        one, two, every = self.json(done)
        wanted = {"sender": SENDER, "tsi": 7, "toi": "1", "missing": 1400, "complete": True}
        self.holds("a file", {**one, **wanted} == one and one["told"] is None, one)
        self.holds("one that is left", not two["complete"] and "404" in two["told"], two)
        wanted = {"asked": 2, "requests": 2, "missing": 2800, "complete": 1, "left": 1}
        wanted |= {"datagrams": 1, "fetched": self.origin.sent, "notes": []}
        self.holds("all", every == wanted, every)

    def test_standard_output(self) -> None:
        words = f"--base {self.origin.url}/ --flutejoin {run.PROGRAM} -o - all"
        done = self.tool("flutejoin-repair", words, to="more")
        self.check("standard output", done, 0, None, None)
        self.holds("lines go to standard error", b"2 files complete" in done.err, done.err)
        self.is_joined("standard output")

    def test_sessions(self) -> None:
        """--tsi and --source choose; of several senders one has to be named."""
        self.made("join --source 10.9.0.2 -o other all.sent")
        self.made("join -o all all other")
        done = self.repair()
        self.check("several senders", done, 2, "", None)
        self.holds("told", b"name one by --source" in done.err, done.err)
        self.absent("nothing is written", "more")
        self.check("one of them", self.repair("--source 10.9.0.2"), 0, None, "")
        self.holds("the next step", b"" != self.read("more"))
        self.check("another session", self.repair(f"--source {SENDER} --tsi 8"), 1, None, None)

    def test_fdt(self) -> None:
        """An FDT Instance in a file, and documents beside the journal."""
        file = self.every[0]
        self.journal_without("all", [file], {1: [3]}, b"")
        done = self.repair()
        self.check("no FDT Instance", done, 1, None, None)
        self.holds("told", b"its files are not known" in done.err, done.err)
        self.write("fdt.xml", fdt([file]))
        self.repaired("an FDT Instance in a file", "--fdt fdt.xml")
        self.path("fdt").mkdir()
        self.write("fdt/10.9.0.1-7-1-0123456789abcdef.xml", fdt([file]))
        self.repaired("documents")

    def test_after_and_spread(self) -> None:
        """A journal that is old enough isn't waited for; the random wait is drawn anew."""
        os.utime(self.path("all"), (1, 1))
        self.repaired("after", "--after 1h --spread 0.2")
        settings = repairs.Settings(spread=10.0)
        waits = [settings.wait() for _ in range(99)]
        self.holds("waits", min(waits) < 5 < max(waits) <= 10 and len({*waits}) > 90, waits)

    def test_signal(self) -> None:
        """A signal while a server is waited for: nothing is left."""
        self.origin.how = lambda request: b"HTTP/1.1 200 said\r\n"
        words = ["--base", f"{self.origin.url}/", "--flutejoin", run.PROGRAM, "-o", "more", "all"]
        tool = [sys.executable, run.ROOT / "tools" / "flutejoin-repair"]
        self.path("temporary").mkdir()
        child = self.start([*tool, *words], env={"TMPDIR": str(self.path("temporary"))})
        self.holds("it asks", until(lambda: self.origin.requests))
        child.terminate()
        self.check("a signal", self.finish(child), 128 + 15, "", "")
        self.absent("no output", "more", "more.partial")
        self.holds("nothing is left", not [*self.path("temporary").iterdir()])


class Settings(unittest.TestCase):
    """The section [repair] of a service's settings."""

    def test_settings(self) -> None:
        table = {
            "after": "10m",
            "spread": 30,
            "most": "64M",
            "base": ["http://h/news/", "https://10.0.0.1"],
            "allow": "10.0.0.0/8",
            "symbols": True,
        }
        found = repairs.settings_of(table)
        self.assertEqual((found.after, found.spread, found.most), (600.0, 30.0, 64 << 20))
        self.assertEqual([*map(str, found.base)], ["http://h/news/", "https://10.0.0.1/"])
        self.assertEqual([*map(str, found.allow)], ["10.0.0.0/8"])
        self.assertTrue(found.symbols)
        self.assertEqual(repairs.settings_of({}), repairs.Settings())

    def test_wrong_settings(self) -> None:
        rows: Sequence[tuple[Mapping[str, object], str]] = (
            ({"after": "soon"}, "after: 'soon' is no time"),
            ({"after": True}, "after: is no number"),
            ({"after": float("nan")}, "after: 'nan' is no time"),
            ({"most": "many"}, "most: 'many' is not a number of bytes"),
            ({"base": 7}, "base: is no text"),
            ({"base": ["http://h/", 7]}, "base: is no text"),
            ({"base": "file:///"}, "base: 'file:///' is no URL"),
            ({"allow": "h"}, "allow: 'h' does not appear"),
            ({"symbols": 1}, "symbols: is true or false"),
            ({"url": "http://h/"}, "url: there is no such setting"),
        )
        for table, told in rows:
            with self.assertRaises(ValueError) as raised:
                repairs.settings_of(table)
            self.assertIn(told, str(raised.exception))


@unittest.skipUnless(shutil.which("nginx"), "since there is no nginx")
class Nginx(Case):
    def test_nginx(self) -> None:
        """From losses to files equal to the origin's, with at most 1.1 times what is missing."""
        folder, port = self.path("nginx"), free_port()
        (folder / "www" / "news").mkdir(parents=True)
        self.write("nginx/conf", CONF.format(folder=folder, port=port))
        base = f"http://127.0.0.1:{port}/news/"
        every = []
        for toi in 1, 2:
            data = content(toi, 4_000_000)
            (folder / "www" / "news" / f"{toi}.bin").write_bytes(data)
            every.append(Sent(toi, data, f"{base}{toi}.bin", symbol=SYMBOL, block=BLOCK))
        os.chmod(self.folder.parent, 0o755)
        server = self.start(["nginx", "-p", folder, "-c", folder / "conf"])
        self.holds("nginx", until(lambda: (folder / "nginx.pid").exists() or server.poll(), 30))
        lost = {toi: self.losses(every[toi - 1], 0.01) for toi in (1, 2)}
        self.journal_without("all", every, lost)
        done = self.repaired("nginx", "--json", base=base)
        counts = self.json(done)[-1]
        self.holds("at most 1.1 times", counts["fetched"] <= 1.1 * counts["missing"], counts)
        self.files("nginx", every)
