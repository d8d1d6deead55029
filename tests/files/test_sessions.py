"""Whole sessions, as senders send them: what is listed and written of several stations."""
from __future__ import annotations

import gzip
import pathlib
import random
import shutil
import subprocess
import sys

from tests.files.case import Case, text
from tests.support.flute_sender import EXPIRES, Sent, fdt, instance, packets
from tests.support.run import SUPPORT


class Sessions(Case):
    """Whole sessions, as senders send them."""

    def news(self) -> list[Sent]:
        """21 files; for half of them only the FDT has the FEC OTI."""
        sent = []
        for toi in range(1, 22):
            content = text(toi, 700 * toi)
            encoded = gzip.compress(content) if toi % 5 == 0 else None
            sent.append(
                Sent(
                    toi,
                    content,
                    f"http://example.com/news/{toi // 10}/f{toi:02}.txt",
                    encoded,
                    is_in_packets=toi % 2 == 0,
                    more={"Content-Encoding": "gzip"} if encoded else {},
                )
            )
        return sent

    def wanted(self, sent: list[Sent]) -> dict[str, bytes]:
        return {file.location.removeprefix("http://"): file.content for file in sent}

    def stations(self, sent: list[Sent]) -> list[str]:
        """The journals of three stations that lost packets, and of one that lost none."""
        draw = random.Random(3)
        first, second = instance(7, 1, fdt(sent[:9])), instance(7, 2, fdt(sent, EXPIRES + 60))
        every = [packet for file in sent for packet in file.packets(7)]
        stray = packets(7, 30, text(30, 31_000), 1000, 64, False)
        stations = []
        for number in range(3):
            some = [packet for packet in every if draw.random() < 0.8]
            at = [first, [second[-1]], second[:-1]][number]
            stations.append(self.journal(f"station{number}", at, some, stray))
        return [*stations, self.journal("last", every)]

    def test_list_of_stations(self) -> None:
        sent = self.news()
        stations = self.stations(sent)
        for number in range(3):
            answer = self.files("-o", f"some{number}", stations[number], status=1)
            self.assertRegex(answer.out, r"partial \d|missing 21|written 0")
        answer = self.files("--list", *stations)
        lines = answer.out.splitlines()
        self.assertEqual(
            lines[:3],
            [
                "sender 10.9.0.1 session 7: FDT Instances 1, 2, the newest 2, "
                "expires 2026-12-31 00:01:00Z",
                "  toi   bytes    have  state  type        name",
                "    1     700  100.0%  whole  text/plain  http://example.com/news/0/f01.txt",
            ],
        )
        size, packed = len(sent[9].content), len(sent[9].data())
        self.assertIn(
            f"   10   {packed:,}  100.0%  whole  text/plain  http://example.com/news/1/f10.txt "
            f"(gzip, {size:,})",
            lines,
        )
        self.assertEqual(lines[-1], "   30       -       -  in no FDT Instance: 31 symbols")
        self.assertEqual(self.runs.read_text().split(), ["join", "gaps"])

    def test_files_of_stations(self) -> None:
        sent = self.news()
        stations = self.stations(sent)
        answer = self.files("-o", "files", *stations)
        *new, last = answer.out.splitlines()
        self.assertEqual(last, "written 21, verified 21; partial 0; wrong MD5 0")
        self.assertEqual(sorted(new), sorted(f"new: {path}" for path in self.wanted(sent)))
        self.assertEqual(answer.err, "")
        self.assertEqual(self.tree(), self.wanted(sent))
        self.assertEqual(self.runs.read_text().split(), ["join", "extract"])
        before = {path: path.stat().st_ino for path in (self.folder / "files").rglob("*")}
        answer = self.files("-o", "files", *stations)
        self.assertEqual(
            answer.out, "written 0, unchanged 21, verified 21; partial 0; wrong MD5 0\n"
        )
        (self.folder / "files/example.com/news/0/f03.txt").write_bytes(b"another")
        (self.folder / "files/example.com/news/0/f04.txt").unlink()
        answer = self.files("-o", "files", *stations)
        self.assertEqual(
            answer.out,
            "changed: example.com/news/0/f03.txt\nnew: example.com/news/0/f04.txt\n"
            "written 2, unchanged 19, verified 21; partial 0; wrong MD5 0\n",
        )
        self.assertEqual(self.tree(), self.wanted(sent))
        after = {path: path.stat().st_ino for path in (self.folder / "files").rglob("*")}
        self.assertGreaterEqual(sum(before[path] == after[path] for path in before), 19)

    def test_journals_stay(self) -> None:
        sent = self.news()
        journal = self.folder / self.session("all", sent)
        before = journal.read_bytes(), journal.stat().st_mtime_ns
        self.files("--list", "-o", "files", "all")
        self.assertEqual((journal.read_bytes(), journal.stat().st_mtime_ns), before)
        self.assertEqual(self.tree(), self.wanted(sent))

    def test_partial(self) -> None:
        sent = [Sent(toi, text(toi, 14_000), f"http://h/{toi}") for toi in (1, 2, 3)]
        some = [sent[0].packets(7), sent[1].packets(7)[1:], sent[2].packets(7)[:1]]
        self.journal("all", instance(7, 1, fdt(sent)), *some)
        answer = self.files("--list", "all", status=1)
        self.assertIn("    1  14,000  100.0%  whole      text/plain  http://h/1\n", answer.out)
        self.assertIn("    2  14,000   90.0%  partial 1  text/plain  http://h/2\n", answer.out)
        self.assertIn("    3  14,000   10.0%  partial 9  text/plain  http://h/3\n", answer.out)
        answer = self.files("-o", "files", "all", status=1)
        self.assertEqual(
            answer.out,
            "new: h/1\nwritten 1, verified 1; partial 2 (10 symbols, 14,000 bytes); wrong MD5 0\n",
        )
        self.assertEqual(self.tree(), {"h/1": sent[0].content})
        self.journal("more", sent[1].packets(7), sent[2].packets(7))
        answer = self.files("-o", "files", "all", "more")
        self.assertEqual(
            answer.out,
            "new: h/2\nnew: h/3\nwritten 2, unchanged 1, verified 3; partial 0; wrong MD5 0\n",
        )

    def test_missing_and_without_information(self) -> None:
        sent = [Sent(toi, text(toi), f"http://h/{toi}", is_in_packets=False) for toi in (1, 2)]
        sent[1].more = {"FEC-OTI-Encoding-Symbol-Length": None}
        sent.append(Sent(3, text(3), "http://h/3"))
        self.journal("all", instance(7, 1, fdt(sent)), sent[0].packets(7), sent[1].packets(7))
        answer = self.files("--list", "all", status=1)
        self.assertIn("    2  5,000       -  no information  text/plain  http://h/2\n", answer.out)
        self.assertIn("    3  5,000    0.0%  missing         text/plain  http://h/3\n", answer.out)
        answer = self.files("-o", "files", "all", status=1)
        self.assertEqual(
            answer.out,
            "new: h/1\nwritten 1, verified 1; partial 0; missing 2; wrong MD5 0\n",
        )

    def test_two_senders_and_sessions(self) -> None:
        one, two = Sent(1, text(1), "http://h/a"), Sent(1, text(2), "http://h/a")
        three = Sent(1, text(3), "http://h/c")
        self.session("one", [one])
        self.journal("two", instance(7, 1, fdt([two])), two.packets(7), sender="2001:db8::1")
        self.journal("three", instance(8, 1, fdt([three])), three.packets(8))
        answer = self.files("--list", "one", "two", "three", status=1)
        self.assertIn("sender 10.9.0.1 session 7: FDT Instance 1, expires", answer.out)
        self.assertIn("sender 2001:db8::1 session 7: FDT Instance 1, expires", answer.out)
        answer = self.files("-o", "files", "one", "two", "three", status=1)
        wanted = {"h/a": one.content, "h/a.from-2001-db8--1": two.content, "h/c": three.content}
        self.assertEqual(self.tree(), wanted)
        told = "sender 10.9.0.1 has the name h/a; it is h/a.from-2001-db8--1 (--source 2001:db8::1"
        self.assertIn(told, answer.err)
        for words, wanted in (
            (("--tsi", 8), {"h/c": three.content}),
            (("--source", "2001:db8::1"), {"h/a": two.content}),
            (("--source", "10.9.0.1", "--tsi", 7, "--tsi", 9), {"h/a": one.content}),
        ):
            shutil.rmtree(self.folder / "files")
            self.files("-o", "files", *words, "one", "two", "three")
            self.assertEqual(self.tree(), wanted)
        answer = self.files("--list", "--tsi", 9, "one", "two", status=1)
        self.assertEqual(answer.err, "flutejoin-files: the journals tell of no object\n")

    def test_sender_zero(self) -> None:
        file = Sent(1, text(1), "http://h/a")
        self.journal("all", instance(7, 1, fdt([file])), file.packets(7), sender="::")
        answer = self.files("--list", "-o", "files", "--source", "::", "all")
        self.assertIn("sender :: session 7: FDT Instance 1, expires", answer.out)
        self.assertEqual(self.tree(), {"h/a": file.content})

    def test_empty_files(self) -> None:
        sent = [
            Sent(1, b"", "http://h/1"),
            Sent(2, b"", "http://h/2", is_in_packets=False),
            Sent(3, b"", "http://h/3", gzip.compress(b""), more={"Content-Encoding": "gzip"}),
        ]
        self.session("all", sent)
        self.files("-o", "files", "all")
        self.assertEqual(self.tree(), {"h/1": b"", "h/2": b"", "h/3": b""})

    def test_version_1(self) -> None:
        """A journal without senders, of version 1, is read too."""
        file = Sent(1, text(1), "http://h/a", is_in_packets=False)
        self.journal("new", instance(7, 1, fdt([file])), file.packets(7), sender="::")
        command: list[str | pathlib.Path] = [sys.executable, SUPPORT / "captures.py"]
        command += ["version1", "new", "old"]
        subprocess.run(command, cwd=self.folder, check=True)
        self.files("-o", "files", "old")
        self.assertEqual(self.tree(), {"h/a": file.content})
