"""Tests what waits in the outbox of a station, and reaches a centre by push.sh."""
from __future__ import annotations

import contextlib
import os
import pathlib
import subprocess
import sys
from unittest import mock

from flutejoin_tools.common.shelves import copy, entries_of
from tests.station.case import (
    NAME,
    TOOLS,
    Case,
    datagram_file,
    journal_of,
    keep,
    keeper,
    kept,
    sent_file,
)
from tests.support.run import PROGRAM, ROOT

PUSH = ROOT / "examples" / "push.sh"
# A join that refuses more than 60 entries, as flutejoin does more than 16,777,216.
OF_60_ENTRIES = f"""
import os, subprocess, sys
words = sys.argv[1:]
if "-o" not in words or words[words.index("-o") + 1] == "-":
    os.execv({str(PROGRAM)!r}, [{str(PROGRAM)!r}, *words])
out = words.index("-o") + 1
path, words[out] = words[out], words[out] + ".try"
done = subprocess.run([{str(PROGRAM)!r}, *words], stdout=subprocess.PIPE, text=True)
if done.returncode == 0 and int(done.stdout.split()[-1]) > 60:
    os.unlink(words[out])
    sys.exit(print("full", file=sys.stderr) or 1)
if done.returncode == 0 and path != os.devnull:
    os.replace(words[out], path)
print(done.stdout, end="")
sys.exit(done.returncode)
"""


class Outbox(Case):
    def push(self, work: pathlib.Path, *command: str) -> subprocess.CompletedProcess[str]:
        """Runs push.sh from the station's folder to that of a centre."""
        path = f"{work / 'bin'}:{os.environ['PATH']}"
        return subprocess.run(
            [PUSH, "news", work / "centre/north", *command],
            cwd=work,
            env={**os.environ, "PATH": path, "CDPATH": "."},
            capture_output=True,
            text=True,
        )

    def test_to_the_centre(self) -> None:
        """What came since the last push reaches the centre, whatever fails on the way."""
        work = self.folder
        sent, folder = sent_file(work, 300_000, 1000), work / "news"
        (work / "bin").mkdir()
        (work / "bin/flutejoin").symlink_to(PROGRAM)
        (work / "bin/flutejoin-gather").symlink_to(TOOLS / "flutejoin-gather")
        done = self.push(work, "sh", "-c")
        self.holds("no outbox: status", done.returncode == 3, done)
        centre = work / f"centre/north/{NAME}.journal"
        for number in range(10):
            datagram_file(
                folder / f"in/{NAME}.{number + 2}.fldg", sent[20 * number : 20 * number + 20]
            )
            keep(folder, has_outbox=True)
        waiting = list((folder / "outbox").iterdir())
        self.holds("few journals wait", 1 <= len(waiting) <= 8, waiting)
        done = self.push(work, "false")
        self.holds("no centre: status", done.returncode == 1, done)
        self.holds("no centre is told", f"{NAME} is not pushed" in done.stderr, done.stderr)
        self.holds("no centre: all waits", sorted(waiting) == sorted((folder / "outbox").iterdir()))
        # Data that is cut on the way changes nothing at the centre.
        done = self.push(work, "sh", "-c", 'head -c 1000 | sh -c "$1"', "cut")
        self.holds("a cut connection: status", done.returncode == 1 and not centre.exists(), done)
        done = self.push(work, "sh", "-c")
        self.holds("a push: status", done.returncode == 0, done)
        self.holds("a push: nothing waits", not list((folder / "outbox").iterdir()))
        datagram_file(work / "first.fldg", sent[:200])
        self.holds("a push: the journal", centre.read_bytes() == journal_of(work / "first.fldg"))
        datagram_file(folder / f"in/{NAME}.12.fldg", sent[200:])
        self.of_once(folder, "--outbox")
        # The file that grew in the run before is joined again, from its beginning.
        size = sum(path.stat().st_size for path in (folder / "outbox").iterdir())
        self.holds("what came since is what waits", 100_000 < size < 130_000, size)
        # The centre has the journal, but the connection is lost before it can report that.
        done = self.push(work, "sh", "-c", 'sh -c "$1"; false', "lost")
        self.holds("a lost answer: status", done.returncode == 1, done)
        done = self.push(work, "sh", "-c")
        self.holds("a second push: status", done.returncode == 0, done)
        datagram_file(work / "all.fldg", sent)
        self.holds(
            "a second push: the journal", centre.read_bytes() == journal_of(work / "all.fldg")
        )
        self.holds(
            "a second push: as the station", centre.read_bytes() == journal_of(*kept(folder))
        )
        done = self.push(work, "false")
        self.holds("nothing to push: status", done.returncode == 0, done)
        self.too_many_at_the_centre(work, centre)

    def too_many_at_the_centre(self, work: pathlib.Path, centre: pathlib.Path) -> None:
        """A journal there that would get more entries than flutejoin reads is kept as it is."""
        before, folder = centre.read_bytes(), work / "news"
        sent = sent_file(work, 20_000, 1000, toi=2)
        datagram_file(folder / f"in/{NAME}.13.fldg", sent)
        keep(folder, has_outbox=True)
        program = work / "bin/flutejoin"
        program.unlink()
        others = "*) echo full >&2; exit 1 ;;"
        script = f'case "$*" in gaps* | compare* | *"-o - "*) exec {PROGRAM} "$@" ;; {others} esac'
        program.write_text(f"#!/bin/sh\n{script}\n")
        program.chmod(0o755)
        done = self.push(work, "sh", "-c")
        self.holds("too many entries: status", done.returncode == 0, done)
        there = [path.read_bytes() for path in centre.parent.iterdir()]
        self.holds("too many entries: the journal stays", before in there, done)
        program.unlink()
        program.symlink_to(PROGRAM)
        done = self.push(work, "sh", "-c")
        self.holds("behind too many entries: status", done.returncode == 0, done)
        self.holds(
            "behind too many entries: nothing waits", not list((folder / "outbox").iterdir()), done
        )
        self.holds(
            "behind too many entries: another journal", 0 < len(centre.read_bytes()) < len(before)
        )
        self.holds("behind too many entries: both", len(list(centre.parent.iterdir())) == 2)

    def test_the_longest_journals(self) -> None:
        """One that would get more entries than flutejoin writes, here 60, is kept as it is."""
        work = self.folder
        sent, folder = sent_file(work, 150_000, 1000), work / "news"
        program = work / "flutejoin"
        program.write_text(f"#!{sys.executable}\n{OF_60_ENTRIES}")
        program.chmod(0o755)
        with mock.patch("flutejoin_tools.station.kept.MOST", 60):
            of_folder = keeper(folder, has_outbox=True, program=program)
            for begin in range(0, 150, 10):
                name = f"{NAME}.{begin // 10 + 2}.fldg"
                datagram_file(folder / "in" / name, sent[begin : begin + 10])
                of_folder.work(False)
        journals = [*folder.glob("journals/*"), *folder.glob("recent/*")]
        entries = [entries_of(str(path)) or 0 for path in journals]
        self.holds(
            "the longest journals: entries", max(entries) <= 60 and len(entries) >= 3, entries
        )
        datagram_file(work / "all.fldg", sent)
        wanted = journal_of(work / "all.fldg")
        self.holds("the longest journals: all is kept", journal_of(*journals) == wanted, journals)
        waiting = [*folder.glob("outbox/*")]
        entries = [entries_of(str(path)) or 0 for path in waiting]
        self.holds(
            "the longest journals: the outbox", max(entries) <= 60 and len(entries) <= 11, entries
        )
        self.holds("the longest journals: all waits", journal_of(*waiting) == wanted, waiting)

    def test_a_push_meanwhile(self) -> None:
        """What is taken away from the outbox while the station joins it is in its journals too."""
        work = self.folder
        sent, folder = sent_file(work, 60_000, 1000), work / "news"
        pushed: list[str] = []
        of_folder = keeper(folder, has_outbox=True)

        def push_at_once(path: str, to: str) -> None:
            copy(path, to)
            if "/outbox/" in to and not pushed:
                pushed.append(to)
                os.unlink(to)

        with contextlib.ExitStack() as patches:
            for number, part in enumerate((sent[:50], sent[50:52], sent[52:56], sent[56:])):
                datagram_file(folder / f"in/{NAME}.{number + 2}.fldg", part)
                if number == 2:
                    self.holds(
                        "a push meanwhile: two journals", len(kept(folder)) == 2, kept(folder)
                    )
                    name = "flutejoin_tools.station.keeping.copy"
                    patches.enter_context(mock.patch(name, push_at_once))
                while of_folder.waiting():
                    of_folder.work(False, has_patience=False)
        datagram_file(work / "all.fldg", sent)
        have = journal_of(*kept(folder))
        self.holds(
            "a push meanwhile", len(pushed) == 1 and have == journal_of(work / "all.fldg"), pushed
        )
