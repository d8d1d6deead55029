"""Tests what stations keep: at three that lose datagrams, behind kills, and of a sender that starts
again. Nothing that was on the disk is lost."""
from __future__ import annotations

import contextlib
import itertools
import json
import os
import pathlib
import random
import signal
import threading
import time

from tests.station.case import (
    NAME,
    SOAK,
    SOURCE,
    Case,
    Port,
    datagram_file,
    described,
    disk,
    flutejoin,
    journal_of,
    kept,
    records,
    sent_file,
)


class Witness:
    """Keeps hard links to each datagram file that ever was in a folder."""

    def __init__(self, folder: pathlib.Path, links: pathlib.Path) -> None:
        self.folder, self.links, self.is_over = folder, links, False
        links.mkdir()
        self.thread = threading.Thread(target=self.watch, daemon=True)
        self.thread.start()

    def watch(self) -> None:
        """Copies each datagram file that appears, until the end."""
        while not self.is_over:
            with contextlib.suppress(FileNotFoundError):
                for entry in os.scandir(self.folder):
                    if not entry.name.endswith(".fldg"):
                        continue
                    with contextlib.suppress(FileNotFoundError, FileExistsError):
                        os.link(entry.path, self.links / str(entry.inode()))
            time.sleep(0.003)

    def end(self) -> None:
        self.is_over = True
        self.thread.join()


class Kept(Case):
    def test_carousel_at_three_stations(self) -> None:
        """Ten rounds. Each station never gets a third of the symbols, and randomly loses others."""
        work = self.folder
        window = 200_000
        sent = [*sent_file(work, 1_000_000, 1000), *described(work / "file1")]
        names, ports = ["one", "two", "three"], [Port() for _ in range(3)]
        words = "--window", window, "--every", 1
        further: list[list[str]] = [[], [], ["--outbox"]]
        runs = [
            self.begun(work / name, port.number, *words, *more, "--status", work / f"{name}.json")
            for name, port, more in zip(names, ports, further)
        ]
        most, draw = [(0, 0)] * 3, random.Random(5)
        for _ in range(10 * SOAK):
            for number, port in enumerate(ports):
                port.send(
                    [it for at, it in enumerate(sent) if at % 3 != number and draw.random() > 0.3],
                    0.002,
                )
            for number, name in enumerate(names):
                most[number] = max(most[number], self.disk_of_joined(work / name))
        for name, run, of in zip(names, runs, most):
            folder = work / name
            status = run.end()
            self.holds(f"{name}: status", status == 0, f"{status}: {run.text()}")
            journal = len(journal_of(*kept(folder)))
            least = 600_000
            self.holds(f"{name}: has its symbols", journal > least, journal)
            at_end, outbox = disk(folder), disk(folder / "outbox")[0]
            without = at_end[0] - outbox
            self.holds(f"{name}: disk at the end", without <= 1.3 * (journal + window), at_end)
            self.holds(f"{name}: the outbox at the end", outbox <= 2 * journal + window, outbox)
            self.holds(f"{name}: nothing half done", at_end[1] == 0, at_end)
            if not outbox:
                self.holds(
                    f"{name}: disk meanwhile", of[0] <= 1.3 * journal + 4 * window, (of, journal)
                )
            told = json.loads((work / f"{name}.json").read_text())
            self.holds(
                f"{name}: status file", NAME in told["journals"] and told["disk"] > least, told
            )
        for name in names:
            (work / "alone").write_bytes(journal_of(*kept(work / name)))
            is_whole = flutejoin(
                "extract", "-o", work / "out", "--source", SOURCE, "--tsi", 7, "--toi", 1,
                work / "alone",
            )
            self.holds(f"{name}: is not whole alone", is_whole.returncode == 1, is_whole)
        journals = [path for name in names for path in kept(work / name)]
        done = self.tool("flutejoin-files", ["-o", work / "named", *journals])
        named = work / "named/example.com/file1"
        is_same = done.status == 0 and named.read_bytes() == (work / "file1").read_bytes()
        self.holds("the file under its name at the centre", is_same, done)

    def disk_of_joined(self, folder: pathlib.Path) -> tuple[int, int]:
        """`disk` of a station that has joined all but the last datagram file.

        What a slow machine has not joined yet does not count.
        """

        def is_joined() -> bool:
            return len(list((folder / "in").iterdir())) < 2

        while True:
            is_over = not self.until(is_joined)
            found = disk(folder)
            if is_over or is_joined():
                return found

    def test_kills(self) -> None:
        """What was on the disk when a station was killed is in its journals, or still there."""
        work = self.folder
        sent = sent_file(work, 4_000_000, 1400)
        large = datagram_file(work / "large", sent_file(work, 12_000_000, 1400, 2))
        (work / "news/journals").mkdir(parents=True)
        journal = work / f"news/journals/{NAME}.journal"
        journal.write_bytes(journal_of(large))
        witness, port, draw = Witness(work / "news/in", work / "links"), Port(), random.Random(6)
        is_over = threading.Event()

        def send() -> None:
            while not is_over.is_set():
                port.send(sent, 0.01)

        sender = threading.Thread(target=send, daemon=True)
        sender.start()
        joining = 0
        for number in range(50 * SOAK):
            words = "--window", 150_000, "--every", 0.2, *["--outbox"] * (number % 2)
            run = self.begun(work / "news", port.number, *words)
            time.sleep(draw.random())
            # Every third run is killed during a join, if one begins within ten seconds.
            end = time.monotonic() + 10 * (number % 3 == 0)
            while not (is_joining := any((work / "news").rglob("*.partial"))):
                if time.monotonic() >= end:
                    break
                time.sleep(0.001)
            joining += is_joining
            self.holds(f"run {number} goes on", run.child.poll() is None, run.text())
            if run.child.returncode is None and number % 2:
                os.killpg(run.child.pid, signal.SIGKILL)
            run.child.kill()
            run.wait()
            # The receiver may still write what it received, so files that are read last have more.
            links = list((work / "links").iterdir())
            (work / "seen").write_bytes(journal_of(*links))
            have = journal_of(*kept(work / "news"), *(work / "news/in").glob("*.fldg"))
            (work / "have").write_bytes(have)
            self.holds(
                f"kill {number}", journal_of(work / "have", work / "seen") == have, len(links)
            )
            for link in links[: -len(links) // 2]:
                link.unlink()
        is_over.set()
        sender.join()
        witness.end()
        self.holds("some were killed while they joined", joining > 0, joining)
        status = self.begun(work / "news", port.number, "--outbox").end()
        self.holds("a run behind them", status in (0, 1), status)
        have = journal_of(*kept(work / "news"))
        (work / "have").write_bytes(have)
        left = [*(work / "news/in").glob("*.fldg")]
        self.holds(
            "all is joined", journal_of(work / "have", *left) == have and len(left) == 1, left
        )
        whole, partial = disk(work / "news")
        self.holds("nothing half done is left", partial == 0, partial)

    def test_a_sender_that_starts_again(self) -> None:
        """Each contents of a TOI gets its own journal, even if the station restarts meanwhile.

        It makes no difference whether all is joined before a run of the station ends.
        """
        work = self.folder
        port, sent = Port(), []
        words = "--tsi", 7, "--toi", 1, "--symbol", 100, "--block", 8
        for number in range(2):
            (work / "file").write_bytes(random.Random(number).randbytes(900))
            path = work / f"sent{number}"
            done = flutejoin("carousel", "-o", path, *words, work / "file")
            assert done.returncode == 0, done.stderr
            sent.append(records(path.read_bytes()))
        generations = {NAME: sent[0], f"{NAME}.g2": sent[1]}
        steps = (NAME, 0, None), (f"{NAME}.g2", 0, 5), (f"{NAME}.g2", 5, None)
        for folder, is_joined in (work / "joined", True), (work / "at_once", False):
            for name, begin, end in steps:
                run = self.begun(folder, port.number, "--every", 0.1)
                port.send(generations[name][begin:end], 0.01)
                if is_joined:
                    self.until(lambda: has_all(folder, name, generations[name][:end]), run)
                self.holds("a sender that starts again: status", run.end() == 0, run.text())
            told = f"a sender that starts again: {folder.name}"
            for name, of in generations.items():
                self.holds(
                    f"{told}: {name}", has_all(folder, name, of), os.listdir(folder / "journals")
                )
            files = os.listdir(folder / "in")
            self.holds(f"{told}: files", files == [f"{NAME}.fldg"], files)


def has_all(folder: pathlib.Path, name: str, of: list[bytes]) -> bool:
    """Whether the journals of a name have what these datagrams tell, and nothing else."""
    journals = folder.glob(f"journals/{name}.journal"), folder.glob(f"journals/{name}.[0-9]*nal")
    wanted = datagram_file(folder.parent / "wanted.fldg", of)
    return journal_of(*itertools.chain(*journals)) == journal_of(wanted)
