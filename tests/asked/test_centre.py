"""Tests of a centre that asks its stations: what it gets, and what doesn't go twice."""
from __future__ import annotations

import os
import random
import shutil
import signal
import sys
import time
from unittest import mock

from flutejoin_tools.centre.house import House
from flutejoin_tools.centre.settings import settings_in
from flutejoin_tools.fdt.fdt import NTP_TO_UNIX
from flutejoin_tools.pages.model import Model
from flutejoin_tools.receive.settings import read_config
from tests.asked.case import AskedCase
from tests.centre.case import TSI, announced, file_of, packets
from tests.centre.test_lets_go import DAY
from tests.support import run
from tests.support.flute_sender import EXPIRES, Sent, fdt, instance

# What is sent beside symbols, in their bytes: entries have 44 bytes, sums 12 at each station
MOST_MORE = 1.10  # times the bytes of the symbols that were wanted


def files_of(turn: int, tois: range, most: int = 30_000) -> list[Sent]:
    """Files of a run of a sender: each has its own name and bytes."""
    draw = random.Random(turn)
    return [
        file_of(toi, draw.randint(1400, most), f"http://data.example/{turn}/{toi}.bin", turn)
        for toi in tois
    ]


def rounds(files: list[Sent], number: int, expires: int, count: int = 3) -> list[bytes]:
    """The datagrams of a carousel: in each round the FDT Instance in the middle and at the end."""
    told = instance(TSI, number, fdt(files, expires))
    sent = packets(files)
    half = len(sent) // 2
    return (sent[:half] + told + sent[half:] + told) * count


def size_of(files: list[Sent]) -> int:
    return sum(len(it.content) for it in files)


class Gets(AskedCase):
    is_by_ssh = False

    def test_each_symbol_once(self) -> None:
        """Three stations lose a third, and together have all: little more is sent than that."""
        files = files_of(1, range(1, 31), 100_000)
        self.hear(rounds(files, 1, EXPIRES, 4), 10**6)
        self.holds("all files are right", self.files() == self.wanted(files))
        whole = self.sent() / size_of(files)
        self.holds("few bytes more", 1 < whole < MOST_MORE, whole)
        self.holds("each is asked", all(self.sent(name) for name in self.names))
        self.holds("no conflict", self.conflicts() == 0)
        before = self.sent()
        self.ask()
        self.holds("nothing new", self.sent() - before < 3000, self.sent() - before)
        shares = self.lines()[0]["stations"]
        self.holds("the shares of all", len(shares) == 3, shares)

    def test_many_rounds(self) -> None:
        """What comes in many parts is sent once, too."""
        files = files_of(1, range(1, 11), 200_000)
        sent = rounds(files, 1, EXPIRES, 4)
        self.hear(sent, len(sent) // 12)
        self.holds("all files are right", self.files() == self.wanted(files))
        bound = 1.25 * size_of(files)  # FDT Instances are told by each, and small answers
        self.holds("few bytes more", self.sent() < bound, (self.sent(), size_of(files)))

    def test_parts(self) -> None:
        """Each station is asked only for what the ones before it lack."""
        file = file_of(1, 140_000)
        sent = file.packets(TSI)
        for name, part in zip(self.names, (sent[:60], sent[40:80], sent)):
            self.stations[name].loss = 0
            self.stations[name].hear(announced([file]) + part)
        self.ask()
        self.holds("it is delivered", [*self.files().values()] == [file.content])
        asked = [
            sum(int(it.split()[-5]) for it in self.asked(name) if " partial missing " in it)
            for name in self.names
        ]
        self.holds("each symbol was asked for once", sum(asked) == len(sent), asked)
        shares = self.lines()[0]["stations"]
        wanted = {"north": 60.0, "south": 40.0, "west": 100.0}
        self.holds("the shares are what each has", shares == wanted, shares)

    def test_two_runs(self) -> None:
        """A sender starts again with other files under its TOIs; one station is set up anew in the
        middle, one is away during the restart."""
        first, second = files_of(1, range(1, 16)), files_of(2, range(1, 16))
        self.hear(rounds(first, 1, EXPIRES, 4))
        anew, away = self.stations["south"], self.stations["west"]
        shutil.rmtree(anew.folder)
        anew.begin()
        away.is_away = True
        sent = rounds(second, 1, EXPIRES + 60, 5)
        self.hear(sent[: len(sent) // 3])
        away.is_away = False
        self.hear(sent[len(sent) // 3 :])
        self.holds("all files are right", self.files() == self.wanted([*first, *second]))
        self.holds("no conflict", self.conflicts() == 0)
        bound = 1.25 * size_of([*first, *second])
        self.holds("few bytes more", self.sent() < bound, (self.sent(), size_of(first + second)))
        self.holds("each has one line", len(self.lines()) == 30, len(self.lines()))

    def test_same_toi(self) -> None:
        """A TOI that comes with other contents is another file, also if the first one is whole and
        was let go."""
        old, new = file_of(1, 30_000), file_of(1, 30_000, seed=1)
        self.hear(rounds([old], 1, EXPIRES, 3))
        self.holds("one", [*self.files().values()] == [old.content])
        self.hear(rounds([new], 2, EXPIRES + 60, 3))
        self.holds("the other", [*self.files().values()] == [new.content])
        self.holds("nothing waits", not self.contents("gathered"), self.contents("gathered").keys())
        self.holds("once each", len(self.lines()) == 2)

    def test_without_md5(self) -> None:
        """A TOI that is used again for files without MD5, also once the sums are forgotten."""
        for turn in (1, 2, 3):
            file = file_of(1, 30_000, seed=turn)
            file.more["Content-MD5"] = None
            self.hear(rounds([file], turn, EXPIRES + turn, 3))
            self.holds(f"file {turn}", [*self.files().values()] == [file.content])
            self.clock.now += 5 * DAY
            self.house()
        self.holds("once each", len(self.lines()) == 3)

    def test_symbols_that_are_shared(self) -> None:
        """A file that grows: its next version has the same symbols and more."""
        old = file_of(1, 30_000)
        changed = bytearray(old.content)
        changed[:1400] = bytes(1400)
        new = Sent(1, bytes(changed), old.location)
        self.hear(rounds([old], 1, EXPIRES, 3))
        self.hear(rounds([new], 2, EXPIRES + 60, 4))
        self.holds("the newer one", [*self.files().values()] == [new.content], self.told.printed)

    def test_padded(self) -> None:
        """What a sender pads is known again when it comes again."""
        file = file_of(1, 30_000)
        sent = file.packets(TSI)
        sent[-1] += bytes(1400 - 30_000 % 1400)
        self.hear(announced([file]) + sent * 3)
        self.holds("it is delivered", [*self.files().values()] == [file.content])
        self.forget_marks()
        before = len(self.asked_for())
        self.ask()
        self.holds("nothing is asked for again", len(self.asked_for()) == before)

    def asked_for(self) -> list[str]:
        """The lines by which symbols were asked for."""
        return [it for name in self.names for it in self.asked(name) if it.startswith("gap ")]

    def forget_marks(self) -> None:
        """Has the stations tell everything again."""
        for station in self.stations.values():
            shutil.rmtree(station.folder / "answer")

    def test_delivered_does_not_come_back(self) -> None:
        """From a carousel, a mark that is lost, a station set up anew, or a start of the centre."""
        files = files_of(1, range(1, 9))
        self.hear(rounds(files, 1, EXPIRES, 4))
        self.holds("all", len(self.lines()) == len(files))
        shutil.rmtree(self.path("centre/files"))
        self.path("centre/files").mkdir()
        before = len(self.asked_for())
        for what in ("a carousel", "no mark", "a start", "set up anew"):
            if what == "no mark":
                self.forget_marks()
            if what == "a start":
                self.open()
            if what == "set up anew":
                shutil.rmtree(self.stations["west"].folder)
                self.stations["west"].begin()
            self.hear(rounds(files, 1, EXPIRES, 2), 10**6)
            self.holds(f"{what}: nothing is asked for", len(self.asked_for()) == before)
            self.holds(f"{what}: nothing waits", not self.contents("gathered"))
        self.holds("nothing is written again", not self.files())
        self.holds("each has one line", len(self.lines()) == len(files))

    def test_the_mark_is_lost_in_the_middle(self) -> None:
        files = files_of(1, range(1, 9))
        sent = rounds(files, 1, EXPIRES, 4)
        self.hear(sent[: len(sent) // 5])
        before = len(self.asked_for())
        self.forget_marks()
        self.ask()
        self.holds("what is held isn't asked for", len(self.asked_for()) == before)
        self.hear(sent[len(sent) // 5 :])
        self.holds("all files are right", self.files() == self.wanted(files))

    def house(self) -> None:
        House(self.centre, Model(self.centre, self.clock.now), self.told).keep()

    def test_let_go(self) -> None:
        """Sums that are forgotten, and objects that never became whole, don't come back; once more
        of these comes, all of them is asked for again."""
        whole, part = file_of(1, 30_000), file_of(2, 30_000)
        sent = announced([whole, part]) + packets([whole]) * 4 + part.packets(TSI)[:9] * 4
        self.hear(sent, 10**6)
        self.holds("one is delivered", len(self.lines()) == 1)
        self.holds("one waits", len(self.centre.union) == 1)
        before = len(self.asked_for())
        for days in (6, 8, 20):
            self.clock.now += days * DAY
            self.house()
            self.forget_marks()
            self.ask()
            self.holds(f"after {days} days nothing", len(self.asked_for()) == before)
        self.holds("the other was let go", not self.centre.union, self.centre.union)
        self.open()
        self.ask()
        self.holds("it stays so", len(self.asked_for()) >= before)

    def test_more_of_what_was_let_go(self) -> None:
        part = file_of(2, 30_000)
        for station in self.stations.values():
            station.loss = 0
        self.hear(announced([part]) + part.packets(TSI)[:9], 10**6)
        self.clock.now += 31 * DAY
        for station in self.stations.values():
            for path in (station.folder / "journals").iterdir():
                os.utime(path, (time.time() - 31 * DAY,) * 2)
        self.house()
        self.holds("it is let go", not self.centre.union)
        self.ask()
        self.holds("and not told again", not self.centre.union)
        self.hear(part.packets(TSI)[9:], 10**6)
        self.ask()
        self.holds("it is delivered", [*self.files().values()] == [part.content])

    def test_old_files(self) -> None:
        """A new centre of old stations gets nothing whose FDT Instance expired long ago."""
        old = file_of(1, 30_000)
        over = int(self.clock.now - 9 * DAY + NTP_TO_UNIX)
        sent = announced([old], 1, over) + packets([old])
        for station in self.stations.values():
            station.loss = 0
            station.hear(sent)
            for path in (station.folder / "fdt").glob("*.xml"):
                os.utime(path, (self.clock.now - 9 * DAY,) * 2)
        self.ask()
        self.holds("nothing is asked for", not self.asked_for())
        self.holds("nothing is delivered", not self.lines())

    def test_document_comes_last(self) -> None:
        file = file_of(1, 30_000)
        self.hear(packets([file]) * 4, 10**6)
        self.holds("nothing is delivered without a name", not self.lines())
        self.hear(announced([file]), 10**6)
        self.holds("it is, once its name is known", [*self.files().values()] == [file.content])

    def test_information_of_the_fdt(self) -> None:
        """Files whose packets have no transmission information."""
        files = files_of(1, range(1, 6), 100_000)
        for file in files:
            file.is_in_packets = False
        self.hear(rounds(files, 1, EXPIRES, 4), 10**6)
        self.holds("all files are right", self.files() == self.wanted(files))
        whole = self.sent() / size_of(files)
        self.holds("few bytes more", whole < MOST_MORE, whole)

    def test_parts_of_documents(self) -> None:
        """No station has the whole FDT Instance, and together they have it."""
        files = files_of(1, range(1, 9))
        told = instance(TSI, 1, fdt(files))
        self.holds("it has several packets", len(told) > 2)
        for at, station in enumerate(self.stations.values()):
            station.loss = 0
            station.hear([*told[at::3], *packets(files)[at::3]])
        self.ask()
        self.holds("all files are right", self.files() == self.wanted(files))

    def test_forged(self) -> None:
        """Wrong symbols are asked for once, and spoil nothing."""
        files, draw = files_of(1, range(1, 11)), random.Random(5)
        sent = rounds(files, 1, EXPIRES, 4)
        for file in files:
            packet = bytearray(draw.choice(file.packets(TSI)))
            packet[-1] ^= 1
            sent.insert(draw.randrange(len(sent)), bytes(packet))
        self.hear(sent)
        self.holds("all files are right", self.files() == self.wanted(files), self.told.printed)
        before = len(self.asked_for())
        self.ask()
        self.holds("nothing more is asked for", len(self.asked_for()) == before)

    def test_large(self) -> None:
        """What is more than one answer has is asked for in several ones."""
        file = file_of(1, 300_000)
        assert self.asker
        for each in self.asker.stations:
            each.budget = 50_000
        patch = mock.patch("flutejoin_tools.exchange.asked.MOST_ASKED", 50_000)
        patch.start()
        self.addCleanup(patch.stop)
        self.hear(announced([file]) + packets([file]) * 4, 10**6)
        self.holds("it is delivered", [*self.files().values()] == [file.content])
        requests = sum(it.startswith("want ") for name in self.names for it in self.asked(name))
        self.holds("several requests", requests >= 6, requests)
        self.holds("few bytes more", self.sent() < MOST_MORE * 300_000, self.sent())


class Tool(AskedCase):
    """flutejoin-centre as a process."""

    def words(self, *more: object) -> list[object]:
        return [sys.executable, run.ROOT / "tools/flutejoin-centre", "--config", self.config, *more]

    def setUp(self) -> None:
        super().setUp()
        self.centre.ledger.close()
        self.config = self.write_settings(every="1s")

    def test_once(self) -> None:
        files = files_of(1, range(1, 6))
        for station in self.stations.values():
            station.hear(rounds(files, 1, EXPIRES, 4))
        self.check("it asks and delivers", self.command(self.words("--once")), 0, "", None)
        self.holds("all files are right", self.files() == self.wanted(files))
        before = self.sent()
        self.check("nothing new", self.command(self.words("--once")), 0, "", "")
        self.holds("few bytes", self.sent() - before < 2000)

    def test_runs(self) -> None:
        """It asks while it runs, and delivers what came since."""
        files = files_of(1, range(1, 6))
        child = self.start(self.words(), to="out", err="err")
        for at in range(0, 5, 2):
            for station in self.stations.values():
                station.hear(rounds(files[: at + 2], at + 1, EXPIRES + at, 4))
            wanted = self.wanted(files[: at + 2])
            self.holds(f"{at}", run.until(lambda: self.files() == wanted), self.read("err"))
        child.send_signal(signal.SIGTERM)
        self.holds("it ends", child.wait(run.LONGEST) == 0, self.read("err"))

    def test_killed(self) -> None:
        """Killed at random moments, each file is delivered once, and little comes twice."""
        draw, files = random.Random(67), files_of(1, range(1, 25), 60_000)
        for at in range(0, 24, 4):
            for station in self.stations.values():
                station.hear(rounds(files[at : at + 4], at + 1, EXPIRES + at, 4))
            for _ in range(4):
                child = self.start(self.words(), to="out", err="err")
                run.until(lambda: child.poll() is not None, draw.uniform(0.2, 1.5))
                child.send_signal(signal.SIGKILL)
                child.wait()
        self.check("the last run", self.command(self.words("--once")), 0, "", None)
        self.holds("all files are right", self.files() == self.wanted(files))
        names = [it["path"] for it in self.lines()]
        self.holds("each has one line", sorted(names) == sorted(self.wanted(files)), names)
        left = [path.name for path in self.path("centre").rglob("*.partial")]
        self.holds("nothing is left on its way", not left, left)

    def test_full_disk(self) -> None:
        """On a full disk nothing that came is lost; the rest is asked for once there is room."""
        files = [file_of(toi, 100_000) for toi in range(1, 7)]
        for station in self.stations.values():
            station.loss = 0.1
            station.hear(rounds(files, 1, EXPIRES, 3))
        tool = " ".join(map(str, self.words("--once")))
        script = f"""
            mount -t tmpfs -o size=900k none centre 2> /dev/null || exit 9
            {tool}; echo $? > first
            mount -o remount,size=30m centre
            {tool}; echo $? > second
            cp -r centre after"""
        done = self.command(["unshare", "-m", "sh", "-c", script])
        if done.status == 9 or self.command(["unshare", "-m", "true"]).status:
            self.skipTest("since nothing can be mounted here")
        statuses = self.read("first"), self.read("second")
        self.holds("the statuses", statuses == (b"3\n", b"0\n"), (statuses, done))
        lines = self.read("after/delivered.jsonl").splitlines()
        self.holds("each is delivered once", len(lines) == len(files), lines)
        for file in files:
            name = f"after/files/data.example/day/{file.toi:05}.bin"
            self.same(file.location, name, file.content)

    def test_ends_with_its_centre(self) -> None:
        """A station that is being asked when the centre is killed is asked no more."""
        pid = str(self.path("pid"))
        told = f"open({pid!r}, 'w').write(str(os.getpid()))\ntime.sleep(600)"
        self.wrong("north", before=told)
        child = self.start(self.words(), to="out", err="err")
        self.holds("it is asked", run.until(lambda: self.exists("pid") and self.read("pid")))
        child.send_signal(signal.SIGKILL)
        child.wait()
        number = int(self.read("pid"))
        self.holds("it ends", run.until(lambda: not os.path.exists(f"/proc/{number}")))


class Settings(AskedCase):
    def settings_with(self, **station: object) -> None:
        settings_in({"folder": str(self.path("centre"))}, [{"name": "north", **station}])

    def test_ssh(self) -> None:
        rows: tuple[tuple[dict[str, object], str], ...] = (
            ({}, "folder is no text"),
            ({"ssh": "-oProxyCommand=x"}, "is no user@host"),
            ({"ssh": "a b"}, "is no user@host"),
            ({"ssh": "a;b"}, "is no user@host"),
            ({"ssh": ""}, "is user@host"),
            ({"ssh": []}, "is no user@host"),
            ({"ssh": 7}, "is user@host"),
            ({"ssh": ["-p", 7, "north"]}, "is user@host"),
            ({"ssh": "north", "folder": "x"}, "and so no folder"),
            ({"ssh": "north", "outbox": True}, "and so no folder"),
        )
        for wrong, told in rows:
            with self.assertRaises(ValueError) as fault:
                self.settings_with(**wrong)
            self.holds(f"{wrong}", told in str(fault.exception), fault.exception)
        table = {"name": "north", "ssh": ["-p", "2222", "flutejoin@[2001:db8::1]"]}
        settings = settings_in({"folder": str(self.path("centre"))}, [table])
        (station,) = settings.stations
        words = [*station.ask]
        self.holds("its own words", words[words.index("-p") + 1] == "2222", words)
        self.holds("no question", "BatchMode=yes" in words[: words.index("-p")], words)
        end = ["flutejoin@[2001:db8::1]", "flutejoin-station", "--answer"]
        self.holds("and then what is to be run", words[-3:] == end, words)
        folder = str(self.path("centre/asked/north"))
        self.holds("its folder", station.folder == folder, station)

    def test_example(self) -> None:
        """The example of the package is right."""
        given = read_config(str(run.ROOT / "packaging/centre.toml"))
        self.holds("it has stations", settings_in(given["centre"], given["station"]).stations)
