"""Tests what those who send to a station can do to it: what it keeps, of whom, in which order, and
what it says. Most are of its parts alone, with a clock that is set."""
from __future__ import annotations

import collections
import contextlib
import json
import os
import pathlib
import random
import signal
import socket
import struct
import sys
import unittest
from typing import IO, Any, Callable, Iterable, Iterator
from unittest import mock

import datagram_files
from flutejoin_tools.common.joining import largest_sessions
from flutejoin_tools.common.outputs import replace_text
from flutejoin_tools.common.program import Answer, Program
from flutejoin_tools.common.service_log import MOST_LINES
from flutejoin_tools.common.shelves import Shelf
from flutejoin_tools.receive.settings import read_config, words_of_station
from flutejoin_tools.station import room as station_room
from flutejoin_tools.station.incoming import Part, sender_of
from flutejoin_tools.station.keeping import Keeper
from flutejoin_tools.station.kept import Settings
from flutejoin_tools.station.room import Room
from flutejoin_tools.station.voice import status_of
from tests.support import flute_sender, run
from tests.support.flute_sender import header
from tests.support.kept_log import KeptLog
from tests.support.ports import free_port
from tests.support.run import ROOT

REAL = "10.0.0.1"


def records(datagrams: Iterable[bytes]) -> bytes:
    return datagram_files.content(datagrams)


def symbols(count: int, tsi: int = 7, toi: int = 1, first: int = 0) -> list[bytes]:
    """Datagrams of an object of 1,000,000 bytes."""
    sent = flute_sender.packets(tsi, toi, bytes(range(250)) * 4000, 1000, 64)
    return sent[first : first + count]


class Clock:
    """A clock that stands still, but for what is added."""

    def __init__(self) -> None:
        self.now = 1000.0

    def __call__(self) -> float:
        return self.now


class Faked(Program):
    """A program that joins nothing, and keeps what it was asked to join."""

    def __init__(self, takes: Callable[[], object] = lambda: None) -> None:
        super().__init__("nothing", lambda: None)
        self.asked: list[str] = []
        self.takes = takes

    def join(
        self, source: bytes, out: str | IO[bytes], *_: object, **more: object
    ) -> Answer:
        assert not isinstance(out, str)
        self.asked.append(os.path.basename(out.name))
        self.takes()
        out.write(b"FLJN\0\2\xff" + bytes(8))
        return Answer(0, "", b"datagrams 1\nrefused 0\nentries 1\n")


class Case(run.Case):
    def setUp(self) -> None:
        super().setUp()
        self.news, self.told, self.clock = self.path("news"), KeptLog(), Clock()
        (self.news / "in").mkdir(parents=True)

    def run(self, result: unittest.TestResult | None = None) -> unittest.TestResult | None:
        """Counts a test that holds as one check."""
        result = result or self.defaultTestResult()
        before = len(result.failures) + len(result.errors)
        super().run(result)
        run.Counts.passed += before == len(result.failures) + len(result.errors)
        return result

    @contextlib.contextmanager
    def set_clock(self) -> Iterator[Clock]:
        """A context in which the clock is one that the test sets."""
        with mock.patch("time.monotonic", self.clock):
            yield self.clock

    def incoming(self, name: str, datagrams: Iterable[bytes]) -> pathlib.Path:
        """Writes a datagram file that a receiver would have written."""
        path = self.news / "in" / f"{name}.fldg"
        path.write_bytes(records(datagrams))
        return path

    def keeper(self, program: Program | None = None, **settings: Any) -> Keeper:
        """What joins the files of the station's folder, with these settings."""
        chosen: dict[str, Any] = {"every": 0, "keep_raw": 0, "has_outbox": False, **settings}
        program = program or Program(str(run.PROGRAM), lambda: None)
        return Keeper(str(self.news), program, Settings(**chosen), self.told)

    def joined_all(self, keeper: Keeper) -> None:
        """Joins until nothing waits."""
        while keeper.waiting():
            keeper.work(False)

    def journals(self, name: str = REAL) -> list[str]:
        """The journals of a sender that are there."""
        return [str(path) for path in (self.news / "journals").glob(f"{name}.*journal")]

    def lines(self, text: str) -> list[str]:
        return [line for line in self.told.printed if text in line]


class Most(Case):
    """The disk that a station takes."""

    def sender(self, name: str, size: int, age: int) -> None:
        """Makes a sender with a datagram file and a journal of so many bytes, so many seconds
        old."""
        for folder, ending in ("in", ".fldg"), ("journals", ".journal"):
            path = self.news / folder / (name + ending)
            path.parent.mkdir(exist_ok=True)
            path.write_bytes(bytes(size))
            os.utime(path, (1e9 - age, 1e9 - age))

    def room(self, most: int) -> Room:
        """Has the station keep to a bound once."""
        shelves = [Shelf(str(self.news / name)) for name in ("raw", "aside")]
        room = Room(str(self.news), most, shelves, self.told)
        room.keep_at_times()
        return room

    def left(self) -> list[str]:
        return sorted(path.stem for path in (self.news / "journals").iterdir())

    def test_blocks_are_counted(self) -> None:
        for number in range(10):
            self.sender(f"11.0.0.{number}", 40, 0)
        room = self.room(1 << 30)
        blocks = sum(path.stat().st_blocks for path in self.news.glob("*/*"))
        self.assertGreater(blocks * 512, 20 * 40)
        self.assertEqual(room.bytes, blocks * 512)
        self.assertEqual(len(self.left()), 10)

    def test_small_and_silent_senders_go_first(self) -> None:
        self.sender(REAL, 1_000_000, 500)
        self.sender("10.0.0.2", 100_000, 900)
        for number in range(100):
            self.sender(f"11.0.0.{number}", 40, 100 + number)
        self.sender("10.0.0.3", 40, 1)
        self.sender("2001-db8--1", 40, 300)
        room = self.room(2_500_000)
        left = self.left()
        self.assertLess(room.bytes, 2_500_000)
        # Of the senders with few bytes those stay that sent last; those with many bytes all stay.
        wanted = [f"11.0.0.{number}" for number in range(len(left) - 3)]
        self.assertEqual(left, sorted([REAL, "10.0.0.2", "10.0.0.3", *wanted]))
        self.assertGreater(len(wanted), 10)
        self.assertEqual(room.removed.senders, 104 - len(left))
        self.assertEqual(len(self.lines("removed all of")), 1, self.told.printed)
        self.assertTrue(self.lines("2001-db8--1"), "which was silent longest")

    def test_the_sender_with_most_stays(self) -> None:
        self.sender(REAL, 1_000_000, 500)
        self.sender("10.0.0.2", 900_000, 1)
        room = self.room(100_000)
        self.assertEqual(self.left(), [REAL])
        self.assertEqual(len(self.lines("of the sender that has most")), 1)
        room.look_at = 0
        room.keep_at_times()
        self.assertEqual(len(self.lines("of the sender that has most")), 1)

    def test_what_is_kept_raw_or_aside_goes_before(self) -> None:
        self.sender("10.0.0.2", 40, 1)
        self.sender(REAL, 100_000, 1)
        for folder in "raw", "aside":
            (self.news / folder).mkdir()
            for number in range(5):
                name = f"{REAL}.2026010100000000000{number}.fldg"
                (self.news / folder / name).write_bytes(bytes(100_000))
        self.room(700_000)
        counts = [len(os.listdir(self.news / folder)) for folder in ("raw", "aside")]
        self.assertEqual((counts, self.left()), ([0, 4], [REAL, "10.0.0.2"]))
        self.assertEqual(len(self.lines("files of")), 1, self.told.printed)

    def test_a_bound_of_senders(self) -> None:
        with mock.patch.object(station_room, "MOST_SENDERS", 32):
            for number in range(40):
                self.sender(f"11.0.0.{number}", 40, number)
            self.room(1 << 40)
        self.assertEqual(self.left(), sorted(f"11.0.0.{number}" for number in range(30)))

    def test_a_file_that_a_receiver_has_open(self) -> None:
        """The receiver would write the file anew if it were removed at once."""
        self.sender(REAL, 100_000, 1)
        self.sender("11.0.0.1", 40, 1)
        with open(self.news / "in/11.0.0.1.fldg", "rb") as file:
            room = self.room(210_000)
            self.assertFalse((self.news / "in/11.0.0.1.fldg").exists())
            self.assertEqual(os.fstat(file.fileno()).st_nlink, 1)
            room.look_at = 0
            room.keep_at_times()
            self.assertEqual(os.fstat(file.fileno()).st_nlink, 0)

    def test_a_station(self) -> None:
        """The journals of made-up senders go, and their states with their files."""
        self.incoming(REAL, symbols(200))
        for number in range(60):
            self.incoming(f"11.0.0.{number}", symbols(1))
        keeper = self.keeper(most=600_000)
        with self.set_clock() as clock:
            for _ in range(20):
                keeper.work(True)
                clock.now += 20
        self.assertLessEqual(keeper.room.bytes, 600_000)
        self.assertTrue(self.journals())
        self.assertLess(len(keeper.states), 60)
        self.assertEqual(len(keeper.states), len(os.listdir(self.news / "in")))
        removed = status_of(keeper)["removed"]
        self.assertEqual(removed["senders"], 61 - len(keeper.states))
        self.assertEqual(status_of(keeper)["disk"], keeper.room.bytes)


class Order(Case):
    """Which sender is joined when, and how often all files are looked at."""

    def test_the_sender_with_most_bytes_is_first(self) -> None:
        for number in range(50):
            self.incoming(f"11.0.0.{number}", symbols(1))
        self.incoming(REAL, symbols(100))
        program = Faked()
        self.keeper(program).work(False)
        self.assertEqual(program.asked[0], f"{REAL}.new.partial")
        joined = {name for name in program.asked if name.endswith(".new.partial")}
        self.assertEqual(len(joined), 51)

    def test_it_is_first_again_before_all_others_were(self) -> None:
        with self.set_clock() as clock:

            def takes() -> None:
                clock.now += 0.4

            for number in range(50):
                self.incoming(f"11.0.0.{number}", symbols(1))
            path = self.incoming(REAL, symbols(100))
            program = Faked(takes)
            keeper = self.keeper(program, every=1)
            for number in range(10):
                with path.open("ab") as file:
                    file.write(records(symbols(1, first=200 + number))[6:])
                keeper.work(True)
            self.assertGreater(program.asked.count(f"{REAL}.new.partial"), 4)
            self.assertGreater(len(set(program.asked)), 10)

    def test_many_files_are_seldom_looked_at(self) -> None:
        for number in range(50):
            self.incoming(f"11.0.0.{number}", symbols(1))
        look, looks = Part.look, 0
        with self.set_clock() as clock:

            def slowly(part: Part) -> None:
                nonlocal looks
                looks += 1
                clock.now += 0.02
                look(part)

            with mock.patch.object(Part, "look", slowly):
                keeper = self.keeper(Faked())
                while keeper.work(True):
                    pass
                looks, end = 0, clock.now + 200
                while clock.now < end:
                    keeper.work(True)
                    clock.now += 0.5
        # A twentieth of the time is that of 10 seconds, in which 500 files are looked at.
        self.assertLessEqual(looks, 550)
        self.assertGreaterEqual(looks, 400)

    def test_no_state_is_kept_for_a_sender_that_is_gone(self) -> None:
        paths = [self.incoming(f"11.0.0.{number}", symbols(1)) for number in range(20)]
        keeper = self.keeper(Faked())
        keeper.work(False)
        self.assertEqual(len(keeper.states), 20)
        for path in paths:
            path.unlink()
        keeper.work(False)
        self.assertEqual((len(keeper.states), len(keeper.incoming.parts)), (0, 0))


class Restart(Case):
    """What was joined before a restart is not joined again."""

    def again(self) -> int:
        """How many bytes a new run has to join."""
        return self.keeper().waiting()

    def joined(self, name: str = REAL) -> pathlib.Path:
        """Joins a datagram file in a run that ends."""
        path = self.incoming(name, symbols(40))
        keeper = self.keeper()
        self.joined_all(keeper)
        keeper.finish()
        return path

    def test_all_was_joined(self) -> None:
        self.joined()
        self.joined("11.0.0.1")
        self.assertEqual(self.again(), 0)

    def test_a_kill(self) -> None:
        """Every few seconds it is written down what is joined."""
        self.incoming(REAL, symbols(40))
        keeper = self.keeper()
        keeper.work(True)
        keeper.work(True)
        self.assertEqual(self.again(), 0)

    def test_what_came_since_is_joined(self) -> None:
        path = self.joined()
        more = records(symbols(3, first=40))[6:]
        with path.open("ab") as file:
            file.write(more)
        keeper = self.keeper()
        self.assertEqual(keeper.waiting(), len(more))
        self.joined_all(keeper)
        self.path("all").write_bytes(path.read_bytes())
        self.made(["join", "--source", REAL, "-o", "wanted", "all"])
        self.made(["join", "-o", "have", *self.journals()])
        self.same("all is kept", "have", "wanted")

    def test_other_bytes_of_that_name(self) -> None:
        path = self.joined()
        size = path.stat().st_size
        path.write_bytes(records(symbols(60, first=50)))
        self.assertEqual(self.again(), path.stat().st_size - 6)
        self.assertGreater(path.stat().st_size, size)

    def test_a_journal_that_is_gone(self) -> None:
        path = self.joined()
        for journal in self.journals():
            os.unlink(journal)
        self.assertEqual(self.again(), path.stat().st_size - 6)

    def test_a_journal_that_was_set_aside(self) -> None:
        """What it had is joined again, also if the run is killed at once."""
        path = self.joined()
        keeper = self.keeper()
        keeper.look()
        (sender,) = keeper.incoming.found
        (journal,) = keeper.kept(sender)
        keeper.set_journal_aside(sender, journal, "damaged")
        pathlib.Path(journal).touch()
        self.assertEqual(self.again(), path.stat().st_size - 6)

    def test_a_file_that_was_cut(self) -> None:
        path = self.joined()
        for text in b"", b"{", b"[1, 2]", b'{"x": 3}', b'{"10.0.0.1.fldg": [9e99, 1]}', b"[" * 5000:
            (self.news / "joined.json").write_bytes(text)
            self.assertEqual(self.again(), path.stat().st_size - 6, text[:40])


class Full(Case):
    """More sessions than one join takes, all from the address of a real sender."""

    def flood(self, count: int) -> list[bytes]:
        """Datagrams of so many sessions, one of each."""
        front = bytes.fromhex("10a0040000000000")
        return [front + struct.pack(">II", 1000 + tsi, 1) + b"\0\0\0\0N" for tsi in range(count)]

    def real(self) -> list[bytes]:
        """The datagrams of a large object."""
        data = random.Random(1).randbytes(7984 * 100)
        return flute_sender.packets(7, 1, data, 100, 64)

    def test_the_real_session_is_joined(self) -> None:
        sent, made_up = self.real(), self.flood(45_000)
        came = [*sent, *made_up]
        random.Random(2).shuffle(came)
        path = self.incoming(REAL, came)
        keeper, joins = self.keeper(every=1), collections.Counter[str]()
        join = keeper.program.join

        def counted(*words: Any, **more: Any) -> Answer:
            joins["all"] += 1
            return join(*words, **more)

        with mock.patch.object(keeper.program, "join", counted), self.set_clock() as clock:
            for _ in range(20):
                keeper.work(True)
                clock.now += 60
        self.assertLessEqual(joins["all"], 4)
        self.assertEqual(keeper.waiting(), 0)
        summary = self.made(["gaps", "--any-size", "--tsi", "7", *self.journals()])
        self.assertIn(f" whole {len(sent) * 100}", summary.out.decode())
        aside = list((self.news / "aside").iterdir())
        self.assertEqual(len(aside), 1)
        kept = list(datagram_files.read(str(aside[0])))
        self.assertEqual(len(kept), 45_000 - 63)
        self.assertLessEqual(set(kept), set(made_up))
        self.assertTrue(path.exists(), "the growing file stays")
        told = self.lines("those of the 64 sessions with most are joined")
        self.assertEqual((len(told), self.told.status), (1, 1), self.told.printed)

    def test_what_comes_then_is_joined(self) -> None:
        sent = self.real()
        path = self.incoming(REAL, [*self.flood(40_000), *sent[:4000]])
        keeper = self.keeper()
        keeper.work(True)
        with path.open("ab") as file:
            file.write(records(sent[4000:])[6:])
        keeper.look()
        keeper.incoming.look_at = 0
        keeper.work(True)
        self.joined_all(keeper)
        self.made(["join", "--any-size", "-o", "all", *self.journals()])
        summary = self.made("gaps --any-size --tsi 7 all").out.decode()
        self.assertIn(f" whole {len(sent) * 100}", summary)

    def test_few_are_counted_at_a_time(self) -> None:
        with mock.patch("flutejoin_tools.common.joining.MOST_COUNTED", 100):
            path = self.incoming(REAL, [*self.flood(5000), *self.real()[:500], *self.flood(300)])
            program = Program("nothing", lambda: None)
            found = sender_of(path.name)
            assert found
            part = Part(str(path), found[1])
            part.look()
            self.assertEqual(largest_sessions(program, part.fed())[0], 7)


class Voice(Case):
    def test_a_sender_that_is_refused(self) -> None:
        """An FDT Instance of another version, at once or within a minute, with the reason."""
        old = [
            header(7, 0, struct.pack(">I", 192 << 24 | 1 << 20 | 1)) + bytes(4) + b"<FDT/>"
        ] * 3
        with self.set_clock() as clock:
            self.incoming("10.0.0.2", [*symbols(5), b"no packet"])
            keeper = self.keeper()
            keeper.work(True)
            self.assertEqual(len(self.lines("refused datagrams")), 1)
            self.assertTrue(self.lines("1 of 6 of 10.0.0.2"), self.told.printed)
            self.incoming(REAL, old)
            clock.now += 1
            keeper.work(True)
            clock.now += 59
            keeper.work(True)
        told = self.lines("all 3 of 10.0.0.1")
        self.assertEqual(len(told), 1, self.told.printed)
        self.assertIn("(3: 14 FluteVersion)", told[0])
        status = status_of(keeper)
        self.assertEqual(status["reasons"], {"14 FluteVersion": 3, "3 LctVersion": 1})
        self.assertEqual(status["journals"][REAL]["reasons"], {"14 FluteVersion": 3})
        self.assertEqual((status["refused"], status["datagrams"]), (4, 9))
        self.assertEqual(status["journals"][REAL]["refused"], 3)

    def test_other_values(self) -> None:
        path = self.incoming(REAL, symbols(10))
        others = flute_sender.packets(7, 1, bytes(1_000_000), 1000, 64)
        with self.set_clock() as clock:
            keeper = self.keeper()
            keeper.work(True)
            for first in 0, 3:
                with path.open("ab") as file:
                    file.write(records([others[first], *symbols(5, first=first + 1)])[6:])
                clock.now += 120
                keeper.work(True)
        self.assertEqual(len(self.lines("1 symbol came with other values")), 2, self.told.printed)
        self.assertEqual(status_of(keeper)["other values"], 2)
        aside = (self.news / f"aside/{REAL}.v1.journal").read_bytes()
        self.assertEqual(aside.count(bytes(1000)), 2)

    def test_the_last_fault_and_its_end(self) -> None:
        self.incoming(REAL, symbols(10))
        program = Program("/nothing", lambda: None)
        with self.set_clock() as clock:
            keeper = self.keeper(program)
            self.assertIsNone(status_of(keeper)["last fault"])
            keeper.work(True)
            fault = status_of(keeper)["last fault"]
            self.assertIn("/nothing: cannot be run", fault["fault"])
            self.assertIsNone(fault["ended"])
            program.path = str(run.PROGRAM)
            clock.now += 11
            keeper.work(True)
        self.assertTrue(self.lines(f"{REAL}: is joined again"), self.told.printed)
        self.assertIsNotNone(status_of(keeper)["last fault"]["ended"])

    def test_the_outbox_and_the_room_that_is_free(self) -> None:
        self.incoming(REAL, symbols(10))
        with self.set_clock() as clock:
            keeper = self.keeper(has_outbox=True)
            self.joined_all(keeper)
            clock.now += 3601
            keeper.work(True)
        status = status_of(keeper)
        self.assertEqual(status["outbox"]["files"], 1)
        self.assertGreater(status["outbox"]["bytes"], 10_000)
        self.assertGreater(status["free"], 0)
        (line,) = self.lines("in an hour 10 datagrams, 0 refused")
        self.assertIn("in 1 journals of the outbox", line)
        json.dumps(status)

    def test_few_lines_in_a_minute(self) -> None:
        with self.set_clock() as clock:
            for number in range(5000):
                self.told.warn(f"line {number}")
            self.assertEqual(len(self.told.printed), MOST_LINES)
            clock.now += 61
            self.told.warn("another")
        self.assertIn("4900 lines more", self.told.printed[-2])
        self.assertEqual(self.told.printed[-1], "another")

    def test_a_status_is_no_longer_than_so(self) -> None:
        (self.news / "journals").mkdir()
        with mock.patch.object(station_room, "MOST_TOLD", 5):
            for number in range(20):
                path = self.news / "journals" / f"11.0.0.{number}.journal"
                path.write_bytes(bytes(5000 * number))
            status = status_of(self.keeper(Faked()))
        self.assertEqual(list(status["journals"]), [f"11.0.0.{number}" for number in range(15, 20)])
        self.assertEqual(status["other senders"], 15)


class OnTheDisk(Case):
    """New files are on the disk with their names."""

    def synced(self, work: Callable[[], object]) -> set[int]:
        """The inodes of the files that were brought to the disk by some work."""
        inodes, fsync = set(), os.fsync

        def kept(descriptor: int) -> None:
            inodes.add(os.fstat(descriptor).st_ino)
            fsync(descriptor)

        with mock.patch("os.fsync", kept):
            work()
        return inodes

    def has_all(self, inodes: set[int], *paths: str | pathlib.Path) -> None:
        for path in map(pathlib.Path, paths):
            self.assertIn(path.stat().st_ino, inodes, path)
            self.assertIn(path.parent.stat().st_ino, inodes, path.parent)

    def test_what_is_moved(self) -> None:
        shelf, path = Shelf(str(self.news / "raw")), self.incoming(REAL, symbols(3))
        kept: list[str] = []
        inodes = self.synced(lambda: kept.append(shelf.take(str(path), REAL)))
        self.has_all(inodes, *kept)

    def test_what_is_joined_and_what_is_aside(self) -> None:
        self.incoming(REAL, [*symbols(5), *Full.flood(Full(), 40_000)])
        keeper = self.keeper()

        def work() -> None:
            keeper.work(True)
            keeper.finish()

        inodes = self.synced(work)
        aside = list((self.news / "aside").iterdir())
        self.assertEqual(len(aside), 1)
        self.has_all(inodes, self.news / "joined.json", *aside, *self.journals())

    def test_a_link_beside_a_status(self) -> None:
        """Somebody else's file is not written through it."""
        self.write("alice", "hers")
        self.path("status.partial").symlink_to(self.path("alice"))
        replace_text(str(self.path("status")), "{}")
        self.assertEqual((self.read("alice"), self.read("status")), (b"hers", b"{}"))
        self.assertFalse(self.path("status").is_symlink())


class Before(Case):
    """What earlier versions left in a station's folder."""

    def test_datagram_files_of_epochs(self) -> None:
        """They are joined first, and then removed; the last of the others stays."""
        for number, name in enumerate((REAL, f"{REAL}.2", f"{REAL}.e2", f"{REAL}.e3.2")):
            self.incoming(name, symbols(2, first=2 * number))
        keeper = self.keeper()
        with self.set_clock() as clock:
            for _ in range(3):
                keeper.work(True)
                clock.now += 61
        self.assertEqual(os.listdir(self.news / "in"), [f"{REAL}.2.fldg"])
        self.assertEqual(keeper.waiting(), 0)
        self.assertEqual({str(it.address) for it in keeper.incoming.found}, {REAL})


class Config(Case):
    NUL = (
        '[[session]]\nport = 4001\ninterface = "\\u0000"',
        '[[session]]\nport = 4001\ninterface = "eth0\\u0000"\ngroup = "239.1.1.1"',
        '[[session]]\nport = 4999\nfolder = "\\u0000"',
        '[[session]]\nport = 4001\nfolder = "../../x\\u0000"',
        'status = "\\u0000"\n[[session]]\nport = 4999',
        '[station]\nstatus = "\\u0000"\n[[session]]\nport = 4999',
        '[station]\ntsi = ["7", "\\u0000"]\n[[session]]\nport = 4999',
        '"a\\u0000b" = 1',
    )
    NO_TOML = "port=1\nport=2", "port=" + "[" * 2000, "x = {y = " * 2000, "\udcff"
    WRONG = (
        "same = 5", "[[same]]\nsenders = 5", "[[same]]", "[[same]]\nx = 1\nsenders = []",
        "session = 5", "session = [5]", "station = 5", '[station]\n-o = "x"', "most = 5",
        "[station]\nevery = 0x" + "f" * 9000,
    )

    def test_all_are_faults(self) -> None:
        for text in (*self.NUL, *self.NO_TOML):
            self.write("news.toml", text.encode("utf-8", "surrogateescape"))
            with self.assertRaises(ValueError, msg=text[:60]) as fault:
                read_config(str(self.path("news.toml")))
            if text in self.NUL:
                self.assertIn("is no name", str(fault.exception))
        for text in self.WRONG:
            self.write("news.toml", text)
            with self.assertRaises(ValueError, msg=text[:60]):
                list(words_of_station(str(self.path("news.toml"))))

    def test_a_bound_of_the_disk(self) -> None:
        self.write("news.toml", '[station]\nmost = "20G"\noutbox = true\ntsi = [7, 8]')
        words = list(words_of_station(str(self.path("news.toml"))))
        self.assertEqual(words, ["--most=20G", "--outbox", "--tsi=7", "--tsi=8"])

    def test_uplinks(self) -> None:
        self.write("news.toml", '[[same]]\nsenders = ["10.0.0.1", "10.0.0.2"]\n')
        words = list(words_of_station(str(self.path("news.toml"))))
        self.assertEqual(words, ["--same=10.0.0.1,10.0.0.2"])

    def test_a_line_and_a_status(self) -> None:
        for text in self.NUL[0], self.NO_TOML[1]:
            self.write("news.toml", text)
            for tool in "receive", "station":
                done = self.tool(f"flutejoin-{tool}", "-o kept --config news.toml")
                self.assertEqual((done.status, done.out), (2, b""), done)
                self.assertEqual(done.err.count(b"error: "), 1, done)
                self.assertNotIn(b"Traceback", done.err)


class Starts(Case):
    """What a station says of its start."""

    def test_a_receiver_that_cannot_start(self) -> None:
        done = self.tool("flutejoin-station", "--port 4001 --interface none7 -o kept")
        self.assertEqual(done.status, 3, done)
        self.assertIn(b"there is no interface none7\n", done.err)
        self.assertIn(b"flutejoin-station: the receiver cannot start\n", done.err)
        self.assertEqual(done.err.count(b"begun again"), 0, done)

    def test_less_is_kept_raw_than_a_window_has(self) -> None:
        words = "--port 4001 --interface none7 -o kept --flutejoin"
        for size, wanted in ("50M", 1), ("64M", 0), ("0", 0):
            done = self.tool("flutejoin-station", [*words.split(), run.PROGRAM, "--keep-raw", size])
            self.assertEqual(done.err.count(b"--keep-raw is less than --window"), wanted, done)

    def test_it_is_ready_once_it_listens(self) -> None:
        address = str(self.path("notify"))
        with socket.socket(socket.AF_UNIX, socket.SOCK_DGRAM) as heard:
            heard.bind(address)
            heard.settimeout(run.LONGEST)
            words = ["--port", free_port(), "--interface", "127.0.0.1", "-o", "kept"]
            tool = ROOT / "tools/flutejoin-station"
            child = self.start(
                [sys.executable, tool, *words, "--flutejoin", run.PROGRAM],
                to="out", err="err", env={"NOTIFY_SOCKET": address},
            )
            self.assertEqual(heard.recv(4096), b"READY=1")
            self.assertIn(b": listening ", self.read("err"))
            child.send_signal(signal.SIGTERM)
            self.assertEqual(child.wait(run.LONGEST), 1, self.read("err"))
            self.assertEqual(heard.recv(4096), b"STOPPING=1")


class Push(Case):
    def test_names_are_no_commands(self) -> None:
        journals = {}
        for source in "10.0.0.2", "::1":
            self.write("one.fldg", records(symbols(2)))
            self.made(["join", "-f", "-o", "one", "--source", source, "one.fldg"])
            journals[source] = self.read("one")
        names = "x;id>injected;y.1.journal", "$(id>injected).1.journal", "a\n10.0.0.9.1.journal"
        (self.news / "outbox").mkdir()
        for name in names:
            (self.news / "outbox" / name).write_bytes(journals["::1"])
        (self.news / "outbox/10.0.0.2.20260101000000000000.journal").write_bytes(
            journals["10.0.0.2"]
        )
        (self.news / "outbox/--1.2.journal").write_bytes(journals["::1"])
        self.path("bin").mkdir()
        self.path("bin/flutejoin").symlink_to(run.PROGRAM)
        self.path("bin/flutejoin-gather").symlink_to(ROOT / "tools/flutejoin-gather")
        path = f"{self.path('bin')}:{os.environ['PATH']}"
        words = [ROOT / "examples/push.sh", "news", "centre", "sh", "-c"]
        done = self.command(words, env={"PATH": path})
        self.assertEqual(done.status, 1, done)
        self.assertIn(b"a name in news/outbox is no sender's", done.err)
        self.assertEqual(list(self.folder.rglob("injected*")), [])
        self.assertEqual(sorted(os.listdir(self.news / "outbox")), sorted(names))
        centre = sorted(os.listdir(self.path("centre")))
        self.assertEqual(centre, ["--1.journal", "10.0.0.2.journal"])
