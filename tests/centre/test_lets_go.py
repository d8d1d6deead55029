"""Tests of what a centre lets go of, and of a month of windows by a clock of its own.

WINDOWS in the environment is how many windows the month has (default: 48), and FILES how many files
a window has (default: 10).
"""
from __future__ import annotations

import json
import os
import pathlib
import random
import statistics
from unittest import mock

from flutejoin_tools.centre.hooks import Hooks
from flutejoin_tools.centre.house import House
from flutejoin_tools.fdt.fdt import NTP_TO_UNIX
from flutejoin_tools.fdt.instances import datagrams_in
from flutejoin_tools.formats.reading import packet_of
from flutejoin_tools.pages.asking import delivered
from flutejoin_tools.pages.model import Model
from tests.centre.case import SENDER, TSI, CentreCase, announced, file_of, packets
from tests.support.flute_sender import Sent, fdt, instance

DAY, HOUR = 86400, 3600  # seconds
WINDOWS = int(os.environ.get("WINDOWS", 48))
FILES = int(os.environ.get("FILES", 10))
LATE = 7  # the file of a window of which the end comes in the next one
STEADY = 20  # windows after which what comes and what is let go are equal
LONG = 200  # windows of a run whose times are compared


class Keeping(CentreCase):
    """A centre with a clock that is set, and what it does by that."""

    more = {"keep": "7d", "keep-partial": "30d"}

    def setUp(self) -> None:
        super().setUp()
        clock = mock.patch("time.time", self.clock)
        clock.start()
        self.addCleanup(clock.stop)

    def house(self) -> None:
        House(self.centre, Model(self.centre, self.clock.now), self.told).keep()

    def pass_by(self, days: float) -> None:
        """Has days pass, and the centre let go of what is over then."""
        self.clock.now += days * DAY
        self.house()

    def held(self, folder: str) -> list[str]:
        """The names of what is in a folder of the centre."""
        path = self.path(f"centre/{folder}")
        return sorted(os.listdir(path)) if path.exists() else []

    def push_at(self, name: str, datagrams: list[bytes]) -> None:
        """Pushes what came now by the clock of the centre."""
        self.push(name, datagrams, at=self.clock.now)
        for path in self.path(f"push/{name}/fdt").glob("*"):
            os.utime(path, (self.clock.now, self.clock.now))


class LetsGo(Keeping):
    def test_partial(self) -> None:
        file = file_of(1, 14_000)
        self.push_at("north", announced([file]) + file.packets(TSI)[:4])
        self.work()
        self.pass_by(20)
        self.push_at("south", file.packets(TSI)[3:6])
        self.work()
        self.pass_by(20)
        self.holds("it stays while something comes", self.centre.union)
        self.pass_by(11)
        self.holds("then it goes", not self.centre.union and not self.held("pending/north"))
        told = [it for it in self.told.printed if "never became whole, 60.0 %: 4 symbols" in it]
        self.holds("what is missing is told", len(told) == 1, self.told.printed)
        (line,) = self.path("centre/let-go.jsonl").read_text().splitlines()
        self.holds("and noted", json.loads(line)["missing_bytes"] == 5600, line)
        self.pass_by(1)
        self.holds("once", len(self.path("centre/let-go.jsonl").read_text().splitlines()) == 1)
        self.push_at("north", packets([file]))
        self.holds("if it comes again, it is delivered", self.work() == 1)

    def test_comes_again(self) -> None:
        """What was delivered is not delivered again, also once its sums are forgotten."""
        file = file_of(1)
        everything = announced([file]) + packets([file])
        self.push_at("north", everything)
        self.holds("it is delivered", self.work() == 1)
        for days in (6, 8, 20):
            self.pass_by(days)
            self.open()
            self.push_at("south", everything)
            self.holds(f"not again after {days} days", self.work() == 0)
            self.holds("nothing waits", not self.centre.union, self.centre.union.keys())
        self.holds("it has one line", len(self.lines()) == 1)

    def test_away(self) -> None:
        """A station that was away for a week and comes back with all that it has."""
        one, other = file_of(1), file_of(2, 14_000)
        sent = other.packets(TSI)
        self.push_at("north", announced([one, other]) + packets([one]) + sent[:6])
        self.holds("one is whole", self.work() == 1)
        self.pass_by(8)
        self.push_at("south", announced([one, other]) + packets([one]) + sent[5:])
        self.holds("the other is, with what south has", self.work() == 1)
        self.holds("it is right", other.content in self.files().values())
        self.holds("each has one line", len(self.lines()) == 2, self.lines())

    def test_kept(self) -> None:
        soon = int(self.clock.now + 2 * DAY + NTP_TO_UNIX)
        one, other = file_of(1), file_of(2)
        self.push_at("north", announced([one], 1, soon) + packets([one]))
        self.work()
        self.push_at("north", announced([other], 2) + packets([other]))
        self.work()
        self.holds("both are kept", len(self.held("kept")) == 2, self.held("kept"))
        self.pass_by(3)
        self.holds("one is expired", len(self.held("kept")) == 1)
        self.pass_by(5)
        self.holds("the other is over", not self.held("kept"))

    def test_one_run_a_journal(self) -> None:
        """What is delivered or let go leaves each journal by one run of flutejoin at a time, and
        nothing else leaves it; a journal with nothing else goes without one."""
        sent = [file_of(toi, 14_000).packets(TSI) for toi in range(6)]
        told = announced([file_of(toi, 14_000) for toi in range(1, 6)])
        of = self.centre.program
        with mock.patch.object(of, "run", wraps=of.run) as runs:

            def forgets(what: str, count: int, north: set[int], south: set[int]) -> None:
                words = [it for call in runs.call_args_list for it in call[0]]
                found = [it for it in words if it[0] == "forget"]
                self.holds(f"{what}: runs", len(found) == count, found)
                runs.reset_mock()
                for at, wanted in enumerate((north, south)):
                    pending = self.centre.arrivals[at].pending
                    objects = dict(pending.objects)
                    self.holds(f"{what}: what waits", {it.number for it in objects} == wanted)
                    pending.read()
                    same = {key: it.blocks for key, it in objects.items()}
                    now = {key: it.blocks for key, it in pending.objects.items()}
                    self.holds(f"{what}: in the journals", same == now, now)

            self.push_at("north", told + sent[1] + sent[2] + sent[3][:5] + sent[4][:4])
            self.push_at("south", sent[1] + sent[3][:4])
            self.holds("two are whole", self.work() == 2)
            forgets("delivered", 2, {3, 4}, {3})
            self.pass_by(20)
            self.push_at("north", sent[5][:3])
            self.work()
            forgets("nothing", 0, {3, 4, 5}, {3})
            self.pass_by(11)
            forgets("let go", 1, {5}, set())
            self.push_at("south", sent[5])
            self.holds("it is whole", self.work() == 1)
            forgets("nothing is left", 0, set(), set())
        for name in self.names:
            self.holds(f"{name} has no journal", not self.held(f"pending/{name}"))

    def test_documents(self) -> None:
        soon = int(self.clock.now + DAY + NTP_TO_UNIX)
        one, other = file_of(1, 14_000), file_of(2)
        self.push_at("north", announced([one], 1, soon) + one.packets(TSI)[:2])
        self.push_at("north", announced([other], 2, soon) + packets([other]))
        self.work()
        self.pass_by(9)
        left = [it for it in self.held("fdt") if it.endswith(".xml")]
        self.holds("that of what waits stays", len(left) == 1 and "-7-1-" in left[0], left)
        self.pass_by(30)
        left = [it for it in self.held("fdt") if it.endswith(".xml")]
        self.holds("until that is let go", not left, left)

    def test_documents_in_part(self) -> None:
        """An FDT Instance in part waits for its rest as long after its end as a whole one is kept;
        one whose end didn't come goes with those after it."""
        told, sizes = [], []
        for number in range(30):
            files = [file_of(10 * number + at, 1000) for at in range(1, 5)]
            told.append(announced(files, number, int(self.clock.now + DAY + NTP_TO_UNIX)))
            self.push_at("north", told[-1][1 if number % 5 == 3 else 0 :: 2])
            self.work()
            sizes.append(size_of(self.path("centre"), "files"))
            self.pass_by(1)
        path = self.path(f"push/north/fdt/{SENDER}.fldg")
        parts = [it.instance for it in map(packet_of, datagrams_in(str(path))) if it]
        self.holds("those of eight days", parts == [*range(21, 30)], parts)
        self.holds("the disk stays flat", sizes[-1] < 1.01 * sizes[-6], sizes)
        self.push_at("south", told[10][1::2] + told[22][1::2])
        self.work()
        whole = [name.split("-")[2] for name in self.held("fdt") if name.endswith(".xml")]
        self.holds("its rest may come later", whole == ["22"], whole)


class Rows(Keeping):
    """What is known of a file that was delivered, and for how long."""

    def sizes(self) -> tuple[int, int]:
        """How many rows there are, and how many small ones."""
        of = self.centre.ledger.rows
        tables = "delivered", "small"
        whole, small = (of(f"SELECT count(*) FROM {table}")[0][0] for table in tables)
        return whole, small

    def test_ends(self) -> None:
        """A file that is moved away is written again once nothing of it came for keep-partial."""
        file = file_of(1)
        self.push_at("north", announced([file]) + packets([file]))
        self.holds("it is delivered", self.work() == 1)
        Hooks(None, "", self.centre.ledger, self.told).tend()
        (path,) = self.files()
        os.unlink(self.path("centre/files") / path)
        before = self.centre.ledger.since(0, 9)
        for days, wanted in ((6, (1, 0)), (2, (0, 1)), (20, (0, 1)), (29, (0, 1)), (31, (0, 0))):
            self.pass_by(days)
            self.holds(f"{days} days: rows", self.sizes() == wanted, self.sizes())
            if days != 31:
                self.holds("what stations are told", self.centre.ledger.since(0, 9) == before)
            told = [*delivered(self.centre.folder, "00001")]
            self.holds("who asks is told", told == self.lines(), told)
            if days == 20:
                self.open()
            if days > 6:
                self.push_at("south", announced([file]) + packets([file]))
                self.holds(f"{days} days: again", self.work() == (days == 31))
                self.holds("nothing waits", not self.centre.union)
                self.holds("it is there", len(self.files()) == (days == 31))
        self.holds("the count", self.centre.ledger.count() == 2)
        senders = self.centre.ledger.rows("SELECT count(*) FROM senders")
        self.holds("no sender is left", senders == [(0,)], senders)

    def test_sums_of_small_rows(self) -> None:
        """What comes again is compared with what was delivered, as a carousel repeats it."""
        file = file_of(1)
        everything = announced([file]) + packets([file])
        self.push_at("north", everything)
        self.work()
        Hooks(None, "", self.centre.ledger, self.told).tend()
        self.pass_by(8)
        key = next(iter(self.centre.done))
        self.holds("its sums are gone", not self.centre.ledger.has_sums(key), self.sizes())
        self.push_at("south", everything)
        self.holds("it is not delivered again", self.work() == 0)
        self.holds("its sums are known again", self.centre.ledger.has_sums(key))
        for _ in range(6):
            self.pass_by(6)
            self.push_at("south", packets([file])[:2])
            self.holds("nothing new came", self.work() == 0 and not self.centre.union)
        self.holds("its row stays", self.sizes() == (0, 1), self.sizes())
        self.pass_by(8)
        self.holds("its sums go again", not self.centre.ledger.has_sums(key))

    def test_another(self) -> None:
        """Another file under the same TOI is another, and an older one under a name stays away."""
        old, new = file_of(2, name="http://data.example/a.bin"), file_of(1, seed=5)
        newer = file_of(3, name="http://data.example/a.bin")
        self.push_at("north", announced([file_of(1)], 1) + packets([file_of(1)]))
        self.push_at("north", announced([old], 1) + packets([old])[:2])
        self.work()
        self.push_at("north", announced([newer], 2) + packets([newer]))
        self.work()
        Hooks(None, "", self.centre.ledger, self.told).tend()
        self.pass_by(9)
        self.holds("both have small rows", self.sizes() == (0, 2), self.sizes())
        self.push_at("south", packets([old]))
        self.work()
        self.holds("the name is the newer's", self.files()["data.example/a.bin"] == newer.content)
        self.push_at("south", announced([new], 3) + packets([new]))
        self.holds("another is delivered", self.work() == 1)
        self.holds("it is right", new.content in self.files().values())

    def test_of_the_version_before(self) -> None:
        """A database without small rows is taken as it is."""
        files = [file_of(toi) for toi in (1, 2)]
        everything = announced(files) + packets(files)
        self.push_at("north", everything)
        self.work()
        Hooks(None, "", self.centre.ledger, self.told).tend()
        for table in "small", "senders":
            self.centre.ledger.base.execute(f"DROP TABLE {table}")
        self.clock.now += 8 * DAY
        self.open()
        self.holds("rows of before", self.sizes() == (2, 0), self.sizes())
        self.push_at("south", everything)
        self.holds("nothing again", self.work() == 0)
        self.pass_by(8)
        self.holds("their rows are small", self.sizes() == (0, 2), self.sizes())
        self.push_at("south", everything)
        self.holds("nothing again", self.work() == 0 and self.centre.ledger.count() == 2)

    def test_many(self) -> None:
        """A window costs the same with 30,000 files that were delivered before."""

        def costs(first: int) -> float:
            found = []
            for number in range(first, first + 5):
                files = [file_of(10 * number + at) for at in range(10)]
                self.push_at("north", announced(files, number) + packets(files))
                before = moved()
                self.holds(f"{number}: all are delivered", self.work() == 10)
                Hooks(None, "", self.centre.ledger, self.told).tend()
                self.house()
                found.append(moved() - before)
                self.clock.now += 1
            return statistics.median(found)

        few, ledger = costs(1), self.centre.ledger
        like, serial = ledger.newest(1)[0], ledger.next_serial()
        seen = self.clock.now - 8 * DAY
        old = (
            like._replace(
                serial=serial + at,
                key=like.key._replace(number=1000 + at),
                path=f"data.example/old/{at}.bin",
                seen=seen + at,
            )
            for at in range(30_000)
        )
        ledger.add((it, None) for it in old)
        self.house()
        self.holds("their rows are small", self.sizes()[1] == 30_000, self.sizes())
        self.open()
        self.centre.begin()
        many = costs(6)
        self.holds("no more is read and written", many <= 1.2 * few, (few, many))


class Month(Keeping):
    """A window is an hour: its files, the end of one of the last, and what a carousel repeats."""

    more = {"keep": "12h", "keep-partial": "16h"}

    def window(self, number: int) -> list[Sent]:
        return [file_of(number * FILES + at + 1, 3000 + 40 * at) for at in range(FILES)]

    def sent(self, number: int) -> list[bytes]:
        """The datagrams of a window: its files, and an FDT Instance of them and those before."""
        expires = int(self.clock.now + 8 * HOUR + NTP_TO_UNIX)
        files = self.window(number)
        before = self.window(number - 1) if number else []
        found = instance(TSI, number, fdt(before + files, expires))
        for at, file in enumerate(files):
            cut = -1 if at == LATE else None
            found += file.packets(TSI)[: -2 if at == FILES - 1 else cut]
        return found + (before[LATE].packets(TSI)[-1:] if before else [])

    def test_month(self) -> None:
        draw, costs = random.Random(67), []
        for number in range(WINDOWS):
            sent = self.sent(number)
            repeated = packets(self.window(number - 1)[:3]) if number else []
            for name in self.names:
                chosen = [it for it in sent if draw.random() < 0.8] + repeated
                self.push_at(name, sent if name == "south" else chosen)
            before, began = moved(), sum(os.times()[:4])
            self.work()
            Hooks(None, "", self.centre.ledger, self.told).tend()
            self.house()
            took = sum(os.times()[:4]) - began
            costs.append((moved() - before, size_of(self.path("centre"), "files"), took))
            self.clock.now += HOUR
        wanted = WINDOWS * (FILES - 1) - 1  # the last late one comes no more
        self.holds("each file is delivered once", len(self.lines()) == wanted, len(self.lines()))
        paths = {it["path"] for it in self.lines()}
        self.holds("none twice", len(paths) == wanted)
        for number in range(WINDOWS):
            for at, file in enumerate(self.window(number)):
                path = self.path(f"centre/files/data.example/day/{file.toi:05}.bin")
                if at < FILES - 1 and not (at == LATE and number == WINDOWS - 1):
                    self.same(f"{file.toi}", path.read_bytes(), file.content)
        kinds = ["bytes read and written", "bytes on the disk", "seconds of a processor"]
        for of, what in enumerate(kinds if WINDOWS >= LONG else kinds[:2]):
            first = statistics.median(it[of] for it in costs[STEADY : STEADY + 6])
            last = statistics.median(it[of] for it in costs[-6:])
            self.holds(f"{what} stay flat", last <= 1.2 * first, (first, last))


def moved() -> int:
    """The bytes that this process has read and written."""
    lines = pathlib.Path("/proc/self/io").read_text().splitlines()
    return sum(int(it.split()[1]) for it in lines[:2])


def size_of(folder: pathlib.Path, but: str) -> int:
    """The bytes of the files in a folder, but those in one of its folders, and but logs."""
    found = (it for it in folder.rglob("*") if it.is_file() and not it.is_symlink())
    kept = (it for it in found if folder / but not in it.parents and it.suffix != ".jsonl")
    return sum(it.stat().st_size for it in kept)
