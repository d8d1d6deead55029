"""Tests what becomes of what a sender sends again under the same names: from datagrams to named
files, at three stations that lose datagrams, and a centre. No network is needed, and the senders'
clock is a number."""
from __future__ import annotations

import gzip
import ipaddress
import json
import os
import pathlib
import random
import re
import shutil
import struct
import subprocess
import sys
import unittest
from typing import Iterable, Optional
from unittest import mock
from xml.etree import ElementTree

import datagram_files
from flutejoin_tools.common.program import Answer, Program
from flutejoin_tools.common.service_log import ServiceLog
from flutejoin_tools.common.shelves import entries_of
from flutejoin_tools.exchange.agreeing import Held, Wants
from flutejoin_tools.fdt import fdt as fdt_module
from flutejoin_tools.fdt import instances
from flutejoin_tools.fdt.instances import Folder
from flutejoin_tools.formats.adapting import Adapting
from flutejoin_tools.formats.entries import SYMBOL
from flutejoin_tools.formats.reading import packet_of
from flutejoin_tools.gather.generations import Generations, generation
from flutejoin_tools.gather.others import Others
from flutejoin_tools.journals import holdings
from flutejoin_tools.journals.holdings import Copy, key_of
from flutejoin_tools.journals.sums import sums_of
from flutejoin_tools.station.keeping import Keeper
from flutejoin_tools.station.kept import Settings
from tests.support import flute_sender, run
from tests.support.flute_sender import EXPIRES, Sent, Shape, fdt, header, instance
from tests.support.kept_log import KeptLog
from tests.support.run import ROOT

SENDER = "10.9.0.1"
LOSS = 0.3  # part of the datagrams that each station loses
TOOLS = ROOT / "tools"


class Station:
    """A station without a receiver, which hears what is written to its folder."""

    def __init__(self, folder: pathlib.Path, draw: random.Random) -> None:
        self.folder, self.draw = folder, draw
        self.is_away = False
        self.adapting: Optional[Adapting] = None
        self.said: list[str] = []
        self.begin()

    def begin(self) -> None:
        """Opens the station's journals, as a run of it does that starts."""
        log = KeptLog("station", self.said)
        program = Program(str(run.PROGRAM), lambda: None)
        self.keeper = Keeper(str(self.folder), program, Settings(0, 0, True), log)

    def set_up_anew(self) -> None:
        shutil.rmtree(self.folder)
        self.begin()

    def hear(self, sent: Iterable[bytes], sender: str = SENDER) -> None:
        """Has datagrams come, of which some are lost."""
        heard = [it for it in sent if self.draw.random() >= LOSS]
        if self.adapting:
            heard = [it for datagram in heard for it in self.adapting.take(datagram).datagrams]
        if self.is_away or not heard:
            return
        path = self.folder / "in" / f"{sender}.fldg"
        data = datagram_files.content(heard)
        with open(path, "ab") as file:
            file.write(data[6:] if path.exists() and path.stat().st_size else data)

    def minute(self) -> None:
        """Joins what came."""
        while self.keeper.waiting():
            self.keeper.work(False)

    def push(self, centre: pathlib.Path) -> None:
        """Pushes the station's outbox to the centre by push.sh."""
        path = f"{centre.parent / 'bin'}:{os.environ['PATH']}"
        words = [ROOT / "examples/push.sh", self.folder, f"centre/{self.folder.name}", "sh", "-c"]
        done = subprocess.run(
            [*map(str, words)],
            cwd=centre.parent,
            env={**os.environ, "PATH": path},
            capture_output=True,
            text=True,
        )
        assert done.returncode == 0, done


class Events(unittest.TestCase):
    """A sender, three stations and a centre."""

    stations_of = 3

    def setUp(self) -> None:
        self.case = run.Case("setUp")
        self.case.setUp()
        self.addCleanup(self.case.doCleanups)
        self.folder = self.case.folder
        (self.folder / "bin").mkdir()
        (self.folder / "bin/flutejoin").symlink_to(run.PROGRAM)
        for tool in "flutejoin-gather", "flutejoin-files":
            (self.folder / "bin" / tool).symlink_to(TOOLS / tool)
        self.centre = self.folder / "centre"
        self.stations = [
            Station(self.folder / f"station{number}", random.Random(number))
            for number in range(self.stations_of)
        ]

    def send(self, datagrams: list[bytes], each: int = 400) -> None:
        """Sends datagrams, so many in a minute; after each the stations join and push."""
        for at in range(0, len(datagrams), each):
            for station in self.stations:
                station.hear(datagrams[at : at + each])
            self.minute()

    def minute(self) -> None:
        """Has each station join what came, and push it."""
        for station in self.stations:
            station.minute()
            if any((station.folder / "outbox").glob("*.journal")):
                station.push(self.centre)

    def files(self, *words: object, status: Optional[int] = 0) -> dict[str, bytes]:
        """Writes the files at the centre, and returns them."""
        journals = sorted(map(str, self.centre.glob(f"*/{SENDER}.journal")))
        command = [TOOLS / "flutejoin-files", "--flutejoin", run.PROGRAM, "-o", "files", *words]
        done = subprocess.run(
            [sys.executable, *map(str, command), *journals],
            cwd=self.folder,
            capture_output=True,
            text=True,
        )
        self.told = done.stdout + done.stderr
        if status is not None:
            self.assertEqual(done.returncode, status, self.told[-3000:])
        root = self.folder / "files"
        paths = [path for path in root.rglob("*") if path.is_file()]
        return {str(path.relative_to(root)): path.read_bytes() for path in paths}

    def compare(self, wanted: list[Sent], *words: object, status: Optional[int] = 0) -> None:
        """Compares the files at the centre with those that were sent, byte for byte."""
        found = self.files(*words, status=status)
        names = {it.location.removeprefix("http://"): it.content for it in wanted}
        missing = sorted(names.keys() - found.keys())
        self.assertEqual((missing, sorted(found.keys() - names.keys())), ([], []), self.told)
        wrong = [name for name in names if names[name] != found[name]]
        self.assertEqual(wrong, [])

    def journals(self, station: int, pattern: str = "*/*.journal") -> list[str]:
        """The journals of a station, by their paths in its folder."""
        folder = self.stations[station].folder
        return sorted(str(path.relative_to(folder)) for path in folder.glob(pattern))

    def conflicts(self) -> int:
        """How many symbols are in conflict in any journal."""
        count = 0
        for path in [*self.folder.glob("station*/*/*.journal"), *self.centre.glob("*/*.journal")]:
            done = subprocess.run(
                [run.PROGRAM, "show", "--conflicts", path], capture_output=True, text=True
            )
            count += done.stdout.count(" conflict\n")
        return count


def content(*seed: object, size: int) -> bytes:
    return random.Random(repr(seed)).randbytes(size)


def files_of(turn: int, tois: Iterable[int], most: int = 20, of: str = "run") -> list[Sent]:
    """Files of a run of a sender: each has its own name and bytes."""
    draw = random.Random(turn)
    return [
        Sent(
            toi,
            content(of, turn, toi, size=draw.randint(1, most * 1000)),
            f"http://example.com/{of}{turn}/{toi}.bin",
            symbol=1000,
        )
        for toi in tois
    ]


def rounds(
    files: list[Sent], number: int, expires: int, count: int = 3, tsi: int = 7
) -> list[bytes]:
    """The datagrams of a carousel: in each round the FDT Instance in the middle and at the end."""
    told = instance(tsi, number, fdt(files, expires))
    sent = [packet for file in files for packet in file.packets(tsi)]
    half = len(sent) // 2
    return (sent[:half] + told + sent[half:] + told) * count


class Runs(Events):
    def restart(self, first: list[bytes], second: list[bytes]) -> None:
        """The sender begins anew; meanwhile one station is set up anew, and one is away."""
        self.send(first)
        self.stations[1].set_up_anew()
        self.stations[2].is_away = True
        third = len(second) // 3
        self.send(second[:third])
        self.stations[2].is_away = False
        self.send(second[third:])

    def test_two_runs(self) -> None:
        """A sender starts again, with other files under the same TOIs and FDT Instance IDs."""
        first, second = files_of(1, range(1, 31)), files_of(2, range(1, 31))
        self.restart(rounds(first, 1, EXPIRES), rounds(second, 1, EXPIRES + 60, 4))
        self.compare([*first, *second])
        self.assertEqual(self.conflicts(), 0)
        self.assertTrue((self.stations[0].folder / f"journals/{SENDER}.g2.journal").exists())
        # Once again nothing changes.
        self.compare([*first, *second])

    def test_tois_that_are_used_again(self) -> None:
        """Under new FDT Instance IDs: nothing of the FDT contradicts."""
        sent = [files_of(turn, range(1, 11)) for turn in (1, 2, 3)]
        for turn, files in enumerate(sent, 1):
            self.send(rounds(files, turn, EXPIRES + turn, 4))
        self.compare(sum(sent, []))
        self.assertEqual(self.conflicts(), 0)

    def test_many_instances_and_a_restart(self) -> None:
        """2,160 FDT Instances come, more than anybody remembers, and then a restart."""
        first = [files_of(at, range(at, at + 1), 2, "month")[0] for at in range(1, 2161)]
        sent = []
        for at, file in enumerate(first):
            told = instance(7, at + 1, fdt(first[max(0, at - 2) : at + 1], EXPIRES + at))
            sent += told * 3 + file.packets(7) * 4
        self.send(sent, 4000)
        second = files_of(5000, range(1, 101), 3)
        self.stations[1].set_up_anew()
        self.send(rounds(second, 1, EXPIRES + 5000, 5), 4000)
        self.compare([*first, *second])
        self.assertEqual(self.conflicts(), 0)

    def test_a_restart_of_one_session(self) -> None:
        """The other session of the sender stays as it was."""
        other = files_of(9, range(1, 11), of="other")
        first, second = files_of(1, range(1, 11)), files_of(2, range(1, 11))
        self.send(rounds(other, 1, EXPIRES, tsi=8) + rounds(first, 1, EXPIRES))
        self.send(rounds(other, 1, EXPIRES, tsi=8) + rounds(second, 1, EXPIRES + 60, 4))
        self.compare([*other, *first, *second])
        for number in range(3):
            path = self.stations[number].folder / f"journals/{SENDER}.g2.journal"
            done = subprocess.run([run.PROGRAM, "gaps", "--summary", path], capture_output=True)
            self.assertIn(b" session 7 ", done.stdout)
            self.assertNotIn(b" session 8 ", done.stdout)


class Renewing(Events):
    def test_thirty_minutes(self) -> None:
        """Each five seconds a sender renews Expires under one FDT Instance ID."""
        files = files_of(1, range(1, 41), 12)
        packets = [packet for file in files for packet in file.packets(7)]
        at = 0
        for minute in range(30):
            sent = []
            for renewal in range(12):
                sent += instance(7, 1, fdt(files, EXPIRES + 60 * minute + 5 * renewal))
                sent += [packets[place % len(packets)] for place in range(at, at + 20)]
                at += 20
            self.send(sent, len(sent))
        self.compare(files)
        self.assertEqual(self.conflicts(), 0)
        for station in self.stations:
            documents = list((station.folder / "fdt").glob("*.xml"))
            self.assertEqual(len(documents), 1, documents)
            self.assertEqual(documents[0].read_bytes()[:5], b"<?xml")
            names = os.listdir(station.folder / "journals")
            self.assertFalse(any(".g2." in name for name in names))


class Forged(Events):
    @staticmethod
    def sent(files: list[Sent], forged: float, draw: random.Random) -> list[bytes]:
        """A carousel, in which datagrams of somebody else come: some for each file."""
        sent = rounds(files, 1, EXPIRES, 4)
        for file in files:
            for _ in range(int(forged) + (draw.random() < forged % 1)):
                packet = bytearray(draw.choice(file.packets(7)))
                packet[-1] ^= draw.randint(1, 255)
                sent.insert(draw.randrange(len(sent)), bytes(packet))
        return sent

    def test_one_for_each_object(self) -> None:
        files = files_of(1, range(1, 31), 15)
        self.send(self.sent(files, 1, random.Random(5)))
        self.compare(files)
        self.assertEqual(self.conflicts(), 0)

    def test_four_a_minute(self) -> None:
        files = files_of(1, range(1, 21), 15)
        draw = random.Random(6)
        sent = rounds(files, 1, EXPIRES, 4)
        told = instance(7, 1, fdt(files, EXPIRES))
        for at in range(0, len(sent), 300):
            for _ in range(4):
                packet = bytearray(draw.choice(told + files[draw.randrange(20)].packets(7)))
                packet[-1] ^= draw.randint(1, 255)
                sent.insert(at + draw.randrange(300), bytes(packet))
        self.send(sent, 300)
        self.compare(files, status=None)
        self.assertEqual(self.conflicts(), 0)


class Shapes(Events):
    """Senders of other forms of FLUTE, which a receiver writes as FLUTE 2, and that start again."""

    shapes = (
        Shape(version=1),
        Shape(encoding=3),
        Shape(together=4),
        Shape(version=1, times=3),
        Shape(version=1, encoding=3, together=5, times=1),
    )

    def setUp(self) -> None:
        super().setUp()
        for station in self.stations:
            station.adapting = Adapting()

    def test_two_runs_of_each(self) -> None:
        every = []
        for tsi, shape in enumerate(self.shapes, 7):
            for turn in (1, 2):
                files = files_of(turn, range(1, 6), of=f"shape{tsi}")
                for file in files[:2]:
                    file.object = gzip.compress(file.content, mtime=0)
                    file.more["Content-Encoding"] = "gzip"
                xml = fdt(files, EXPIRES + turn)
                told = instance(tsi, 1, gzip.compress(xml) if shape.encoding else xml, shape)
                sent = [packet for file in files for packet in file.packets(tsi, shape)]
                self.send((told + sent + told) * 8)
                every += files
        self.compare(every)
        self.assertEqual(self.conflicts(), 0)


class Uplinks(unittest.TestCase):
    def test_a_station(self) -> None:
        """Two senders of one session, of which each sends a half, and one sends wrong symbols."""
        case = run.Case("setUp")
        case.setUp()
        self.addCleanup(case.doCleanups)
        addresses = [ipaddress.ip_address(f"10.9.0.{number}") for number in (1, 2)]
        settings = Settings(0, 0, False, None, ((addresses[1], addresses[0]),))
        program = Program(str(run.PROGRAM), lambda: None)
        keeper = Keeper(str(case.folder / "news"), program, settings, ServiceLog("station"))
        sent = files_of(1, [1], 40)[0].packets(7)
        for minute in range(3):
            for number, address in enumerate(addresses):
                with open(case.folder / f"news/in/{address}.fldg", "ab") as file:
                    data = datagram_files.content(sent[number::2][4 * minute : 4 * minute + 4])
                    file.write(data[6:] if minute else data)
            keeper.look()
            keeper.has_more = True
            while keeper.waiting():
                keeper.work(True)
        journals = [*(case.folder / "news/journals").iterdir()]
        form = re.compile(rf"{SENDER}\.(\d{{20}}\.)?journal")
        self.assertTrue(all(form.fullmatch(path.name) for path in journals))
        self.assertEqual(len(os.listdir(case.folder / "news/in")), 2)
        case.write("all.fldg", datagram_files.content(sent[:24]))
        case.made(["join", "-o", "wanted", "--source", SENDER, "all.fldg"])
        case.made(["join", "-o", "have", *journals])
        self.assertEqual(case.read("have"), case.read("wanted"))


class Gathered(Events):
    """flutejoin-gather alone."""

    def gather(self, *words: object, status: int = 0) -> subprocess.CompletedProcess[str]:
        """Runs flutejoin-gather."""
        done = subprocess.run(
            [
                sys.executable,
                *map(str, (TOOLS / "flutejoin-gather", "--flutejoin", run.PROGRAM, *words)),
            ],
            cwd=self.folder,
            capture_output=True,
            text=True,
        )
        self.assertEqual(done.returncode, status, done.stdout + done.stderr)
        return done

    def datagrams(self, name: str, sent: list[bytes]) -> str:
        """Writes a datagram file, and returns its name."""
        path = self.folder / name
        path.parent.mkdir(exist_ok=True)
        path.write_bytes(datagram_files.content(sent))
        return name

    def test_both_runs_in_one_file(self) -> None:
        """A datagram file in which the sender starts again, in the middle."""
        first, second = files_of(1, range(1, 11)), files_of(2, range(1, 11))
        sent = rounds(first, 1, EXPIRES, 1) + rounds(second, 1, EXPIRES + 1, 1)
        self.gather("-o", "centre/week", self.datagrams(f"week/{SENDER}.fldg", sent))
        self.compare([*first, *second])
        self.assertEqual(self.conflicts(), 0)

    def test_two_uplinks(self) -> None:
        """Each sends half of the session under an address of its own."""
        files = files_of(1, range(1, 11))
        sent = rounds(files, 1, EXPIRES, 1)
        names = [
            self.datagrams(f"week/10.9.0.{number + 1}.fldg", sent[number::2]) for number in (0, 1)
        ]
        self.gather("-o", "centre/week", "--as", SENDER, *names)
        self.compare(files)

    def test_journals_of_epochs(self) -> None:
        """What earlier versions left: journals with FDT Instances, one for each epoch."""
        sent = [files_of(turn, range(1, 11)) for turn in (1, 2)]
        names = []
        for turn, files in enumerate(sent):
            name = self.datagrams(f"old/{turn}.fldg", rounds(files, 1, EXPIRES + turn, 1))
            names.append(f"old/{SENDER}{'.e2' * turn}.journal")
            words = "join", "--source", SENDER, "-o", names[-1], name
            subprocess.run([run.PROGRAM, *words], cwd=self.folder, check=True, capture_output=True)
        self.gather("-o", "centre/all", *names)
        self.compare(sum(sent, []))

    def test_more_than_eight_generations(self) -> None:
        """The one that was delivered first goes, and is told; without a list values go aside."""
        versions = [files_of(turn, [1, 2], 3) for turn in range(1, 12)]
        listed = self.folder / "centre/all/delivered.jsonl"
        for turn, files in enumerate(versions, 1):
            sent = rounds(files, turn, EXPIRES + turn, 1)
            done = self.gather("-o", "centre/all", self.datagrams(f"{turn}/{SENDER}.fldg", sent))
            told = "session 7 object 1, session 7 object 2"
            is_full, has_gone = turn == 9, turn > 9
            self.assertEqual(f"ever other contents, kept aside ({told})" in done.stderr, is_full)
            self.assertEqual(f"delivered first of them goes ({told})" in done.stderr, has_gone)
            if turn == 9:
                self.compare(sum(versions[:9], []), "--delivered", listed)
                lines = listed.read_text().splitlines(keepends=True)
                self.assertEqual(len(lines), 18)
                ours = [it for it in lines if "run2/" in it]
                rest = [it for it in lines if it not in ours and "run9/" not in it]
                listed.write_text("".join(ours + rest) + '{"sender": "10.9')
        self.assertEqual(self.conflicts(), 0)
        journal = self.centre / f"all/{SENDER}.g2.journal"
        words = "join", "-o", "ten", "--no-fdt", "--source", SENDER, f"10/{SENDER}.fldg"
        ran = self.command(*words)
        self.assertEqual(journal.read_bytes(), (self.folder / "ten").read_bytes(), ran)
        shutil.rmtree(self.folder / "files")
        # The first of the others went for the last one; what is aside is still found by its MD5.
        gone = [self.gone_by(lines) for lines in (ours, rest)]
        left = [it for it in sum(versions, []) if it.location not in sum(gone, [])]
        self.compare(left, "--delivered", listed, status=None)
        self.assertEqual(len(left), 18)
        self.assertEqual(len(listed.read_text().splitlines()), 18 - 2 + 1 + 6)

    @staticmethod
    def gone_by(lines: list[str]) -> list[str]:
        """The names of the files of each TOI that a list has first."""
        every = [json.loads(line) for line in lines]
        first = {of["toi"]: of["name"] for of in reversed(every)}
        return [*first.values()]

    def command(self, *words: object) -> subprocess.CompletedProcess[bytes]:
        command = [str(run.PROGRAM), *map(str, words)]
        return subprocess.run(command, cwd=self.folder, check=True, capture_output=True)

    def test_what_a_killed_run_left(self) -> None:
        """Its temporary files may be other names of journals, which stay as they are."""
        first, second = files_of(1, range(1, 11)), files_of(2, range(1, 11))
        sent = rounds(first, 1, EXPIRES, 1) + rounds(second, 1, EXPIRES + 1, 1)
        name = self.datagrams(f"week/{SENDER}.fldg", sent)
        self.gather("-o", "centre/week", name)
        folder = self.centre / "week"
        others = (".new", ""), (".journal.2", ".g2"), (".new.1", ".g2"), (".journal.1", "")
        for left, of in others:
            os.link(folder / f"{SENDER}{of}.journal", folder / f"{SENDER}{left}.partial")
        before = {path.name: path.read_bytes() for path in folder.glob("*.journal")}
        self.gather("-o", "centre/week", name, *map(str, folder.glob("*.journal")))
        after = {path.name: path.read_bytes() for path in folder.glob("*.journal")}
        self.assertEqual(after, before)
        self.compare([*first, *second])

    def test_faults(self) -> None:
        good = self.datagrams(f"week/{SENDER}.fldg", rounds(files_of(1, [1]), 1, EXPIRES, 1))
        (self.folder / "text").write_text("no journal")
        (self.folder / "cut").write_bytes(b"FLJN\0\2\3")
        nameless = self.datagrams("week/nameless.fldg", [])
        for name, told in (
            ("text", "is neither a datagram file nor a journal"),
            ("cut", "Cut"),
            (nameless, "its name has no sender"),
        ):
            done = self.gather("-o", "centre/all", name, good, status=1)
            self.assertIn(told, done.stderr)
            self.assertIn(f"centre/all/{SENDER}.journal: entries", done.stdout)
        done = self.gather("-o", "centre/all", "missing", status=3)
        self.assertIn("missing: No such file", done.stderr)
        self.assertEqual([*self.centre.rglob("*.partial")], [])


class Asked(Events):
    """A centre that is told sums, and asks for symbols, instead of being sent all that came."""

    def setUp(self) -> None:
        super().setUp()
        self.held, self.symbols = Held(), 0
        self.program = Program(str(run.PROGRAM), lambda: None)
        self.all = self.centre / "all"
        (self.all / "fdt").mkdir(parents=True)
        self.generations = Generations(
            lambda number: str(self.all / generation(SENDER, number)),
            self.put_aside,
            self.program.compare,
        )

    def put_aside(self, path: str) -> None:
        folder = self.all / "aside"
        folder.mkdir(exist_ok=True)
        Others(lambda number: str(folder / f"{SENDER}.v{number}.journal")).take(path)

    def join(self, out: str, part: str) -> Answer:
        journals = [*filter(os.path.exists, [out]), part]
        return self.program.join(ipaddress.ip_address(SENDER).packed, out, journals)

    def minute(self) -> None:
        """Has each station join what came, and asks it for what is wanted."""
        for station in self.stations:
            station.minute()
            for folder in "journals", "recent", "aside":
                for journal in sorted((station.folder / folder).glob(f"{SENDER}*.journal")):
                    wants_of = Wants.of_aside if folder == "aside" else Wants.of
                    self.ask(wants_of(self.held, sums_of(str(journal))), str(journal))
            for document in (station.folder / "fdt").glob("*.xml"):
                shutil.copy2(document, self.all / "fdt")

    def ask(self, wants: Wants, journal: str) -> None:
        """Has a journal's symbols that are wanted come, and checks that no others do."""
        lines, answer = "".join(wants.lines()), str(self.folder / "answer")
        if not wants.by_raw:
            return
        self.fill(lines, journal, answer)
        before = entries_of(answer)
        taken = wants.take(answer, self.generations, self.join)
        self.assertEqual((taken.answer.status, wants.strange), (0, 0))
        self.symbols += before or 0

    def fill(self, lines: str, journal: str, answer: str) -> None:
        """Writes the symbols of a journal that lines name."""
        picked, name = set(), ""
        for line in lines.splitlines():
            gap = re.fullmatch(r"gap (\d+)/(\d+)-(\d+) missing", line)
            name = name if gap else line.partition(" partial ")[0]
            numbers = [*map(int, gap.groups())] if gap else [0, 1, 0]
            for number in range(numbers[1], numbers[2] + 1):
                picked.add((name, struct.pack(">HH", numbers[0], number)))
        with open(answer, "wb") as out, open(journal, "rb", buffering=0) as file:
            copy = Copy(out)
            for kind, raw, more in holdings.entries(file):
                if kind == SYMBOL and (key_of(raw).text(), bytes(more[:4])) in picked:
                    copy.add(kind, raw, more)
            copy.finish()

    def held_symbols(self) -> int:
        return sum(sums.symbol_count() for of in self.held.sums.values() for sums in of.values())

    def test_two_runs(self) -> None:
        """One station is set up anew and one is away; each symbol is sent once, by one of them."""
        first, second = files_of(1, range(1, 16)), files_of(2, range(1, 16))
        self.send(rounds(first, 1, EXPIRES, 4))
        once = sum(len(file.packets(7)) for file in first)
        self.assertEqual((self.symbols, self.held_symbols()), (once, once))
        self.stations[1].set_up_anew()
        self.stations[2].is_away = True
        sent = rounds(second, 1, EXPIRES + 60, 5)
        self.send(sent[: len(sent) // 3])
        self.stations[2].is_away = False
        self.send(sent[len(sent) // 3 :])
        once += sum(len(file.packets(7)) for file in second)
        self.assertEqual((self.symbols, self.held_symbols()), (once, once))
        self.compare([*first, *second])
        self.assertEqual(self.conflicts(), 0)

    def test_forged_datagrams(self) -> None:
        """Wrong values are asked for once, and kept aside."""
        files = files_of(1, range(1, 16), 15)
        sent = Forged.sent(files, 1, random.Random(5))
        self.send(sent)
        self.compare(files)
        self.assertEqual(self.conflicts(), 0)
        before = self.symbols
        self.minute()
        self.assertEqual(self.symbols, before)

    def test_what_was_let_go(self) -> None:
        """A carousel that goes on brings nothing back, and another file of a TOI is seen."""
        first, second = files_of(1, range(1, 6)), files_of(2, range(1, 6))
        self.send(rounds(first, 1, EXPIRES, 5))
        self.compare(first)
        keys = set(self.held.sums)
        for key in keys:
            self.held.let_go(key, 1)
        self.generations.forget(1, keys)
        before = self.symbols
        self.send(rounds(first, 1, EXPIRES, 2))
        self.assertEqual((self.symbols, entries_of(self.generations.path_of(1))), (before, 0))
        self.send(rounds(second, 1, EXPIRES + 9, 5))
        self.compare([*first, *second], status=None)


class Levels(Events):
    """examples/levels.sh, which joins many inputs."""

    stations_of = 0

    def level(self, sent: list[bytes], status: int = 0) -> None:
        """Adds a datagram file by levels.sh, and checks its status."""
        path = self.folder / "hour"
        path.write_bytes(datagram_files.content(sent))
        words = [ROOT / "examples/levels.sh", "centre", "hour", "--source", SENDER]
        places = f"{self.folder / 'bin'}:{os.environ['PATH']}"
        done = subprocess.run(
            [*map(str, words)],
            cwd=self.folder,
            env={**os.environ, "PATH": places, "FLUTEJOIN": "flutejoin"},
            capture_output=True,
            text=True,
        )
        self.assertEqual(done.returncode, status, done)
        self.assertEqual("is kept apart in" in done.stderr, status == 1, done)

    def test_a_sender_that_starts_again(self) -> None:
        """What differs is kept apart, and all files come out of both."""
        draw = random.Random(3)
        runs = [files_of(turn, range(1, 6)) for turn in (1, 2, 3)]
        sent = [rounds(files, 1, EXPIRES + at, 1) for at, files in enumerate(runs)]
        for hour in range(16):
            of = sent[hour >= 4]
            self.level([it for it in of if draw.random() >= LOSS], int(hour == 7))
        self.level(sent[0] + sent[2], 1)
        self.assertEqual(self.conflicts(), 0)
        self.assertEqual(len([*self.centre.glob("1/*")]), 1)
        words = [TOOLS / "flutejoin-files", "--flutejoin", run.PROGRAM, "-o", "files"]
        words += [self.centre / f"apart/{SENDER}.journal", *self.centre.glob("1/*")]
        subprocess.run([sys.executable, *map(str, words)], cwd=self.folder, capture_output=True)
        for file in sum(runs, []):
            path = self.folder / "files" / file.location.removeprefix("http://")
            self.assertEqual(path.read_bytes(), file.content)


class Instances(unittest.TestCase):
    """FDT Instances as documents."""

    def setUp(self) -> None:
        case = run.Case("setUp")
        case.setUp()
        self.addCleanup(case.doCleanups)
        self.path = case.folder / "fdt"
        self.folder = Folder(str(self.path))

    def take(self, *packets: bytes, when: float = 1e9) -> int:
        return self.folder.take(SENDER, packets, when)

    def documents(self) -> list[bytes]:
        return sorted(path.read_bytes() for path in self.path.glob("*.xml"))

    @staticmethod
    def xml(run_of: int, expires: int = EXPIRES) -> bytes:
        return fdt(files_of(run_of, range(1, 11)), expires)

    def test_a_document(self) -> None:
        xml = self.xml(1)
        self.assertEqual(self.take(*instance(7, 3, xml)), 1)
        self.assertEqual(self.documents(), [xml])
        (path,) = self.path.glob("*.xml")
        self.assertRegex(path.name, rf"^{SENDER}-7-3-[0-9a-f]{{16}}\.xml$")
        self.assertEqual(path.stat().st_mtime, 1e9)
        self.assertEqual(self.take(*instance(7, 3, xml), when=2e9), 0)
        self.assertEqual((path.stat().st_mtime, len(os.listdir(self.path))), (2e9, 1))
        self.assertIn(instances.first_received(str(path)), (b"", b"1000000000"))
        self.assertEqual([*self.path.glob("*.partial")], [])

    def test_its_xml_is_read_once(self) -> None:
        """Whoever can send chooses how many there are, and how much each says."""
        read_from = fdt_module.read_from
        with mock.patch.object(fdt_module, "read_from", side_effect=read_from) as read:
            self.take(*instance(7, 3, self.xml(1)), *instance(7, 4, self.xml(2)))
        self.assertEqual((len(self.documents()), read.call_count), (2, 2))
        self.assertEqual(len(self.folder.known_of(SENDER).numbers), 10)

    def test_sessions(self) -> None:
        self.folder = Folder(str(self.path), [8])
        self.take(*instance(7, 3, self.xml(1)), *instance(8, 3, self.xml(2)))
        self.assertEqual(self.documents(), [self.xml(2)])

    def test_expires_alone(self) -> None:
        """It takes the place of the other, also where each version lacks a packet."""
        versions = [instance(7, 3, self.xml(1, EXPIRES + at)) for at in range(6)]
        self.assertGreater(len(versions[0]), 2)
        for at, version in enumerate(versions):
            self.take(*(it for place, it in enumerate(version) if place != at % len(version)))
        self.assertEqual(len(self.documents()), 1)
        self.assertIn(b"%d" % (EXPIRES + 5), self.documents()[0])

    def test_versions_in_one_batch(self) -> None:
        texts = [self.xml(at) for at in range(3)]
        self.take(*(it for text in texts for it in instance(7, 3, text)))
        self.assertEqual(self.documents(), sorted(texts))

    def test_versions_that_lack_packets(self) -> None:
        """What is put together of both is no XML, or harms nobody; in the end both are there."""
        texts, draw = [self.xml(at) for at in range(2)], random.Random(4)
        for text in texts * 10:
            self.take(*(it for it in instance(7, 3, text) if draw.random() >= LOSS))
        self.assertLessEqual(set(texts), set(self.documents()))
        for document in self.documents():
            ElementTree.fromstring(document)

    def test_what_is_none(self) -> None:
        self.take(*instance(7, 3, b"no XML" * 400), *instance(7, 4, b"<a/>"))
        self.take(*files_of(1, [1])[0].packets(7))
        self.take(b"", b"no FLUTE", header(7, 0, b""))
        self.assertEqual(self.documents(), [])

    def test_compressed(self) -> None:
        xml = self.xml(1)
        self.take(*instance(7, 3, gzip.compress(xml)))
        self.assertEqual(self.documents(), [xml])

    def test_parts_in_two_runs(self) -> None:
        """What is not whole waits on the disk for the next run."""
        xml = self.xml(1)
        packets = instance(7, 3, xml)
        self.take(*packets[:1])
        self.assertEqual(os.listdir(self.path), [f"{SENDER}.fldg"])
        self.folder = Folder(str(self.path))
        self.take(*packets[1:])
        self.assertEqual((self.documents(), len(os.listdir(self.path))), ([xml], 1))

    def test_parts_end(self) -> None:
        """What is not whole goes a week after it expired and came last; after a restart, when it
        came is unknown. What tells no expiry goes with what came after it."""
        soon, late = 1_790_000_000, 1_800_000_000

        def of(number: int, expires: int) -> list[bytes]:
            return instance(7, number, self.xml(number, expires + fdt_module.NTP_TO_UNIX))

        def parts(when: float, *packets: bytes, is_new: bool = True) -> list[Optional[int]]:
            self.folder = Folder(str(self.path)) if is_new else self.folder
            self.take(*packets, when=when)
            kept = instances.datagrams_in(str(self.path / f"{SENDER}.fldg"))
            return [it.instance for it in map(packet_of, kept) if it]

        sent = [of(0, late), of(1, soon), of(2, soon), of(3, late), of(4, late)]
        came = sent[0][1], sent[1][0], sent[2][1], sent[3][0]
        self.assertEqual(parts(soon - 1, *came), [0, 1, 2, 3])
        now = soon + instances.WEEK
        self.assertEqual(parts(now, sent[4][1]), [0, 1, 2, 3, 4])
        self.assertEqual(parts(now + 1, sent[4][1]), [2, 3, 4])
        self.assertEqual(parts(now + 2, sent[2][0], is_new=False), [3, 4, 2, 2])
        now += instances.WEEK
        self.assertEqual(parts(now + 2, sent[4][1], is_new=False), [3, 2, 2, 4])
        self.assertEqual(parts(now + 3, sent[4][1], is_new=False), [3, 4])
        self.assertEqual(parts(late + instances.WEEK + 1, *sent[3][1:]), [4])
        self.assertEqual(len(self.documents()), 1)

    def two_of_one_id(self) -> tuple[bytes, list[bytes]]:
        """Takes the first packets of two FDT Instances. Returns the second one, which expires a day
        earlier, and its other packets, without EXT_FTI."""
        older, newer = self.xml(1), fdt(files_of(2, range(1, 6)), EXPIRES - 86400)
        self.take(instance(7, 3, older)[0], instance(7, 3, newer)[0])
        numbers = flute_sender.FDT_SYMBOL, flute_sender.FDT_BLOCK
        return newer, flute_sender.packets(7, 0, newer, *numbers, False, 3)[1:]

    def test_the_older_of_one_id_goes(self) -> None:
        """Packets without EXT_FTI are then of the newer one still."""
        newer, others = self.two_of_one_id()
        with mock.patch.object(instances, "MOST_OPEN", 2):
            self.take(instance(7, 4, self.xml(3))[0])
        self.take(*others)
        self.assertEqual(self.documents(), [newer])

    def test_the_newer_of_one_id_goes(self) -> None:
        """Packets without EXT_FTI are then of neither."""
        _, others = self.two_of_one_id()
        over = EXPIRES - fdt_module.NTP_TO_UNIX - 86400 + instances.WEEK + 1
        self.take(instance(7, 4, self.xml(3))[0], when=over)
        self.take(*others, when=over)
        of_each = self.folder.assembler(SENDER).open.items()
        symbols = [(number, [*of.symbols]) for (_, number, _), of in of_each]
        self.assertEqual((symbols, self.documents()), ([(3, [0]), (4, [0])], []))

    def test_made_up_ones(self) -> None:
        """As many as anybody likes: a bound of those that are written, and those that are kept."""
        with mock.patch.multiple(instances, MOST_NEW=40, MOST_KEPT=64, MOST_OPEN=8):
            for at in range(0, 300, 50):
                made_up = (instance(7, at + number, self.xml(1)) for number in range(50))
                self.take(*(it for of in made_up for it in of), when=1e9 + at)
            self.assertLessEqual(len(self.documents()), 64)
            self.assertGreater(self.folder.left, 0)
            self.take(*instance(7, 999, self.xml(2)), when=2e9)
        self.assertIn(self.xml(2), self.documents())
        assembler = self.folder.assembler(SENDER)
        self.assertEqual(assembler.last.keys(), {key[:2] for key in assembler.open})


class Files(Events):
    """flutejoin-files and what is beside a journal."""

    def test_parts_of_several_folders(self) -> None:
        """No station has the whole FDT Instance, and together they have it."""
        files = files_of(1, range(1, 11))
        told = instance(7, 1, fdt(files))
        sent = [packet for file in files for packet in file.packets(7)]
        for number, station in enumerate(self.stations):
            name = self.folder / f"{SENDER}.fldg"
            of = [*told[number::3], *sent[number::3]]
            name.write_bytes(datagram_files.content(of))
            words = TOOLS / "flutejoin-gather", "--flutejoin", run.PROGRAM, "-o", f"centre/{number}"
            command = [sys.executable, *map(str, words), str(name)]
            subprocess.run(command, cwd=self.folder, check=True, capture_output=True)
        self.compare(files)

    def gaps(self, *journals: pathlib.Path) -> list[str]:
        """What `gaps` prints of some journals together."""
        join = [run.PROGRAM, "join", "-o", "-", *journals]
        joined = subprocess.run([*map(str, join)], capture_output=True, check=True).stdout
        words = [run.PROGRAM, "gaps", "-"]
        done = subprocess.run(
            [*map(str, words)], input=joined, capture_output=True, check=True
        )
        return done.stdout.decode().splitlines()

    def test_information_of_the_fdt(self) -> None:
        """The station keeps it in a journal beside that of the packets, which `gaps` needs too."""
        files = files_of(1, range(1, 5))
        for file in files[:3]:
            file.is_in_packets = False
        files[0].more["FEC-OTI-Encoding-Symbol-Length"] = None
        files[3].more["FEC-OTI-Encoding-Symbol-Length"] = 999  # the packets' own counts
        station = self.stations[0]
        self.stations[1:] = []
        self.send(rounds(files, 1, EXPIRES, 4))
        large = station.folder / f"journals/{SENDER}.journal"
        known = station.folder / f"fdt/{SENDER}.journal"
        plain, informed = self.gaps(large), self.gaps(large, known)
        is_missing = [line.endswith("no information") for line in plain]
        self.assertEqual(is_missing, [True, True, True, False])
        self.assertEqual([" whole " in line for line in informed], [False, True, True, True])
        pushed = self.centre / f"station0/fdt/{SENDER}.journal"
        self.assertEqual(pushed.read_bytes(), known.read_bytes())
        # In a later run it is known too.
        station.begin()
        self.send(rounds(files, 1, EXPIRES + 9, 1))
        self.assertEqual(self.gaps(large, known), informed)
        self.compare(files[1:3] + files[3:], known, status=1)

    def test_a_list_of_generations(self) -> None:
        """Each file of a TOI has a line, whole or not, and its state is that of its generation."""
        runs = [files_of(turn, range(1, 6)) for turn in (1, 2)]
        sent = rounds(runs[0], 1, EXPIRES, 1) + instance(7, 1, fdt(runs[1], EXPIRES + 1))
        sent += [it for file in runs[1] for it in file.packets(7)[:-1]] + runs[1][0].packets(7)
        name = self.folder / f"{SENDER}.fldg"
        name.write_bytes(datagram_files.content(sent))
        words = TOOLS / "flutejoin-gather", "--flutejoin", run.PROGRAM, "-o", "centre/all", name
        subprocess.run([*map(str, words)], cwd=self.folder, check=True, capture_output=True)
        of_all = "--flutejoin", run.PROGRAM, f"centre/all/{SENDER}.journal"
        for more, whole in (("--list",), "whole"), (("--list", "-o", "files"), "verified"):
            command = TOOLS / "flutejoin-files", *more, *of_all
            done = subprocess.run(
                [*map(str, command)], cwd=self.folder, capture_output=True, text=True
            )
            self.assertEqual(done.returncode, 1, done)
            lines = [re.split(r"  +", line.strip()) for line in done.stdout.splitlines()]
            found = {of[5].split()[0]: of[3] for of in lines if len(of) > 5}
            wanted = {file.location: whole for file in [*runs[0], runs[1][0]]}
            wanted.update((file.location, "partial 1") for file in runs[1][1:])
            self.assertEqual({name: of for name, of in found.items() if name in wanted}, wanted)
            self.assertEqual([line[0] for line in lines[2:12]], [*"1122334455"])
            self.assertNotIn("in conflict", done.stdout)
        self.assertIn("written 6, verified 6; partial 4 (4 symbols, 4,000 bytes)", done.stdout)
        # What is missing comes, and is written.
        name.write_bytes(datagram_files.content([it.packets(7)[-1] for it in runs[1]]))
        words = TOOLS / "flutejoin-gather", "--flutejoin", run.PROGRAM, "-o", "centre/all", name
        subprocess.run([*map(str, words)], cwd=self.folder, check=True, capture_output=True)
        self.compare(sum(runs, []))

    def map_of(self, *journals: object) -> list[str]:
        """The lines of flutejoin-map that count symbols."""
        command = [TOOLS / "flutejoin-map", "--flutejoin", run.PROGRAM, "--text", *journals]
        words = [sys.executable, *map(str, command)]
        done = subprocess.run(words, capture_output=True, text=True, cwd=self.folder)
        self.assertEqual((done.returncode, done.stderr), (0, ""))
        return [line for line in done.stdout.splitlines() if ": held " in line]

    def test_a_map_with_the_fdt(self) -> None:
        """It finds what the FDT tells by itself, also of objects of which nothing came."""
        files = [*files_of(1, range(1, 4)), files_of(2, [9])[0]]
        for file in files[:2]:
            file.is_in_packets = False
        files[2].more["FEC-OTI-Encoding-Symbol-Length"] = 999  # the packets' own counts
        folder, other = self.folder / "centre/all", self.folder / "other"
        sent = [files[0].packets(7), files[1].packets(7)[1:], files[2].packets(7)[2:]]
        name = self.folder / f"{SENDER}.fldg"
        packets = [it for of in sent for it in of]
        name.write_bytes(datagram_files.content(packets + instance(7, 1, fdt(files))))
        words = TOOLS / "flutejoin-gather", "--flutejoin", run.PROGRAM, "-o", folder, name
        subprocess.run([*map(str, words)], check=True, capture_output=True)
        held = [*map(len, sent), 0]
        missing = [0, 1, 2, len(files[3].packets(7))]
        told = [f"held {one}, missing {two}," for one, two in zip(held, missing)]
        journal = folder / f"{SENDER}.journal"
        for journals in (journal,), (journal, folder / f"fdt/{SENDER}.journal"):
            lines = self.map_of(*journals)
            self.assertTrue(all(map(str.__contains__, lines, told)), lines)
            self.assertEqual(["of the FDT" in line for line in lines], [True, True, False, False])
            self.assertIn("nothing of this object", lines[3])
        # Of two journals each is drawn by what the FDT tells, and both joined.
        other.mkdir()
        shutil.copy(journal, other / "half")
        self.assertEqual(len(self.map_of(journal, other / "half")), 12)
        one_object = "--source", SENDER, "--tsi", 7, "--toi", 1, journal
        self.assertEqual(self.map_of(*one_object), lines[:1])
        # Beside another sender's journal it tells nothing, nor alone.
        one = [run.PROGRAM, "join", "--source", "10.9.0.2", "--no-fdt", "-o", folder / "one", name]
        subprocess.run([*map(str, one)], check=True, capture_output=True)
        self.assertEqual(len(self.map_of(folder / "one")), 1)

    def test_fill_and_compare_with_the_fdt(self) -> None:
        """Of an object whose packets have no transmission information symbols are asked for, and
        stations are compared, by what the FDT tells of it."""
        (file,) = files_of(1, [1], 90)
        file.is_in_packets = False
        sent, told = file.packets(7), instance(7, 1, fdt([file]))
        for place, packets in ("a", sent[:-3] + told), ("b", sent[2:]):
            name = self.folder / f"{SENDER}.fldg"
            name.write_bytes(datagram_files.content(packets))
            words = TOOLS / "flutejoin-gather", "--flutejoin", run.PROGRAM, "-o", place, name
            subprocess.run([*map(str, words)], cwd=self.folder, check=True, capture_output=True)
        self.program("join", "-o", "known", f"a/{SENDER}.journal", f"a/fdt/{SENDER}.journal")
        lines = self.program("gaps", "known")
        self.assertIn(" partial missing 3 ", lines)
        (self.folder / "lines").write_text(lines)
        other = f"b/{SENDER}.journal"
        printed = self.program("fill", "-o", "answer", "--gaps", "lines", "--only", other)
        self.assertEqual(printed, "entries 3\n")
        self.program("join", "-o", "all", "known", "answer")
        self.program("gaps", "--check", "all")
        printed = self.program("compare", "known", "all")
        self.assertIn(f" same {len(sent) - 3} differ 0 first 0 second 3 information same", printed)
        self.assertIn(" information first", self.program("compare", "all", other))

    def program(self, *words: object) -> str:
        command = [str(run.PROGRAM), *map(str, words)]
        done = subprocess.run(command, cwd=self.folder, capture_output=True, text=True)
        self.assertEqual(done.returncode, 0, done)
        return done.stdout

    def test_a_forged_document(self) -> None:
        """It contradicts files that are right, and is named."""
        files = files_of(1, range(1, 6))
        self.stations[1:] = []
        self.send(rounds(files, 1, EXPIRES, 4))
        others = [Sent(it.toi, b"another", it.location) for it in files]
        self.send(instance(7, 9, fdt(others, EXPIRES + 1000)) * 4)
        self.compare(files)
        self.assertRegex(self.told, rf"may be forged; its file is .*fdt/{SENDER}-7-9-.*[.]xml")

    def test_a_mixed_document(self) -> None:
        """Packets of two versions of an FDT Instance make one that is well-formed, and describes
        files of both runs: it does no harm, since each file has an MD5 of its own."""
        runs = [files_of(turn, range(1, 16)) for turn in (1, 2)]
        for file, other in zip(*runs):
            file.content = content("same length", file.toi, size=5000)
            other.content = content("another", file.toi, size=5000)
        told = [instance(7, 1, fdt(files, EXPIRES)) for files in runs]
        self.assertEqual([*map(len, told[0])], [*map(len, told[1])])
        mixed = [told[at % 2][at] for at in range(len(told[0]))]
        self.assertGreater(len(mixed), 3)
        sent = [[it for file in files for it in file.packets(7)] for files in runs]
        self.send(mixed * 8 + sent[0] * 4 + mixed * 4)
        documents = [*(self.stations[0].folder / "fdt").glob("*.xml")]
        self.assertEqual(len(documents), 1, documents)
        ElementTree.parse(documents[0])
        self.send(told[0] * 8 + sent[0] + told[1] * 8 + sent[1] * 5 + mixed * 4)
        self.assertEqual(len([*(self.stations[0].folder / "fdt").glob("*.xml")]), 3)
        found = self.files(status=None)
        wanted = {it.location.removeprefix("http://"): it.content for it in sum(runs, [])}
        self.assertEqual({name: found.get(name) for name in wanted}, wanted, self.told[-3000:])
        self.assertEqual(self.conflicts(), 0)

    def test_other_senders_documents(self) -> None:
        """Of senders whose journals are not given nothing is told."""
        files = files_of(1, range(1, 4))
        name = self.folder / f"{SENDER}.fldg"
        name.write_bytes(datagram_files.content(rounds(files, 1, EXPIRES, 1)))
        words = TOOLS / "flutejoin-gather", "--flutejoin", run.PROGRAM, "-o", "centre/all", name
        subprocess.run([sys.executable, *map(str, words)], cwd=self.folder, check=True)
        for path in [*(self.centre / "all/fdt").glob("*.xml")]:
            shutil.copy(path, path.with_name(path.name.replace(SENDER, "10.9.0.2")))
        self.compare(files)
        self.assertNotIn("10.9.0.2", self.told)
