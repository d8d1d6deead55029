"""Events of senders, from datagrams to named files: at three stations that lose datagrams, and a
centre that asks them."""
from __future__ import annotations

import ipaddress
import random
import shutil

from tests.asked.case import AskedCase
from tests.asked.test_centre import files_of, rounds, size_of
from tests.centre.case import SENDER, file_of, packets
from tests.support.flute_sender import EXPIRES, Sent, fdt, instance

UPLINK = "10.0.0.2"


class Events(AskedCase):
    is_by_ssh = False

    def restart(self, first: list[bytes], second: list[bytes]) -> None:
        """The sender begins anew; meanwhile one station is set up anew, and one is away."""
        self.hear(first)
        shutil.rmtree(self.stations["south"].folder)
        self.stations["south"].begin()
        self.stations["west"].is_away = True
        third = len(second) // 3
        self.hear(second[:third])
        self.stations["west"].is_away = False
        self.hear(second[third:])

    def delivers(self, files: list[Sent]) -> None:
        """Checks that the centre has delivered these files, each once, and no other."""
        wanted = self.wanted(files)
        found = self.files()
        missing = sorted(wanted.keys() - found.keys())
        self.holds("no file is missing", not missing, (missing, self.told.printed[-5:]))
        self.holds("all are right", found == wanted, sorted(found.keys() - wanted.keys()))
        self.holds("no conflict", self.conflicts() == 0)
        self.holds("each has one line", len(self.lines()) == len(files), len(self.lines()))

    def test_equal_lengths(self) -> None:
        """A sender starts again, and its files have the lengths that those before had: only the
        symbols tell that they are others."""
        first, second = (
            [file_of(toi, 21_000, f"http://a.example/{turn}/{toi}", turn) for toi in range(1, 11)]
            for turn in (1, 2)
        )
        self.restart(rounds(first, 1, EXPIRES, 4), rounds(second, 1, EXPIRES + 60, 5))
        self.delivers([*first, *second])

    def test_partial_files_at_a_restart(self) -> None:
        """Files of the sender's first run that are not whole become no part of its second run's."""
        first, second = (
            [file_of(toi, 70_000, f"http://a.example/{turn}/{toi}", turn) for toi in range(1, 4)]
            for turn in (1, 2)
        )
        sent = rounds(first, 1, EXPIRES, 1)
        draw = random.Random(2)
        self.hear([it for it in sent if draw.random() < 0.5])
        self.hear(rounds(second, 1, EXPIRES + 60, 5))
        found = self.files().items()
        self.holds("the second run's are there", found >= self.wanted(second).items())
        self.hear(rounds(first, 1, EXPIRES + 90, 5))
        self.delivers([*first, *second])

    def test_tois_that_are_used_ever_again(self) -> None:
        """More often than a station keeps generations: what was delivered goes there first."""
        every = []
        for turn in range(1, 21):
            files = files_of(turn, range(1, 3), 4000)
            self.hear(rounds(files, turn, EXPIRES + turn, 5), 10**6)
            every += files
        self.delivers(every)
        for station in self.stations.values():
            aside = [it for it in station.said if "kept aside" in it]
            self.holds("nothing goes aside", not aside, aside)
            gone = [it for it in station.said if "delivered first of them goes" in it]
            self.holds("what was delivered goes", gone, station.said[-5:])

    def test_a_restart_of_one_session(self) -> None:
        """The other session of the sender stays as it was."""
        other = files_of(9, range(1, 6))
        told = instance(8, 1, fdt(other, EXPIRES))
        of_other = (told + [it for file in other for it in file.packets(8)] + told) * 4
        first, second = files_of(1, range(1, 6)), files_of(2, range(1, 6))
        self.restart(
            of_other + rounds(first, 1, EXPIRES, 4),
            of_other + rounds(second, 1, EXPIRES + 60, 5),
        )
        self.delivers([*other, *first, *second])

    def test_thirty_minutes(self) -> None:
        """Each five seconds a sender renews Expires under one FDT Instance ID."""
        files, at = files_of(1, range(1, 21)), 0
        sent = packets(files)
        for minute in range(30):
            datagrams = []
            for renewal in range(12):
                datagrams += instance(7, 1, fdt(files, EXPIRES + 60 * minute + 5 * renewal))
                datagrams += [sent[place % len(sent)] for place in range(at, at + 10)]
                at += 10
            self.hear(datagrams, len(datagrams))
        self.delivers(files)
        documents = [*self.path("centre/fdt").glob("*.xml")]
        self.holds("one document", len(documents) == 1, documents)

    def test_forged_datagrams(self) -> None:
        """Four a minute, of files and of the FDT."""
        files, draw = files_of(1, range(1, 16)), random.Random(6)
        told = instance(7, 1, fdt(files, EXPIRES))
        sent = rounds(files, 1, EXPIRES, 4)
        for at in range(0, len(sent), 300):
            for _ in range(4):
                packet = bytearray(draw.choice(told + draw.choice(files).packets(7)))
                packet[-1] ^= draw.randint(1, 255)
                sent.insert(at + draw.randrange(300), bytes(packet))
        self.hear(sent, 300)
        wanted = self.wanted(files)
        self.holds("all files are right", self.files() == wanted, self.told.printed[-5:])
        self.holds("no conflict", self.conflicts() == 0)

    def test_uplinks(self) -> None:
        """Two senders of one session, of which each sends a half, are kept as one."""
        pair = ipaddress.ip_address(UPLINK), ipaddress.ip_address(SENDER)
        for station in self.stations.values():
            station.same = (pair,)
            station.begin()
        files = files_of(1, range(1, 11))
        sent = rounds(files, 1, EXPIRES, 4)
        for at in range(0, len(sent), 200):
            for station in self.stations.values():
                station.hear(sent[at : at + 200 : 2])
                station.hear(sent[at + 1 : at + 200 : 2], UPLINK)
            self.ask()
        self.delivers(files)
        self.holds("of one sender", {it["sender"] for it in self.lines()} == {SENDER})

    def test_nothing_gets_worse(self) -> None:
        """Whatever comes later, a file that was there stays as it is, and one that all stations
        heard together comes: runs that follow each other, forged symbols, and stations that come
        and go, drawn."""
        for seed in range(2):
            draw, tois = random.Random(seed), range(10 * seed + 1, 10 * seed + 6)
            turns = [files_of(10 * seed + turn, tois, 15_000) for turn in range(3)]
            before = self.files()
            for turn, files in enumerate(turns):
                for _ in range(2):
                    sent = rounds(files, turn + 1, EXPIRES + 100 * seed + turn, 1)
                    packet = bytearray(draw.choice(draw.choice(files).packets(7)))
                    packet[-1] ^= draw.randint(1, 255)
                    sent.insert(draw.randrange(len(sent)), bytes(packet))
                    name = draw.choice(self.names)
                    self.stations[name].is_away = draw.random() < 0.5
                    self.hear(sent)
                    now = self.files()
                    self.holds("what was there stays", now.items() >= before.items())
                    before = now
                for station in self.stations.values():
                    station.is_away = False
                self.hear(rounds(files, turn + 1, EXPIRES + 100 * seed + turn, 3))
                before = self.files()
                wanted = self.wanted(files)
                self.holds("all files of the run", before.items() >= wanted.items())
        self.holds("no conflict", self.conflicts() == 0)

    def test_few_bytes(self) -> None:
        """All of this takes little more than what was missing."""
        files = [files_of(turn, range(1, 8), 60_000) for turn in (1, 2)]
        self.restart(rounds(files[0], 1, EXPIRES, 4), rounds(files[1], 1, EXPIRES + 60, 5))
        self.delivers(sum(files, []))
        lines = [it for name in self.names for it in self.asked(name)]
        asked = sum(int(it.split()[-5]) for it in lines if " partial missing " in it)
        symbols = len(packets(sum(files, [])))
        self.holds("each symbol is asked for once", asked <= 1.01 * symbols, (asked, symbols))
        size = size_of(sum(files, []))
        self.holds("few bytes more", self.sent() < 1.15 * size, (self.sent(), size))
