"""Tests which objects a station joins at once: those that may have become whole by what came. The
clock is set, so that nothing but a datagram can have them joined."""
from __future__ import annotations

import itertools
import pathlib
from typing import Generator, Iterable, Optional, Sequence
from unittest import mock

import datagram_files
from flutejoin_tools.common.gaps import Numbers
from flutejoin_tools.journals.holdings import Key
from flutejoin_tools.station import completing
from flutejoin_tools.station.completing import Completing
from flutejoin_tools.station.incoming import Part, Sender, sender_of
from flutejoin_tools.station.keeping import Keeper
from tests.station.test_senders import REAL, Case, Faked
from tests.support import flute_sender
from tests.support.flute_sender import Sent, fdt, instance

LONG = 1e6  # seconds of a window that never ends


def file_of(toi: int, size: int = 5000, is_in_packets: bool = True) -> Sent:
    """A file of small symbols."""
    name = f"http://a.example/{toi}"
    return Sent(toi, bytes([toi]) * size, name, None, 1000, 4, is_in_packets)


class Told(Faked):
    """A faked program, by which journals lack what is given: lines as `gaps` prints them."""

    def __init__(self, lines: Sequence[str] = (), sessions: Sequence[int] = ()) -> None:
        super().__init__()
        self.gaps, self.sessions = lines, sessions

    def lines(self, *_: object) -> Generator[bytes, None, None]:
        yield from (f"{line}\n".encode() for line in self.gaps)


class Follows(Case):
    """Which objects are due, by datagrams alone."""

    def setUp(self) -> None:
        super().setUp()
        self.path_of = self.news / "in" / f"{REAL}.fldg"
        self.path_of.write_bytes(datagram_files.HEADER)
        found = sender_of(self.path_of.name)
        assert found
        self.sender, number = found
        self.part = Part(str(self.path_of), number, self.sender)
        self.known: dict[int, Numbers] = {}
        self.begin(Told())

    def begin(self, program: Told, journals: Sequence[str] = ()) -> None:
        """Begins to follow objects, with these journals of an earlier run."""

        def known(sender: Sender, key: Key) -> Optional[Numbers]:
            return self.known.get(key.number)

        self.completing = Completing(program, lambda sender: list(journals), known)

    def come(self, datagrams: Iterable[bytes]) -> bool:
        """Adds datagrams to the file. Returns whether a join is due by them."""
        with self.path_of.open("ab") as file:
            file.write(datagram_files.content(datagrams)[len(datagram_files.HEADER) :])
        self.part.look()
        with self.set_clock():
            self.completing.look({self.sender: [self.part]})
            is_due = self.completing.is_due(self.sender, self.clock.now)
            if is_due:
                self.completing.joined(self.sender, self.clock.now)
            self.clock.now += 100
        return is_due

    def test_the_last_symbol(self) -> None:
        sent = file_of(1, 9000).packets(7)
        self.assertFalse(self.come(sent[:4]))
        self.assertFalse(self.come(sent[:4] + sent[6:]), "what came twice counts once")
        self.assertFalse(self.come(sent[4:5]))
        self.assertTrue(self.come(sent[5:6]))
        self.assertFalse(self.come(sent), "a carousel repeats it")

    def test_a_document_and_others(self) -> None:
        files = [file_of(toi) for toi in (1, 2)]
        self.assertTrue(self.come(instance(7, 1, fdt(files))))
        self.assertFalse(self.come(instance(7, 1, fdt(files))))
        self.assertFalse(self.come(files[0].packets(7)[1:] + files[1].packets(8)[:-1]))
        self.assertTrue(self.come(files[0].packets(7)[:1]))
        self.assertTrue(self.come(files[1].packets(8)[-1:]))

    def test_information_that_only_documents_have(self) -> None:
        bare, late = file_of(1, is_in_packets=False), file_of(2, is_in_packets=False)
        self.known[1] = 5000, 1000, 4
        sent = bare.packets(7)
        self.assertFalse(self.come(sent[1:] + late.packets(7)[:-1]))
        self.assertTrue(self.come(sent[:1]))
        self.known[2] = 5000, 1000, 4  # after the join, which read a document
        with self.set_clock():
            self.completing.joined(self.sender, self.clock.now)
        self.clock.now += 100
        self.assertTrue(self.come(late.packets(7)[-1:]))

    def test_information_that_comes_with_the_last_packet(self) -> None:
        bare, full = file_of(1, is_in_packets=False).packets(7), file_of(1).packets(7)
        self.assertFalse(self.come(bare[1:]))
        self.assertTrue(self.come(full[:1]))

    def test_another_file_of_the_same_number(self) -> None:
        self.assertTrue(self.come(file_of(1).packets(7)))
        other = file_of(1, 7000).packets(7)
        self.assertFalse(self.come(other[:-1]))
        self.assertTrue(self.come(other[-1:]))

    def test_what_journals_have(self) -> None:
        self.begin(
            Told(
                [
                    "session 7 object 1 partial missing 2 conflicting 1 misfit 0",
                    "gap 0/1-2 missing",
                    "gap 1/0-0 conflicting",
                    "session 7 object 2 whole 5000",
                    "session 7 object 3 no information",
                    "source 00000000000000000000ffff0a000001 session 8 object 1 partial "
                    "missing 1 conflicting 0 misfit 0",
                    "gap 0/0-0 missing",
                ]
            ),
            ["one.journal"],
        )
        one, two, three = (file_of(toi).packets(7) for toi in (1, 2, 3))
        self.assertFalse(self.come(one[1:2] + two))
        self.assertTrue(self.come(one[2:3]), "the others are in a journal")
        self.assertFalse(self.come(three[1:]))
        self.assertTrue(self.come(three[:1]))
        self.assertTrue(self.come(file_of(1).packets(8)[:1]))

    def test_sessions_that_are_not_kept(self) -> None:
        self.begin(Told(sessions=(7,)))
        self.assertFalse(self.come(file_of(1).packets(8)))
        self.assertTrue(self.come(file_of(1).packets(7)))

    def test_what_is_no_packet(self) -> None:
        one = file_of(1).packets(7)
        strange = [b"", b"\x10", bytes(4), b"\x10\xff\xff\0", one[0][:9], bytes(70), one[0][:-1000]]
        self.assertFalse(self.come([*strange, *one[:-1]]))
        # A symbol that the object can't have, of a block or in it
        self.assertFalse(self.come([one[0][:-1004] + b"\xff\xff\0\0" + bytes(1000)]))
        self.assertFalse(self.come([one[0][:-1004] + b"\0\0\xff\xff" + bytes(1000)]))
        self.assertTrue(self.come(one[-1:]))

    def test_a_file_of_this_name_that_is_another(self) -> None:
        sent = file_of(1).packets(7)
        self.assertFalse(self.come(sent[:3]))
        self.path_of.unlink()
        self.path_of.write_bytes(datagram_files.HEADER)
        self.assertTrue(self.come(sent[3:]), "what came before still counts")

    def test_bounds(self) -> None:
        with mock.patch.object(completing, "MOST_OBJECTS", 8):
            for toi in range(1, 40):
                self.assertFalse(self.come(file_of(toi % 256).packets(7)[:-1]))
                self.assertLessEqual(len(self.completing.objects), 8)
            self.assertTrue(self.come(file_of(39).packets(7)[-1:]), "the newest are followed")
            self.assertFalse(self.come(file_of(2).packets(7)[-1:]))
        with mock.patch.object(completing, "MOST_HEADS", 4):
            one = file_of(50).packets(7)
            self.assertFalse(self.come(one[:-1]))
            self.assertFalse(self.come([file_of(toi).packets(8)[0] for toi in range(60, 80)]))
            self.assertLessEqual(sum(map(len, self.completing.heads.values())), 4)
            self.assertTrue(self.come(one[-1:]), "what came of an object is not forgotten")
        # An object whose information nobody knows may have any symbol.
        bare = flute_sender.packets(9, 1, bytes(4), 4, 1, False)[0][:-8]
        with mock.patch.object(completing, "MOST_BYTES", 1 << 14):
            made = [bare + block.to_bytes(2, "big") + b"\xff\xff" + bytes(4) for block in range(99)]
            self.assertFalse(self.come(made))
            self.assertLessEqual(self.completing.bytes, 1 << 14)

    def test_too_much_at_a_time(self) -> None:
        one, two = file_of(1).packets(7), file_of(2).packets(7)
        self.assertFalse(self.come(one[:-1]))
        with mock.patch.object(completing, "MOST_BEHIND", 3000):
            self.assertFalse(self.come(two))
        self.assertFalse(self.come(one[-1:]), "it waits for the window, as do all of this sender")
        self.assertTrue(self.come(file_of(3).packets(7)))


class Flooded(Case):
    """A sender whose headers are all new, beside a real one."""

    def part_of(self, address: str, datagrams: Iterable[bytes]) -> tuple[Sender, Part]:
        """Writes a datagram file of a sender."""
        path = self.news / "in" / f"{address}.fldg"
        path.write_bytes(datagram_files.content(datagrams))
        found = sender_of(path.name)
        assert found
        return found[0], Part(str(path), found[1], found[0])

    def test_a_bounded_time(self) -> None:
        """A look ends after some of the processor's time, and the next one goes on; who took least
        of it comes first."""
        many = [file_of(toi % 250 + 1, 1000).packets(toi)[0] for toi in range(1, 1500)]
        flood, files = self.part_of("10.0.0.9", many)
        real, growing = self.part_of(REAL, file_of(1).packets(7)[:-1])
        found, times = {flood: [files], real: [growing]}, itertools.count()
        completing = Completing(Told(), lambda sender: [], lambda *_: None)
        with self.set_clock(), mock.patch("time.thread_time", lambda: 0.02 * next(times)):

            def look() -> int:
                """Looks once, and returns up to where the flood was looked at."""
                for part in files, growing:
                    part.look()
                self.clock.now += 100
                completing.look(found)
                return completing.places[files.path].end if files.path in completing.places else 0

            first = look()
            self.assertTrue(0 < first < files.end, "a part of it")
            self.assertNotIn(growing.path, completing.places)
            self.assertLess(look(), files.end)
            end = completing.places[growing.path].end
            self.assertEqual(end, growing.end, "the real one comes first")
            ends = [look() for _ in range(40)]
            self.assertEqual((ends, ends[-1]), (sorted(ends), files.end), "it goes on to the end")
            with open(growing.path, "ab") as file:
                last = datagram_files.content(file_of(1).packets(7)[-1:])
                file.write(last[len(datagram_files.HEADER) :])
            look()
            self.assertTrue(completing.is_due(real, self.clock.now))


class Joins(Case):
    """A station joins when the last symbol came, and not when the window ends."""

    def add(self, path: pathlib.Path, datagrams: Iterable[bytes]) -> None:
        """Adds datagrams to a file that grows."""
        with path.open("ab") as file:
            file.write(datagram_files.content(datagrams)[len(datagram_files.HEADER) :])

    def work(self, keeper: Keeper) -> bool:
        """Has a second pass. Returns whether anything was joined."""
        self.clock.now += 1
        keeper.work(True)
        return keeper.has_more

    def test_by_the_last_symbol(self) -> None:
        sent = file_of(1, 9000).packets(7)
        path = self.incoming(REAL, sent[:1])
        with self.set_clock():
            keeper = self.keeper(Told(), every=LONG)
            self.assertTrue(self.work(keeper), "what comes first is joined at once")
            for packet in sent[1:-1]:
                self.add(path, [packet])
                self.assertFalse(self.work(keeper))
            self.assertFalse(keeper.completing.take_news())
            self.add(path, sent[-1:])
            self.assertTrue(self.work(keeper))
            self.assertTrue(keeper.completing.take_news())
            self.assertFalse(keeper.completing.take_news())
            self.add(path, sent)
            self.assertFalse(self.work(keeper))
            self.clock.now += LONG
            self.assertTrue(self.work(keeper), "the window ends")
            self.assertFalse(keeper.completing.take_news())

    def test_many_objects(self) -> None:
        path = self.incoming(REAL, file_of(1).packets(7))
        taken = 2.0

        def takes() -> None:
            self.clock.now += taken

        with self.set_clock():
            program = Told()
            program.takes = takes
            keeper = self.keeper(program, every=LONG)
            self.assertTrue(self.work(keeper))
            joins = 0
            for toi in range(2, 102):
                self.add(path, file_of(toi).packets(7))
                joins += self.work(keeper)
            self.assertGreater(joins, 1)
            self.assertLess(joins * taken, 100 / 4, "they take a part of the time")
