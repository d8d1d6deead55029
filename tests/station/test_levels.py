"""Tests what a station writes: nothing where nothing is new, and each byte a few times at most."""
from __future__ import annotations

import contextlib
import os
import pathlib
import random
import re
from typing import Callable
from unittest import mock

from flutejoin_tools.common.shelves import entries_of, remove
from flutejoin_tools.formats.records import MOST
from flutejoin_tools.station import levels, merging
from flutejoin_tools.station.keeping import Keeper
from flutejoin_tools.station.merging import File, chosen, together
from tests.station.case import (
    NAME,
    SOAK,
    Case,
    datagram_file,
    described,
    flutejoin,
    journal_of,
    keep,
    keeper,
    kept,
    records,
    sent_file,
)

ENTRY = 1444  # bytes of a symbol of 1,400 bytes in a journal, and about as many in a datagram file
WINDOW = 1 << 26
GB = 10**9


def written(came: int, repeats: int = 0) -> tuple[float, int]:
    """By the rule: the bytes that are written for each that came, as datagrams and in journals, and
    how many journals there are at most. A carousel of so many bytes repeats.
    """
    sizes: list[int] = []
    most, total, all_that_came = 0, 0, 0
    for window in range(came // WINDOW * (1 + repeats)):
        all_that_came += WINDOW
        total += WINDOW
        if window >= came // WINDOW:
            continue  # nothing is new
        sizes.append(WINDOW)
        total += WINDOW
        small = [size for size in sizes if size <= MOST // 2 * ENTRY]
        if len(small) >= merging.MANY:
            joined = chosen([File(size, size // ENTRY, "") for size in small])
            for each in joined:
                sizes.remove(each.size)
            sizes.append(sum(each.size for each in joined))
            total += sizes[-1]
        most = max(most, len(sizes))
    return total / all_that_came, most


class Rule(Case):
    """What is written, by the rule alone."""

    def test_what_is_written(self) -> None:
        for size, most in (1, 2.1), (10, 3.1), (50, 3.8), (100, 4.0):
            ratio, journals = written(size * GB)
            is_few = journals <= merging.MANY + merging.MORE
            self.holds(f"{size} GB, all new", ratio <= most and is_few, (ratio, journals))
            again, _ = written(size * GB, repeats=5)
            self.holds(f"{size} GB, six rounds", again <= 1 + ratio / 6, again)

    def test_which_are_joined(self) -> None:
        """Each becomes part of one that is at least twice as long, if any can."""
        for sizes, count in (
            ([1, 1], 2),
            ([1] * 10, 10),
            ([1] * 8 + [9, 17], 8),
            ([1] * 9 + [9, 17], 11),
            ([1, 100, 102, 102, 102], 5),
            ([1, 2, 4, 8, 16], 2),
            ([1, 1, 1, 9, 9, 9], 3),
        ):
            self.holds(f"{sizes}", together(sizes) == count, together(sizes))
        draw = random.Random(1)
        for _ in range(1000):
            sizes = sorted(draw.randrange(1, 1 << draw.randrange(1, 30)) for _ in range(32))
            count = together(sizes)
            is_double = 2 * sizes[count - 1] <= sum(sizes[:count])
            self.holds(f"{sizes}", is_double or count == 2, count)

    def test_how_many_entries(self) -> None:
        """No journal gets more entries than one may have."""
        half = MOST // 2
        for entries, count in (
            ([half, half, half], 2),
            ([half], 0),
            ([half - 1] * 2 + [5], 2),
            ([10] * 40, merging.MOST_JOINED),
        ):
            files = [File(it * ENTRY, it, str(at)) for at, it in enumerate(entries)]
            self.holds(f"{entries}", len(chosen(files)) == count, chosen(files))


class Standing(Case):
    """A folder of a station, as it stands on the disk."""

    def setUp(self) -> None:
        super().setUp()
        self.news, self.number = self.folder / "news", 1

    def hear(self, sent: list[bytes], **how: bool) -> None:
        """Writes a datagram file, and has it joined."""
        self.number += 1
        datagram_file(self.news / f"in/{NAME}.{self.number}.fldg", sent)
        datagram_file(self.news / f"in/{NAME}.{self.number + 1}.fldg", [])
        keep(self.news, **how)

    def stands(self) -> dict[str, tuple[object, ...]]:
        """What the system tells of each folder and file in which something is kept."""
        found: dict[str, tuple[object, ...]] = {}
        for folder in "journals", "aside", "outbox", "fdt", "raw", "deliver":
            for path in [self.news / folder, *(self.news / folder).glob("*")]:
                if path.exists():
                    at = path.stat()
                    data = path.read_bytes() if path.is_file() else b""
                    found[str(path)] = at.st_ino, at.st_mtime_ns, at.st_ctime_ns, data
        return found

    def all_of(self, *sent: list[bytes]) -> bytes:
        return journal_of(datagram_file(self.folder / "all.fldg", [it for of in sent for it in of]))


class Written(Standing):
    """What is written of what comes."""

    def test_nothing_new(self) -> None:
        """A round of a carousel that was heard: no file or name changes, and the datagrams go."""
        sent = [*sent_file(self.folder, 300_000, 1400), *sent_file(self.folder, 200_000, 1400, 2)]
        for has_outbox in False, True:
            for begin in range(0, len(sent), 60):
                self.hear(sent[begin : begin + 60], has_outbox=has_outbox)
            before = self.stands()
            random.Random(3).shuffle(sent)
            for begin in range(0, len(sent), 90):
                self.hear(sent[begin : begin + 90], has_outbox=has_outbox)
            self.holds("nothing is written", self.stands() == before)
            self.holds("the datagrams are gone", len(os.listdir(self.news / "in")) == 1)
            self.holds("no temporary file", not os.listdir(self.news / "recent"))
            self.holds("all is kept", journal_of(*kept(self.news)) == self.all_of(sent))

    def test_an_fdt_alone(self) -> None:
        """Datagrams without a symbol of a file leave no journal."""
        (self.folder / "file").write_bytes(bytes(1000))
        self.hear(described(self.folder / "file"))
        self.holds("no journal", not kept(self.news), kept(self.news))

    def test_what_is_new_alone(self) -> None:
        """A round with a few symbols that were lost before adds these, and keeps the rest."""
        sent = sent_file(self.folder, 700_000, 1400)
        self.hear([it for number, it in enumerate(sent) if number % 10])
        before = self.stands()
        self.hear(sent)
        new = [path for path in kept(self.news) if str(path) not in before]
        entries = [entries_of(str(path)) for path in new]
        self.holds("an entry for each", entries == [len(sent) // 10], entries)
        now = self.stands()
        journals = [path for path in before if path.endswith(".journal")]
        self.holds("the first stays", all(now[path] == before[path] for path in journals))
        self.holds("all is kept", journal_of(*kept(self.news)) == self.all_of(sent))

    def test_drawn_windows(self) -> None:
        """Windows of many objects in any order, with repeats: few entries are kept twice."""
        draw = random.Random(4)
        sent = [it for toi in range(1, 9) for it in sent_file(self.folder, 30_000, 100, toi)]
        for _ in range(20 * SOAK):
            self.hear(draw.choices(sent, k=draw.randrange(1, 400)))
        heard = journal_of(*kept(self.news))
        entries = sum(entries_of(str(path)) or 0 for path in kept(self.news))
        (self.folder / "heard").write_bytes(heard)
        single = entries_of(str(self.folder / "heard")) or 0
        self.holds("few are kept twice", entries <= single * 17 // 16, (entries, single))
        for _ in range(10):
            self.hear(sent)
        self.holds("all is kept", journal_of(*kept(self.news)) == self.all_of(sent))

    def test_what_is_kept_twice(self) -> None:
        """As after a kill: it doesn't count as more than once, so nothing that is new is lost."""
        sent = sent_file(self.folder, 100_000, 1000)
        self.hear(sent[:50])
        (journal,) = kept(self.news)
        again = self.news / f"journals/{NAME}.20260101000000000000.journal"
        again.write_bytes(journal.read_bytes())
        self.hear(sent)
        self.holds("all is kept", journal_of(*kept(self.news)) == self.all_of(sent))
        before = self.stands()
        self.hear(sent)
        self.holds("nothing is written", self.stands() == before)

    def test_other_values(self) -> None:
        """A wrong value is kept aside once; the next time nothing is written."""
        sent = sent_file(self.folder, 100_000, 1000)
        self.hear(sent)
        wrong = [*sent]
        wrong[7] = wrong[7][:-9] + b"forged..."
        before = journal_of(*kept(self.news))
        for _ in range(3):
            self.hear(wrong)
        self.holds("what is kept stays", journal_of(*kept(self.news)) == before)
        stands = self.stands()
        self.hear(wrong)
        self.holds("nothing is written", self.stands() == stands)
        aside = [entries_of(str(path)) for path in (self.news / "aside").iterdir()]
        self.holds("the value is aside", aside == [1], aside)

    def test_generations_in_parts(self) -> None:
        """Another file under a TOI comes in parts: each is kept with those before it, also where it
        meets no symbol of either."""
        first = sent_file(self.folder, 100_000, 1000)
        second = self.other_file(100_000)
        self.hear(first[:60])
        for begin, end in (20, 60), (60, 80), (80, 101), (0, 20):
            self.hear(second[begin:end])
        stands = self.stands()
        for of in first[:60], second:
            self.hear(of)
        self.holds("both again: nothing is written", self.stands() == stands)
        self.of_generation("", first[:60])
        self.of_generation(".g2", second)

    def other_file(self, size: int) -> list[bytes]:
        (self.folder / "other").write_bytes(random.Random(99).randbytes(size))
        words = "--tsi", 7, "--toi", 1, "--symbol", 1000, "--block", 64
        done = flutejoin("carousel", "-o", self.folder / "sent", *words, self.folder / "other")
        self.holds("a carousel", done.returncode == 0, done)
        return records((self.folder / "sent").read_bytes())

    def of_generation(self, name: str, sent: list[bytes]) -> None:
        form = re.compile(rf"{re.escape(NAME + name)}(\.\d{{20}})?\.journal")
        journals = [path for path in kept(self.news) if form.fullmatch(path.name)]
        found = journal_of(*journals)
        self.holds(f"the generation{name}", found == self.all_of(sent), journals)

    def test_a_damaged_journal(self) -> None:
        """One that is kept is set aside once it is read, and what comes then is kept anew."""
        sent = sent_file(self.folder, 300_000, 1000)
        spoils: list[Callable[[bytes], bytes]] = [
            lambda data: data[:-30],
            lambda data: b"FLJN\0\2\7" + data[7:],
        ]
        for spoil in spoils:
            with contextlib.suppress(FileNotFoundError):
                for path in kept(self.news):
                    path.unlink()
            self.hear(sent[:100])
            self.hear(sent[100:200])
            (first, *_) = sorted(kept(self.news), key=lambda path: -len(path.name))[1:]
            spoiled = spoil(first.read_bytes())
            first.write_bytes(spoiled)
            self.hear(sent)
            aside = [path.read_bytes() for path in (self.news / "aside").glob("*.journal")]
            self.holds("it is aside", spoiled in aside, len(aside))
            self.holds("all is kept", journal_of(*kept(self.news)) == self.all_of(sent))

    def test_an_earlier_version(self) -> None:
        """Its large, recent and full journals are taken over, by what agrees."""
        first, second = sent_file(self.folder, 100_000, 1000), self.other_file(100_000)
        for path, of in (
            ("journals/127.0.0.1.journal", first[:50]),
            ("journals/127.0.0.1.20260101000000000000.journal", first[50:60]),
            ("journals/127.0.0.1.g2.journal", second[:30]),
            ("recent/127.0.0.1.journal", [*first[60:80], *first[:5]]),
            ("recent/127.0.0.1.g2.journal", second[20:70]),
        ):
            (self.news / path).parent.mkdir(parents=True, exist_ok=True)
            (self.news / path).write_bytes(journal_of(datagram_file(self.folder / "of.fldg", of)))
        self.hear(first[80:])
        self.holds("nothing recent", not os.listdir(self.news / "recent"))
        self.of_generation("", first)
        self.of_generation(".g2", second[:70])


class Joined(Standing):
    """Many journals are joined into few, here from eight on, and four at a time."""

    def setUp(self) -> None:
        super().setUp()
        for name, value in ("MANY", 8), ("MOST_JOINED", 4):
            patch = mock.patch.object(merging, name, value)
            patch.start()
            self.addCleanup(patch.stop)
        self.sent = sent_file(self.folder, 50_000, 1000)

    def keeper(self) -> Keeper:
        return keeper(self.news, False)

    def many(self, count: int = 12) -> None:
        """Makes so many journals of a few symbols."""
        for number in range(count):
            self.hear(self.sent[3 * number : 3 * number + 3])
        journals = len(kept(self.news))
        self.holds("many journals", journals == count, journals)

    def is_all_kept(self, count: int = 12) -> None:
        have = journal_of(*kept(self.news))
        self.holds("all is kept", have == self.all_of(self.sent[: 3 * count]))

    def test_few(self) -> None:
        self.many()
        of_folder = self.keeper()
        of_folder.merges.ask(NAME)
        of_folder.merges.finish()
        journals = kept(self.news)
        self.holds("fewer", len(journals) < merging.MANY, len(journals))
        self.holds("the first is one of them", self.news / f"journals/{NAME}.journal" in journals)
        self.is_all_kept()
        before = self.stands()
        self.hear(self.sent[:36])
        self.holds("nothing new: nothing is written", self.stands() == before)
        of_folder.merge_all()
        of_folder.merges.finish()
        self.holds("all in one", len(kept(self.news)) == 1)
        self.is_all_kept()

    def test_ends_at_each_step(self) -> None:
        """Wherever a join of journals ends, all is kept, and the next one goes on."""
        self.many()
        real: dict[str, Callable[..., None]] = {"rename": os.rename, "remove": remove}
        names = {"rename": "os.rename", "remove": "flutejoin_tools.station.merging.remove"}
        for place in "begin", "rename", "remove":
            of_folder = self.keeper()
            of_folder.merge_all()

            def end(*paths: str) -> None:
                real[place](*paths)
                raise KeyboardInterrupt

            if place == "begin":
                of_folder.merges.tend()
            else:
                with contextlib.suppress(KeyboardInterrupt):
                    with mock.patch(names[place], end):
                        of_folder.merges.finish()
            of_folder.merges.stop()
            self.holds(f"{place}: no temporary file", not os.listdir(self.news / "recent"))
            self.is_all_kept()
        of_folder = self.keeper()
        of_folder.merge_all()
        of_folder.merges.finish()
        self.holds("all in one", len(kept(self.news)) == 1)
        self.is_all_kept()

    def test_changes_meanwhile(self) -> None:
        """If a journal that is joined goes or changes, nothing comes of the join."""
        self.many()
        changes: list[Callable[[pathlib.Path], object]] = [
            lambda path: path.unlink(),
            lambda path: path.write_bytes(journal_of(path)),
        ]
        for change in changes:
            of_folder = self.keeper()
            of_folder.merge_all()
            of_folder.merges.tend()
            ((paths, _),) = of_folder.merges.running.items()
            change(pathlib.Path(paths[-1]))
            while of_folder.merges.running:
                of_folder.merges.tend()
                of_folder.merges.stems.clear()
            names = set(map(str, kept(self.news)))
            self.holds("the others stay", names >= set(paths[:-1]), len(names))
        self.hear(self.sent)
        have = journal_of(*kept(self.news))
        self.holds("all is kept", have == self.all_of(self.sent))

    def test_in_conflict(self) -> None:
        """Journals that differ, as somebody put there, are not joined."""
        self.many(2)
        wrong = self.sent[0][:-9] + b"forged..."
        data = journal_of(datagram_file(self.folder / "wrong.fldg", [wrong]))
        path = self.news / f"journals/{NAME}.20260101000000000000.journal"
        path.write_bytes(data)
        before = self.stands()
        of_folder = self.keeper()
        of_folder.merge_all()
        of_folder.merges.finish()
        self.holds("they stay", self.stands() == before)

    def test_a_damaged_one(self) -> None:
        """It is set aside, and the others are joined the next time."""
        self.many(6)
        damaged = kept(self.news)[2]
        damaged.write_bytes(damaged.read_bytes()[:-30])
        for _ in range(2):
            of_folder = self.keeper()
            of_folder.merge_all()
            of_folder.merges.finish()
        self.holds("two are left", len(kept(self.news)) == 1, kept(self.news))
        self.holds("it is aside", len(os.listdir(self.news / "aside")) == 1)
        self.hear(self.sent[:18])
        self.is_all_kept(6)

    def test_what_is_handed_on(self) -> None:
        """A run that ends before what is new is kept hands it on again."""
        self.many(1)
        datagram_file(self.news / f"in/{NAME}.9.fldg", self.sent[3:9])
        datagram_file(self.news / f"in/{NAME}.10.fldg", [])
        of_folder = keeper(self.news, True)
        with contextlib.suppress(KeyboardInterrupt):
            with mock.patch.object(levels.Levels, "keep", side_effect=KeyboardInterrupt):
                of_folder.work(False)
        keep(self.news, has_outbox=True)
        first = self.news / f"journals/{NAME}.journal"
        have = journal_of(first, *(self.news / "outbox").iterdir())
        self.holds("it waits in the outbox", have == self.all_of(self.sent[:9]))
        self.is_all_kept(3)
