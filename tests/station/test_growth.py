"""Tests how the journals of a station grow: what is new is kept, and joined at a given hour."""
from __future__ import annotations

import time

from datagram_files import HEADER
from flutejoin_tools.common.shelves import entries_of
from tests.station.case import (
    NAME,
    TOOLS,
    Case,
    Port,
    datagram_file,
    journal_of,
    keep,
    kept,
    sent_file,
)

# Runs a station whose clock is ahead by the seconds in a file.
SET_CLOCK = """
import datetime, runpy, sys
class Set(datetime.datetime):
    @classmethod
    def now(cls, zone=None):
        with open({path!r}) as ahead:
            return super().now(zone) + datetime.timedelta(seconds=float(ahead.read() or 0))
datetime.datetime = Set
del sys.argv[0]
sys.path.insert(0, {tools!r})
runpy.run_path(sys.argv[0], run_name="__main__")
"""


def time_of_day(seconds: float) -> str:
    """The time, in hours and minutes, in so many seconds."""
    return time.strftime("%H:%M", time.localtime(time.time() + seconds))


class Growth(Case):
    def test_growing(self) -> None:
        """What is new becomes a journal of its own; all are joined at the given hour."""
        work = self.folder
        folder = work / "news"
        sent = sent_file(work, 400_000, 1000)
        for number, (begin, end) in enumerate(((0, 300), (300, 320), (310, 340))):
            datagram_file(folder / f"in/{NAME}.{number + 2}.fldg", sent[begin:end])
            keep(folder)
        entries = sorted(entries_of(str(path)) or 0 for path in kept(folder))
        # Of the second one a single entry, the transmission information, is not new.
        self.holds("what is new alone", entries == [20, 21, 301], entries)
        first = folder / f"journals/{NAME}.journal"
        before = first.read_bytes()
        ahead = work / "ahead"
        ahead.write_text("0")
        code = SET_CLOCK.format(path=str(ahead), tools=str(TOOLS))
        run = self.begun(folder, Port().number, "--nightly", time_of_day(12 * 3600), code=code)
        time.sleep(1)
        self.holds("before the hour", len(kept(folder)) == 3 and first.read_bytes() == before)
        ahead.write_text(str(12.1 * 3600))
        self.until(lambda: len(kept(folder)) == 1, run)
        run.end()
        datagram_file(work / "all.fldg", sent[:340])
        self.holds("at the hour", first.read_bytes() == journal_of(work / "all.fldg"))

    def test_a_clock_that_is_set_back(self) -> None:
        """The newest datagram files are kept, and the next night is not a year away."""
        work = self.folder
        folder, ahead, port = work / "news", work / "ahead", Port()
        sent = sent_file(work, 400_000, 1000)
        old = folder / f"raw/{NAME}.20990101000000000000.fldg"
        datagram_file(old, sent[:20])
        for number in range(3):
            datagram_file(
                folder / f"in/{NAME}.{number + 2}.fldg", sent[20 * number : 20 * number + 20]
            )
        run = self.of_once(folder, "--keep-raw", "45K")
        of_raw = [path.read_bytes() for path in sorted((folder / "raw").iterdir())]
        wanted = [HEADER + b"".join(sent[begin : begin + 20]) for begin in (0, 20)]
        self.holds("a clock set back: the newest files", of_raw == wanted, run.text())

        datagram_file(folder / f"in/{NAME}.5.fldg", sent[60:])
        datagram_file(folder / f"in/{NAME}.6.fldg", sent[:4])
        self.of_once(folder)
        datagram_file(folder / f"in/{NAME}.7.fldg", sent[:4])
        ahead.write_text("3e7")
        code = SET_CLOCK.format(path=str(ahead), tools=str(TOOLS))
        before = len(kept(folder))
        nightly = time_of_day(3e7 + 12 * 3600)
        run = self.begun(folder, port.number, "--nightly", nightly, "--every", 0.1, code=code)
        time.sleep(1)
        self.holds("a clock set back: before", len(kept(folder)) >= before > 1, run.text())
        ahead.write_text("0")
        self.until(lambda: len(kept(folder)) == 1, run)
        self.holds("a clock set back: status", run.end() == 1, run.text())
