"""Tests a station with a full disk, and with folders on other disks: memory file systems in a mount
namespace. Where none can be mounted, they are skipped."""
from __future__ import annotations

import functools
import os
import pathlib
import subprocess
from typing import Sequence

from datagram_files import HEADER
from tests.station.case import NAME, Case, Port, datagram_file, journal_of, kept, sent_file


# What tells a process that it is in a mount namespace of its own
APART = "FLUTEJOIN_MOUNTS"


@functools.lru_cache(maxsize=None)
def can_mount() -> bool:
    """Whether file systems can be mounted here, in a namespace."""
    words = "unshare", "-m", "mount", "-t", "tmpfs", "none", "/mnt"
    return subprocess.run(words, capture_output=True).returncode == 0


class Disks(Case):
    @classmethod
    def inside(cls) -> Sequence[str]:
        return ("unshare", "-m", "env", f"{APART}=yes") if can_mount() else ()

    def setUp(self) -> None:
        super().setUp()
        if APART not in os.environ:
            self.skipTest("since no file system can be mounted here")

    def mounted(self, name: str, *options: str) -> pathlib.Path:
        """A disk of its own, which is a memory file system."""
        place = self.path(name)
        place.mkdir()
        subprocess.run(["mount", "-t", "tmpfs", *options, "none", place], check=True)
        self.addCleanup(subprocess.call, ["umount", "-l", place])
        return place

    def test_full_disk(self) -> None:
        """A disk fills and is emptied."""
        work = self.folder
        place = self.mounted("disk", "-o", "size=6m")
        folder, ballast, port = place / "news", place / "ballast", Port()
        sent = sent_file(work, 1_500_000, 1400)
        words = "--window", 200_000, "--every", 0.2, "--keep-raw", "1M"
        run = self.begun(folder, port.number, *words)
        port.send(sent[:300], 0.01)
        self.until((folder / f"journals/{NAME}.journal").exists, run)
        self.until(lambda: (folder / "raw").exists() and os.listdir(folder / "raw"), run)
        oldest = min((folder / "raw").iterdir())
        with open(ballast, "wb", buffering=0) as file:
            while os.statvfs(place).f_bavail * os.statvfs(place).f_frsize > 100_000:
                file.write(bytes(1 << 15))
        port.send(sent[300:600], 0.01)
        self.until(lambda: "the disk is full" in run.text(), run)
        self.holds("a full disk: files that are joined go first", not oldest.exists(), run.text())
        ballast.unlink()
        # The receiver has kept in memory what it could not write.
        datagram_file(work / "first.fldg", sent[:600])
        wanted = journal_of(work / "first.fldg")
        is_there = self.until(
            lambda: journal_of(*kept(folder), *(folder / "in").iterdir()) == wanted, run
        )
        self.holds("behind a full disk: nothing is lost", is_there)
        for _ in range(2):
            port.send(sent, 0.01)
        status = run.end()
        self.holds("behind a full disk: status", status == 0, run.text())
        datagram_file(work / "all.fldg", sent)
        have, wanted = journal_of(*kept(folder)), journal_of(work / "all.fldg")
        self.holds("behind a full disk: all is kept", have == wanted, (len(have), len(wanted)))

    def test_other_disks(self) -> None:
        """Folders of a station that lead to other disks."""
        work = self.folder
        folder, other = work / "others", self.mounted("other")
        (folder / "in").mkdir(parents=True)
        for name in "raw", "journals":
            (other / name).mkdir()
            (folder / name).symlink_to(other / name)
        sent = sent_file(work, 60_000, 1000, toi=2)
        for number, part in enumerate((sent[:30], sent[30:40], sent[40:])):
            datagram_file(folder / f"in/{NAME}.{number + 2}.fldg", part)
        run = self.of_once(folder, "--keep-raw", "1M")
        datagram_file(work / "all.fldg", sent)
        have = journal_of(other / f"journals/{NAME}.journal")
        self.holds("on other disks: the journal", have == journal_of(work / "all.fldg"), run.text())
        of_raw = [path.read_bytes() for path in sorted((other / "raw").iterdir())]
        wanted = [HEADER + b"".join(part) for part in (sent[:30], sent[30:40])]
        self.holds("on other disks: what is kept raw", of_raw == wanted, run.text())
        self.holds(
            "on other disks: the last part stays", os.listdir(folder / "in") == [f"{NAME}.4.fldg"]
        )
