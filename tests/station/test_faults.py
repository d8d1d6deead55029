"""Tests stations with faults: of what they read, of folders, of the program; and what is gone."""
from __future__ import annotations

import errno
import fcntl
import os
import pathlib
import shutil
import signal
import time
from unittest import mock

from datagram_files import HEADER
from flutejoin_tools.station.incoming import Part
from tests.station.case import (
    NAME,
    TOOLS,
    Case,
    Port,
    datagram_file,
    is_stopped,
    journal_of,
    keep,
    kept,
    receivers,
    sent_file,
)
from tests.support.run import PROGRAM

# Runs a station that stops itself each time it has nothing to do.
STOPS = """
import os, runpy, select, signal, sys
wait = select.select
def stop_and_wait(*words):
    os.kill(os.getpid(), signal.SIGSTOP)
    return wait(*words)
select.select = stop_and_wait
del sys.argv[0]
sys.path.insert(0, {tools!r})
runpy.run_path(sys.argv[0], run_name="__main__")
"""


class Faults(Case):
    def test_faults(self) -> None:
        """An input at fault is set aside and reported, and the others are joined."""
        work = self.folder
        sent = sent_file(work, 60_000, 1000)
        datagram_file(work / "all.fldg", sent)
        wanted = journal_of(work / "all.fldg")
        self.parts_at_fault(work / "news", sent, wanted)
        self.damaged_journals(work, sent, wanted)
        self.programs_that_fail(work, sent)

    def parts_at_fault(self, folder: pathlib.Path, sent: list[bytes], wanted: bytes) -> None:
        """Checks a station of which several datagram files are cut or none at all."""
        (folder / "in").mkdir(parents=True)
        (folder / f"in/{NAME}.fldg").write_text("no datagram file at all")
        datagram_file(folder / f"in/{NAME}.2.fldg", sent[:20])
        cut = datagram_file(folder / f"in/{NAME}.3.fldg", sent[20:40])
        cut.write_bytes(cut.read_bytes() + b"\4\0cut")
        datagram_file(folder / f"in/{NAME}.4.fldg", sent[40:])
        run = self.of_once(folder)
        self.holds("a part at fault: status", run.child.returncode == 1, run.text())
        self.holds("a part at fault is told", "is no datagram file" in run.text(), run.text())
        self.holds("a cut part is told", "is cut at its end" in run.text(), run.text())
        aside = sorted(path.read_bytes()[:6] for path in (folder / "aside").iterdir())
        self.holds("what is set aside", aside == [HEADER, b"no dat"], aside)
        self.holds("the others are joined", journal_of(*kept(folder)) == wanted)
        self.holds("the last part stays", os.listdir(folder / "in") == [f"{NAME}.4.fldg"])

    def damaged_journals(self, work: pathlib.Path, sent: list[bytes], wanted: bytes) -> None:
        """Facts of a damaged journal are joined again, if their datagram file still exists."""
        folder = work / "news"
        journal = folder / f"journals/{NAME}.journal"
        damaged = journal.read_bytes()[:-30]
        further = folder / f"journals/{NAME}.20990101000000000000.journal"
        run = self.begun(folder, Port().number, "--every", 0.1)
        further.write_bytes(damaged)
        datagram_file(folder / f"in/{NAME}.5.fldg", sent[:1])
        self.until(lambda: list((folder / "aside").glob("*.journal")), run)
        run.end()
        aside = [path.read_bytes() for path in (folder / "aside").glob("*.journal")]
        self.holds("a damaged journal is kept", aside == [damaged], run.text())
        self.holds(
            "a damaged journal: all is joined", journal_of(*kept(folder)) == wanted, run.text()
        )
        for path in kept(folder):
            path.write_bytes(damaged)
        datagram_file(folder / f"in/{NAME}.6.fldg", sent[:20])
        run = self.of_once(folder)
        left = journal_of(*(folder / "in").iterdir())
        (work / "left").write_bytes(left)
        have = journal_of(*kept(folder))
        (work / "have").write_bytes(have)
        self.holds(
            "damaged journals: others are begun", have == journal_of(work / "have", work / "left")
        )

    def programs_that_fail(self, work: pathlib.Path, sent: list[bytes]) -> None:
        """A program that fails each time, and one that doesn't exist."""
        folder, failing = work / "news", work / "failing"
        failing.write_text(f'#!/bin/sh\necho "$*" >> {work}/tries\necho cannot write >&2\nexit 3\n')
        failing.chmod(0o755)
        datagram_file(folder / f"in/{NAME}.7.fldg", sent)
        port = Port()
        began = time.monotonic()
        run = self.begun(folder, port.number, "--flutejoin", failing, "--every", 0.1)
        run.until("tried again in 10 seconds")
        time.sleep(3)
        status = run.end()
        tries = (work / "tries").read_text().count(" -o ")
        self.holds("a join that fails: status", status == 3, run.text())
        # One at first, four at the end, and others each ten seconds
        most = 5 + (time.monotonic() - began) // 10
        self.holds("a join that fails is tried again, and seldom", 2 <= tries <= most, tries)
        self.holds(
            "a join that fails is told", "cannot write; tried again in 10 seconds" in run.text()
        )
        self.holds("its part stays", (folder / f"in/{NAME}.7.fldg").exists())
        run = self.of_once(folder, "--flutejoin", work / "nothing")
        self.holds(
            "no program", run.child.returncode == 3 and "no program" in run.text(), run.text()
        )

    def test_folders_at_fault(self) -> None:
        """Folders that cannot be made, and one that is removed while the run ends."""
        work = self.folder
        (work / "file").mkdir()
        (work / "file/in").touch()
        run = self.of_once(work / "file")
        told = f"{work}/file/in: File exists"
        self.holds("a folder that cannot be made: status", run.child.returncode == 3, run.text())
        is_told = told in run.text() and "Traceback" not in run.text()
        self.holds("a folder that cannot be made is told", is_told, run.text())
        run = self.begun(work / "removed", Port().number, code=STOPS.format(tools=str(TOOLS)))
        self.until(lambda: is_stopped(run.child.pid), run)
        # Otherwise one of them may make a folder anew meanwhile.
        receiver = receivers(run)[0]
        self.stop(receiver)
        shutil.rmtree(work / "removed")
        run.child.send_signal(signal.SIGTERM)
        run.child.send_signal(signal.SIGCONT)
        os.kill(receiver, signal.SIGCONT)
        self.holds("a folder that is removed: status", run.wait() == 3, run.text())
        self.holds("a folder that is removed", "Traceback" not in run.text(), run.text())

    def test_a_fault_that_lasts(self) -> None:
        """It is told once, and not each ten seconds, as long as it is the same."""
        work = self.folder
        status, port = work / "later/status.json", Port()
        run = self.begun(work / "news", port.number, "--status", status)
        told = f"{status}: No such file or directory; it is tried again"
        run.until(told)
        time.sleep(11)
        self.holds("a fault that lasts is told once", run.text().count(told) == 1, run.text())
        status.parent.mkdir()
        self.until(status.exists, run)
        shutil.rmtree(status.parent)
        self.until(lambda: run.text().count(told) == 2, run)
        run.end()
        self.holds("and once more when it is there again", run.text().count(told) == 2, run.text())

    def test_a_join_that_does_not_read(self) -> None:
        """Meanwhile the receiver is looked after."""
        work = self.folder
        slow, folder = work / "slow", work / "news"
        slow.write_text(
            f'#!/bin/sh\ntouch {work}/joins\nwhile ! [ -e {work}/reads ]; do sleep 0.01; done\n'
            f'exec {PROGRAM} "$@"\n'
        )
        slow.chmod(0o755)
        sent = sent_file(work, 300_000, 1000)
        datagram_file(folder / f"in/{NAME}.fldg", sent)
        run = self.begun(folder, Port().number, "--flutejoin", slow, "--every", 0)
        self.until((work / "joins").exists, run)
        os.kill(receivers(run)[0], signal.SIGKILL)
        is_begun = self.until(lambda: run.text().count("listening") == 2, run)
        self.holds("a receiver is begun again during a join", is_begun, run.text())
        run.child.send_signal(signal.SIGUSR1)
        is_told = self.until(lambda: '"bytes to join"' in run.text(), run)
        self.holds("a status is told during a join", is_told, run.text())
        (work / "reads").touch()
        self.holds("a join that does not read: status", run.end() == 1, run.text())
        have = journal_of(*kept(folder))
        self.holds("a join that does not read: all", have == journal_of(folder / f"in/{NAME}.fldg"))

    def test_files_of_two_writers(self) -> None:
        """A file that cannot be read, and one that is written anew beside the last one."""
        work = self.folder
        folder, sent = work / "news", sent_file(work, 60_000, 1000)
        bad = str(datagram_file(folder / "in/10.0.0.9.fldg", sent))
        good = datagram_file(folder / f"in/{NAME}.fldg", sent)
        look = Part.look

        def refused(part: Part) -> None:
            if part.path == bad:
                raise PermissionError(errno.EACCES, os.strerror(errno.EACCES), bad)
            look(part)

        with mock.patch.object(Part, "look", refused):
            keep(folder)
        self.holds(
            "a file that cannot be read goes aside", len([*(folder / "aside").iterdir()]) == 1
        )
        self.holds("the others are joined", journal_of(*kept(folder)) == journal_of(good))

        later = sent_file(work, 60_000, 1000, 2)
        anew = datagram_file(folder / f"in/{NAME}.2.fldg", later[:30])
        datagram_file(folder / f"in/{NAME}.3.fldg", sent[:1])
        with open(anew, "r+b") as file:
            fcntl.flock(file, fcntl.LOCK_EX)
            file.truncate(anew.stat().st_size - 5)
            keep(folder)
            self.holds("a file that is written anew stays", anew.exists())
            datagram_file(anew, later)
        keep(folder)
        self.holds("it goes once it is joined", not anew.exists())
        datagram_file(work / "all.fldg", [*sent, *later])
        self.holds(
            "with all that it has", journal_of(*kept(folder)) == journal_of(work / "all.fldg")
        )

    def test_what_is_gone(self) -> None:
        """Settings that were there at first; a folder that is moved, which is locked again."""
        work = self.folder
        config, folder, port = work / "news.toml", work / "news", Port()
        config.write_text(f'[[session]]\nport = {port.number}\ninterface = "{NAME}"\n')
        run = self.begun(folder, None, "--config", config)
        text = config.read_text()
        config.unlink()
        os.kill(receivers(run)[0], signal.SIGKILL)
        run.until("the receiver ended with status 2; it is begun again")
        config.write_text(text)
        is_begun = self.until(lambda: run.text().count("listening") == 2, run)
        self.holds("a receiver is begun again with its settings", is_begun, run.text())
        folder.rename(work / "moved")
        self.until((folder / "recent").exists, run)
        second = self.of_once(folder)
        self.holds(
            "a folder that is moved: a second run", second.child.returncode == 3, second.text()
        )
        self.holds("is told", "another run works in it" in second.text(), second.text())
        self.holds("a folder that is moved: status", run.end() == 1, run.text())
