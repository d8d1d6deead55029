"""Tests runs of a station: how they begin, what they say and are told, and how they end."""
from __future__ import annotations

import contextlib
import fcntl
import os
import pathlib
import random
import signal
import subprocess
import sys
import time

from flutejoin_tools.common.signals import STOPPING
from tests.station.case import (
    NAME,
    SOAK,
    STATION,
    TOOLS,
    Case,
    Port,
    datagram_file,
    journal_of,
    kept,
    receivers,
    sent_file,
)
from tests.support.run import LONGEST, PROGRAM
from tests.support.signals import catches

# Runs a station that waits longer for the lock of its folder, and makes a file once it waits.
WAITS = """
import runpy, sys
del sys.argv[0]
sys.path.insert(0, {tools!r})
from flutejoin_tools.common import shelves
has_locked = shelves.has_locked
def look(folder):
    is_ours = has_locked(folder)
    if not is_ours:
        open({path!r}, "w").close()
    return is_ours
shelves.has_locked, shelves.LOCKED = look, {longest}
runpy.run_path(sys.argv[0], run_name="__main__")
"""
# Prints what a child should not live to print: behind a signal that its parent catches, and once
# its parent has ended.
DIES_WITH_PARENT = """
import os, signal, sys, time
sys.path.insert(0, {tools!r})
from flutejoin_tools.common.children import die_with_parent
signal.signal(signal.SIGTERM, lambda *_: None)
ask, parent = die_with_parent(), os.getpid()
if not os.fork():
    ask()
    signal.raise_signal(signal.SIGTERM)
    print("it goes on behind the signal", flush=True)
    os._exit(0)
os.wait()
if not os.fork():
    while os.getppid() == parent:
        time.sleep(0.01)
    ask()
    print("it goes on without a parent", flush=True)
os._exit(0)
"""


class Runs(Case):
    def test_runs(self) -> None:
        """One run in a folder; a receiver that ends is restarted; options that are refused."""
        work = self.folder
        sent, port, folder = sent_file(work, 60_000, 1000), Port(), work / "news"
        run = self.begun(
            folder, port.number, "--every", 0.2, "--keep-raw", "30K", "--window", "10K"
        )
        second = self.of_once(folder)
        self.holds("a second run: status", second.child.returncode == 3, second.text())
        self.holds(
            "a second run is told", "another run works in it" in second.text(), second.text()
        )
        port.send(sent[:30], 0.01)
        datagram_file(work / "first.fldg", sent[:30])
        first = journal_of(work / "first.fldg")
        # What the receiver has not written yet goes with it.
        self.until(lambda: journal_of(*kept(folder), *(folder / "in").glob("*.fldg")) == first, run)
        self.until((folder / f"journals/{NAME}.journal").exists, run)
        os.kill(receivers(run)[0], signal.SIGKILL)
        self.until(lambda: run.text().count("listening") == 2, run)
        self.holds(
            "a receiver that ended is told", "ended with status -9" in run.text(), run.text()
        )
        port.send(sent[30:], 0.01)
        status = run.end()
        self.holds("with a receiver that was killed: status", status == 0, run.text())
        datagram_file(work / "all.fldg", sent)
        wanted = journal_of(work / "all.fldg")
        self.holds(
            "with a receiver that was killed: all is kept", journal_of(*kept(folder)) == wanted
        )
        raw = [path.stat().st_size for path in (folder / "raw").iterdir()]
        self.holds("the newest datagram files are kept", 20_000 < sum(raw) <= 30 << 10, raw)
        of_raw = journal_of(*(folder / "raw").iterdir())
        (work / "wanted").write_bytes(wanted)
        (work / "raw").write_bytes(of_raw)
        self.holds("and are right", journal_of(work / "wanted", work / "raw") == wanted)

        run = self.begun(work / "wrong", port.number, "--senders", "none", wait=False)
        run.wait()
        self.holds("a wrong option: status", run.child.returncode == 2, run.text())
        run = self.of_once(work / "wrong", *(word for tsi in range(65) for word in ("--tsi", tsi)))
        self.holds("more sessions than a join takes: status", run.child.returncode == 2, run.text())
        run = self.of_once(pathlib.Path(os.fsdecode(bytes(work) + b"/\xff")))
        self.holds(
            "a path that flutejoin does not take: status", run.child.returncode == 2, run.text()
        )
        words = sys.executable, STATION, "-o", "", "--port", str(port.number)
        done = subprocess.run(words, capture_output=True, cwd=work)
        self.holds(
            "no name of a folder", done.returncode == 2 and b"-o: is empty" in done.stderr, done
        )
        self.settings_in_a_file(work, sent)
        run = self.of_once(work / "others", "--tsi", 8)
        datagram_file(work / f"others/in/{NAME}.fldg", sent)
        run = self.of_once(work / "others", "--tsi", 8)
        self.holds("other sessions are left out", len(journal_of(*kept(work / "others"))) == 15)

    def settings_in_a_file(self, work: pathlib.Path, sent: list[bytes]) -> None:
        """Two sessions, and settings that a station accepts or refuses."""
        config, ports, folder = work / "news.toml", [Port(), Port()], work / "of_file"
        table = '[[session]]\nport = {}\ninterface = "{}"\n'
        sessions = "".join(table.format(port.number, NAME) for port in ports)
        config.write_text('[station]\nevery = 0.2\nkeep-raw = "1M"\ntsi = [7, 8]\n' + sessions)
        run = self.begun(folder, None, "--config", config)
        self.until(lambda: run.text().count("listening") == 2, run)
        ports[0].send(sent[:30], 0.01)
        ports[1].send(sent[30:], 0.01)
        self.holds("settings in a file: status", run.end() == 0, run.text())
        datagram_file(work / "all.fldg", sent)
        self.holds(
            "two sessions", journal_of(*kept(folder)) == journal_of(work / "all.fldg"), run.text()
        )
        wrong = [f"[station]\n{it}\n" for it in ("frob = 1", "every = x", 'outbox = "true"')]
        wrong += ["most = 5\n", 'station = "news"\n', 'folder = "elsewhere"\n']
        for text in wrong:
            config.write_text(text + sessions)
            run = self.begun(folder, None, "--config", config, wait=False)
            self.holds(f"{text!r} in a file", run.wait() == 2, run.text())

    def test_statuses(self) -> None:
        """A status that is asked for before a run listens; and that of a run that got nothing."""
        work = self.folder
        run = self.begun(work / "news", Port().number, wait=False)
        self.until(lambda: catches(run.child.pid, signal.SIGUSR1), run)
        while "listening" not in run.text() and run.child.poll() is None:
            run.child.send_signal(signal.SIGUSR1)
            time.sleep(0.002)
        self.holds("asked for early", run.child.poll() is None, run.text())
        os.kill(receivers(run)[0], signal.SIGKILL)
        run.until("the receiver ended with status -9")
        self.holds("nothing came", run.end() == 1, run.text())

    def test_lines_that_nobody_reads(self) -> None:
        """Neither a join nor the end of the run waits for them to be read."""
        work = self.folder
        sent, port, folder = sent_file(work, 30_000, 1000), Port(), work / "news"
        read, write = os.pipe()
        os.set_blocking(write, False)
        with contextlib.suppress(BlockingIOError):
            while True:
                os.write(write, bytes(4096))
        os.set_blocking(write, True)
        words: list[object] = ["--port", port.number, "--interface", NAME, "--every", 0.1]
        words += ["--status", work / "no/file"]
        command = sys.executable, STATION, "-o", folder, "--flutejoin", PROGRAM, *words
        child = subprocess.Popen([*map(str, command)], stdout=subprocess.DEVNULL, stderr=write)
        self.until((folder / "receiver.json").exists)
        port.send(sent, 0.01)
        is_joined = self.until((folder / f"journals/{NAME}.journal").exists)
        self.holds("lines that nobody reads: the journal", is_joined)
        child.terminate()
        try:
            self.holds("lines that nobody reads: the end", child.wait(LONGEST) == 0)
        except subprocess.TimeoutExpired:
            child.kill()
            self.holds("lines that nobody reads: the end", False, "it hangs")
        os.close(read)
        os.close(write)

    def test_many_signals(self) -> None:
        """The second ends a run at once, and it tells nothing of how."""
        work = self.folder
        by_signal = [128 + number for number in STOPPING]
        for number in range(6 * SOAK):
            run = self.begun(work / "news", Port().number)
            receiver = receivers(run)[0]
            if number % 2:  # so that the run does not end before the second signal
                os.kill(receiver, signal.SIGSTOP)
            for one in STOPPING:
                with contextlib.suppress(ProcessLookupError):
                    run.child.send_signal(one)
                time.sleep(random.uniform(0, 0.0002))
            status = run.wait()
            with contextlib.suppress(ProcessLookupError):
                os.kill(receiver, signal.SIGCONT)
            is_right = status in by_signal or status in (0, 1) and number % 2 == 0
            self.holds("many signals: status", is_right, f"{status}: {run.text()}")
            self.holds("many signals", "Traceback" not in run.text(), run.text())

    def test_a_run_that_was_killed(self) -> None:
        """A child that it was about to begin has its lock for a moment, and does not outlive it."""
        work = self.folder
        folder = work / "news"
        folder.mkdir()
        lock = os.open(folder, os.O_RDONLY)
        fcntl.flock(lock, fcntl.LOCK_EX)
        code = WAITS.format(path=str(work / "waits"), tools=str(TOOLS), longest=LONGEST)
        run = self.begun(folder, Port().number, wait=False, code=code)
        self.until((work / "waits").exists, run)
        os.close(lock)
        run.until("listening")
        self.holds("a lock is waited for", "listening" in run.text(), run.text())
        self.holds("its status", run.end() in (0, 1), run.text())
        code = DIES_WITH_PARENT.format(tools=str(TOOLS))
        done = subprocess.run([sys.executable, "-c", code], capture_output=True, timeout=LONGEST)
        self.holds("a child whose parent ends", done.stdout == done.stderr == b"", done)
