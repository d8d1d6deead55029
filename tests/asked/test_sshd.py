"""Tests of a centre that asks stations through real sshd, on the loopback, with forced commands."""
from __future__ import annotations

import os
import pwd
import random
import shutil
import signal
import socket
import sys
from typing import Any, Iterable

from tests.asked.case import Station
from tests.asked.test_centre import files_of, rounds
from tests.centre.case import CentreCase
from tests.support import run
from tests.support.flute_sender import EXPIRES, Sent
from tests.support.ports import free_port
from tests.support.run import Expected

SSHD = shutil.which("sshd", path=f"{os.environ.get('PATH', '')}:/usr/sbin:/usr/local/sbin")
TOOLS = run.ROOT / "tools"
# sshd of root wants a user and a folder of its own, which a machine without a running one lacks: it
# gets them in a mount namespace.
START = """
if [ "$(id -u)" = 0 ]; then
    mount -t tmpfs none /run && mkdir -m 755 /run/sshd || exit 9
    id sshd > /dev/null 2>&1 || {
        { cat /etc/passwd; echo sshd:x:60022:65534::/run/sshd:/usr/sbin/nologin; } > passwd &&
            mount --bind passwd /etc/passwd || exit 9
    }
fi
exec "$0" -D -e -f sshd.conf
"""
CONFIG = """
ListenAddress 127.0.0.1
Port {port}
HostKey {folder}/host.key
PidFile none
AuthorizedKeysFile {folder}/keys
StrictModes no
UsePAM no
PasswordAuthentication no
KbdInteractiveAuthentication no
PermitRootLogin forced-commands-only
"""


class Sshd(CentreCase):
    names = "north", "south", "west"

    def setUp(self) -> None:
        if not SSHD or not shutil.which("ssh-keygen"):
            self.skipTest("since there is no sshd (Debian: openssh-server)")
        super().setUp()
        self.port = free_port()
        user = pwd.getpwuid(os.getuid()).pw_name
        self.key("host")
        self.write("sshd.conf", CONFIG.format(port=self.port, folder=self.folder))
        lines = []
        for name in self.names:
            self.key(name)
            words = f"{sys.executable} {TOOLS}/flutejoin-station --answer {self.path(name)}"
            command = f"{words} --flutejoin {run.PROGRAM}"
            public = self.path(f"{name}.key.pub").read_text().strip()
            lines.append(f'restrict,command="{command}" {public}\n')
        self.write("keys", "".join(lines))
        kind, own = self.path("host.key.pub").read_text().split()[:2]
        self.write("known", f"[127.0.0.1]:{self.port} {kind} {own}\n")
        self.user = f"{user}@127.0.0.1"
        self.serve()

    def key(self, name: str) -> None:
        """Makes a key for ssh."""
        path = self.path(f"{name}.key")
        words = ["ssh-keygen", "-q", "-t", "ed25519", "-N", "", "-C", name, "-f", path]
        self.assertEqual(self.command(words).status, 0)

    def serve(self) -> None:
        """Starts sshd, and waits until it listens."""
        assert SSHD
        words = ["sh", "-c", START, SSHD]
        if os.geteuid() == 0:
            words = ["unshare", "-m", *words]
        self.sshd = self.start(words, to="sshd.out", err="sshd.err")
        begun = b"Server listening"
        run.until(lambda: self.sshd.poll() is not None or begun in self.read("sshd.err"))
        if self.sshd.poll() == 9 or b"unshare" in self.read("sshd.err"):
            self.skipTest("since nothing can be mounted here, so no sshd of root begins")
        self.holds("sshd runs", self.sshd.poll() is None, self.read("sshd.err"))

    def options(self, name: str) -> list[str]:
        """The options of ssh by which a station is reached with its key."""
        given = f"UserKnownHostsFile={self.path('known')}", "StrictHostKeyChecking=yes"
        words = ["-F", "/dev/null", "-p", str(self.port), "-i", str(self.path(f"{name}.key"))]
        return [*words, *[word for it in given for word in ("-o", it)], "-o", "IdentitiesOnly=yes"]

    def tables(self) -> tuple[dict[str, Any], list[dict[str, Any]]]:
        if not hasattr(self, "user"):
            return super().tables()
        stations = [{"name": it, "ssh": [*self.options(it), self.user]} for it in self.names]
        return super().tables()[0], stations

    def once(self, status: int = 0, told: Expected = None) -> None:
        """Runs the centre once, and checks its status and what it says."""
        words = [sys.executable, TOOLS / "flutejoin-centre", "--config", self.write_settings()]
        self.check("a round", self.command([*words, "--once"]), status, "", told)

    def test_three_stations(self) -> None:
        """Files that no station has whole, little more than these, and a station that is away."""
        draws = map(random.Random, range(3))
        stations = [Station(self.path(name), draw) for name, draw in zip(self.names, draws)]
        files = files_of(1, range(1, 11), 100_000)
        for station in stations:
            station.hear(rounds(files, 1, EXPIRES, 4))
        self.once()
        told = self.read("sshd.err")[-2000:]
        self.holds("all files are right", self.files() == self.wanted(files), told)
        shutil.move(self.path("west"), self.path("away"))
        more = files_of(2, range(11, 16))
        for station in stations[:2]:
            station.hear(rounds(more, 2, EXPIRES + 60, 6))
        self.once(0)
        self.holds("of the others", self.files() == self.wanted([*files, *more]))
        status = self.read("centre/page/status.json").decode()
        line = "station west: no answer that can be taken: "
        self.holds("that is told", line in status, status[:2000])
        self.holds("by what the station says", "there is no folder" in status)

    def wanted(self, files: Iterable[Sent]) -> dict[str, bytes]:
        return {it.location.removeprefix("http://"): it.content for it in files}

    def test_nothing_else(self) -> None:
        """Whatever is asked for, only the forced command runs."""
        Station(self.path("north"), random.Random(1))
        front = ["ssh", *self.options("north"), "-o", "BatchMode=yes", self.user]
        asked: list[list[str]] = [["sh", "-c", "touch here"], ["flutejoin-station", "--help"], []]
        for words in asked:
            done = self.command([*front, *words], stdin=b"touch here\n")
            told = b"none that is known here" in done.err
            self.holds(f"{words}", done.status == 1 and told, done)
        words = ["flutejoin-station", "--answer", "--wait", "1"]
        done = self.command([*front, *words], stdin=b"flutejoin ask 1\nnew none\nend\n")
        waits = done.out.startswith(b"flutejoin answer 1\nwait\nsince none\n")
        self.holds("an answer may wait", waits, done)
        done = self.command(["sftp", "-b", "/dev/null", *self.options("north"), self.user])
        self.holds("no sftp", done.status != 0, done)
        self.absent("nothing was run", "here", "north/here")
        port = free_port()
        words = [*front[:-1], "-N", "-L", f"{port}:127.0.0.1:{self.port}", self.user]
        child = self.start(words, err="forward")
        run.until(lambda: self.can_connect(port) or child.poll() is not None)
        with socket.create_connection(("127.0.0.1", port), 60) as through:
            through.settimeout(60)
            self.holds("no forwarding", through.recv(100) == b"")
        child.send_signal(signal.SIGTERM)

    @staticmethod
    def can_connect(port: int) -> bool:
        with socket.socket() as probe:
            return probe.connect_ex(("127.0.0.1", port)) == 0
