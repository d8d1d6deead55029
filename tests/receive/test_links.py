"""What a run tells of its interface, what it says to look at when nothing comes, and the room that
it leaves free on the disk."""
from __future__ import annotations

import argparse
import errno
import ipaddress
import os
import pathlib
from signal import SIGTERM
from typing import Any
from unittest import mock

from flutejoin_tools.formats.records import HEADER, LENGTH
from flutejoin_tools.receive import silence
from flutejoin_tools.receive.growing import Block, Growing
from flutejoin_tools.receive.reserve import Reserve, reserve
from flutejoin_tools.receive.silence import advice, joined_on, on, state_of
from flutejoin_tools.receive.writer import Opened
from tests.receive.case import PYTHON, TOOL, Case
from tests.support import run
from tests.support.run import ROOT, until

GROUP, GROUP6 = map(ipaddress.ip_address, ("239.1.1.1", "ff3e::8000:1"))
# Where the system tells it; the times of an entry's timer may be anything.
IGMP = """Idx\tDevice    : Count Querier\tGroup    Users Timer\tReporter
1\tlo        :     1      V3
\t\t\t\t010000E0     1 0:00000000\t\t0
2\teth0      :     2      V3
\t\t\t\t010101EF     1 0:00000000\t\t0
\t\t\t\t010000E0     1 0:00000000\t\t0
"""
IGMP6 = """1    lo              ff020000000000000000000000000001     1 0000000C 0
3    eth1            ff3e0000000000000000000080000001     1 00000004 0
"""
# Nothing has come after no second.
AT_ONCE = """
import runpy, sys
del sys.argv[0]
sys.path.insert(0, {tools!r})
from flutejoin_tools.receive import silence
silence.AFTER = 0
runpy.run_path(sys.argv[0], run_name="__main__")
"""


class Links(Case):
    def system(self, **states: str) -> None:
        """Has the system tell of these interfaces, with the state of each."""
        for name, state in states.items():
            self.path(f"net/{name}").mkdir(parents=True)
            self.write(f"net/{name}/operstate", state + "\n")
            self.write(f"net/{name}/flags", "0x1003\n")
            self.path(f"conf/{name}").mkdir(parents=True)
        files = {"/proc/net/igmp": IGMP, "/proc/net/igmp6": IGMP6}
        real = silence.read

        def read(path: str) -> str:
            return files[path] if path in files else real(path)

        conf = f"{self.path('conf')}/{{}}"
        told = {"read": read, "NETWORK": str(self.path("net")), "FILTER": conf}
        for name, value in told.items():
            patch = mock.patch.object(silence, name, value)
            patch.start()
            self.addCleanup(patch.stop)

    def test_states(self) -> None:
        self.system(eth0="up", eth1="down", tun0="unknown", old0="lowerlayerdown")
        found = [state_of(name) for name in ("eth0", "eth1", "tun0", "old0", "gone")]
        self.holds("states", found == ["up", "down", "up", "lowerlayerdown", ""], found)
        self.holds("a group", joined_on(GROUP) == ["eth0"], joined_on(GROUP))
        self.holds("a group of IPv6", joined_on(GROUP6) == ["eth1"], joined_on(GROUP6))
        rows = {
            on(None, GROUP): " on eth0 (up)",
            on(None, GROUP6): " on eth1 (down)",
            on("10.9.0.1", GROUP): " on eth0 (up)",
            on(None, ipaddress.ip_address("239.9.9.9")): "",
            on("10.9.0.1", None): " on 10.9.0.1",
        }
        for got, wanted in rows.items():
            self.holds(f"a line with {wanted!r}", got == wanted, got)

    def test_advice(self) -> None:
        self.system(eth0="up", eth1="down")
        filters = self.path("conf")
        for name in "all", "eth0", "eth1":
            (filters / name).rmdir() if (filters / name).is_dir() else None
            (filters / name).write_text("2\n")
        told = advice(None, GROUP, 4001)
        for text in "`tcpdump -ni eth0 host 239.1.1.1`", "IGMP", "TTL", "the firewall", "the port":
            self.holds(f"{text} is told", text in told, told)
        self.holds("nothing else is", "is down" not in told and "rp_filter" not in told, told)
        (filters / "eth0").write_text("1\n")
        told = advice(None, GROUP, 4001)
        self.holds("rp_filter", "`sysctl -w net.ipv4.conf.eth0.rp_filter=2`" in told, told)
        told = advice(None, GROUP6, 4001)
        self.holds("an interface that is down", told.startswith("eth1 is down; "), told)
        self.holds("MLD", "MLD" in told and "IGMP" not in told, told)
        told = advice(None, ipaddress.ip_address("239.9.9.9"), 4001)
        self.holds("not joined", "239.9.9.9 is joined on no interface" in told, told)
        told = advice(None, None, 4001)
        self.holds("no group", "`tcpdump -ni any udp port 4001`" in told, told)
        self.holds("no IGMP", "IGMP" not in told, told)

    def test_it_is_told_once(self) -> None:
        script = AT_ONCE.format(tools=str(ROOT / "tools"))
        words = run.split(f"--port {self.port} --interface 127.0.0.1 --seconds 600 -o none")
        child = self.start([*PYTHON, "-c", script, TOOL, *words], to="out", err="err")
        nothing = b"nothing came in 0 seconds at 127.0.0.1 port "
        self.assertTrue(until(lambda: nothing in self.read("err")))
        self.send("sent2")
        child.send_signal(SIGTERM)
        self.assertEqual(child.wait(run.LONGEST), 0)
        self.holds("once", self.read("err").count(b"nothing came") == 1, self.read("err"))

    def test_nothing_is_told_where_something_came(self) -> None:
        receiver = self.receive("--count 2 -o kept")
        self.send("sent2")
        self.check("a run", receiver.ended(), 0, None, "")


class Free(Case):
    """The room that is left on a disk: --keep-free."""

    def test_values(self) -> None:
        rows = {"5%": Reserve(0, 5), "0%": Reserve(0, 0), "2G": Reserve(2 << 30), "0": Reserve()}
        for text, wanted in rows.items():
            self.holds(text, reserve(text) == wanted, reserve(text))
        for text in "100%", "-1%", "5.5%", "x", "", "5 %%", "٥%":
            with self.assertRaises(argparse.ArgumentTypeError, msg=text):
                reserve(text)
        done = self.tool("flutejoin-receive", "--port 4001 --keep-free lots")
        self.check("a wrong value", done, 2, "", None)
        self.write("news.toml", 'keep-free = "x%"\n[[session]]\nport = 4001\n')
        done = self.tool("flutejoin-receive", "--config news.toml")
        self.holds("a wrong setting", done.status == 2 and b"keep-free" in done.err, done)

    def disk(self, free: int) -> mock._patch[Any]:
        found = os.statvfs("/")
        told = os.statvfs_result((1000, 1000, 1000, free, free, *found[5:]))
        return mock.patch("os.statvfs", lambda path: told)

    def test_what_is_left(self) -> None:
        with self.disk(50):
            Reserve(percent=4).keep("x", 10_000)
            Reserve(bytes=40_000).keep("x", 10_000)
            Reserve().keep("x", 1 << 40)
            for each in Reserve(percent=4), Reserve(bytes=40_000):
                with self.assertRaises(OSError) as fault:
                    each.keep("x", 10_001)
                self.assertEqual(fault.exception.errno, errno.ENOSPC)

    def test_nothing_is_lost(self) -> None:
        """What waits for room is written once there is some, and each record once."""
        folder = self.path("kept")
        folder.mkdir()
        opened = Opened(0, lambda size: None, Reserve(percent=5))
        growing = Growing(str(folder), ipaddress.ip_address("10.0.0.1"), opened)
        record = LENGTH.pack(3) + b"abc"
        path = pathlib.Path(growing.path())
        with self.disk(51):
            growing.orders.append(Block(bytearray(record), 1))
            growing.work()
        with mock.patch("flutejoin_tools.receive.growing.note") as told:
            with self.disk(50):
                growing.orders.append(Block(bytearray(record), 1))
                growing.work()
                growing.work()
                self.same("no more is written", path, HEADER + record)
            with self.disk(500):
                growing.work()
        self.same("now it is", path, HEADER + record + record)
        lines = [call.args[0] for call in told.call_args_list]
        self.holds("both are told", len(lines) == 2 and "--keep-free" in lines[0], lines)
