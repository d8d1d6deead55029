"""Tests of flutejoin-receive: its two threads at once, and files that another user put into its
folder, or many senders left there."""
from __future__ import annotations

import collections
import ipaddress
import json
import os
import random
import signal
import socket
import sys
import threading
from unittest import mock
from typing import Any, Iterable

import datagram_files
from flutejoin_tools.common.file_names import file_name, name_of
from flutejoin_tools.common.outputs import replace_text
from flutejoin_tools.receive.found import address_of, look_at
from flutejoin_tools.receive.senders import Senders
from flutejoin_tools.receive.status import Counted, Status
from flutejoin_tools.receive.writer import Entry, Folder, Writer
from tests.receive.case import Case
from tests.receive.test_places import Case as Inside
from tests.receive.test_places import LARGE, SMALL
from tests.support.run import until

SWITCH = 1e-5  # seconds after which another thread may go on
REPORTS = 100  # statuses that a run is asked for


class Threads(Inside):
    def test_both_at_random_steps(self) -> None:
        """Senders come and go while another thread takes orders, and tells the status."""
        self.path("kept").mkdir()
        folder = Folder(str(self.path("kept")))
        writer = Writer([folder], None, 0)
        senders = Senders(folder, writer, 50, 300)
        status = Status(None, [], [senders], writer)
        told: list[dict[str, Any]] = []
        faults: list[BaseException] = []
        taken: collections.Counter[str] = collections.Counter()
        is_ended = threading.Event()

        def tell(counted: Counted, entries: Iterable[Entry]) -> None:
            told.append(json.loads(status.text(counted, entries)))

        def take() -> None:
            """What the writer does, without files."""
            try:
                is_last = False
                while not is_last:
                    is_last = is_ended.is_set()
                    while writer.todo:
                        order = writer.todo.popleft().orders.popleft()
                        taken.update(datagrams=getattr(order, "records", 0))
                    while writer.reports:
                        writer.reports.popleft()([])
            except BaseException as fault:
                faults.append(fault)

        before = sys.getswitchinterval()
        self.addCleanup(sys.setswitchinterval, before)
        sys.setswitchinterval(SWITCH)
        draw, given = random.Random(7), 0
        other = threading.Thread(target=take, daemon=True)
        other.start()
        while len(told) < REPORTS and not faults:
            sender = senders.admit(ipaddress.ip_address(0x0A000000 + draw.randrange(500)))
            for _ in range(draw.randrange(4)):
                sender.add(draw.choice((SMALL, LARGE, b"")))
                given += 1
            if len(senders.admitted) >= senders.most:
                senders.retire(draw.choice(list(senders.admitted.values())))
            if draw.random() < 0.1:
                senders.hand_over()
            if not writer.reports:
                status.order(tell)
        senders.hand_over()
        is_ended.set()
        other.join()
        os.close(folder.lock)
        self.holds("no thread had a fault", not faults, faults)
        left_out = senders.left_out().total()
        counts = taken["datagrams"] + left_out, sum(it.datagrams for it in senders.all())
        self.holds("each datagram was handed over once", counts == (given, given), (counts, given))
        names = [each["sender"] for each in told[-1]["senders"]]
        self.holds("the status names each once", len(names) == len({*names}) >= 50, names)


class Files(Case):
    """Files that another user put into a folder."""

    def test_a_status_follows_no_link(self) -> None:
        for partial, links in (("precious", True), ("precious", False), (None, False)):
            self.write("precious", "precious")
            path = self.path("status.json.partial")
            if partial and links:
                path.symlink_to(partial)
            elif partial:
                path.hardlink_to(self.path(partial)) if hasattr(path, "hardlink_to") else None
            replace_text(str(self.path("status.json")), "text")
            self.same("what the link leads to", "precious", b"precious")
            self.same("the status", "status.json", b"text")
            self.absent("nothing is left", "status.json.partial")
            is_file = not self.path("status.json").is_symlink()
            self.holds("a file of its own", is_file)
            self.remove("status.json")
        self.path("status.json.partial").mkdir()
        with self.assertRaises(OSError):
            replace_text(str(self.path("status.json")), "text")

    def test_status_files_of_runs(self) -> None:
        for tool, words in (
            ("flutejoin-receive", f"--port {self.port} --interface 127.0.0.1 -o kept"),
            ("flutejoin-station", f"--port {self.port} --interface 127.0.0.1 -o news"),
        ):
            self.write("precious", "precious")
            self.path("status.json.partial").symlink_to("precious")
            done = self.tool(tool, f"{words} --seconds 0.2 --status status.json")
            self.holds(f"{tool} ran", done.status in (0, 1), done)
            self.same(f"{tool}: where the link leads to", "precious", b"precious")
            self.holds(f"{tool}: a status", json.loads(self.read("status.json")), done)
            self.remove("status.json")

    def test_a_growing_file_that_a_link_replaces(self) -> None:
        """One that was closed for another, since there are few descriptors."""
        receiver = self.receive("-o few", limits={7: 20}, signals={signal.SIGINT: signal.SIG_DFL})
        self.send("sent2")
        sent = self.read("sent2")
        one = "few/127.0.0.1.fldg"
        self.holds("a file", until(lambda: self.bytes_of(one) == sent))
        others = [f"127.0.1.{number}" for number in range(1, 21)]
        for address in others:
            self.send("sent2", address)
        last = f"few/{others[-1]}.fldg"
        self.holds("the others' files", until(lambda: self.bytes_of(last) == sent))
        self.path(one).rename(self.path("moved"))
        self.path(one).symlink_to("../moved")
        self.send("sent2")
        two = "few/127.0.0.1.2.fldg"
        self.holds("another file", until(lambda: self.bytes_of(two) == sent), receiver.told())
        receiver.child.send_signal(signal.SIGINT)
        self.check("a run", receiver.ended(), 0, None, None)
        self.same("where the link leads to", "moved", "sent2")

    def test_settings_that_are_no_names(self) -> None:
        for text in "interface", "folder", "status":
            session = f"[[session]]\nport = {self.port}\n"
            line = f'{text} = "a\\u0000b"\n'
            self.write("config", session + line if text == "interface" else line + session)
            done = self.tool("flutejoin-receive", "--config config")
            told = rf"error: argument --config: config: {text}: '.*' is no name$"
            self.check(f"NUL in {text}", done, 2, "", None)
            self.assertRegex(done.err.decode().strip(), told)
        self.write("config", "port = " + "[" * 3000)
        done = self.tool("flutejoin-receive", "--config config")
        self.check("brackets", done, 2, "", None)
        self.holds("no traceback", b"Traceback" not in done.err, done)


class Start(Inside):
    """What many senders left in a folder."""

    def test_few_files_are_read(self) -> None:
        self.path("kept").mkdir()
        for number in range(3000):
            name = f"kept/{ipaddress.ip_address(0x0B000000 + number)}.fldg"
            datagram_files.write(str(self.path(name)), [SMALL])
        large = "10.0.0.1", "10.0.0.2"
        for address in large:
            datagram_files.write(str(self.path(f"kept/{address}.fldg")), [LARGE] * 20)
        folder = Folder(str(self.path("kept")))
        senders = Senders(folder, Writer([folder], None, 0), 64, 1 << 30)
        with mock.patch(
            "flutejoin_tools.receive.senders.look_at", side_effect=look_at
        ) as looked:
            senders.look(frozenset())
            self.holds("as many as may send", looked.call_count == 64, looked.call_count)
            known = {str(address) for address in senders.known}
            self.holds("those of most bytes", {*large} <= known)
            small = next(text for text in senders.found)
            sender = senders.admit(ipaddress.ip_address(small))
            self.holds("another's later", looked.call_count == 65)
        records = sender.records, sender.growing.part
        self.holds("a small file goes on", records == (1, 1), records)
        os.close(folder.lock)

    def test_a_long_file_is_not_read_while_datagrams_come(self) -> None:
        """Another is begun, unless its sender is one of those that sent most."""
        self.path("kept").mkdir()
        for number in range(3):
            path = str(self.path(f"kept/10.0.0.{number + 1}.3.fldg"))
            datagram_files.write(path, [LARGE] * (1000 + number))
        folder = Folder(str(self.path("kept")))
        senders = Senders(folder, Writer([folder], None, 0), 2, 1 << 30)
        senders.look(frozenset())
        parts = {}
        for number in range(3):
            growing = senders.admit(ipaddress.ip_address(f"10.0.0.{number + 1}")).growing
            parts[number] = growing.part, growing.records
        wanted = {0: (4, 0), 1: (3, 1001), 2: (3, 1002)}
        self.holds("parts and records", parts == wanted, parts)
        os.close(folder.lock)

    def test_links_in_names(self) -> None:
        packed = ipaddress.ip_address("fe80::1").packed
        index = socket.if_nametoindex("lo")
        for number, zone in (index, "%lo"), (0, ""), (1 << 30, f"%{1 << 30}"):
            address = address_of(packed + number.to_bytes(4, sys.byteorder))
            self.holds(f"link {number}", str(address) == f"fe80::1{zone}", address)
            found = name_of(file_name(str(address), 2, 3))
            self.holds(f"the file of link {number}", found == (address, 3, 2), found)
        other = ipaddress.ip_address("2001:db8::1").packed + index.to_bytes(4, sys.byteorder)
        self.holds("an address of all links", str(address_of(other)) == "2001:db8::1")
        with mock.patch.object(socket, "if_indextoname", return_value="br-lan.7"):
            address = address_of(packed + index.to_bytes(4, sys.byteorder))
        self.holds("a link's odd name", str(address) == "fe80::1%br_lan_7", address)
        self.holds("its file", name_of(file_name(str(address), 1)) == (address, 1, 1))
