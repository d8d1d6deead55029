"""Tests flutejoin-receive with more senders than it has room for, and with invented ones."""
from __future__ import annotations

import json
import os
import re
import resource
import socket
import struct
import sys
import time
from typing import Any

from flutejoin_tools.fdt import hints
from tests.receive.receiver import Case, Receiver, packet, records

NEEDS_PROGRAM = False
FEW_DESCRIPTORS = ["sh", "-c", 'ulimit -n 40; exec "$@"', "-"]


class Descriptors(Case):
    def test_too_few_for_all_senders(self) -> None:
        receiver = Receiver(self, "-o", "kept", "--senders", "100", before=FEW_DESCRIPTORS)
        sent = {f"127.0.1.{number}": self.symbols(4) for number in range(1, 101)}
        for each in range(4):
            for source, datagrams in sent.items():
                receiver.send(datagrams[each : each + 1], source)
        receiver.until_kept(400, *(f"kept/{source}.fldg" for source in sent))
        status, lines = receiver.end()
        self.assertEqual((status, len(lines)), (0, 200), receiver.stderr())
        self.assertIn("the file of the sender that was silent longest is closed", receiver.stderr())
        for source, datagrams in sent.items():
            self.assertEqual(records(self.path(f"kept/{source}.fldg")), datagrams)

    def test_a_folder_of_thousands(self) -> None:
        os.mkdir(self.path("kept"))
        for number in range(2000):
            with open(self.path(f"kept/10.1.{number // 250}.{number % 250}.fldg"), "wb") as file:
                file.write(b"FLDG\0\1\0\1x")
        with open(self.path("kept/127.0.0.1.fldg"), "wb") as file:
            file.write(b"FLDG\0\1\0\1x")
        receiver = Receiver(self, "-o", "kept", "--count", "2", before=FEW_DESCRIPTORS)
        sent = self.symbols(2)
        receiver.send(sent)
        status, lines = receiver.ended()
        self.assertEqual(status, 0, receiver.stderr())
        self.assertEqual(records(self.path("kept/127.0.0.1.fldg")), [b"x", *sent])
        self.assertEqual(
            lines[0], "kept/127.0.0.1.fldg: 3 datagrams from 127.0.0.1, 2 of them new"
        )

    def test_more_open_files_than_select_takes(self) -> None:
        soft, hard = resource.getrlimit(resource.RLIMIT_NOFILE)
        if hard < 1200:
            self.skipTest("1,200 files cannot be open here")
        script = (
            "import os, sys\n"
            "for each in range(1100): os.set_inheritable(os.dup(0), True)\n"
            "os.execv(sys.argv[1], sys.argv[1:])\n"
        )
        receiver = Receiver(
            self,
            "-o",
            "kept",
            before=["sh", "-c", 'ulimit -n 1200; exec "$@"', "-", sys.executable, "-c", script],
            close_fds=True,
        )
        sent = self.symbols(2)
        receiver.send(sent)
        receiver.until_kept(2, "kept/127.0.0.1.fldg")
        self.assertEqual(receiver.end()[0], 0, receiver.stderr())


class Strangers(Case):
    def test_who_sends_nothing_like_flute(self) -> None:
        receiver = Receiver(self, "-o", "kept", "--senders", "1")
        sent = self.symbols(2)
        with receiver.stopped():  # so that it finds all of them at once
            receiver.send([b"no packet", b""], "127.0.0.2")
            receiver.send(sent)
            receiver.send([b"anything", b""])
        receiver.until_kept(4, "kept/127.0.0.1.fldg")
        receiver.until_told("left out 2: of senders from whom nothing like FLUTE came")
        status, lines = receiver.end()
        self.assertEqual(status, 0)
        self.assertEqual(records(self.path("kept/127.0.0.1.fldg")), [*sent, b"anything", b""])
        self.assertEqual(self.names(), ["127.0.0.1.fldg"])

    def test_the_one_sender_may_send_anything(self) -> None:
        receiver = Receiver(self, "-o", "kept", "--from", "127.0.0.1", "--count", "2")
        receiver.send([b"no packet", b""])
        self.assertEqual(receiver.ended()[0], 0)
        self.assertEqual(records(self.path("kept/127.0.0.1.fldg")), [b"no packet", b""])

    def test_made_up_senders_keep_nobody_out(self) -> None:
        receiver = Receiver(self, "-o", "kept", "--status", "status.json")
        receiver.until(lambda: os.path.exists(self.path("status.json")), "a status")
        for number in range(1, 65):
            receiver.send(self.symbols(1), f"127.0.2.{number}")
        receiver.until(lambda: len(self.names()) == 64, "64 files")
        # One that sends more than they do gets a place, and loses nothing until then.
        sent = self.symbols(20)
        receiver.send(sent)
        receiver.until_kept(20, "kept/127.0.0.1.fldg")
        receiver.until(lambda: self.status()["sessions"][0]["datagrams"] >= 84, "another status")
        self.assertGreaterEqual(len(self.status()["senders"]), 64)
        # So does one that lost its place, which has a file.
        receiver.send(self.symbols(20), "127.0.2.1")
        receiver.until_kept(21, "kept/127.0.2.1.fldg")
        # What waits of another is written at the end of a run: if there is a place.
        receiver.send(self.symbols(2), "127.0.0.3")
        receiver.until_received()
        status, lines = receiver.end()
        self.assertEqual((status, sum("datagrams from" in line for line in lines)), (0, 66))
        self.assertEqual(len(records(self.path("kept/127.0.0.3.fldg"))), 2)
        self.assertFalse(any("left out" in line for line in lines), lines)
        # Nor do these files exclude other senders after a restart.
        os.unlink(self.path("kept/127.0.0.1.fldg"))
        receiver = Receiver(self, "-o", "kept", "--count", "3")
        again = self.symbols(3)
        receiver.send(again)
        self.assertEqual(receiver.ended()[0], 0)
        self.assertEqual(records(self.path("kept/127.0.0.1.fldg")), again)

    def test_who_is_left_out_and_sent_more_than_another(self) -> None:
        receiver = Receiver(self, "-o", "kept", "--senders", "2")
        receiver.send(self.symbols(900, 1000))
        receiver.until_kept(900, "kept/127.0.0.1.fldg")
        with receiver.stopped():  # so that it finds all of them within a second or two
            for _ in range(10):
                receiver.send(self.symbols(8), "127.0.0.2")
                receiver.send(self.symbols(9), "127.0.0.3")
        status, lines = receiver.end()
        self.assertEqual((status, self.names()), (1, ["127.0.0.1.fldg", "127.0.0.2.fldg"]))
        cause = "more than 2 senders (--senders takes more, and --from names the one)"
        self.assertIn(f"left out 90: {cause}", lines)
        told = "1 senders of more bytes than one that was kept were left out\n"
        self.assertIn(told, receiver.stderr())

    def status(self) -> dict[str, Any]:
        with open(self.path("status.json")) as file:
            told: dict[str, Any] = json.load(file)
        return told

    def test_a_flood_of_made_up_senders(self) -> None:
        """Ten thousand addresses: few files, and the real one is kept."""
        self.needs_namespace()
        receiver, began = Receiver(self, "-o", "kept", "--senders", "4"), time.monotonic()
        sent = self.symbols(3)
        receiver.send(sent[:1])
        receiver.until_kept(1, "kept/127.0.0.1.fldg")
        with socket.socket(socket.AF_INET, socket.SOCK_RAW, socket.IPPROTO_RAW) as raw:
            for number in range(10000):
                data = packet(b"made up") if number % 2 else b"no packet" * 5
                addresses = struct.pack(">BBH", 10, 7, number) + socket.inet_aton("127.0.0.1")
                ip = struct.pack(">BxH4xBBH", 0x45, 28 + len(data), 8, 17, 0) + addresses
                udp = struct.pack(">HHHH", 9, receiver.port, 8 + len(data), 0)
                raw.sendto(ip + udp + data, ("127.0.0.1", 0))
                if number % 200 == 0:  # otherwise the system would drop some, also of the real one
                    receiver.until_received()
        receiver.send(sent[1:])
        receiver.until_kept(3, "kept/127.0.0.1.fldg")
        with open(f"/proc/{receiver.process.pid}/status") as file:
            (memory,) = re.findall(r"VmRSS:\s+(\d+) kB", file.read())
        self.assertLess(int(memory), 60000)
        self.assertLess(len(os.listdir(f"/proc/{receiver.process.pid}/fd")), 20)
        # Four at once, and of those who waited for long 16 in a minute
        before = len(self.names())
        self.assertLessEqual(before, 4 + 16 * (time.monotonic() - began) / 60 + 1)
        status, lines = receiver.end()
        # At the end others get those places: of whom the last came.
        self.assertEqual((status, len(self.names()) <= before + 4), (0, True))
        self.assertEqual(records(self.path("kept/127.0.0.1.fldg")), sent)
        self.assertTrue(any("more than 4 senders" in line for line in lines), lines)


class Restarts(Case):
    """A sender that restarts, with an FDT Instance 1 of other contents."""

    TOLD = f"127.0.0.1 {hints.TOLD}"

    def run_of_sender(self, text: bytes, instance: int = 1) -> list[bytes]:
        fdt = [packet(text + bytes([each]), each, instance=instance) for each in range(3)]
        return [*fdt, *self.symbols(5), *fdt]

    def test_all_is_kept_in_order(self) -> None:
        first, second = self.run_of_sender(b"first"), self.run_of_sender(b"second")
        sent = first + first + self.run_of_sender(b"another", 2)[:3] + second + self.symbols(2)
        receiver = Receiver(self, "-o", "kept", "--count", str(len(sent)))
        receiver.send(sent)
        status, lines = receiver.ended()
        self.assertEqual((status, self.names()), (0, ["127.0.0.1.fldg"]))
        self.assertEqual(records(self.path("kept/127.0.0.1.fldg")), sent)
        self.assertEqual(receiver.stderr().count(self.TOLD), 1)
        self.assertEqual(lines[1:], ["flutejoin-gather -o kept kept/127.0.0.1.fldg"])

    def test_a_later_run(self) -> None:
        """A later run knows what an earlier one received."""
        runs = [self.run_of_sender(text) for text in (b"first", b"second")]
        for sent, told in (runs[0], 0), (runs[0], 0), (runs[1], 1):
            receiver = Receiver(self, "-o", "kept", "--count", "11")
            receiver.send(sent)
            _, lines = receiver.ended()
            self.assertEqual(receiver.stderr().count(self.TOLD), told)
            self.assertEqual(lines[-1].startswith("flutejoin-gather "), bool(told))
