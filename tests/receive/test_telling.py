"""Tests what flutejoin-receive is told by settings, and what it tells in a long run."""
from __future__ import annotations

import json
import os
import select
import signal
import socket
import struct
import subprocess
import sys
import time

from tests.receive.receiver import (
    LONGEST_WAIT,
    STAMP,
    TOOL,
    Case,
    Receiver,
    fill,
    is_writable,
    packet,
    records,
)
from tests.support.ports import free_port
from tests.support.run import search_of

NEEDS_PROGRAM = False


class Sessions(Case):
    def test_two_ports_at_once(self) -> None:
        other = free_port()
        receiver = Receiver(self, "--port", str(other), "--count", "5", "-o", "kept")
        first, second = self.symbols(3), self.symbols(2, toi=2)
        receiver.send(first)
        receiver.until_kept(3, "kept/127.0.0.1.fldg")
        receiver.send(second, port=other)
        status, lines = receiver.ended()
        self.assertEqual(status, 0)
        self.assertEqual(records(self.path("kept/127.0.0.1.fldg")), first + second)
        self.assertEqual(lines[0], "kept/127.0.0.1.fldg: 5 datagrams from 127.0.0.1")

    def test_settings_of_a_file(self) -> None:
        ports = free_port(), free_port()
        with open(self.path("station.toml"), "w") as file:
            file.write(
                'folder = "kept"\nsenders = 3\nbuffer = 4000000\nstatus = "status.json"\n'
                f'[[session]]\nport = {ports[0]}\ninterface = "127.0.0.1"\n'
                f'[[session]]\nport = {ports[1]}\ninterface = "127.0.0.1"\n'
                'folder = "second/"\nfrom = "127.0.0.2"\n'
            )
        receiver = Receiver(self, "--config", "station.toml", "--count", "4")
        receiver.until_told(": listening ", 2)
        first, second = self.symbols(2), self.symbols(2)
        receiver.send(first, port=ports[0])
        receiver.send(first, port=ports[1])
        receiver.send(second, "127.0.0.2", port=ports[1])
        status, lines = receiver.ended()
        self.assertEqual(status, 0, receiver.stderr())
        self.assertEqual(records(self.path("kept/127.0.0.1.fldg")), first)
        self.assertEqual(records(self.path("second/127.0.0.2.fldg")), second)
        self.assertEqual(self.names("second"), ["127.0.0.2.fldg"])
        self.assertIn("left out 2: other senders than 127.0.0.2", lines)
        with open(self.path("status.json")) as file:
            told = json.load(file)
        self.assertEqual([each["port"] for each in told["sessions"]], list(ports))
        self.assertEqual([each["datagrams"] for each in told["sessions"]], [2, 2])
        self.assertEqual([each["bytes_on_disk"] for each in told["senders"]], [250, 250])

    def refused(self, text: str, *words: str) -> str:
        """Checks that settings are refused, and returns the line that says why."""
        with open(self.path("wrong.toml"), "w") as file:
            file.write(text)
        command = [sys.executable, "-S", TOOL, "--config", "wrong.toml", *words]
        run = subprocess.run(
            command, cwd=self.folder, capture_output=True, text=True, timeout=LONGEST_WAIT
        )
        self.assertEqual((run.returncode, run.stdout), (2, ""), run.stderr)
        return run.stderr.splitlines()[-1]

    def test_settings_that_are_wrong(self) -> None:
        session = "[[session]]\nport = 4001\n"
        for text, told in (
            ("", "the following arguments are required: --port, --sdp or --config"),
            ("[[session]]\n", "a [[session]] has no port"),
            ("[[session]]\nport = 0\n", "port: '0' is not a number from 1 to 65535"),
            ("[[session]]\nport = true\n", "port: is no number and no text"),
            (session + "senders = 2\n", "senders: there is no such setting there"),
            ("sender = 2\n" + session, "sender: there is no such setting there"),
            ("port = 4001\n", "port: there is no such setting there"),
            ("senders = 501\n" + session, "senders: '501' is not a number from 1 to 500"),
            ("session = 2\n", "session is no [[session]]"),
            (session + 'group = "10.0.0.1"\n', "10.0.0.1 is no multicast group"),
            ("= 2\n", "Invalid statement"),
            ('as-received = "yes"\n' + session, "as-received is true or false"),
        ):
            with self.subTest(text):
                self.assertIn(told, self.refused(text))
        self.assertIn("No such file", self.refused("", "--config", "missing.toml"))
        told = self.refused(session, "--port", "1", "--port", "2", *["--group", "239.1.1.1"] * 3)
        self.assertIn("argument --port: is given 2 times, and not 3", told)


class Telling(Case):
    def test_status_in_a_file_and_by_a_signal(self) -> None:
        receiver = Receiver(self, "--status", "status.json", "-o", "kept")
        receiver.until(lambda: os.path.exists(self.path("status.json")), "a status")
        receiver.send(self.symbols(3))
        receiver.send([b"no packet"] * 2, "127.0.0.9")
        receiver.until_kept(3, "kept/127.0.0.1.fldg")
        receiver.process.send_signal(signal.SIGUSR1)
        receiver.until_told("\n}\n")
        status, _ = receiver.end()
        self.assertEqual(status, 0)
        told = json.loads(receiver.stderr().split(": status\n")[1].split("\n}\n")[0] + "}")
        with open(self.path("status.json")) as file:
            last = json.load(file)
        self.assertEqual(told["senders"], [{**last["senders"][0], "file": "kept/127.0.0.1.fldg"}])
        (sender,), (session,) = last["senders"], last["sessions"]
        keys = "time since dropped waiting_bytes bytes_on_disk removed_files sessions senders"
        self.assertEqual(list(last), keys.split())
        keys = "group port interface from folder datagrams bytes dropped left_out last_seen"
        self.assertEqual(list(session), keys.split())
        keys = "sender folder datagrams bytes left_out adapted refused last_seen file"
        keys += " bytes_on_disk"
        self.assertEqual(list(sender), keys.split())
        self.assertEqual(sender["sender"], "127.0.0.1")
        self.assertEqual((sender["datagrams"], sender["bytes"]), (3, 360))
        self.assertEqual(sender["bytes_on_disk"], 6 + 3 * 122)
        self.assertEqual((session["port"], session["datagrams"]), (receiver.port, 3))
        unlike = {"of senders from whom nothing like FLUTE came": 2}
        self.assertEqual((session["left_out"], session["dropped"]), (unlike, 0))
        age = time.time() - time.mktime(time.strptime(last["time"], "%Y-%m-%dT%H:%M:%SZ"))
        self.assertLess(abs(age + time.timezone), 600)
        self.assertFalse(os.path.exists(self.path("status.json.partial")))

    def test_a_status_that_cannot_be_written(self) -> None:
        receiver = Receiver(self, "--status", "missing/status.json", "-o", "kept")
        receiver.until_told("cannot write missing/status.json: No such file or directory")
        receiver.send(self.symbols(1))
        receiver.until_kept(1, "kept/127.0.0.1.fldg")
        self.assertEqual(receiver.end()[0], 0)

    def test_times_where_standard_error_is_no_terminal(self) -> None:
        receiver = Receiver(self, "-o", "kept")
        receiver.end()
        for line in os.pread(receiver.told.fileno(), 1 << 20, 0).decode().splitlines():
            self.assertRegex(line, STAMP)

    def test_a_terminal_that_nobody_reads(self) -> None:
        """The run does not wait, also when a terminal takes a part of a line; the rest is kept."""
        leader, follower = os.openpty()
        receiver = Receiver(self, "-o", "kept", stderr=follower, listens=False)
        first = os.read(leader, 4096).decode()
        self.assertTrue(first.startswith("flutejoin-receive: listening at "), first)
        filler = os.open(os.ttyname(follower), os.O_WRONLY | os.O_NONBLOCK | os.O_NOCTTY)
        fill(filler)
        os.read(leader, 2000)
        sent: list[bytes] = []
        after_full = 0
        while after_full < 3:
            after_full += not is_writable(filler)
            receiver.process.send_signal(signal.SIGUSR1)
            sent += self.symbols(5)
            receiver.send(sent[-5:])
            receiver.until_kept(len(sent), "kept/127.0.0.1.fldg")
            time.sleep(1)
        self.assertEqual(receiver.end()[0], 0)
        self.assertEqual(records(self.path("kept/127.0.0.1.fldg")), sent)
        for descriptor in leader, follower, filler:
            os.close(descriptor)

    def test_a_terminal_that_is_read_later(self) -> None:
        """What a full terminal did not take of a line is written once it is read."""
        leader, follower = os.openpty()
        receiver = Receiver(self, "-o", "kept", stderr=follower, listens=False)
        os.read(leader, 4096)
        filler = os.open(os.ttyname(follower), os.O_WRONLY | os.O_NONBLOCK | os.O_NOCTTY)
        fill(filler)
        receiver.process.send_signal(signal.SIGUSR1)
        told = b""
        while b"\n}\r\n" not in told:
            self.assertTrue(select.select([leader], [], [], LONGEST_WAIT)[0], told)
            told += os.read(leader, 1000)
        status = told[told.index(b"flutejoin-receive: status") :].decode()
        self.assertEqual(json.loads(status.partition("\n")[2])["senders"], [])
        self.assertEqual(receiver.end()[0], 1)
        for descriptor in leader, follower, filler:
            os.close(descriptor)

    def test_names_do_not_steer_a_terminal(self) -> None:
        folder = "k\x1b[31m\n"
        receiver = Receiver(self, "-o", folder, "--count", "1")
        receiver.send(self.symbols(1))
        status, lines = receiver.ended()
        self.assertEqual((status, len(lines)), (0, 2))
        self.assertFalse("\x1b" in receiver.stderr() + "".join(lines), lines)
        words = subprocess.run(
            ["bash", "-c", f"printf '%s\\0' {lines[1]}"], capture_output=True, check=True
        ).stdout.split(b"\0")
        self.assertEqual(words[-2], os.fsencode(f"{folder}/127.0.0.1.fldg"))

    def test_causes_of_drops(self) -> None:
        """A full receive buffer and a wrong checksum are told apart."""
        self.needs_namespace()
        wrong = "a checksum did not hold, here or for another program"
        receiver = Receiver(self, "-o", "kept", "--buffer", "4096")
        receiver.send(self.symbols(1))
        receiver.until_kept(1, "kept/127.0.0.1.fldg")
        with socket.socket(socket.AF_INET, socket.SOCK_RAW, socket.IPPROTO_UDP) as raw:
            raw.bind(("127.0.0.1", 0))
            data = packet(b"wrong")
            udp_header = struct.pack(">HHHH", 9, receiver.port, 8 + len(data), 1)
            with receiver.stopped():  # so that it finds all three at once
                for _ in range(3):
                    raw.sendto(udp_header + data, ("127.0.0.1", 0))
        receiver.until_told(f"the system dropped 3 datagrams ({wrong})")
        with receiver.stopped():
            receiver.send(self.symbols(40, 1000))
        receiver.until_told("datagrams (its receive buffer was full)")
        status, lines = receiver.end()
        self.assertEqual(status, 0)
        self.assertIn(f"left out 3: dropped by the system ({wrong})", lines)
        full = search_of(
            r"(?m)^left out (\d+): dropped by the system \(its receive buffer was full\)$",
            "\n".join(lines),
        )
        kept = len(records(self.path("kept/127.0.0.1.fldg")))
        self.assertEqual(int(full[1]) + kept, 41)
