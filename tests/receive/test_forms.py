"""Senders of other forms of FLUTE, from datagrams at flutejoin-receive to files."""
from __future__ import annotations

import json
import pathlib
import socket
from signal import SIGINT, SIGTERM, SIG_DFL

import datagram_files
from tests.receive.case import Case, said
from tests.support import other_forms
from tests.support.flute_sender import Sent, Shape, instance, packets
from tests.support.other_forms import (
    SAID,
    TIMES,
    TOLD,
    described,
    raptor,
    renewing,
    senders,
    session,
)
from tests.support.run import until

ONE = "127.0.0.1"


class Forms(Case, other_forms.Case):
    def made_of(self, name: str, datagrams: list[bytes]) -> str:
        self.write(name, datagram_files.content(datagrams))
        return name

    def send_slowly(self, address: str, datagrams: list[bytes]) -> None:
        """Sends so that the system drops none, on a machine under load too."""
        with socket.socket(socket.AF_INET, socket.SOCK_DGRAM) as udp:
            udp.bind((address, 0))
            for at, datagram in enumerate(datagrams):
                udp.sendto(datagram, (ONE, self.port))
                if at % 20 == 19:
                    self.assertTrue(until(self.is_all_taken))
        self.assertTrue(until(self.is_all_taken))

    def is_all_taken(self) -> bool:
        """Whether no datagram waits in the receive buffer."""
        lines = pathlib.Path("/proc/net/udp").read_text().splitlines()
        rows = [line.split() for line in lines[1:]]
        waiting = [row[4] for row in rows if row[1].endswith(f":{self.port:04X}")]
        return all(int(queues.partition(":")[2], 16) == 0 for queues in waiting)

    def received(self, words: str, sent: dict[str, list[bytes]]) -> tuple[str, str]:
        """Receives what these senders send, and returns what the run prints and tells."""
        receiver = self.receive(words, signals={SIGINT: SIG_DFL})
        for address, datagrams in sent.items():
            self.send_slowly(address, datagrams)
        receiver.child.send_signal(SIGTERM)
        done = receiver.ended()
        self.status = done.status
        return done.out.decode(), done.err.decode()

    def test_files(self) -> None:
        """From each sender come its files, and the journal of FLUTE 2 with a symbol a packet."""
        rows = {f"127.0.0.{at}": row for at, row in enumerate(senders(), 1)}
        sent = {address: datagrams for address, (datagrams, _, _) in rows.items()}
        out, err = self.received("--status told -o kept", sent)
        self.holds("nothing is left out", "left out" not in out, out)
        lines = [line for line in out.splitlines() if line.startswith("flutejoin join ")]
        script = "\n".join(["set -e", *lines])
        done = self.shell(script)
        self.check("the lines to join", done, 0, None)
        self.holds("none is refused", done.out.count(b"refused 0\n") == len(rows), done)
        told = json.loads(self.read("told"))
        status = {sender["sender"]: sender for sender in told["senders"]}
        plain = self.made_of("plain", session())
        wanted = []
        for address, (datagrams, forms, is_same) in rows.items():
            wanted += [f"{address} {SAID[form]}" for form in forms]
            adapted = status[address]["adapted"]
            self.holds(f"{address}: its forms", {*adapted} == {*forms}, adapted)
            self.holds(f"{address}: none refused", status[address]["refused"] == {}, status)
            self.has_files(address, f"kept/{address}.journal")
            if is_same:
                self.made(["join", "-f", "-o", "wanted", "--source", address, plain])
                self.same(f"{address}: its journal", f"kept/{address}.journal", "wanted")
        told_once = sorted(err.splitlines()) == sorted(f"flutejoin-receive: {it}" for it in wanted)
        self.holds("each form is told once", told_once, err)
        self.holds("a count", status["127.0.0.2"]["adapted"] == {"FLUTE 1": 2}, status)

    def test_as_received(self) -> None:
        rows = [datagrams for datagrams, forms, _ in senders() if TIMES not in forms]
        rows.append(session() + session(Shape(fec=1)))
        sent = {f"127.0.0.{at}": datagrams for at, datagrams in enumerate(rows, 1)}
        out, err = self.received("--as-received -o kept", sent)
        self.holds("nothing is told", not err and "left out" not in out, (out, err))
        for address, datagrams in sent.items():
            wanted = datagram_files.content(datagrams)
            self.same(f"{address}: its bytes", f"kept/{address}.fldg", wanted)

    def test_as_received_by_a_setting(self) -> None:
        self.write("settings.toml", "as-received = true\n")
        sent = described(Shape(version=1))
        out, err = self.received("--config settings.toml -o kept", {ONE: sent})
        self.holds("nothing is told", (self.status, err) == (0, ""), err)
        self.same("its bytes", f"kept/{ONE}.fldg", datagram_files.content(sent))

    def test_left_out(self) -> None:
        """What can't be FLUTE 2 is told by its cause, of senders that are kept and of others."""
        sent = raptor()
        end = "the end of a session or an object, told by a packet without TOI"
        cause = f"left out {len(sent) - 1}: FEC Encoding ID 1 (Raptor)"
        out, err = self.received("-o unknown", {ONE: sent})
        told = [cause, f"left out 1: {end}"]
        self.holds("of an unknown sender", (self.status, out.splitlines()) == (1, told), out)
        self.holds("told at once", err == said(*told, "no datagrams came"), err)
        out, err = self.received("--status told -o kept", {ONE: described() + sent})
        self.holds("of one that is kept", out.splitlines()[1:3] == told, out)
        self.holds("told at once too", err == said(*told), err)
        sender = json.loads(self.read("told"))["senders"][0]
        counts = {line.partition(": ")[2]: int(line.split()[2][:-1]) for line in told}
        self.holds("in the status", sender["left_out"] == counts, sender)
        wanted = datagram_files.content(described())
        self.same("the others are kept", f"kept/{ONE}.fldg", wanted)

    def test_all_refused(self) -> None:
        """A sender of packets that are like FLUTE, of which flutejoin refuses each."""
        sent = packets(7, 0, b"no instance", 4, 2)
        out, err = self.received("--status told -o kept", {ONE: sent})
        told = f"{ONE} sends nothing that flutejoin join accepts; it refuses 3 NoInstance"
        self.holds("it is told", err == said(told), err)
        sender = json.loads(self.read("told"))["senders"][0]
        self.holds("in the status", sender["refused"] == {"NoInstance": 3}, sender)
        out, err = self.received("-o others", {ONE: sent + instance(7, 1, b"an instance")})
        self.holds("not once something is accepted", "NoInstance" not in err, err)

    def test_count(self) -> None:
        """Datagrams are counted as they come, also of several symbols."""
        file = Sent(1, bytes(range(200)), "http://h/a", symbol=10)
        receiver = self.receive("--count 4 -o kept")
        self.send_slowly(ONE, file.packets(7, Shape(together=5)))
        self.check("four datagrams", receiver.ended(), 0, None, None)
        self.same("twenty symbols", f"kept/{ONE}.fldg", datagram_files.content(file.packets(7)))

    def test_renewed(self) -> None:
        """A sender that renews Expires; a later run knows it."""
        for number, rounds in enumerate((range(3), range(3, 6))):
            out, err = self.received("-o kept", {ONE: renewing(rounds)})
            told = "" if number else said(f"{ONE} {TOLD}")
            self.holds(f"run {number} tells it", err == told, err)
            line = f"flutejoin-gather -o kept kept/{ONE}.fldg"
            self.holds(f"the line of run {number}", out.splitlines()[-1] == line, out)
        self.tool("flutejoin-gather", f"-o kept kept/{ONE}.fldg")
        self.has_files("a sender that renews", f"kept/{ONE}.journal")
        self.holds("one document", len(list(self.path("kept/fdt").glob("*.xml"))) == 1)

    def test_other_contents(self) -> None:
        """An FDT Instance of FLUTE 1 that has other contents is told, after a restart too."""
        first, second = (instance(7, 1, bytes([at]) * 3000, Shape(version=1)) for at in (1, 2))
        self.received("-o kept", {ONE: first})
        out, err = self.received("-o kept", {ONE: first + second})
        self.holds("it is told", f"{ONE} {TOLD}" in err, err)
        wanted = [*instance(7, 1, b"\1" * 3000) * 2, *instance(7, 1, b"\2" * 3000)]
        self.same("all is kept", f"kept/{ONE}.fldg", datagram_files.content(wanted))
