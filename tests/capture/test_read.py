"""What flutejoin-capture reads, prints and writes."""
from __future__ import annotations

import os
import struct
import sys

import datagram_files
from tests.capture.case import BEFORE, ROWS, Case, said
from tests.support import captures
from tests.support.run import ROOT, Run

TOLD = "changes an FDT Instance: flutejoin-gather keeps apart what differs"
JOIN6 = "flutejoin join --any-size --source 20010db8000000000000000000000001"
JOIN1 = "flutejoin join --any-size --source 0a000001"
JOIN99 = "flutejoin join --any-size --source 0a000063"
NONE = "no UDP datagrams"
LISTED = "without --port all flows are listed"
OCCUPIED = "is there already, and is left as it is; no other file is written for its sender"
VXLAN = b"left out 10: in a tunnel (VXLAN), which is not opened"
PARTS = f"""
import sys
sys.path.insert(0, {str(ROOT / "tools")!r})
from flutejoin_tools.capture import parts
from flutejoin_tools.common.disk import MOST_BYTES
from flutejoin_tools.common.log import Log
parts.MOST = 10
out = parts.Files("records", MOST_BYTES, Log("test"))
out.make_folder()
for number in range(25):
    out.add(b"\\x0a\\0\\0\\1", b"datagram")
out.finish()
"""


def ipv6_and_ipv4(folder: str) -> str:
    """What flutejoin-capture prints of the two senders, with their files in this folder."""
    return (
        f"{folder}/2001-db8--1.fldg: 27 datagrams from 2001:db8::1\n"
        f"{folder}/10.0.0.1.fldg: 23 datagrams from 10.0.0.1\n"
        f"{JOIN6} -o {folder}/2001-db8--1.journal {folder}/2001-db8--1.fldg\n"
        f"{JOIN1} -o {folder}/10.0.0.1.journal {folder}/10.0.0.1.fldg\n"
    )


class Rows(Case):
    """A capture's whole, undamaged datagrams give the same journals as those that were sent, and
    the others are counted."""

    def test_captures(self) -> None:
        self.captures(*ROWS)
        for name, (_, left_out) in ROWS.items():
            done = self.capture(f"--port 4001 -o out.{name} made/{name}")
            self.holds(f"{name}: what is left out", self.left_out(done) == left_out, done)
            if name.startswith("snap") or name in ("wifi", "silence"):
                text = said(f"{NONE} to port 4001; {LISTED}")
                self.check(name, done, 1, None, text)
                self.absent(f"{name}: no folder", f"out.{name}")
                continue
            is_cut = name.startswith("cut")
            self.check(name, done, 1 if is_cut else 0, None, None if is_cut else "")
            if name != "cut_gzip":
                self.joined(name, done, f"out.{name}", f"made/{name}.kept")

    def test_cut_at_its_end(self) -> None:
        self.captures("cut", "cut_gzip")
        text = said(f"made/cut: ends within a packet; {BEFORE}")
        self.capture_row("a capture", "--port 4001 -o out made/cut", 1, None, text)
        text = said(f"made/cut_gzip: ends within what gzip compressed; {BEFORE}")
        words = "--port 4001 -o out2 made/cut_gzip"
        done = self.capture_row("a compressed capture", words, 1, None, text)
        self.join("a compressed capture", done)
        self.made("join -o wanted --source 0a000001 got1")
        self.made("merge -o merged wanted out2/10.0.0.1.journal")
        self.same("what came before the cut is part of the whole", "merged", "wanted")


class Printed(Case):
    def setUp(self) -> None:
        super().setUp()
        self.captures("ethernet", "ipv6", "vlan", "pcapng", "sll", "vxlan")

    def test_files(self) -> None:
        words = "--port 4001 -o printed made/ipv6"
        self.capture_row("the files and the lines", words, 0, ipv6_and_ipv4("printed"))
        self.same("one sender's is what it sent", "printed/10.0.0.1.fldg", "got1")
        count = len(os.listdir(self.path("printed")))
        self.holds("nothing beside", count == 2, count)

    def test_flows(self) -> None:
        six = "from 2001:db8::1 to --group ff3e::4321 --port 4001: 27 datagrams, 27 like FLUTE\n"
        flows = (
            f"{six}"
            "from 10.0.0.1 to --group 239.1.1.1 --port 4001: 23 datagrams, 23 like FLUTE\n"
            "from 10.0.0.99 to --group 239.1.1.2 --port 5353: 10 datagrams, 0 like FLUTE\n"
        )
        self.capture_row("the flows", "made/ipv6", 0, flows)
        self.capture_row("the flows to a group", "--group ff3e::4321 made/ipv6", 0, six)

    def test_groups_and_ports(self) -> None:
        wanted = (
            "grouped/10.0.0.1.fldg: 23 datagrams from 10.0.0.1\n"
            "left out 6: ICMP error that quotes a datagram\n"
            f"{JOIN1} -o grouped/10.0.0.1.journal grouped/10.0.0.1.fldg\n"
        )
        words = "--port 4001 --group 239.1.1.1 -o grouped made/sll"
        self.capture_row("a group", words, 0, wanted)
        wanted = (
            "ports/2001-db8--1.fldg: 27 datagrams from 2001:db8::1\n"
            "ports/10.0.0.99.fldg: 10 datagrams from 10.0.0.99\n"
            f"{JOIN6} -o ports/2001-db8--1.journal ports/2001-db8--1.fldg\n"
            f"{JOIN99} -o ports/10.0.0.99.journal ports/10.0.0.99.fldg\n"
        )
        of = "--port 5353 --port 4001 --group ff3e::4321 --group 239.1.1.2"
        text = "10.0.0.99 sends nothing that flutejoin join accepts; it refuses 10 LctVersion"
        self.capture_row("two of both", f"{of} -o ports made/ipv6", 0, wanted, said(text))

    def test_tunnels(self) -> None:
        done = self.capture("--port 4001 --group 239.1.1.1 -o tunnels made/vxlan")
        self.holds("beside a group", b"\n" + VXLAN in b"\n" + done.out, done)
        done = self.capture("made/vxlan")
        self.holds("in a list", b"\n" + VXLAN in b"\n" + done.out, done)

    def test_several(self) -> None:
        words = "--port 4001 -o several made/ethernet made/vlan made/pcapng"
        done = self.capture_row("several captures", words, 0, None)
        is_one = b"several/10.0.0.1.fldg: 69 datagrams" in done.out
        self.holds("their datagrams are in one file", is_one, done)


class SendingHost(Case):
    def test_any_checksum(self) -> None:
        self.rows_made("sending", "sent|--spoil unfilled 10.0.0.1=got1")
        words = "--any-checksum --port 4001 -o sender sending/sent"
        self.capture_row("any checksum", words, 0, None)
        self.same("all datagrams", "sender/10.0.0.1.fldg", "got1")

    def test_most_checksums_fail(self) -> None:
        """The network card fills in the checksums of what this host itself sends."""
        self.rows_made("sending", "whole|10.0.0.1=sent1")
        data, place = bytearray(self.read("sending/whole")), 24
        while place < len(data):
            at = place + 16 + 14 + 20
            data[at + 6 : at + 8] = b"\x12\x34"
            place += 16 + struct.unpack_from("<I", data, place + 8)[0]
        self.write("unfilled", bytes(data))
        hint = (
            "most UDP checksums do not hold; if this was captured on the sending host, "
            "where they are filled in later, use --any-checksum"
        )
        wrong = "left out 40: wrong UDP checksum"
        text = said(hint, f"{NONE} to port 4001; {LISTED}")
        words = "--port 4001 -o sending_host unfilled"
        self.capture_row("datagram files", words, 1, wrong, text)
        self.capture_row("a list", "unfilled", 1, wrong, said(hint, NONE))

    def test_offload(self) -> None:
        """A sender passes 20 datagrams at once to its network card, which splits them."""
        source, target = b"\x0a\0\0\1", b"\xef\1\1\1"
        sent = [*datagram_files.read(str(self.path("sent1")))]
        frames = []
        for at in range(0, len(sent), 20):
            data = captures.udp(source, target, b"".join(sent[at : at + 20]))
            data = data[:6] + b"\x12\x34" + data[8:]
            frame = captures.LINKS["ethernet"][1] + captures.ip4(source, target, 17, data)
            frames.append((1, frame, len(frame)))
        self.write("sending", captures.pcap(frames, "<", 0xA1B2C3D4, 262144))
        words = "--any-checksum --port 4001 -o offload sending"
        self.capture_row("segmentation offload", words, 0, None)
        self.same("its datagrams are taken apart", "offload/10.0.0.1.fldg", "sent1")
        self.made("join -o offload.journal offload/10.0.0.1.fldg")
        self.row("no misfit", "gaps offload.journal", 0, "session 7 object 1 whole 40000")


class Restarts(Case):
    """A sender that restarts: its FDT Instance 1 has other contents, and its object other bytes."""

    def test_restart(self) -> None:
        runs = []
        for number in 1, 2:
            file = f'<File TOI="1" Content-MD5="{number}"/>'
            self.write(f"fdt{number}", f'<FDT-Instance Expires="{number}">{file}</FDT-Instance>')
            of = "--tsi 7 --toi 0 --fdt 1 --symbol 99 --block 16"
            self.made(f"carousel -o fdt_sent{number} {of} fdt{number}")
            runs.append(self.read(f"fdt_sent{number}") + self.read(f"sent{number}")[6:])
        self.write("runs", runs[0] + 2 * runs[1][6:])
        self.rows_made("sending", "again|10.0.0.1=runs")
        first, second = "again/10.0.0.1", "again/10.0.0.1.g2"
        line = f"flutejoin-gather -o again {first}.fldg"
        wanted = f"{first}.fldg: 123 datagrams from 10.0.0.1\n{line}\n"
        words = "--port 4001 -o again sending/again"
        self.capture_row("it starts again", words, 0, wanted, said(f"10.0.0.1 {TOLD}"))
        done = self.tool("flutejoin-gather", line.partition(" ")[2])
        self.check("it is gathered", done, 0, None, None)
        for number, name in (1, first), (2, second):
            of = "extract -f -o object --source 0a000001 --tsi 7 --toi"
            self.made(f"{of} 1 {name}.journal")
            self.same(f"the file of run {number}", "object", f"file{number}")
        documents = sorted(path.read_bytes() for path in self.path("again/fdt").glob("*.xml"))
        self.holds("the FDT Instances", documents == [self.read("fdt1"), self.read("fdt2")])


class Parts(Case):
    def test_split(self) -> None:
        """Files in parts, in a folder that already contains a file."""
        self.captures("ethernet")
        self.path("a folder").mkdir()
        self.write("a folder/kept", "before")
        words = "--port 4001 -o 'a folder' --split 2100 made/ethernet"
        done = self.capture_row("split", words, 0, None)
        sizes = [path.stat().st_size for path in self.path("a folder").glob("*.fldg")]
        self.holds("no part is longer", max(sizes) <= 2100, sizes)
        parts = [*self.path("a folder").glob("10.0.0.1.*fldg")]
        self.holds("there are parts", len(parts) == 12, parts)
        self.same("the file that was there", "a folder/kept", b"before")
        self.joined("split", done, "a folder", "made/ethernet.kept")

    def test_lines_of_64_inputs(self) -> None:
        self.captures("ethernet", "vlan")
        self.rows_made("sending", "whole|10.0.0.1=sent1")
        words = "--port 4001 -o tiny --split 1 sending/whole made/ethernet made/vlan"
        done = self.capture(words)
        count = len(os.listdir(self.path("tiny")))
        self.holds("each datagram has a file", count == 140, count)
        lines = [line for line in self.lines_to_join(done) if line.startswith(f"{JOIN1} ")]
        self.holds("a line has 64 inputs at most", len(lines) == 2, lines)
        self.join("many parts", done)
        self.made("join -o wanted --source 0a000001 sent1")
        self.same("the journal of many parts", "tiny/10.0.0.1.journal", "wanted")

    def test_records(self) -> None:
        done = self.command([sys.executable, "-c", PARTS])
        wanted = (
            "records/10.0.0.1.fldg: 10 datagrams from 10.0.0.1\n"
            "records/10.0.0.1.2.fldg: 10 datagrams from 10.0.0.1\n"
            "records/10.0.0.1.3.fldg: 5 datagrams from 10.0.0.1\n"
        )
        self.check("a file has as many as are read", done, 0, wanted)

    def test_names(self) -> None:
        """Names that a shell would split."""
        self.captures("ethernet")
        self.write("it's", "x")
        text = said("cannot make the folder ./it's: File exists")
        words = ["--port", "4001", "-o", "./it's", "made/ethernet"]
        self.capture_row("a file in its place", words, 3, "", text)
        self.remove("it's")
        done: Run = self.capture(["--port", "4001", "-o", "it's", "made/ethernet"])
        self.joined("a quote", done, "it's", "made/ethernet.kept")
        self.capture_row("an option", "--port 4001 -o -x made/ethernet", 2, "", None)
        done = self.capture_row("a hyphen", "--port 4001 -o=-x made/ethernet", 0, None)
        self.joined("a hyphen", done, "./-x", "made/ethernet.kept")


class There(Case):
    """Files that are already there are never touched."""

    def setUp(self) -> None:
        super().setUp()
        self.captures("ethernet", "ipv6")

    def test_file(self) -> None:
        self.capture_row("the first run", "--port 4001 -o there made/ethernet", 0, None)
        wanted = (
            "there/2001-db8--1.fldg: 27 datagrams from 2001:db8::1\n"
            "left out 23: its sender's file cannot be made\n"
            f"{JOIN6} -o there/2001-db8--1.journal there/2001-db8--1.fldg\n"
        )
        text = said(f"there/10.0.0.1.fldg: {OCCUPIED}")
        self.capture_row("a second run", "--port 4001 -o there made/ipv6", 3, wanted, text)
        self.same("the file that was there", "there/10.0.0.1.fldg", "got1")

    def test_leftover(self) -> None:
        self.path("left").mkdir()
        self.write("left/10.0.0.1.fldg.partial", "before")
        hint = "rename what a killed run left, or flutejoin-mend it if it is cut"
        text = said(f"left/10.0.0.1.fldg.partial: {OCCUPIED}; {hint}")
        self.capture_row("a leftover", "--port 4001 -o left made/ethernet", 3, None, text)
        self.same("it stays", "left/10.0.0.1.fldg.partial", b"before")
        self.holds("the other sender has a file", self.exists("left/10.0.0.2.fldg"))

    def test_journal(self) -> None:
        self.join("a first run", self.capture("--port 4001 -o again made/ethernet"))
        for path in self.path("again").glob("*.fldg"):
            path.unlink()
        self.rows_made("sending", "whole|10.0.0.1=sent1")
        journal = "again/10.0.0.1.journal"
        wanted = (
            "again/10.0.0.1.fldg: 40 datagrams from 10.0.0.1\n"
            f"{JOIN1} -o {journal} {journal} again/10.0.0.1.fldg\n"
        )
        words = "--port 4001 -o again sending/whole"
        self.capture_row("a journal that is there is joined", words, 0, wanted)
