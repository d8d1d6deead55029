"""Captures of two senders that send one session and one object with different bytes; the station
lost some datagrams of both. tests/support/captures.py writes the captures from these rows."""
from __future__ import annotations

import pathlib
import re
import sys
from typing import Any

from tests.support import run
from tests.support.run import ROOT, SUPPORT, Run

SOURCES = {
    "10.0.0.1": "0a000001",
    "10.0.0.2": "0a000002",
    "2001-db8--1": "20010db8000000000000000000000001",
}
CUT_SHORT = "cut short by the capture (capture whole packets: tcpdump -s 0)"
NO_PORT = "cut short by the capture before the port"
ICMP = "13: ICMP error that quotes a datagram"
LOST = "6: a fragment is lost"
TWO, BOTH = "10.0.0.1=got1 10.0.0.2=got2", "10.0.0.1=got1 2001:db8::1=got2"
ONE, SIX = "10.0.0.1=got1", "2001:db8::1=got1"
# For each capture: its name, its options, and what is left out of it
TABLE = f"""
ethernet|--other --pad {TWO}|
ipv6|--other --pad {BOTH}|
vlan|--link vlan --other {BOTH}|
qinq|--link qinq --other --pad {BOTH}|
sll|--link sll --other --icmp {BOTH}|{ICMP}
sll_vlan|--link sllvlan {BOTH}|
sll2|--link sll2 --other --icmp {BOTH}|{ICMP}
raw|--link raw --other {BOTH}|
raw_bsd|--link rawbsd {BOTH}|
raw_openbsd|--link rawopenbsd {BOTH}|
raw_ipv4|--link raw4 {TWO}|
raw_ipv6|--link raw6 {SIX}|
loopback|--link null --other {BOTH}|
loopback_big|--link nullbig {BOTH}|
loopback_openbsd|--link loop {BOTH}|
headers|--headers {BOTH}|
disorder|--disorder 9 --other {BOTH}|
big|--form pcapbig --other {BOTH}|
nanoseconds|--form nano {BOTH}|
nanoseconds_big|--form nanobig {BOTH}|
pcapng|--form pcapng --other {BOTH}|
pcapng_big|--form pcapngbig {BOTH}|
pcapng_simple|--form pcapngsimple {BOTH}|
pcapng_old|--form pcapngold {BOTH}|
pcapng_sections|--form sections {BOTH}|
sections_two_links|--form sections --link ethernet,raw,sll {BOTH}|
two_links|--form pcapng --link ethernet,raw,sll --other {BOTH}|
gzip|--gzip {BOTH}|
gzip_pcapng|--form pcapng --gzip {BOTH}|
gzip_members|--members {BOTH}|
fragments|--fragment 400 --disorder 9 --other {BOTH}|
padded_fragments|--fragment 400 --pad --disorder 9 {BOTH}|
same_identification|--fragment 400 --same {BOTH}|
one_fragment|--fragment 2000 --same {SIX}|
odd_lengths|--pad 10.0.0.1=odd 2001:db8::1=odd|
short_fragments|--fragment 8 --disorder 40 {BOTH}|
last_fragment_first|--fragment 520 --disorder 3 {BOTH}|
repeated_fragments|--fragment 400 --spoil repeat --disorder 7 {BOTH}|
no_checksum_ipv4|--spoil nochecksum {TWO}|
lost_fragment|--fragment 400 --spoil lost --other {BOTH}|{LOST}
lost_first_fragment|--fragment 400 --spoil lostfirst {BOTH}|{LOST}, of a port that is not known
overlapping_fragments|--fragment 400 --spoil overlap {BOTH}|6: fragments overlap or disagree
overlong_fragments|--fragment 400 --spoil overlong {TWO}|6: fragments overlap or disagree
wrong_checksum|--spoil checksum --other {BOTH}|6: wrong UDP checksum
wrong_checksum_in_fragments|--spoil checksum --fragment 600 {BOTH}|6: wrong UDP checksum
no_checksum_ipv6|--spoil nochecksum {SIX}|3: no UDP checksum, which IPv6 demands
wrong_header_checksum|--spoil header {TWO}|6: wrong IPv4 header checksum
wrong_length|--spoil length {BOTH}|6: lengths in its headers that do not fit
icmp|--icmp --other {BOTH}|{ICMP}
snap|--snap 200 --other {BOTH}|50: {CUT_SHORT}
snap_headers|--snap 30 {BOTH}|50: {NO_PORT}
snap_link|--snap 10 --link ethernet {BOTH}|50: {NO_PORT}
snap_options|--headers --snap 34 {ONE}|23: {NO_PORT}
snap_port|--snap 40 {TWO}|50: {CUT_SHORT}
snap_pcapng|--form pcapng --snap 999 {BOTH}|50: {CUT_SHORT}
snap_simple|--form pcapngsimple --snap 1077 {TWO}|50: {CUT_SHORT}
snap_fragments|--fragment 400 --snap 300 {BOTH}|50: {CUT_SHORT}
gre|--tunnel gre {BOTH}|10: in a tunnel (GRE), which is not opened
vxlan|--tunnel vxlan {BOTH}|10: in a tunnel (VXLAN), which is not opened
wifi|--link wifi {TWO}|50: link type 105, which is not known here
cut|--cut 3 {TWO}|
cut_pcapng|--form pcapng --cut 3 {TWO}|
cut_gzip|--cut 30 --gzip {ONE}|
silence||
"""
ROWS = {name: (options, left_out) for name, options, left_out in
        (row.split("|") for row in TABLE.strip().splitlines())}
BEFORE = "the packets before it were read"


def said(*texts: str) -> str:
    return "".join(f"flutejoin-capture: {text}\n" for text in texts)


class Case(run.Case):
    def setUp(self) -> None:
        super().setUp()
        numbers = [f"{number:07}\n" for number in range(1, 5001)]
        for sender, lines in (1, numbers), (2, numbers[::-1]):
            self.write(f"file{sender}", "".join(lines))
            words = f"--tsi 7 --toi 1 --symbol 1000 --block 16 file{sender}"
            self.made(f"carousel -o sent{sender} {words}")
            lose = [ROOT / "examples" / "lose.py", f"sent{sender}", f"got{sender}", 35, sender]
            self.python(*lose)
        self.made("carousel -o odd --tsi 7 --toi 1 --symbol 999 --block 16 file1")
        self.path("made").mkdir()

    def python(self, *words: object) -> Run:
        """Runs a script by this Python, which has to succeed."""
        done = self.command([sys.executable, *words])
        self.assertEqual(done.status, 0, done)
        return done

    def helper(self, *words: object) -> Run:
        return self.python(SUPPORT / "captures.py", *words)

    def captures(self, *names: str) -> None:
        """Makes made/NAME of these rows, and made/NAME.kept, with the datagrams of each sender."""
        self.rows_made("made", *(f"{name}|{ROWS[name][0]}" for name in names))

    def rows_made(self, folder: str, *rows: str) -> None:
        """Makes the captures of these rows (`captures.py make`) in a folder."""
        self.write("rows", "".join(f"{row}\n" for row in rows))
        self.path(folder).mkdir(exist_ok=True)
        self.helper("make", "rows", folder)

    def capture(self, words: run.Words, **how: Any) -> Run:
        return self.tool("flutejoin-capture", words, **how)

    def capture_row(self, name: str, words: run.Words, *wanted: Any, **how: Any) -> Run:
        """Runs flutejoin-capture, and checks its status and outputs."""
        done = self.capture(words, **how)
        self.check(name, done, *wanted)
        return done

    def lines_to_join(self, done: Run) -> list[str]:
        return [line for line in done.lines() if line.startswith("flutejoin join ")]

    def join(self, name: str, done: Run) -> None:
        """Runs the commands that join each sender's files, as the tool printed them."""
        script = "\n".join(["set -e", *self.lines_to_join(done)])
        self.check(f"{name}: the lines to join", self.shell(script), 0, None)

    def joined(self, name: str, done: Run, folder: str, kept: str) -> None:
        """The commands make the same journals as the program makes of the datagram files of KEPT,
        and each file that was made has one of these senders."""
        self.join(name, done)
        files: list[pathlib.Path] = sorted(self.path(kept).iterdir())
        for path in files:
            sender = path.name.replace(":", "-")
            if path.stat().st_size > 6:
                self.made(["join", "-o", "wanted", "--source", SOURCES[sender], path])
                journal = self.path(folder) / f"{sender}.journal"
                self.same(f"{name}: the journal of {sender}", journal, "wanted")
            else:
                self.absent(f"{name}: no file of {sender}", f"{folder}/{sender}.fldg")
        senders = {*re.findall(r"--source (\S+)", "\n".join(self.lines_to_join(done)))}
        self.holds(f"{name}: no other senders", len(senders) <= len(files), senders)

    def left_out(self, done: Run) -> str:
        """The lines about what was left out, without their first words."""
        found = [line for line in done.lines() if line.startswith("left out ")]
        return "\n".join(line.removeprefix("left out ") for line in found)
