"""Senders of other forms of FLUTE, from captures to files."""
from __future__ import annotations

import ipaddress

import datagram_files
from tests.capture.case import Case, said
from tests.support import captures, other_forms
from tests.support.flute_sender import Shape, packets
from tests.support.other_forms import (
    SAID,
    TOLD,
    described,
    grouped,
    raptor,
    renewing,
    senders,
    session,
)

ETHERNET = b"\x01\0\x5e\1\1\1\2\0\0\0\0\1\x08\0"
GROUP = ipaddress.ip_address("239.1.1.1").packed


class Forms(Case, other_forms.Case):
    def captured(self, name: str, sent: dict[str, list[bytes]]) -> str:
        """Makes a capture of what these senders send, and returns its name."""
        frames = []
        for address, datagrams in sent.items():
            source = ipaddress.ip_address(address).packed
            for datagram in datagrams:
                data = captures.udp(source, GROUP, datagram)
                frame = ETHERNET + captures.ip4(source, GROUP, 17, data)
                frames.append((1, frame, len(frame)))
        self.write(name, captures.pcap(frames, "<", 0xA1B2C3D4, 65535))
        return name

    def test_files(self) -> None:
        rows = {f"10.0.0.{at}": row for at, row in enumerate(senders(), 1)}
        name = self.captured("all", {address: row[0] for address, row in rows.items()})
        wanted = [f"{address} {SAID[form]}" for address in rows for form in rows[address][1]]
        done = self.capture(["--port", captures.PORT, "-o", "made", name])
        self.check("the capture", done, 0, None, None)
        told = sorted(done.err.decode().splitlines())
        told_once = told == sorted(f"flutejoin-capture: {it}" for it in wanted)
        self.holds("each form is told once", told_once, done.err)
        self.holds("nothing is left out", b"left out" not in done.out, done)
        self.join("senders", done)
        self.write("plain", datagram_files.content(session()))
        for address, (_, _, is_same) in rows.items():
            self.has_files(address, f"made/{address}.journal")
            if is_same:
                self.made(["join", "-f", "-o", "wanted", "--source", address, "plain"])
                self.same(f"{address}: its journal", f"made/{address}.journal", "wanted")
        flows = self.capture([name]).lines()
        like = [line for line in flows if line.endswith(f"{len(session())} like FLUTE")]
        self.holds("the list counts them", len(flows) == 9 and len(like) >= 3, flows)
        zero = [line for line in flows if " 0 like FLUTE" in line]
        self.holds("none is unlike FLUTE", not zero, zero)

    def test_as_received(self) -> None:
        rows = {f"10.0.0.{at}": row[0] for at, row in enumerate(senders(), 1)}
        rows["10.0.0.99"] = raptor()
        name = self.captured("all", rows)
        done = self.capture(["--as-received", "--port", captures.PORT, "-o", "made", name])
        self.check("as received", done, 0, None)
        for address, datagrams in rows.items():
            wanted = datagram_files.content(datagrams)
            self.same(f"{address}: its bytes", f"made/{address}.fldg", wanted)

    def test_left_out(self) -> None:
        sent = raptor()
        end = "the end of a session or an object, told by a packet without TOI"
        told = f"left out {len(sent) - 1}: FEC Encoding ID 1 (Raptor)\nleft out 1: {end}\n"
        name = self.captured("raptor", {"10.0.0.1": sent})
        done = self.capture(["--port", captures.PORT, "-o", "none", name])
        text = said("nothing is written, since all datagrams are left out")
        self.check("a sender of Raptor", done, 1, told, text)
        self.absent("no folder", "none")
        flow = f"from 10.0.0.1 to --group 239.1.1.1 --port {captures.PORT}: {len(sent)} datagrams"
        listed = f"{flow}, 0 like FLUTE (FEC Encoding ID 1 (Raptor))"
        self.check("a list", self.capture([name]), 0, listed)
        name = self.captured("two", {"10.0.0.1": described() + sent})
        done = self.capture(["--port", captures.PORT, "-o", "both", name])
        self.holds("the others are kept", told in done.out.decode(), done)
        wanted = datagram_files.content(described())
        self.same("and not those", "both/10.0.0.1.fldg", wanted)

    def test_all_refused(self) -> None:
        name = self.captured("refused", {"10.0.0.1": packets(7, 0, b"no instance", 4, 2)})
        text = "10.0.0.1 sends nothing that flutejoin join accepts; it refuses 3 NoInstance"
        done = self.capture(["--port", captures.PORT, "-o", "refused.d", name])
        self.check("it is told", done, 0, None, said(text))
        self.holds("and kept", self.exists("refused.d/10.0.0.1.fldg"))

    def test_renewed(self) -> None:
        """A sender that renews Expires: one document, and all files."""
        name = self.captured("renewing", {"10.0.0.1": renewing(range(6))})
        done = self.capture(["--port", captures.PORT, "-o", "renewed", name])
        self.check("a sender that renews", done, 0, None, said(f"10.0.0.1 {TOLD}"))
        line = "flutejoin-gather -o renewed renewed/10.0.0.1.fldg"
        self.holds("the line", done.lines()[-1] == line, done)
        self.tool("flutejoin-gather", "-o renewed renewed/10.0.0.1.fldg")
        self.has_files("a sender that renews", "renewed/10.0.0.1.journal")
        self.holds("one document", len(list(self.path("renewed/fdt").glob("*.xml"))) == 1)

    def test_lost_packets(self) -> None:
        """With every third packet lost, what is there is the same as of one symbol a packet."""
        shape = Shape(version=1, together=4)
        kept = [datagram for at, datagram in enumerate(session(shape, shape)) if at % 3]
        name = self.captured("lossy", {"10.0.0.1": kept})
        done = self.capture(["--port", captures.PORT, "-o", "lost", name])
        self.check("a capture with losses", done, 0, None, None)
        self.join("losses", done)
        groups = [group for at, group in enumerate(grouped(session(), 4)) if at % 3]
        self.write("plain", datagram_files.content(packet for group in groups for packet in group))
        self.made(["join", "-o", "wanted", "--source", "10.0.0.1", "plain"])
        self.same("its journal", "lost/10.0.0.1.journal", "wanted")
