"""Cases of flutejoin-files: what FDT Instances describe, and which of them has priority."""
from __future__ import annotations

import gzip
import shutil
import subprocess

from tests.files.case import Case, md5, text
from tests.support.flute_sender import EXPIRES, Sent, fdt, instance
from tests.support.run import PROGRAM


class Instances(Case):
    """What FDT Instances describe, and which of them has priority."""

    def test_newest(self) -> None:
        """The FDT Instance with the later Expires has priority, whatever its number."""
        old = [Sent(1, b"x" * 3000, "http://h/wrong", more={"Content-MD5": md5(b"")})]
        old.append(Sent(2, text(2), "http://h/2"))
        new = [Sent(1, b"x" * 3000, "http://h/right"), Sent(3, text(3), "http://h/3")]
        sent = [file.packets(7) for file in [*old[1:], *new]]
        self.journal(
            "all", instance(7, 9, fdt(old)), instance(7, 1, fdt(new, EXPIRES + 1)), *sent
        )
        answer = self.files("--list", "all")
        self.assertIn("FDT Instances 1, 9, the newest 1, expires", answer.out)
        self.assertIn("http://h/2 (FDT Instance 9)\n", answer.out)
        self.assertIn("http://h/right\n", answer.out)
        self.assertEqual(
            answer.err,
            "flutejoin-files: sender 10.9.0.1 session 7 object 1: FDT Instances 1 and 9 differ in "
            "Content-Location, Content-MD5; 1 counts, which expires later\n",
        )
        self.files("-o", "files", "all")
        self.assertEqual(sorted(self.tree()), ["h/2", "h/3", "h/right"])

    def test_of_equal_rank(self) -> None:
        """With the same Expires and number, the one that was read first has priority."""
        for name, location in (("one", "http://h/1"), ("two", "http://h/2")):
            file = Sent(1, text(1), location)
            self.journal(name, instance(7, 1, fdt([file])), file.packets(7))
        answer = self.files("-o", "files", "one", "two")
        self.assertIn("1 of one counts, which was read first\n", answer.err)
        self.assertEqual(self.tree(), {"h/1": text(1)})

    def test_many_differences(self) -> None:
        old = [Sent(toi, b"%d" % toi, f"http://h/{toi}") for toi in range(1, 31)]
        new = [Sent(toi, b"%d" % toi, f"http://h/new{toi}") for toi in range(1, 31)]
        sent = [file.packets(7) for file in new]
        self.journal("all", instance(7, 1, fdt(old)), instance(7, 2, fdt(new, EXPIRES + 1)), *sent)
        answer = self.files("--list", "all")
        self.assertEqual(len(answer.err.splitlines()), 21)
        self.assertIn("10 more such differences", answer.err)

    def test_a_newer_file_of_the_same_name(self) -> None:
        old, new = Sent(1, text(1), "http://h/a"), Sent(2, text(2), "http://h/a")
        first, second = instance(7, 1, fdt([old])), instance(7, 2, fdt([new], EXPIRES + 1))
        self.journal("all", first, old.packets(7))
        self.files("-o", "files", "all")
        self.assertEqual(self.tree(), {"h/a": old.content})
        self.journal("all", first, old.packets(7), second, new.packets(7))
        answer = self.files("--list", "all")
        self.assertIn("    1  5,000  100.0%  replaced  text/plain  http://h/a (FDT", answer.out)
        answer = self.files("-o", "files", "all")
        self.assertEqual(
            answer.out,
            "changed: h/a\nwritten 1, verified 1; partial 0; replaced 1; wrong MD5 0\n",
        )
        self.assertEqual(self.tree(), {"h/a": new.content})

    def test_a_sender_that_starts_again(self) -> None:
        """Two FDT Instances 1 are in conflict when joined, and whole in each journal."""
        one, two = Sent(1, text(1), "http://h/1"), Sent(2, text(2), "http://h/2")
        self.journal("monday", instance(7, 1, fdt([one])), one.packets(7))
        self.journal("tuesday", instance(7, 1, fdt([one, two], EXPIRES + 60)), two.packets(7))
        answer = self.files("--list", "-o", "files", "monday", "tuesday")
        told = "FDT Instances 1 of monday, 1 of tuesday, the newest 1 of tuesday"
        self.assertIn(told, answer.out)
        self.assertEqual(self.tree(), {"h/1": one.content, "h/2": two.content})
        self.assertLessEqual(len(self.runs.read_text().split()), 5)

        words = "join", "-o", "joined", "monday", "tuesday"
        subprocess.run([PROGRAM, *words], cwd=self.folder, check=True, capture_output=True)
        answer = self.files("--list", "joined", status=1)
        told = "session 7: no FDT Instance\n  FDT Instance 1: conflicting information\n"
        self.assertIn(told, answer.out)
        self.assertIn("in no FDT Instance: 4 symbols", answer.out)
        (self.folder / "fdt.xml").write_bytes(fdt([one, two]))
        self.files("--list", "-o", "files2", "--fdt", "fdt.xml", "joined")
        self.assertEqual(self.tree("files2"), {"h/1": one.content, "h/2": two.content})
        # If both have the same length, only symbols are in conflict.
        self.journal("friday", instance(7, 1, fdt([one], EXPIRES + 60)))
        shutil.copy(self.folder / "monday", self.folder / "sunday")
        answer = self.files("--list", "monday", "friday", "sunday")
        self.assertIn("FDT Instances 1 of monday, 1 of friday, the newest 1 of friday", answer.out)

    def test_handed_in(self) -> None:
        file = Sent(1, text(1), "http://h/a", is_in_packets=False)
        self.journal("all", file.packets(7))
        answer = self.files("--list", "all", status=1)
        self.assertIn("session 7: no FDT Instance\n", answer.out)
        (self.folder / "fdt.xml").write_bytes(fdt([file]))
        answer = self.files("--list", "-o", "files", "--fdt", "fdt.xml", "all")
        self.assertIn("FDT Instance fdt.xml, expires 2026", answer.out)
        self.assertEqual(self.tree(), {"h/a": file.content})
        (self.folder / "None").write_bytes(fdt([file]))  # as its number is not given
        answer = self.files("--list", "--fdt", "None", "all")
        self.assertIn("FDT Instance None, expires 2026", answer.out)
        self.journal("other", file.packets(8))
        answer = self.files("--list", "--fdt", "fdt.xml", "all", "other", status=2)
        self.assertIn("--fdt is of one session, and there are 2", answer.err)
        self.files("--list", "--fdt", "fdt.xml", "--tsi", 8, "all", "other")
        answer = self.files("--list", "--fdt", "nowhere", "all", status=3)
        self.assertEqual(answer.err, "flutejoin-files: nowhere: No such file or directory\n")

    def test_not_whole(self) -> None:
        """A later FDT Instance that is not whole may describe more files."""
        one, many = Sent(1, text(1), "http://h/1"), [Sent(t, b"", "x" * 500) for t in range(2, 9)]
        late = instance(7, 2, fdt(many))
        self.assertGreater(len(late), 1)
        self.journal("all", instance(7, 1, fdt([one])), late[1:], one.packets(7))
        answer = self.files("--list", "-o", "files", "all", status=1)
        self.assertIn("  FDT Instance 2: partial 1\n", answer.out)
        early = instance(7, 1, fdt(many))
        self.journal("all", instance(7, 2, fdt([one])), early[1:], one.packets(7))
        self.files("--list", "-o", "files", "all")

    def test_forms(self) -> None:
        """Attributes of the root element, any namespace, no Transfer-Length."""
        none = dict.fromkeys(
            ("FEC-OTI-FEC-Encoding-ID", "FEC-OTI-Encoding-Symbol-Length", "Content-Type")
        )
        none["FEC-OTI-Maximum-Source-Block-Length"] = None
        of_root = {
            "FEC_OTI_FEC_Encoding_ID": 0,
            "FEC_OTI_Encoding_Symbol_Length": 1400,
            "FEC_OTI_Maximum_Source_Block_Length": 64,
            "Content_Type": "text/html",
        }
        for prefix in ("", "fdt"):
            file = Sent(1, text(1), "http://h/a", is_in_packets=False, more=dict(none))
            file.more["Transfer-Length"] = None
            xml = fdt([file], prefix=prefix, **of_root)
            self.journal("all", instance(7, 1, xml), file.packets(7))
            answer = self.files("--list", "-o", "files", "all")
            self.assertIn("verified  text/html  http://h/a\n", answer.out)
            self.assertEqual(self.tree(), {"h/a": file.content})
        # No namespace at all, XML's own entities, and an attribute with a prefix
        own = (
            '<x:FDT-Instance Expires="4000000000"><x:File TOI="1" y:TOI="5" FEC-OTI-Encoding-Symbol'
            '-Length="1400" FEC-OTI-Maximum-Source-Block-Length="64" Content-Length="5000" '
            'y:Content-Location="http://h/a&amp;b&#x263A;"><x:More/></x:File></x:FDT-Instance>'
        )
        for encoding in ("utf-8", "utf-16"):
            self.journal("all", instance(7, 1, own.encode(encoding)), file.packets(7))
            shutil.rmtree(self.folder / "files")
            self.files("-o", "files", "all", status=1)
            self.assertEqual(self.tree(), {"h/a&b\u263a": file.content})

    def test_encoded_without_transfer_length(self) -> None:
        """Content-Length is that of the decoded file, not of the object."""
        file = Sent(1, text(1), "http://h/a", gzip.compress(text(1)), is_in_packets=False)
        file.more = {"Content-Encoding": "gzip", "Transfer-Length": None}
        self.session("all", [file])
        answer = self.files("--list", "all", status=1)
        self.assertIn("no information", answer.out)
        file.is_in_packets = True
        self.session("all", [file])
        self.files("-o", "files", "all")
        self.assertEqual(self.tree(), {"h/a": file.content})

    def test_left_alone(self) -> None:
        sent = [
            Sent(1, text(1), "http://h/1", more={"FEC-OTI-FEC-Encoding-ID": 5}),
            Sent(2, text(2), "http://h/2", more={"Content-Encoding": "br"}),
            Sent(3, text(3), "http://h/3", is_in_packets=False),
        ]
        sent[2].more = {"FEC-OTI-Maximum-Source-Block-Length": 0}
        self.session("all", sent)
        answer = self.files("--list", "-o", "files", "all", status=1)
        for told in ("FEC Encoding ID 5: left alone", "Content-Encoding br: left alone"):
            self.assertIn(told, answer.err)
        self.assertIn("transmission information that is not valid: BlockLength", answer.err)
        self.assertIn("  FEC Encoding ID 5    text/plain  http://h/1\n", answer.out)
        self.assertEqual(
            answer.out.splitlines()[-1],
            "written 0, verified 0; partial 0; missing 1; left alone 2; wrong MD5 0",
        )

    def test_packets_disagree(self) -> None:
        """FEC OTI in packets that differs from the FDT's is reported, and has priority."""
        sent = [Sent(toi, text(toi), f"http://h/{toi}") for toi in (1, 2)]
        sent[0].more = {"FEC-OTI-Maximum-Source-Block-Length": 65}
        sent[1].more = {"Transfer-Length": 5001, "Content-Length": 5001}
        self.session("all", sent)
        answer = self.files("-o", "files", "all")
        self.assertEqual(
            answer.err,
            "flutejoin-files: sender 10.9.0.1 session 7 object 1: packets have length 5000 symbol "
            "1400 block 64, and the FDT has length 5000 symbol 1400 block 65\n"
            "flutejoin-files: sender 10.9.0.1 session 7 object 2: packets have length 5000 symbol "
            "1400 block 64, and the FDT has length 5001 symbol 1400 block 64\n",
        )
        self.assertEqual(self.tree(), {"h/1": sent[0].content, "h/2": sent[1].content})

    def test_conflicting_information(self) -> None:
        """Without an MD5 the length that the FDT has shows which is right; without that nothing."""
        file = Sent(1, text(1), "http://h/a", more={"Content-MD5": None})
        other = Sent(1, text(1, 4000), "http://h/a")
        self.journal("all", instance(7, 1, fdt([file])), file.packets(7), other.packets(7)[:1])
        answer = self.files("--list", "-o", "files", "all", status=1)
        self.assertIn("not verified", answer.out)
        self.assertIn("by its length, no MD5", answer.out)
        self.assertEqual(self.tree(), {"h/a": file.content})
        file.more.update({"Content-Length": None, "Transfer-Length": None})
        self.journal("none", instance(7, 1, fdt([file])), file.packets(7), other.packets(7)[:1])
        answer = self.files("--list", "-o", "others", "none", status=1)
        self.assertIn("conflicting information", answer.out)
        self.assertIn("missing 1", answer.out)

    def test_odd_attributes(self) -> None:
        file = Sent(1, text(1), "http://h/a")
        others = [
            Sent(0, b"", "http://h/0"),
            Sent(1, b"", "http://h/again"),
            Sent(2, b"2", "", more={"Content-MD5": "short", "Content-Length": "many"}),
            Sent(3, b"3", "http://h/3", more={"TOI": "-3"}),
            Sent(4, b"4", "http://h/4", more={"TOI": 1 << 112}),
        ]
        self.journal("all", instance(7, 1, fdt([file, *others], "soon")), file.packets(7))
        answer = self.files("--list", "-o", "files", "all", status=1)
        for told in (
            "Expires is no time",
            "a File has no TOI (3 times)",
            "a TOI stands twice; the first counts",
            "Content-MD5 is not 16 bytes in base64",
            "Content-Length is no number of its range",
            "TOI is no number of its range (2 times)",
            "a File has no Content-Location",
        ):
            self.assertIn(f"FDT Instance 1: {told}\n", answer.err)
        self.assertIn("expires at no known time", answer.out)
        self.assertEqual(self.tree(), {"h/a": file.content})
