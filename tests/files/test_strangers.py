"""Cases of flutejoin-files: few, chosen datagrams of somebody who is not the sender."""
from __future__ import annotations

import gzip
import shutil
import struct
import subprocess
from typing import Any

from tests.files.case import Case, md5, text
from tests.support.flute_sender import EXPIRES, Sent, fdt, header, instance, packets
from tests.support.run import PROGRAM

FOR_EVER = (1 << 32) - 1  # an Expires of 2036


def forged(files: dict[int, dict[str, Any]]) -> list[bytes]:
    """An FDT Instance that expires later than all others, with these attributes of files."""
    none = dict.fromkeys(
        ("Content-Length", "Transfer-Length", "Content-Type", "FEC-OTI-FEC-Encoding-ID")
        + ("FEC-OTI-Encoding-Symbol-Length", "FEC-OTI-Maximum-Source-Block-Length", "Content-MD5")
    )
    sent = [Sent(toi, b"", f"http://h/{toi}", more={**none, **of}) for toi, of in files.items()]
    return instance(7, 77, fdt(sent, FOR_EVER))


class Descriptions(Case):
    """Of several descriptions of a file that counts which the MD5 verifies, and not a date."""

    def setUp(self) -> None:
        super().setUp()
        self.sent = [Sent(toi, text(toi), f"http://h/{toi}") for toi in range(1, 11)]
        self.right = [packet for file in self.sent for packet in file.packets(7)]
        self.wanted = {f"h/{file.toi}": file.content for file in self.sent}

    def stays(self, *more: list[bytes], told: str = "", status: int = 0) -> str:
        """Checks that all files are written and verified, whatever else comes."""
        self.journal("all", instance(7, 1, fdt(self.sent)), self.right, *more)
        shutil.rmtree(self.folder / "files", ignore_errors=True)
        answer = self.files("-o", "files", "all", status=status)
        self.assertEqual(
            answer.out.splitlines()[-1], "written 10, verified 10; partial 0; wrong MD5 0"
        )
        self.assertEqual(self.tree(), self.wanted)
        self.assertIn(told, answer.err)
        return answer.err

    def test_another_md5(self) -> None:
        wrong = {toi: {"Content-MD5": md5(b"another")} for toi in range(1, 5)}
        err = self.stays(forged(wrong), told="1 counts, whose MD5 the object has")
        suspect = (
            "FDT Instance 77 contradicts files whose MD5 is right, and none is as it says: it may "
            "be forged; flutejoin forget --source 00000000000000000000ffff0a090001 --tsi 7 --toi 0 "
            "--fdt 77 -o J J removes it\n"
        )
        self.assertIn(suspect, err)
        later = instance(7, 2, fdt(self.sent, EXPIRES + 60))
        self.stays(forged(wrong), later, told="77 and 2 differ in")

    def test_the_line_that_forgets_it(self) -> None:
        wrong = {toi: {"Content-MD5": md5(b"another")} for toi in range(1, 5)}
        err = self.stays(forged(wrong))
        (line,) = [part for part in err.split("; ") if part.startswith("flutejoin forget")]
        words = line.split(" removes it")[0].replace("J J", "all all").split()[1:]
        subprocess.run([PROGRAM, *words], cwd=self.folder, check=True, capture_output=True)
        answer = self.files("-o", "files", "all")
        self.assertEqual(answer.err, "")

    def test_an_encoding_that_is_none(self) -> None:
        wrong = {toi: {"Content-Encoding": "x"} for toi in range(1, 11)}
        self.stays(forged(wrong), told="FDT Instance 77 contradicts")

    def test_another_name_without_md5(self) -> None:
        sent = [Sent(toi, b"", "e", more={"Content-MD5": None}) for toi in range(1, 11)]
        self.stays(instance(7, 77, fdt(sent, FOR_EVER)), told="FDT Instance 77 contradicts")

    def test_other_lengths(self) -> None:
        """The files' packets have no EXT_FTI, and the forged Instance has other FEC OTI."""
        for file in self.sent:
            file.is_in_packets = False
        self.right = [packet for file in self.sent for packet in file.packets(7)]
        wrong = {
            toi: {
                "Transfer-Length": 4200,
                "FEC-OTI-Encoding-Symbol-Length": 1400,
                "FEC-OTI-Maximum-Source-Block-Length": 64,
            }
            for toi in range(1, 11)
        }
        self.stays(forged(wrong))

    def test_a_newer_name_of_nothing(self) -> None:
        """A newer file of the same name replaces an older one only once it is there."""
        wrong = {99: {"Content-Location": "http://h/1", "Content-MD5": md5(b"another")}}
        self.journal("all", instance(7, 1, fdt(self.sent)), self.right, forged(wrong))
        self.files("-o", "files", "all", status=1)
        self.assertEqual(self.tree(), self.wanted)

    def test_a_part_of_an_old_number(self) -> None:
        """FDT Instance 1048575 is older than 1, since numbers begin again."""
        part = packets(7, 0, b"<", 9, 1, instance=0xFFFFF)
        self.stays([packet.replace(b"\0\0\0\0\0\1\0\0", b"\0\0\0\0\0\x09\0\0") for packet in part])

    def test_without_any_md5(self) -> None:
        """Then the FDT Instance that expires later counts, as nothing shows which is right."""
        none = {"Content-MD5": None}
        one, two = (Sent(1, text(1), f"http://h/{name}", more=none) for name in "ab")
        first, second = instance(7, 9, fdt([one])), instance(7, 1, fdt([two], EXPIRES + 1))
        self.journal("all", first, second, one.packets(7))
        answer = self.files("-o", "files", "all", status=1)
        self.assertIn("1 counts, which expires later", answer.err)
        self.assertEqual(self.tree(), {"h/b": text(1)})

    def test_which_are_suspect(self) -> None:
        """An Instance that verifies a file is not suspect, nor is one of a single file.

        Then the status is 1, since a file may be sent that is not there yet.
        """
        wrong = {toi: {"Content-MD5": md5(b"another")} for toi in range(1, 5)}
        right = {5: {"Content-Location": "http://h/5", "Content-MD5": md5(self.sent[4].content)}}
        for some in {**wrong, **right}, {1: wrong[1]}:
            self.assertNotIn("contradicts", self.stays(forged(some), status=1))


class Lengths(Case):
    """What --resolve decides, and what is decided without it."""

    def setUp(self) -> None:
        super().setUp()
        self.file = Sent(1, text(1, 20_000), "http://h/1", symbol=1000, block=16)
        self.right = [*instance(7, 1, fdt([self.file])), *self.file.packets(7)]

    def decides(self, others: list[bytes], *words: object, told: str) -> None:
        """Checks that the right file is written, also where a stranger sent these datagrams."""
        self.journal("all", self.right, others)
        shutil.rmtree(self.folder / "files", ignore_errors=True)
        answer = self.files("-o", "files", *words, "all")
        self.assertEqual(self.tree(), {"h/1": self.file.content})
        self.assertIn(f"resolved: h/1 ({told}, by its MD5)\n", answer.out)

    def test_another_length_in_a_datagram(self) -> None:
        """One datagram of 32 bytes with another EXT_FTI; the FDT's FEC OTI is right."""
        other = struct.pack(">BB6sHHI", 64, 4, (20_001).to_bytes(6, "big"), 0, 1000, 16)
        self.decides([header(7, 1, other)], told="lengths")

    def test_another_length_where_the_fdt_has_none(self) -> None:
        """The datagram files have both lengths."""
        self.file.more = {
            "FEC-OTI-Encoding-Symbol-Length": None,
            "FEC-OTI-Maximum-Source-Block-Length": None,
        }
        self.right = [*instance(7, 1, fdt([self.file])), *self.file.packets(7)]
        other = struct.pack(">BB6sHHI", 64, 4, (20_001).to_bytes(6, "big"), 0, 1000, 16)
        words = "--resolve", "--from", "all.fldg", "--"
        self.decides([header(7, 1, other)], *words, told="lengths")

    def test_short_symbols(self) -> None:
        """20 forged symbols of one byte: only one combination has the right lengths."""
        front = header(7, 1, b"")
        short = [front + struct.pack(">HH", b, i) + b"x" for b in (0, 1) for i in range(10)]
        words = "--resolve", "--from", "all.fldg", "--"
        self.decides(short, *words, told="20 conflicting symbols")

    def test_an_instance(self) -> None:
        """Symbols of an FDT Instance are in conflict: of several versions the XML is taken."""
        xml = fdt([self.file, *(Sent(toi, b"", "x" * 700) for toi in (2, 3))])
        parts = instance(7, 1, xml)
        self.assertGreater(len(parts), 2)
        other = bytearray(parts[1])
        other[-20:] = b"<" * 20
        self.journal("all", parts, [bytes(other)], self.file.packets(7))
        self.files("--list", "all", status=1)
        answer = self.files("-o", "files", "all", status=1)
        self.assertEqual(self.tree(), {})
        words = "--resolve", "--from", "all.fldg", "--"
        answer = self.files("--list", "-o", "files", *words, "all", status=None)
        self.assertIn("FDT Instance 1 of combined", answer.out)
        self.assertEqual(self.tree()["h/1"], self.file.content)

    def test_decoded_md5(self) -> None:
        """The MD5 may be that of the decoded bytes."""
        content = text(2, 90_000)
        file = Sent(2, content, "http://h/2", gzip.compress(content))
        file.more = {"Content-Encoding": "gzip"}
        right = file.packets(7)
        data = bytearray(file.object or b"")
        data[1500] ^= 1
        wrong = packets(7, 2, bytes(data), 1400, 64)[1:2]
        self.journal("all", instance(7, 1, fdt([file])), right, wrong)
        self.files("-o", "files", "--resolve", "--from", "all.fldg", "--", "all")
        self.assertEqual(self.tree(), {"h/2": content})

    def test_many_values(self) -> None:
        """Twelve journals have another value of each of three symbols, and one the right ones."""
        front, names = header(7, 1, b""), []
        for number in range(12):
            some = [front + struct.pack(">HH", 0, i) + bytes([number]) * 1000 for i in range(3)]
            names.append(self.journal(f"j{number}", self.right[:1], self.right[4:], some))
        names.append(self.journal("right", self.right[:4]))
        answer = self.files("-o", "files", *names)
        self.assertEqual(self.tree(), {"h/1": self.file.content})
        self.assertIn("resolved: h/1 (3 conflicting symbols, by its MD5)\n", answer.out)

    def test_what_it_costs(self) -> None:
        """Objects of many combinations and no right one end within the run's bound."""
        many = [Sent(toi, text(toi, 40_000), f"http://h/{toi}", symbol=1000) for toi in range(1, 9)]
        sent = [packet for file in many for packet in file.packets(7)]
        for file in many:
            file.more = {"Content-MD5": md5(b"another")}
            data = bytes(byte ^ 1 for byte in file.content)
            sent += packets(7, file.toi, data, 1000, 64)[:10]
        self.journal("all", instance(7, 1, fdt(many)), sent)
        words = "--resolve", "--from", "all.fldg", "--"
        answer = self.files("-o", "files", *words, "all", status=1)
        self.assertEqual(answer.out.count("(no combination has its MD5)"), 8)

    def test_what_many_cost(self) -> None:
        """Combinations of more objects than are tried in one run: that is told of the others."""
        many = [Sent(toi, text(toi, 18), f"http://h/{toi}", symbol=2) for toi in range(1, 401)]
        sent = [packet for file in many for packet in file.packets(7)]
        for file in many:
            file.more = {"Content-MD5": md5(b"another")}
            data = bytes(byte ^ 1 for byte in file.content)
            sent += packets(7, file.toi, data, 2, 64)
        self.journal("all", instance(7, 1, fdt(many)), sent)
        words = "--resolve", "--from", "all.fldg", "--"
        answer = self.files("-o", "files", *words, "all", status=1)
        tried = answer.out.count("(no combination has its MD5)")
        left = answer.out.count("(with those of other objects its combinations are too many)")
        self.assertEqual(tried + left, 400)
        self.assertTrue(tried and left, (tried, left))
