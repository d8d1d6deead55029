"""Cases of flutejoin-files: conflicting symbols whose right value the MD5 shows."""
from __future__ import annotations

import gzip
import os
import subprocess

import datagram_files
from tests.files.case import Case, md5, text
from tests.support.flute_sender import Sent, fdt, instance, packets
from tests.support.run import PROGRAM


class Resolved(Case):
    """Objects that are whole but for a few conflicting symbols."""

    def disputed(self) -> tuple[list[Sent], list[list[bytes]], list[list[bytes]]]:
        """Two files, their packets, and packets with another value for each symbol."""
        plain = Sent(1, text(1, 14_100), "http://h/a")
        encoded = Sent(2, text(2, 90_000), "http://h/b", gzip.compress(text(2, 90_000)))
        encoded.more = {"Content-Encoding": "gzip", "Content-MD5": md5(encoded.data())}
        encoded.is_in_packets = False
        forged = []
        for file in (plain, encoded):
            data = bytearray(file.data())
            data[5::1400] = bytes(byte ^ 1 for byte in data[5::1400])
            forged.append(packets(7, file.toi, bytes(data), 1400, 64, file.is_in_packets))
        return [plain, encoded], [plain.packets(7), encoded.packets(7)], forged

    def test_resolve(self) -> None:
        """Datagram files have the values of a few conflicting symbols; the MD5 chooses."""
        sent, right, forged = self.disputed()
        some = [forged[0][3], forged[0][7], forged[0][10], forged[1][0], forged[1][9]]
        self.journal("all", instance(7, 1, fdt(sent)), *right, some)
        answer = self.files("-o", "files", "all", status=1)
        self.assertIn("partial 2 (5 symbols, 7,000 bytes)", answer.out)
        answer = self.files("--list", "all", status=1)
        self.assertIn("partial 3  text/plain  http://h/a (3 in conflict)\n", answer.out)
        answer = self.files("-o", "files", "all", "--resolve", "--from", "all.fldg")
        self.assertEqual(
            answer.out,
            "resolved: h/a (3 conflicting symbols, by its MD5)\n"
            "resolved: h/b (2 conflicting symbols, by its MD5)\n"
            "written 2, verified 2; partial 0; wrong MD5 0\n",
        )
        self.assertEqual(self.tree(), {f"h/{it.location[-1]}": it.content for it in sent})
        self.assertEqual(self.runs.read_text().split(), ["gaps", "extract", "extract"])
        (self.folder / "cut").write_bytes((self.folder / "all.fldg").read_bytes()[:-1])
        (self.folder / "text").write_bytes(b"some text")
        os.mkfifo(self.folder / "pipe")
        for name, status, told in (
            ("cut", 1, "Cut"),
            ("text", 1, "is neither a datagram file nor a journal"),
            ("pipe", 3, "is no regular file"),
            ("nowhere", 3, "No such file or directory"),
        ):
            words = "all", "--resolve", "--from", "all.fldg", name
            answer = self.files("-o", "fault", *words, status=status)
            self.assertEqual(answer.err, f"flutejoin-files: {name}: {told}\n")
        self.assertFalse((self.folder / "fault").exists())

    def test_resolve_from_journals(self) -> None:
        """Each station's journal has one value, and the joined journal has neither."""
        sent, right, forged = self.disputed()
        first = instance(7, 1, fdt(sent))
        self.journal("one", first, right[0], right[1])
        self.journal("two", first, [*right[0][:4], forged[0][4]], [forged[1][1]])
        self.journal("three", first, [forged[0][4]], right[1][:3])
        words = "join", "-o", "all", "one", "two", "three"
        subprocess.run([PROGRAM, *words], cwd=self.folder, check=True, capture_output=True)
        told = (
            "resolved: h/a (1 conflicting symbol, by its MD5)\n"
            "resolved: h/b (1 conflicting symbol, by its MD5)\n"
            "written 2, verified 2; partial 0; wrong MD5 0\n"
        )
        rows: list[tuple[str, list[str], list[str]]] = [
            ("files", ["one", "two", "three"], []),
            ("files2", ["all"], ["--from", "one", "two"]),
        ]
        for folder, journals, more in rows:
            answer = self.files("-o", folder, *journals, "--resolve", *more)
            self.assertEqual(answer.out, told)
            wanted = {f"h/{it.location[-1]}": it.content for it in sent}
            self.assertEqual(self.tree(folder), wanted)

    def test_not_resolved(self) -> None:
        """The reason is reported, and no file is written."""
        sent, right, forged = self.disputed()
        some = [*forged[0][3:5], forged[1][0]]
        self.journal("all", instance(7, 1, fdt(sent)), *right, some)
        words = "all", "--resolve", "--from"
        for name, kept, told in (
            ("10.9.0.2.fldg", [*right[0], *right[1], *some], "no value of 2 of 2 conflicting"),
            ("some.fldg", [forged[0][3], forged[0][4]], "no combination has its MD5"),
            ("some.fldg", [right[0][3][:-1], right[0][4]], "no value of 1 of 2 conflicting"),
        ):
            with self.subTest(told):
                (self.folder / name).write_bytes(datagram_files.content(kept))
                answer = self.files("-o", "other", *words, name, status=1)
                self.assertIn(f"conflict not resolved: http://h/a ({told}", answer.out)
                self.assertIn("conflict not resolved: http://h/b (no value of 1 of 1", answer.out)
                self.assertIn("partial 2 (3 symbols", answer.out)
                self.assertEqual(self.tree("other"), {})
        # More conflicting symbols than the tool resolves
        self.journal("many", instance(7, 1, fdt(sent)), *right, forged[0], forged[1][:1])
        many = "many", "--resolve", "--from", "many.fldg", "10.9.0.2.fldg"
        answer = self.files("--list", "-o", "third", *many, status=1)
        self.assertIn("partial 11", answer.out)
        self.assertIn("http://h/a (11 in conflict)", answer.out)
        self.assertIn("(gzip, 90,000, 1 conflicting symbol, by its MD5, MD5 of the enc", answer.out)
