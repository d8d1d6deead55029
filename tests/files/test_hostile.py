"""Cases of flutejoin-files: XML, names and contents of an attacker."""
from __future__ import annotations

import contextlib
import gzip
import os
import random
import struct
import zlib

from flutejoin_tools.fdt import fdt as fdt_module
from flutejoin_tools.fdt import names as fdt_names
from tests.files.case import Case, md5, text
from tests.support.flute_sender import EXPIRES, Sent, fdt, instance, packets
from tests.support.run import PROGRAM


def raw_deflate(data: bytes) -> bytes:
    stream = zlib.compressobj(wbits=-15)
    return stream.compress(data) + stream.flush()


class Hostile(Case):
    """XML of an attacker."""

    def refused(self, xml: bytes, told: str) -> None:
        """Checks that an FDT Instance is refused with this line, and that the other one is used."""
        file = Sent(1, text(1), "http://h/a")
        self.journal("all", instance(7, 1, fdt([file])), file.packets(7))
        (self.folder / "fdt.xml").write_bytes(xml)
        answer = self.files("-o", "files", "--fdt", "fdt.xml", "all", status=1)
        self.assertRegex(
            answer.err,
            rf"\Aflutejoin-files: sender 10.9.0.1 session 7: FDT Instance fdt.xml: {told}\n\Z",
        )
        self.assertEqual(self.tree(), {"h/a": file.content})

    def test_dtd(self) -> None:
        laughs = "".join(
            f'<!ENTITY l{at + 1} "{f"&l{at};" * 10}">' for at in range(9)
        )
        dtd = f'<!DOCTYPE x [<!ENTITY l0 "lol">{laughs}<!ENTITY e SYSTEM "file:///etc/passwd">]>'
        xml = fdt([Sent(1, b"", "&l9;&e;")]).replace(b"?>", b"?>" + dtd.encode(), 1)
        self.refused(xml, "has a DTD .*")

    def test_large(self) -> None:
        head, end = b'<FDT-Instance Expires="1">', b"</FDT-Instance>"
        most = (16 << 20) - len(head) - len(end)
        self.refused(head + b" " * (most + 1) + end, "more than 16 MB of XML")
        self.refused(head + b"<a>" * (most // 3), "has elements in one another, more than 16")
        names = b"".join(b"<a%x/>" % at for at in range(most // 10))
        self.refused(head + names + end, "has more than 4096 names of elements and attributes")
        self.refused(head + b"<File " + b'a="" ' * (most // 5), "a tag or a comment of more .*")
        names = b"".join(b' a%x=""' % at for at in range(most // 10))
        self.refused(head + b"<File " + names + b"/>" + end, "a tag or a comment of more .*")
        self.refused(head + b"<!--" + b"a" * most, "a tag or a comment of more .*")
        many = b"".join(b'<File TOI="%d"/>' % at for at in range(1, most // 24))
        self.refused(head + many + end, "describes more than 8192 files, or with much text")
        entry = b'<File TOI="%d" Content-Location="' + b"a" * 60000 + b'"/>'
        long = b"".join(entry % at for at in range(1, 260))
        (self.folder / "fdt.xml").write_bytes(head + long + end)
        file = Sent(1, text(1), "http://h/a", more={"Content-MD5": None})
        self.session("all", [file])
        self.files("--list", "--fdt", "fdt.xml", "all", status=1)

    def test_many_described(self) -> None:
        """The memory of a run is bounded, whatever FDT Instances describe."""
        names = ["\U0001f600" * 450, "\U000e0001" * 450]
        file = Sent(9000, text(1), "http://h/a")
        self.journal("all", instance(7, 1, fdt([file], EXPIRES + 9)), file.packets(7))
        for number in range(3):
            tois = range(1 + 8000 * number, 8001 + 8000 * number)
            many = [Sent(toi, b"", f"http://h/{toi}{names[toi % 2]}") for toi in tois]
            (self.folder / f"fdt{number}").write_bytes(fdt(many))
        words = [word for number in range(3) for word in ("--fdt", f"fdt{number}")]
        answer = self.files("-o", "files", *words, "all", status=1)
        self.assertIn("2 FDT Instances were left, the older ones: the others take", answer.err)
        self.assertEqual(self.tree()["h/a"], file.content)
        # Many Instances that describe the same files count once.
        files = [Sent(toi, b"", f"http://h/{toi}") for toi in range(1, 1000)]
        sent = [instance(7, number, fdt(files, EXPIRES + number)) for number in range(1, 40)]
        self.journal("all", *sent)
        answer = self.files("--list", "all", status=0)
        self.assertEqual(answer.err, "")

    def test_many_gaps(self) -> None:
        """Each of these datagrams of 37 bytes makes 65,535 gaps, which the list doesn't show."""
        file = Sent(1, text(1), "http://h/a")
        stray = packets(7, 2, b"x" * 65_536, 1, 1)[0]
        strays = [stray[:12] + struct.pack(">I", toi) + stray[16:] for toi in range(2, 400)]
        self.journal("all", instance(7, 1, fdt([file])), file.packets(7), strays)
        told = self.folder / "told"
        script = f'{PROGRAM} "$@" | tee -a {told}\nexit "${{PIPESTATUS[0]}}"'
        self.program.write_text(f"#!/bin/bash\n{script}\n")
        answer = self.files("--list", "all")
        self.assertLess(told.stat().st_size, 100_000)
        self.assertIn("    1   5,000  100.0%  whole  text/plain  http://h/a\n", answer.out)
        self.assertIn("   21  65,536       -  in no FDT Instance: 1 symbol\n", answer.out)
        self.assertEqual(answer.out.splitlines()[-1], "  378 more objects in no FDT Instance")

    def test_many_empty_files(self) -> None:
        """Only an FDT Instance describes these empty files, which are more than a store holds."""
        file = Sent(9000, text(1), "http://h/a", is_in_packets=False)
        many = [Sent(toi, b"", f"http://h/{toi}") for toi in range(1, 8000)]
        self.journal("all", instance(7, 1, fdt([file, *many])), file.packets(7))
        answer = self.files("-o", "files", "all")
        self.assertIn("written 8000, verified 8000; partial 0;", answer.out)

    def test_no_xml(self) -> None:
        self.refused(b"", "is no XML: no element found.*")
        self.refused(b"\0" * 100, "is no XML.*")
        self.refused(b"<html/>", "is no FDT Instance")
        self.refused(b'<?xml version="1.0" encoding="rot13"?><FDT-Instance/>', "is no XML.*")
        self.refused(b'<?xml version="1.0" encoding="zlib"?><FDT-Instance/>', "is no XML.*")
        self.refused(b"<FDT-Instance>&x;</FDT-Instance>", "is no XML: undefined entity.*")
        self.refused(fdt([])[:-3], "is no XML: .*")

    def test_compressed(self) -> None:
        """An FDT Instance may be compressed; the same bounds apply to its decompressed bytes."""
        file = Sent(1, text(1), "http://h/a")
        xml = fdt([file])
        encoded = gzip.compress(xml), zlib.compress(xml), raw_deflate(xml)
        for number, whole in enumerate(encoded, 1):
            self.journal("all", instance(7, number, whole), file.packets(7))
            self.files("-o", f"files{number}", "all")
            self.assertEqual(self.tree(f"files{number}"), {"h/a": file.content})
            self.refused(whole[:-1], "cannot be decoded: it ends too early")
            wrong = whole[:20] + b"\0\xff" * 9 + whole[20:]
            # What begins with wrong codes is not known as DEFLATE.
            self.refused(wrong, "is no XML.*" if number == 3 else "cannot be decoded: Error .*")
        large = b'<FDT-Instance Expires="1">' + b" " * (16 << 20)
        self.refused(gzip.compress(large), "more than 16 MB of XML")
        self.refused(gzip.compress(large[:26] + b"<!--" + large), "a tag or a comment of more .*")

    def test_damaged(self) -> None:
        """200 damaged FDT Instances in a journal: none ends the run."""
        draw, file = random.Random(1), Sent(1000, text(1), "http://h/a")
        groups = [instance(7, 1000, fdt([file], EXPIRES + 100)), file.packets(7)]
        for number in range(1, 201):
            some = [Sent(toi, b"", f"http://h/{toi}") for toi in range(1, 4)]
            xml = bytearray(fdt(some, EXPIRES, ["", "x"][number % 2]))
            for _ in range(draw.randrange(1, 6)):
                at = draw.randrange(len(xml))
                xml[at : at + draw.randrange(3)] = draw.randbytes(draw.randrange(3))
            end = draw.choice([len(xml), draw.randrange(1, len(xml))])
            groups.append(instance(7, number, bytes(xml[:end])))
        self.journal("all", *groups)
        answer = self.files("--list", "-o", "files", "all", status=None)
        self.assertGreater(answer.err.count("is no XML"), 10)
        self.assertEqual(self.tree()["h/a"], file.content)

    def test_damaged_alone(self) -> None:
        """2,000 more damaged FDT Instances, read without the tool."""
        draw, path = random.Random(2), self.folder / "fdt.xml"
        whole = fdt([Sent(toi, b"", f"http://h/{toi}\u263a") for toi in range(1, 4)])
        for _ in range(2000):
            xml = bytearray(whole)
            for _ in range(draw.randrange(1, 4)):
                at = draw.randrange(len(xml))
                xml[at] = draw.choice([draw.randrange(256), *b'<>&"=/ \0'])
            path.write_bytes(xml)
            with contextlib.suppress(fdt_module.Refused):
                fdt_module.read(str(path), 1, "1")


class Names(Case):
    """Names that lead out of the folder, or that several files share."""

    HOSTILE = {
        "http://h/../../../etc/passwd": "h/etc/passwd",
        "/etc/passwd": "etc/passwd",
        "file:///etc/shadow": "etc/shadow",
        "../../escaped": "escaped",
        "http://h/%2e%2e/%2E%2E/dots": "h/dots",
        "http://h/a%2Fb": "h/a%2Fb",
        "http://h/a%00b": "h/a%00b",
        "http://h/a\n\r\tb\x7f\x9b": "h/a%0A%0D%09b%7F%C2%9B",
        "http://h/red%1B[31m%0A": "h/red%1B[31m%0A",
        "http://../up": "%2E./up",
        "http://.git/config": "%2Egit/config",
        "http://h/.profile": "h/%2Eprofile",
        "-rf": "%2Drf",
        "http://h/x.partial": "h/x%2Epartial",
        "http://h/x.unverified": "h/x%2Eunverified",
        "http://h/a\\b": "h/a%5Cb",
        "http://user:secret@H:80/p?q=1/2#f": "h:80/p?q=1%2F2",
        "http://h/folder/": "h/folder/index",
        "http://h/%252Fa": "h/%252Fa",
        "http://h/%FF%FE": "h/%FF%FE",
        "http://h/\u202egnp.exe": "h/%E2%80%AEgnp.exe",
        "http://h/\u00fcber \u263a": "h/\u00fcber \u263a",
        "http://h/back~1": "h/back%7E1",
        "http://h/~bob/a": "h/~bob/a",
    }

    def test_hostile(self) -> None:
        sent = [Sent(toi, text(toi, 20), name) for toi, name in enumerate(self.HOSTILE, 1)]
        self.session("all", sent)
        (self.folder / "etc").mkdir()
        self.files("--list", "all")
        before = {path for path in self.folder.iterdir() if path.name != "files"}
        self.files("--list", "-o", "files", "all")
        wanted = {path: file.content for path, file in zip(self.HOSTILE.values(), sent)}
        self.assertEqual(self.tree(), wanted)
        self.assertEqual({it for it in self.folder.iterdir() if it.name != "files"}, before)

    def test_an_encoding_without_their_characters(self) -> None:
        """Where the system has ASCII alone, such a name keeps no other file away."""
        self.environment = {"LC_ALL": "C", "PYTHONUTF8": "0", "PYTHONCOERCECLOCALE": "0"}
        names = "http://h/\u00fcber \u263a", "http://h/plain"
        sent = [Sent(toi, text(toi, 20), name) for toi, name in enumerate(names, 1)]
        self.session("all", sent)
        answer = self.files("--list", "-o", "files", "all")
        paths = "h/%C3%BCber %E2%98%BA", "h/plain"
        self.assertEqual(self.tree(), {path: of.content for path, of in zip(paths, sent)})
        self.assertIn("http://h/?ber ?\n", answer.out)

    def test_long(self) -> None:
        names = ["a" * 300, "a" * 301, "b" * 300 + ".txt", "\u263a" * 300, "/".join("c" * 200)]
        names += ["/".join(["d" * 100] * 30), "e" * 2000, "e" * 3000, "f" * 240 + "%2F" * 30]
        sent = [Sent(toi, text(toi, 20), f"http://h/{name}") for toi, name in enumerate(names, 1)]
        self.session("all", sent)
        self.files("--list", "-o", "files", "all")
        tree = self.tree()
        self.assertEqual(sorted(tree.values()), sorted(file.content for file in sent))
        self.assertTrue(all(len(part.encode()) < 200 for path in tree for part in path.split("/")))
        self.assertTrue(any(path.endswith(".txt") for path in tree))

    def test_two_of_a_name(self) -> None:
        names = ["http://h/a", "https://H/a", "http://h/b", "http://h/b/c", "http://h/b/c/d", "h/a"]
        sent = [Sent(toi, text(toi, 20), name) for toi, name in enumerate(names, 1)]
        self.session("all", sent)
        answer = self.files("--list", "-o", "files", "all")
        paths = ["h/a", "h/a~7-2", "h/b~7-3", "h/b/c~7-4", "h/b/c/d", "h/a~7-6"]
        wanted = {path: file.content for path, file in zip(paths, sent)}
        self.assertEqual(self.tree(), wanted)
        self.assertEqual(answer.err.count("another file has the name"), 4)

    def test_links_are_not_followed(self) -> None:
        """Links that are already in FOLDER are not followed."""
        sent = [Sent(toi, text(toi, 20), f"http://h{toi}/a/b") for toi in range(1, 6)]
        self.session("all", sent)
        outside, root = self.folder / "outside", self.folder / "files"
        for folder in (outside, root, root / "h2", root / "h3", root / "h4/a/b"):
            folder.mkdir(parents=True)
        (root / "h1").symlink_to(outside)
        (root / "h2/a").symlink_to("../../outside")
        (root / "h3/a").write_bytes(b"a file")
        (outside / "target").write_bytes(b"outside")
        (root / "h5/a").mkdir(parents=True)
        (root / "h5/a/b").symlink_to(outside / "target")
        answer = self.files("-o", "files", "all", status=3)
        self.assertEqual(os.listdir(outside), ["target"])
        self.assertEqual((outside / "target").read_bytes(), b"outside")
        self.assertEqual(len(answer.err.splitlines()), 5, answer.err)
        self.assertIn("files/h4/a/b: is in the way", answer.err)
        self.assertIn("files/h3/a/b: a file or a link is in the way", answer.err)
        self.assertIn("not written 5", answer.out)

    def test_paths(self) -> None:
        """Each part of a path is safe, whatever the name."""
        draw = random.Random(4)
        alphabet = "/./..%2F%2e%00\\~:?#@[]\0\n\x1b\u202e\u263aabc-.\U000e0001"
        for _ in range(20_000):
            name = "".join(draw.choices(alphabet, k=draw.randrange(40)))
            name = draw.choice(["", "http://", "file:", "//", "h/"]) + name * draw.choice([1, 1, 9])
            path = fdt_names.path_of(name)
            for part in path.split("/"):
                self.assertTrue(part.isprintable() and part and part[0] not in ".-", (name, path))
                self.assertLess(len(part.encode()), 200)
            self.assertLess(len(path.encode()), 1000)


class Content(Case):
    """The contents of objects, and whether they are right."""

    def test_encodings(self) -> None:
        content = text(1, 60_000)
        in_two = gzip.compress(content[:9]) + gzip.compress(content[9:])
        forms = {
            "gzip": [gzip.compress(content), in_two],
            "x-gzip": [gzip.compress(content)],
            "zlib": [zlib.compress(content)],
            "deflate": [zlib.compress(content), raw_deflate(content)],
            "GZIP": [gzip.compress(content)],
            "identity": [content],
        }
        sent: list[Sent] = []
        for encoding, objects in forms.items():
            for encoded in objects:
                for digest in (content, encoded):
                    toi = len(sent) + 1
                    more = {"Content-Encoding": encoding, "Content-MD5": md5(digest)}
                    sent.append(Sent(toi, content, f"http://h/{toi}", encoded, more=more))
        self.session("all", sent)
        answer = self.files("--list", "-o", "files", "all")
        self.assertEqual(self.tree(), {f"h/{file.toi}": content for file in sent})
        self.assertIn("(gzip, 60,000, MD5 of the decoded bytes)", answer.out)
        self.assertIn("(zlib, 60,000, MD5 of the encoded bytes)", answer.out)
        answer = self.files("-o", "files", "all")
        self.assertIn(f"written 0, unchanged {len(sent)}, verified {len(sent)};", answer.out)

    def test_without_md5(self) -> None:
        none = {"Content-MD5": None}
        sent = [Sent(toi, text(toi), f"http://h/{toi}", more=none) for toi in (1, 2)]
        sent.append(Sent(3, text(3), "http://h/3"))
        self.session("all", sent)
        answer = self.files("-o", "files", "all", status=1)
        self.assertEqual(
            answer.out,
            "not verified: h/1 (no MD5)\nnot verified: h/2 (no MD5)\nnew: h/3\n"
            "written 3, verified 1, not verified 2; partial 0; wrong MD5 0\n",
        )
        self.assertEqual(self.tree(), {f"h/{file.toi}": file.content for file in sent})

    def test_forged_symbols(self) -> None:
        """Two forged symbols fill a gap: the object is whole, but its MD5 is wrong."""
        file = Sent(1, text(1, 14_000), "http://h/a")
        forged = bytearray(file.content)
        forged[2800:5600] = b"\0" * 2800
        right, wrong = file.packets(7), packets(7, 1, bytes(forged), 1400, 64)
        self.journal("all", instance(7, 1, fdt([file])), right[:2], wrong[2:4], right[4:])
        answer = self.files("--list", "all")
        self.assertIn("100.0%  whole", answer.out)
        answer = self.files("-o", "files", "all", status=1)
        self.assertEqual(
            answer.out,
            "wrong MD5: h/a.unverified\nwritten 1, verified 0; partial 0; wrong MD5 1\n",
        )
        self.assertEqual(self.tree(), {"h/a.unverified": bytes(forged)})
        answer = self.files("-o", "files", "all", status=1)
        self.assertIn("written 0, unchanged 1, verified 0;", answer.out)
        self.session("all", [file])
        self.files("-o", "files", "all")
        self.assertEqual(self.tree(), {"h/a": file.content})

    def test_bombs(self) -> None:
        """Decoded bytes are limited by Content-Length, or by --most."""
        content = b"\0" * 10_000_000
        encoded = gzip.compress(content)
        wrong = {"Content-Encoding": "gzip", "Content-MD5": None}
        sent = [
            Sent(1, content, "http://h/1", encoded, more={**wrong, "Content-Length": 1000}),
            Sent(2, content, "http://h/2", encoded, more={**wrong, "Content-Length": None}),
            Sent(3, content, "http://h/3", encoded, more={**wrong, "Content-MD5": md5(encoded)}),
            Sent(4, content, "http://h/4", encoded, more={**wrong, "Content-Length": 10_000_001}),
            Sent(5, content, "http://h/5", encoded[:-9], more=wrong),
            Sent(6, content, "http://h/6", encoded + b"more", more=wrong),
            Sent(7, content, "http://h/7", b"no gzip", more=wrong),
            Sent(8, content, "http://h/8", b"no gzip", more={**wrong, "Content-MD5": md5(b"")}),
        ]
        self.session("all", sent)
        answer = self.files("-o", "files", "all", status=1)
        self.assertIn("new: h/3\n", answer.out)
        lines = [line for line in answer.out.splitlines() if not line.startswith("new: ")]
        self.assertEqual(lines[0], "wrong: h/1.unverified (gzip: more than 1,000 bytes come out)")
        self.assertEqual(lines[1], "not verified: h/2 (no MD5)")
        self.assertEqual(
            lines[2], "wrong: h/4.unverified (10,000,000 bytes, and Content-Length 10,000,001)"
        )
        self.assertEqual(lines[3], "wrong: h/5.unverified (gzip: it ends too early)")
        self.assertTrue(lines[5].startswith("wrong: h/7.unverified (gzip: "), lines)
        self.assertTrue(lines[6].startswith("wrong MD5: h/8.unverified (gzip: "), lines)
        self.assertEqual(
            lines[-1], "written 8, verified 1, not verified 1; partial 0; wrong MD5 1; wrong 5"
        )
        tree = self.tree()
        self.assertEqual(tree["h/3"], content)
        self.assertEqual(tree["h/1.unverified"], encoded)
        self.assertEqual(tree["h/2"], content)

    def test_lengths(self) -> None:
        sent = [
            Sent(1, text(1), "http://h/1", more={"Content-Length": 4000, "Content-MD5": None}),
            Sent(2, text(2), "http://h/2", more={"Content-Length": 4000}),
        ]
        self.session("all", sent)
        answer = self.files("--list", "-o", "files", "all", status=1)
        self.assertEqual(self.tree(), {"h/1.unverified": text(1), "h/2": text(2)})
        self.assertIn("http://h/2 (5,000 bytes, and Content-Length 4,000)", answer.out)
