"""Cases of flutejoin-files: several journals, names of several senders, and what a run may cost."""
from __future__ import annotations

import collections
import gzip
import hashlib
import json
import os
import struct
import unittest

from flutejoin_tools.fdt import fdt as fdt_module
from flutejoin_tools.files import session as files_session
from flutejoin_tools.files import catalogue
from flutejoin_tools.journals.states import State
from tests.files.case import Case, text
from tests.support.flute_sender import EXPIRES, Sent, fdt, header, instance, packets
from tests.support.run import PROGRAM


class Journals(Case):
    """What one journal alone has is taken where its MD5 holds."""

    def setUp(self) -> None:
        super().setUp()
        self.sent = [Sent(toi, text(toi, 9000), f"http://h/{toi}") for toi in range(1, 41)]
        self.next = [Sent(toi, text(900 + toi, 9000), f"http://h/{toi}") for toi in range(1, 41)]
        self.wanted = {f"h/{file.toi}": file.content for file in self.sent}

    def packets_of(self, sent: list[Sent], number: int, expires: int) -> list[bytes]:
        parts = [packet for file in sent for packet in file.packets(7)]
        return [*instance(7, number, fdt(sent, expires)), *parts]

    def test_a_poisoned_journal(self) -> None:
        """It has another run of the sender too; the two good journals lose nothing by it."""
        of = self.packets_of(self.sent, 1, EXPIRES)
        self.journal("a", of)
        self.journal("b", of, self.packets_of(self.next, 1, EXPIRES + 60))
        self.journal("c", of)
        answer = self.files("-o", "files", "a", "b", "c")
        self.assertEqual(
            answer.out.splitlines()[-1], "written 40, verified 40; partial 0; wrong MD5 0"
        )
        self.assertEqual(self.tree(), self.wanted)

    def test_some_joined(self) -> None:
        """Neither of the good ones is whole alone; both are, without the poisoned one."""
        of, other = self.packets_of(self.sent, 1, EXPIRES), self.packets_of(self.next, 1, EXPIRES)
        self.journal("a", [packet for at, packet in enumerate(of) if at % 3])
        self.journal("b", other)
        self.journal("c", [packet for at, packet in enumerate(of) if at % 3 != 1])
        (self.folder / "fdt.xml").write_bytes(fdt(self.sent, EXPIRES + 90))
        answer = self.files("-o", "files", "--fdt", "fdt.xml", "a", "b", "c")
        self.assertIn("verified 40; partial 0", answer.out)
        self.assertEqual(self.tree(), self.wanted)

    def test_two_generations(self) -> None:
        """Each of two runs of a sender is whole in a journal; the newest description counts."""
        self.journal("monday", self.packets_of(self.sent, 1, EXPIRES))
        self.journal("tuesday", self.packets_of(self.next, 1, EXPIRES + 60))
        for order in (("monday", "tuesday"), ("tuesday", "monday")):
            answer = self.files("-o", "files", *order)
            self.assertIn("verified 40; partial 0", answer.out)
            newest = {f"h/{it.toi}": it.content for it in self.next}
            self.assertTrue(self.tree() == newest, order)


class Owned(Case):
    """A name in FOLDER stays with the sender that has it."""

    def setUp(self) -> None:
        super().setUp()
        self.real = Sent(1, text(1), "http://example.com/news.txt")
        self.other = Sent(1, text(2), "http://example.com/news.txt")
        for name, file, sender in (("a", self.real, "10.0.0.9"), ("b", self.other, "10.0.0.1")):
            self.journal(name, instance(7, 1, fdt([file])), file.packets(7), sender=sender)
        self.names = ["example.com/news.txt", "example.com/news.txt.from-10.0.0.1"]
        self.wanted = dict(zip(self.names, (self.real.content, self.other.content)))

    def has_attributes(self) -> bool:
        try:
            os.setxattr(self.folder, "user.flutejoin.test", b"")
        except OSError:
            return False
        return True

    def test_a_second_sender(self) -> None:
        self.files("-o", "files", "a")
        answer = self.files("-o", "files", "a", "b", status=1)
        self.assertEqual(self.tree(), self.wanted)
        told = (
            "flutejoin-files: source 00000000000000000000ffff0a000001 session 7 object 1: sender "
            "10.0.0.9 has the name example.com/news.txt; it is example.com/news.txt.from-10.0.0.1 "
            "(--source 10.0.0.1 gives it the name)\n"
        )
        self.assertEqual(answer.err, told)
        answer = self.files("-o", "files", "a", "b", status=1)
        self.assertIn("written 0, unchanged 2, verified 2", answer.out)

    def test_without_the_first_ones_journal(self) -> None:
        if not self.has_attributes():
            raise unittest.SkipTest("the file system keeps no extended attributes")
        self.files("-o", "files", "a")
        self.files("-o", "files", "b", status=1)
        self.assertEqual(self.tree(), self.wanted)

    def test_copied_without_attributes(self) -> None:
        """Then the sender is that whose FDT has the MD5 of the file."""
        (self.folder / "files/example.com").mkdir(parents=True)
        (self.folder / "files/example.com/news.txt").write_bytes(self.real.content)
        self.files("-o", "files", "a", "b", status=1)
        self.assertEqual(self.tree(), self.wanted)

    def test_the_user_names_the_sender(self) -> None:
        self.files("-o", "files", "a")
        answer = self.files("-o", "files", "--source", "10.0.0.1", "a", "b")
        self.assertIn("changed: example.com/news.txt\n", answer.out)
        self.assertEqual(self.tree(), {"example.com/news.txt": self.other.content})
        if self.has_attributes():
            self.files("-o", "files", "a", status=1)
            name = "example.com/news.txt.from-10.0.0.9"
            self.assertEqual(self.tree()[name], self.real.content)

    def test_a_claim_without_a_file(self) -> None:
        """Who only describes a file takes no name from who sent one."""
        self.journal("b", instance(7, 1, fdt([self.other])), sender="10.0.0.1")
        self.files("-o", "files", "a", "b", status=1)
        self.assertEqual(self.tree(), {self.names[0]: self.real.content})

    def test_a_name_as_the_tool_makes(self) -> None:
        named = Sent(1, text(1), "http://example.com/news.txt.from-10.0.0.1")
        self.session("all", [named])
        self.files("-o", "files", "all")
        self.assertEqual([*self.tree()], ["example.com/news.txt%2Efrom-10.0.0.1"])


class Printed(Case):
    def test_json(self) -> None:
        sent = [Sent(toi, text(toi), f"http://h/{toi}\u263a") for toi in (1, 2)]
        self.journal("all", instance(7, 1, fdt(sent)), sent[0].packets(7), sent[1].packets(7)[1:])
        one, two = (
            {"sender": "10.9.0.1", "tsi": 7, "toi": toi, "name": sent[toi - 1].location}
            | {"type": "text/plain", "bytes": 5000, "path": None, "put": None}
            | {"md5": hashlib.md5(sent[toi - 1].content).hexdigest()}
            for toi in (1, 2)
        )
        partial = {**two, "state": "partial", "wanted": 1}
        for words, told, put in ((["-o", "files"], "verified", "new"), (["--list"], "whole", None)):
            answer = self.files("--json", *words, "all", status=1)
            path = "h/1\u263a" if put else None
            first = {**one, "state": told, "wanted": 0, "path": path, "put": put}
            self.assertEqual([*map(json.loads, answer.out.splitlines())], [first, partial])


class Bounds(Case):
    """What a run may cost."""

    def test_most(self) -> None:
        """--most is a bound of all that is decoded, whatever the FDT says; newer files first."""
        sent = []
        for toi in range(1, 5):
            content = text(toi, 400_000)
            sent.append(Sent(toi, content, f"http://h/{toi}", gzip.compress(content)))
            sent[-1].more = {"Content-Encoding": "gzip"}
        groups = [instance(7, it.toi, fdt([it], EXPIRES + it.toi)) for it in sent]
        self.journal("all", *groups, *(file.packets(7) for file in sent))
        answer = self.files("-o", "files", "--most", "1M", "all", status=1)
        self.assertEqual(sorted(self.tree()), ["h/3", "h/4"])
        told = "more than 1,048,576 bytes come out in all (--most)"
        self.assertIn(f"not written: h/1 (gzip: {told})\n", answer.out)
        self.assertIn("written 2, verified 2; partial 0; not written 2; wrong MD5 0", answer.out)
        self.files("-o", "files", "--most", "2M", "all")
        self.assertEqual(self.tree(), {f"h/{it.toi}": it.content for it in sent})

    def test_what_nothing_describes(self) -> None:
        """It is not extracted, and takes few lines."""
        file = Sent(1 << 20, text(1), "http://h/a")
        front = header(7, 0, struct.pack(">BB6sHHI", 64, 4, (1).to_bytes(6, "big"), 0, 1, 1))
        stray = [
            front[:12] + struct.pack(">I", toi) + front[16:] + b"\0\0\0\0x"
            for toi in range(1, 2001)
        ]
        tiny = b'<FDT-Instance Expires="4000000000"/>'
        tinies = [packet for at in range(2, 500) for packet in instance(7, at, tiny)]
        parts = [packets(7, 0, b"<>" * 600, 1000, 64, instance=at)[0] for at in range(500, 1000)]
        self.journal("all", instance(7, 1, fdt([file])), file.packets(7), stray, tinies, parts)
        told = self.folder / "told"
        self.program.write_text(f'#!/bin/sh\n{PROGRAM} "$@" > {told} || exit\ncat {told}\n')
        answer = self.files("-o", "files", "all", status=1)
        self.assertEqual(self.tree(), {"h/a": file.content})
        self.assertEqual(told.read_bytes().count(b"\n"), 2)
        self.assertLess(len(answer.err.splitlines()), 25)
        answer = self.files("--list", "all", status=1)
        lines = answer.out.splitlines()
        self.assertLess(len(lines), 50)
        self.assertIn("  480 more FDT Instances that are not whole", lines)
        self.assertIn("  1980 more objects in no FDT Instance", lines)

    def test_what_is_there(self) -> None:
        """A file that is there with its MD5 is not extracted again."""
        sent = [Sent(toi, text(toi), f"http://h/{toi}") for toi in range(1, 5)]
        sent[3].object = gzip.compress(sent[3].content)
        sent[3].more = {"Content-Encoding": "gzip"}
        self.session("all", sent)
        self.files("-o", "files", "all")
        told = self.folder / "told"
        self.program.write_text(f'#!/bin/sh\n{PROGRAM} "$@" > {told} || exit\ncat {told}\n')
        (self.folder / "files/h/2").write_bytes(text(9))
        answer = self.files("-o", "files", "all")
        self.assertEqual(
            answer.out,
            "changed: h/2\nwritten 1, unchanged 3, verified 4; partial 0; wrong MD5 0\n",
        )
        lines = told.read_text().splitlines()
        self.assertEqual([line[-22:] for line in lines], [" 7 object 2 whole 5000", "written 1"])

    def test_sessions_of_nothing(self) -> None:
        file = Sent(1, text(1), "http://h/a")
        front = header(0, 1, b"")
        strays = [
            front[:8] + struct.pack(">I", tsi) + front[12:] + b"\0\0\0\0x"
            for tsi in range(1000, 1060)
        ]
        self.journal("all", instance(7, 1, fdt([file])), file.packets(7), strays)
        answer = self.files("--list", "all", status=1)
        self.assertEqual(
            answer.out.splitlines()[-1], "40 more sessions without an FDT Instance"
        )

    def test_more_files_than_a_run_takes(self) -> None:
        """The newest ones are taken; --any-size takes all."""
        most = catalogue.MOST_FILES
        self.assertGreater(most, 18_000)
        old = [Sent(toi, b"", f"http://h/{toi}") for toi in range(1, 8001)]
        file = Sent(1 << 20, text(1), "http://h/new")
        self.journal("all", instance(7, 2, fdt([file], EXPIRES + 9)), file.packets(7))
        words = []
        for number in range(6):
            name = f"fdt{number}"
            some = [Sent(it.toi + 8000 * number, b"", it.location + f"-{number}") for it in old]
            (self.folder / name).write_bytes(fdt(some, EXPIRES - number))
            words += ["--fdt", name]
        self.memory = 256 << 20
        answer = self.files("-o", "files", *words, "all", status=1)
        self.assertIn("2 FDT Instances were left, the older ones", answer.err)
        self.assertEqual(self.tree()["h/new"], file.content)
        self.assertEqual(len(self.tree()), 32_001)

    def test_xml(self) -> None:
        """The XML of a run has one bound; the newest is read first."""
        file = Sent(1, text(1), "http://h/a")
        elements = b'<FDT-Instance Expires="4000000000">' + b"<a/>" * 3_900_000 + b"</FDT-Instance>"
        large = gzip.compress(elements, 1)
        groups = [instance(7, number, large) for number in range(2, 12)]
        self.journal("all", instance(7, 1, fdt([file])), file.packets(7), *groups)
        answer = self.files("-o", "files", "all", status=1)
        self.assertEqual(self.tree(), {"h/a": file.content})
        self.assertRegex(answer.err, r"[89] FDT Instances were left")

    def test_is_done(self) -> None:
        """It takes as many steps as there are Instances, and not their square."""
        session, looked = files_session.Session(bytes(16), 7), [0]

        class Number(int):
            def __sub__(self, other: int) -> int:
                looked[0] += 1
                return int(self) - other

            def __gt__(self, other: int) -> bool:
                looked[0] += 1
                return int(self) > other

        for number in range(1000):
            notes: collections.Counter[str] = collections.Counter()
            head = fdt_module.Instance(Number(number), str(number), number, {}, notes)
            session.add(head)
            session.unread[Number(number)] = State("partial", 1)
        self.assertTrue(session.is_done())
        self.assertLess(looked[0], 10_000)
