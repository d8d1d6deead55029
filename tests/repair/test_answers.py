"""Tests what flutejoin-repair takes of servers that are wrong, slow, or lie."""
from __future__ import annotations

import itertools
import socket
import threading
from typing import Callable, Optional, Tuple, Union
from unittest import mock

import datagram_files
from tests.repair.case import SENDER, Case, content
from tests.repair.origin import HttpRequest, always, answer, head, multipart

KIND = "multipart/byteranges; boundary=00000000000000000017"
FOREVER = 8 << 20  # bytes of an answer that nobody wants
LOST = 3, 9, 40  # places of symbols that the journal lacks
Said = Union[bytes, Callable[[HttpRequest], Optional[bytes]]]


class Answers(Case):
    """Answers that are none of what was asked for: nothing of that file is written."""

    def setUp(self) -> None:
        super().setUp()
        self.one = self.sent(1, content(1))
        self.data = self.one.content
        self.journal_without("all", [self.one], {1: LOST})

    def all_left(self, *rows: Tuple[str, Said, str]) -> None:
        """Checks rows of a name, an answer or a function of the request, and what is told."""
        for name, said, told in rows:
            self.origin.how = said if callable(said) else always(said)
            self.left(name, told, self.one, LOST)

    def test_statuses(self) -> None:
        self.all_left(
            ("404", answer(404, b"none"), "status 404"),
            ("403", answer(403), "status 403"),
            ("401", answer(401, WWW_Authenticate="Basic"), "status 401"),
            ("500", answer(500), "status 500"),
            ("204", head(204), "status 204"),
            ("416", answer(416, Content_Range="bytes */77"), "there it has 77 bytes"),
            ("416 without a length", answer(416), "status 416"),
        )

    def test_other_ranges(self) -> None:
        """206 with other ranges than asked; also those that lie."""

        def single(told: str, body: bytes = b"") -> bytes:
            return answer(206, body or self.data[:1400], Content_Range=told)

        total = len(self.data)
        self.all_left(
            ("others", single(f"bytes 0-1399/{total}"), "have other ranges than were asked for"),
            ("no range", answer(206, self.data[:1400]), "has no range of bytes"),
            ("items", single("items 0-1399/9"), "has no range of bytes"),
            ("no total", single("bytes 0-1399/*"), "has no range of bytes"),
            ("another total", single("bytes 0-1399/77777"), "there it has 77,777 bytes"),
            ("beyond the end", single(f"bytes 0-{total}/{total}"), "none of the file"),
            ("backwards", single(f"bytes 9-3/{total}"), "none of the file"),
            ("shorter", single(f"bytes 4200-9999/{total}", bytes(9)), "the answer has 9 bytes"),
            ("longer", single(f"bytes 4200-4209/{total}", bytes(99)), "more than 10 bytes"),
            ("huge numbers", single(f"bytes 0-{'9' * 99}/{'9' * 99}"), "has no range of bytes"),
        )

    def test_multipart(self) -> None:
        """Parts that are none, or none of this file."""
        some, total = [(4200, 5599), (12600, 13999)], len(self.data)

        def parts(body: bytes, kind: str = KIND) -> bytes:
            return answer(206, body, Content_Type=kind)

        right = multipart(self.data, some)
        self.all_left(
            ("another total", parts(multipart(self.data, some, 5)), "there it has 5 bytes"),
            ("no end", parts(right[:140]), "the answer is cut"),
            ("no parts", parts(b"\r\n--00000000000000000017--\r\n"), "other ranges"),
            ("no boundary", parts(b"nothing\r\n" * 99), "has no part"),
            ("another length", parts(right.replace(b"4200-", b"4210-")), "of another length"),
            ("no range in a part", parts(right.replace(b"Content-R", b"R")), "no range of bytes"),
            ("a line", parts(right.replace(b"Content-Type:", b"\0\0")), "NUL"),
            ("too many", parts(multipart(self.data, [(0, 9)] * 9)), "more parts"),
            ("a wrong boundary", parts(right, 'multipart/byteranges; boundary="\x01"'), "boundary"),
            ("no boundary at all", parts(right, "multipart/byteranges"), "has no range of bytes"),
        )
        self.origin.how = lambda request: parts(
            multipart(self.data, [(40 * 1400, 42 * 1400), (0, 9), (4200, 15000)])
        )
        self.whole("more than was asked for, in another order", self.one, LOST)
        self.holds("the total is the file's", total == len(self.one.content))

    def test_lies_about_lengths(self) -> None:
        data = self.data
        self.all_left(
            ("shorter", answer(200, data[:-1]), "200,000 bytes, and the object 200,001"),
            ("longer", answer(200, data + b"?"), "200,002 bytes, and the object 200,001"),
            (
                "less than it says",
                head(200, Content_Length=len(data), Connection="close") + data[:2000],
                "the answer is cut",
            ),
            ("no number", head(200, Content_Length="x") + data, "content-length is no number"),
            ("negative", head(200, Content_Length="-5") + data, "content-length is no number"),
            (
                "two lengths",
                head(200, Content_Length=5).replace(b"\r\n\r\n", b"\r\nContent-Length: 7\r\n\r\n"),
                "two fields content-length",
            ),
            ("a chunk", head(200, Transfer_Encoding="chunked") + b"zz\r\n", "without a length"),
            ("minus", head(200, Transfer_Encoding="chunked") + b"-1\r\n", "without a length"),
            (
                "a chunk that is longer",
                head(200, Transfer_Encoding="chunked") + b"5\r\n1234567\r\n",
                "a chunk of another length",
            ),
            ("gzip", head(200, Transfer_Encoding="gzip") + data, "not chunked"),
            (
                "fewer in chunks",
                head(200, Transfer_Encoding="chunked") + b"5\r\n12345\r\n0\r\n\r\n",
                "the answer has 5 bytes",
            ),
        )

    def test_longer_than_it_may_be(self) -> None:
        """A body without a length that doesn't end where the file does."""
        self.journal_without("all", [self.one], {1: [142]})
        long = head(200, Connection="close") + self.data + bytes(70_000)
        self.origin.how = lambda request: long
        self.left("longer", "the answer has more than 200,001 bytes", self.one, [142])
        self.origin.how = lambda request: head(200, Connection="close") + self.data
        self.whole("up to the close", self.one, [142])

    def test_no_http(self) -> None:
        self.all_left(
            ("nothing", lambda request: None, "the answer is cut"),
            ("HTTP/2", b"HTTP/2 200 OK\r\n\r\n", "none of HTTP/1.1"),
            ("no HTTP", b"SSH-2.0-OpenSSH_9.2\r\n", "none of HTTP/1.1"),
            ("a status that is none", b"HTTP/1.1 099 OK\r\n\r\n", "none of HTTP/1.1"),
            ("no field", b"HTTP/1.1 200 OK\r\nno field\r\n\r\n", "a line that is no field"),
            ("a field in two lines", b"HTTP/1.1 200 OK\r\nA: b\r\n c\r\n\r\n", "that is no field"),
            ("a long line", b"HTTP/1.1 200 OK\r\nA: " + bytes(9) * 9999, "too long"),
            ("many fields", b"HTTP/1.1 200 OK\r\n" + b"A: b\r\n" * 999, "more than 100 fields"),
            ("1xx for ever", b"HTTP/1.1 100 Continue\r\n\r\n" * 99, "but 1xx"),
        )
        early = b"HTTP/1.1 103 Early Hints\r\nLink: x\r\n\r\n"
        self.origin.how = lambda request: early + self.origin.ranges(request)
        self.whole("after 1xx", self.one, LOST)

    def test_cut(self) -> None:
        """A cut answer: what came counts, and the rest is asked for again."""
        times = itertools.count()

        def cut_first(request: HttpRequest) -> bytes:
            said = self.origin.ranges(request)
            if next(times):
                return said
            return said[: len(said) // 2].replace(b"said\r\n", b"said\r\nConnection: close\r\n")

        self.origin.how = cut_first
        self.whole("cut once", self.one, LOST)
        self.holds("asked for again", len(self.origin.requests) == 2, len(self.origin.requests))
        fields = self.origin.requests[1].fields
        self.holds("the rest alone", fields["range"].count("-") == 2, fields)
        self.holds("of the same file", fields["if-range"] == '"of-1"', fields)

    def test_always_cut(self) -> None:
        """What came of a file that isn't complete is written; the rest stays missing."""

        def first_part(request: HttpRequest) -> Optional[bytes]:
            if "4200" not in request.fields["range"]:
                return None
            told = f"bytes 4200-12000/{len(self.data)}"
            front = head(206, Content_Length=7801, Content_Range=told, Connection="close")
            return front + self.data[4200:6000]

        self.origin.how = first_part
        done = self.repair()
        self.check("always cut", done, 1, None, None)
        self.holds("told", b"1.bin: " in done.err and b"0 files complete, 1 not" in done.out, done)
        own = self.one.packets(7)
        self.same("the first symbol", "more", datagram_files.content([own[3]]))

    def test_connection_closed_between(self) -> None:
        """A server that closes a connection after an answer, and doesn't say so."""
        every = [self.one, self.sent(2, content(2))]
        self.journal_without("all", every, {1: [3], 2: [4]})

        def close(request: HttpRequest) -> Optional[bytes]:
            return self.origin.ranges(request) if self.origin.connections > before[0] else None

        before = [0]

        def once(request: HttpRequest) -> Optional[bytes]:
            said = close(request)
            before[0] = self.origin.connections
            return said

        self.origin.how = once
        self.repaired("another connection")


class Changes(Case):
    """A file that changes while it is fetched, or that is another one."""

    def setUp(self) -> None:
        super().setUp()
        self.one = self.sent(1, content(1, 500_000))
        self.other = content(2, 499_999)
        self.lost = range(0, 350, 2)
        self.journal_without("all", [self.one], {1: self.lost})

    def is_left(self, name: str, told: str) -> None:
        self.left(name, told, self.one, self.lost)

    def change(self, is_asked: bool, tag: Optional[str]) -> None:
        """Changes the file there after the first answer."""

        def how(request: HttpRequest) -> bytes:
            said = self.origin.ranges(request)
            if not is_asked:
                said = said.replace(b"ETag", b"X-Tag")
            self.origin.files[request.path] = self.other
            if tag:
                self.origin.tags[request.path] = tag
            return said

        self.origin.how = how

    def test_changed_etag(self) -> None:
        self.change(True, '"another"')
        self.is_left("another ETag", "it changed there while it was fetched")
        fields = self.origin.requests[1].fields
        self.holds("If-Range", fields.get("if-range") == '"of-1"', fields)

    def test_changed_weak_etag(self) -> None:
        self.origin.tags["/news/1.bin"] = 'W/"one"'
        self.change(True, 'W/"two"')
        self.is_left("another weak ETag", "it changed there while it was fetched")
        self.holds("no If-Range", "if-range" not in self.origin.requests[1].fields)

    def test_changed_date(self) -> None:
        dates = iter(["Mon, 30 Nov 2026 00:00:00 GMT", "Mon, 30 Nov 2026 00:00:01 GMT"])

        def dated(request: HttpRequest) -> bytes:
            ranges = f"Range: {request.fields['range']}"
            said = self.origin.ranges(HttpRequest([f"GET {request.path} HTTP/1.1", ranges]))
            front, _, rest = said.partition(b"\r\n")
            return front + b"\r\nLast-Modified: " + next(dates).encode() + b"\r\n" + rest

        self.origin.tags.clear()
        self.origin.how = dated
        self.is_left("another date", "it changed there while it was fetched")
        given = self.origin.requests[1].fields.get("if-range")
        self.holds("If-Range by date", given == "Mon, 30 Nov 2026 00:00:00 GMT", given)

    def test_changed_without_a_word(self) -> None:
        """The MD5 of the whole object tells: of what JOURNAL has, and of what came."""
        self.change(False, None)
        self.is_left("the MD5", "what came is another file: its MD5 is wrong")

    def test_another_file(self) -> None:
        self.origin.files["/news/1.bin"] = self.other
        self.is_left("another file of this length", "its MD5 is wrong")

    def test_md5_that_the_server_says(self) -> None:
        wrong = "AAAAAAAAAAAAAAAAAAAAAA=="
        for name, fields in (
            ("Repr-Digest", {"Repr_Digest": f"md5=:{wrong}:"}),
            ("Digest", {"Digest": f"SHA-256=x,MD5={wrong}"}),
        ):
            self.origin.how = always(answer(200, self.one.content, **fields))
            self.is_left(name, "another MD5 than in the FDT Instance")
        self.holds("no more of it is asked for", len(self.origin.requests) == 2)

    def test_file_without_md5(self) -> None:
        """Of a file without an MD5 what came is written, as flutejoin-files writes it."""
        self.one.more["Content-MD5"] = None
        self.journal_without("all", [self.one], {1: [3]})
        self.whole("no MD5", self.one, [3])


class Bounds(Case):
    """What servers may send, and how long they may take."""

    def setUp(self) -> None:
        super().setUp()
        self.one = self.sent(1, content(1))
        self.journal_without("all", [self.one], {1: LOST})
        self.ended = threading.Event()
        self.addCleanup(self.ended.set)

    def drips(self, front: bytes, piece: bytes) -> None:
        """Sends this, and then piece after piece, for ever."""

        def say(stream: socket.socket, _: bytes) -> None:
            stream.sendall(front)
            while not self.ended.wait(0.02):
                stream.sendall(piece)

        patch = mock.patch.object(self.origin, "say", say)
        patch.start()
        self.addCleanup(patch.stop)

    def test_slow(self) -> None:
        """A server that sends something again and again, but no answer that ends."""
        body = head(206, Content_Length=1400, Content_Range="bytes 4200-5599/200001")
        for name, front, piece in (
            ("the status", b"HTTP", b"/"),
            ("a field", b"HTTP/1.1 200 OK\r\n", b"A"),
            ("a body", body, b"."),
            ("chunks", head(200, Transfer_Encoding="chunked"), b"1\r\n.\r\n"),
            ("nothing", b"", b""),
        ):
            self.drips(front, piece)
            self.left(name, "0.7 seconds are over (--seconds)", self.one, LOST, seconds=0.7)

    def test_bytes(self) -> None:
        """Answers without an end: no more is read than was asked for."""
        for name, said in (
            ("of a part", head(206, Content_Range="bytes 0-200000/200001", Connection="close")),
            ("before the parts", head(206, Content_Type=KIND, Connection="close") + b"\r\n" * 60),
            ("a redirect", head(302, Location="/news/1.bin")),
            ("an error", head(404)),
        ):
            self.origin.how = always(said + bytes(FOREVER))
            came = self.ask(self.one, LOST)
            self.holds(f"{name}: {came.received} bytes", came.received < 700_000, came.received)
            self.same(f"{name}: nothing is written", came.out, datagram_files.HEADER)

    def test_most(self) -> None:
        """--most bounds all that comes, and what came so far is right."""
        every = [self.one, self.sent(2, content(2))]
        self.journal_without("all", every, {1: [3], 2: range(999)})
        done = self.repair("--most 50K")
        self.check("--most", done, 1, None, None)
        self.holds("told", b"51,200 bytes came in all (--most)" in done.err, done.err)
        fetched = self.origin.sent
        self.holds("a file is complete", b"1 file complete, 1 not" in done.out, (done, fetched))
        self.made(f"join --source {SENDER} -o all all more")
        again = self.repaired("the rest of it")
        self.holds("only the rest", b"asked 1" in again.out, again.out)

    def test_most_of_a_whole_file(self) -> None:
        self.origin.how = self.origin.whole
        self.journal_without("all", [self.one], {1: [142]})
        self.left("a whole file", "(--most)", self.one, [142], most=50_000)
