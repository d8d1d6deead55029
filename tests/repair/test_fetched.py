"""Tests what flutejoin-repair fetches: byte ranges, symbols by their numbers, encoded files."""
from __future__ import annotations

import base64
import gzip
import hashlib
import re
from unittest import mock

import datagram_files
from flutejoin_tools.common.log import Log
from flutejoin_tools.common.program import Program
from flutejoin_tools.repair import repairs
from tests.repair.case import SENDER, SYMBOL, Case, content
from tests.repair.origin import Containers, HttpRequest, answer
from tests.support import run
from tests.support.flute_sender import NAMESPACE, fdt, instance

SUM = re.compile(
    r"asked ([\d,]+) symbols? in ([\d,]+) requests?; fetched ([\d,]+) bytes? for ([\d,]+); "
    r"([\d,]+) files? complete(?:, ([\d,]+) not)?"
)


class Stations(Case):
    """What three stations lost, from datagrams to files."""

    def test_three_stations(self) -> None:
        every = [self.sent(toi, content(toi, 300_000)) for toi in (1, 2, 3, 4)]
        sessions = instance(7, 1, fdt(every))
        for station in 1, 2, 3:
            packets = [*sessions]
            for file in every[:3]:  # the fourth no station received
                own = file.packets(7)
                gone = {*self.losses(file, 0.4, 10 * station + file.toi)}
                packets += [packet for at, packet in enumerate(own) if at not in gone]
            datagram_files.write(str(self.path(f"station{station}")), packets)
        self.made(f"join --source {SENDER} -o all station1 station2 station3")
        missing = self.program("gaps --check all")
        self.check("something is missing everywhere", missing, 1, None, None)
        done = self.repair()
        self.check("repaired", done, 0, None, "")
        line, step = done.lines()
        self.holds("the sum", SUM.fullmatch(line) and "; 4 files complete" in line, line)
        sender = "00000000000000000000ffff0a090001"
        wanted = f"flutejoin join --any-size --source {sender} -o all all more"
        self.holds("the next step", step == wanted, step)
        self.is_joined("three stations")
        self.files("three stations", every)
        again = self.tool(
            "flutejoin-repair", f"--base {self.origin.url}/ --flutejoin flutejoin -o none new"
        )
        told = "asked 0 symbols in 0 requests; fetched 0 bytes for 0; 0 files complete"
        self.check("nothing is missing any more", again, 0, told, "")
        self.same("a datagram file without datagrams", "none", datagram_files.HEADER)

    def test_share_of_what_is_missing(self) -> None:
        """At 1 % of losses at most 1.1 times what is missing comes, heads of answers too."""
        file = self.sent(1, content(1, 14_000_000))
        lost = self.losses(file, 0.01)
        self.journal_without("all", [file], {1: lost})
        done = self.repaired("1 % of losses")
        found = run.match_of(SUM, done.lines()[0])
        asked, requests, fetched, missing, complete, _ = (
            int((part or "0").replace(",", "")) for part in found.groups()
        )
        self.holds("each lost symbol is asked for once", asked == len(lost), (asked, len(lost)))
        self.holds("many in a request", requests == -(-len(lost) // 100), requests)
        self.holds("the bytes are counted", missing == SYMBOL * len(lost), missing)
        self.holds("what came is counted", fetched == self.origin.sent, (fetched, self.origin.sent))
        self.holds("at most 1.1 times", fetched <= 1.1 * missing, fetched / missing)
        self.holds("a file is complete", complete == 1, done)
        self.files("1 % of losses", [file])


class Fetched(Case):
    """Requests, and the datagrams that come of their answers."""

    def test_ranges(self) -> None:
        file = self.sent(1, content(1))
        self.journal_without("all", [file], {1: [0, 5, 6, 7, 60, 142]})
        self.repaired("ranges")
        (request,) = self.origin.requests
        wanted = "bytes=0-1399,7000-11199,84000-85399,198800-200000"
        self.holds("one request", request.fields["range"] == wanted, request.fields)
        own = file.packets(7)
        sent = [own[at] for at in (0, 5, 6, 7, 60, 142)]
        self.same("whole datagrams, with EXT_FTI", "more", datagram_files.content(sent))
        self.files("ranges", [file])
        fields = {"host", "user-agent", "accept-encoding", "range"}
        self.holds("no other field", set(request.fields) == fields, request.fields)

    def test_single_range(self) -> None:
        file = self.sent(1, content(1))
        self.journal_without("all", [file], {1: [142]})
        self.repaired("the last symbol alone, which is short")
        self.files("a single range", [file])

    def test_other_answers(self) -> None:
        """A server that sends the whole file, in chunks, or one range alone."""
        for name in "whole", "in_chunks", "one_range":
            self.origin.how = getattr(self.origin, name)
            for lost in [3, 9, 30, 50], [142], [0, 142]:
                file = self.sent(1, content(1))
                self.journal_without("all", [file], {1: lost})
                self.repaired(f"{name}, {lost}")
                self.files(f"{name}, {lost}", [file])

    def test_whole_file_is_read_up_to_the_ranges(self) -> None:
        self.origin.how = self.origin.whole
        file = self.sent(1, content(1, 8_000_000))
        self.journal_without("all", [file], {1: [1, 9, 90]})
        line = self.repaired("a whole file").lines()[0]
        fetched = int(run.match_of(SUM, line)[3].replace(",", ""))
        self.holds("no more is read than is needed", fetched < 400_000, fetched)
        self.holds("of one answer", len(self.origin.requests) == 1)

    def test_single_ranges_of_a_server_that_knows_no_others(self) -> None:
        self.origin.how = self.origin.one_range
        file = self.sent(1, content(1, 8_000_000))
        self.journal_without("all", [file], {1: [1, 900, 4000]})
        self.repaired("single ranges")
        self.holds("each in a request", len(self.origin.requests) == 4, len(self.origin.requests))

    def test_near_ranges_are_joined(self) -> None:
        """Where the head of a part costs more than what is between, and nowhere else."""
        data = content(1, 4000)
        file = self.sent(1, data)
        file.symbol = 100
        self.journal_without("all", [file], {1: [0, 2, 10, 20, 22]})
        self.repaired("near ranges")
        wanted = "bytes=0-299,1000-1099,2000-2299"
        self.holds("joined", self.origin.requests[0].fields["range"] == wanted)

    def test_large_numbers(self) -> None:
        """A TSI of 48 bits and a TOI of 112 have wider fields."""
        file = self.sent((1 << 112) - 1, content(1))
        data, tsi = file.data(), (1 << 48) - 1
        self.write("fdt.xml", fdt([file]))
        lines = f"session {tsi} object {file.toi} info length {len(data)} symbol 1400 block 64\n"
        self.write("lines", f"source 00000000000000000000ffff0a090001 {lines}")
        self.write("empty", datagram_files.HEADER)
        self.made("join -o none empty")
        self.made("info -o all --list lines none")
        self.check("large numbers", self.repair("--fdt fdt.xml"), 0, None, None)
        self.is_joined("large numbers")
        words = f"--source {SENDER} --tsi {tsi} --toi {file.toi} new"
        self.check("extract", self.program(f"extract -o file {words}"), 0, None)
        self.same("large numbers: the file", "file", data)

    def test_information_of_the_fdt(self) -> None:
        """Transmission information that only the FDT has counts, also of a file never seen."""
        every = [self.sent(toi, content(toi), is_in_packets=False) for toi in (1, 2)]
        self.journal_without("all", every, {1: [4, 9], 2: range(999)})
        self.repaired("information of the FDT")
        self.files("information of the FDT", every)

    def test_places_of_3gpp(self) -> None:
        """Alternate-Content-Location-1 and -2, and Base-URL-1 and -2."""
        other, more = self.server(), "urn:3GPP:metadata:2012:FLUTE:FDT"
        for form in (
            "<m:Alternate-Content-Location-1><m:Alternate-Content-Location>{}"
            "</m:Alternate-Content-Location></m:Alternate-Content-Location-1>",
            "<m:Alternate-Content-Location-2>\n{}\n</m:Alternate-Content-Location-2>",
        ):
            for place, root in (
                (f"{other.url}/a/b/1", ""),
                ("b/1", f"<m:Base-URL-1>{other.url}/a/x</m:Base-URL-1>"),
                ("/a/b/1", f"<m:Base-URL-2>{other.url}/x/y</m:Base-URL-2>"),
            ):
                file = self.sent(1, content(1))
                other.files["/a/b/1"] = file.content
                file.location = "tag:example.com,2026:1"
                xml = fdt([file]).decode().replace("/>", f">{form.format(place)}</File>")
                xml = xml.replace("</FDT-", f"{root}</FDT-").replace(
                    f'xmlns="{NAMESPACE}"', f'xmlns="{NAMESPACE}" xmlns:m="{more}"'
                )
                self.journal_without("all", [file], {1: [4, 9]}, xml.encode())
                self.repaired(f"{form} {place}", base=f"{other.url}/a/b")
        self.holds("only where it lies", not self.origin.requests)

    def test_relative_names(self) -> None:
        """A Content-Location that is no URL is below the base."""
        file = self.sent(1, content(1), "/news/a/1.bin")
        file.location = "a/1.bin"
        self.journal_without("all", [file], {1: [4, 9]})
        self.repaired("a relative name", base=f"{self.origin.url}/news")

    def test_second_place(self) -> None:
        """If the first place of a file fails the next one is asked."""
        file = self.sent(1, content(1))
        place = f"{self.origin.url}/news/other"
        xml = fdt([file]).decode().replace(
            "/>", f"><Alternate-Content-Location-1>{place}</Alternate-Content-Location-1></File>"
        )
        self.journal_without("all", [file], {1: [4, 9]}, xml.encode())
        self.origin.files["/news/other"] = self.origin.files.pop("/news/1.bin")
        self.repaired("the second place")

    def test_conflicts(self) -> None:
        """A symbol in conflict isn't asked for, since no further value ends a conflict."""
        file = self.sent(1, content(1))
        self.journal_without("one", [file], {1: [4, 9]})
        packets = [*datagram_files.read(str(self.path("one.sent")))]
        wrong = file.packets(7)[20][:-1] + b"?"
        datagram_files.write(str(self.path("sent")), [*packets, wrong])
        self.made(f"join --source {SENDER} -o all sent")
        done = self.repair()
        self.check("a conflict", done, 1, None, None)
        self.holds("told", b"in conflict" in done.err, done.err)
        byte_ranges = self.origin.requests[0].fields["range"]
        wanted = "bytes=5600-6999,12600-13999"
        self.holds("only what is missing", byte_ranges == wanted, byte_ranges)
        self.holds("what is missing came", len([*datagram_files.read(str(self.path("more")))]) == 2)

    def test_more_than_a_run_asks_for(self) -> None:
        """What there is no room for is left to the next run; what came is right."""
        every = [self.sent(toi, content(toi)) for toi in (1, 2)]
        self.journal_without("all", every, {1: range(10, 90, 2), 2: [7]})
        program = Program(str(run.PROGRAM))
        settings = repairs.Settings((repairs.base_of(f"{self.origin.url}/news/"),))
        inputs, report = repairs.Inputs(str(self.path("all"))), Log("test", "-")
        with mock.patch("flutejoin_tools.repair.lacking.MOST_SYMBOLS", 30):
            result = repairs.repair(settings, inputs, str(self.path("more")), program, report)
        told = [lack.why for lack in result.left]
        self.holds("told", told == ["left to another run"] * 2, told)
        self.holds("some came", (result.asked, result.datagrams) == (30, 30), result.line())
        self.holds("noted", "left to another run" in result.notes[0], result.notes)
        self.made(f"join --source {SENDER} -o all all more")
        self.repaired("the next run")

    def test_older_versions_of_a_name(self) -> None:
        """An older file of a name that can't be had any more is not missing."""
        older = self.sent(1, content(1), "/news/name")
        newer = self.sent(2, content(2), "/news/name")
        self.journal_without("old", [older], {1: [3]}, fdt([older], 4_000_000_000))
        packets = [*instance(7, 2, fdt([newer])), *newer.packets(7)[1:]]
        datagram_files.write(str(self.path("newer")), packets)
        self.made(f"join --source {SENDER} -o all old newer")
        done = self.repair()
        self.check("older", done, 0, None, "")


class Encoded(Case):
    """Files with Content-Encoding."""

    def setUp(self) -> None:
        super().setUp()
        text = b"".join(b"%d\n" % number for number in range(60_000))
        self.one = self.sent(
            1, text, object=gzip.compress(text, mtime=0), more={"Content-Encoding": "gzip"}
        )
        self.journal_without("all", [self.one], {1: [3, 9]})

    def test_same_encoding(self) -> None:
        self.origin.how = self.origin.encoded
        self.repaired("encoded")
        self.files("encoded", [self.one])
        fields = self.origin.requests[0].fields
        is_so = fields["accept-encoding"] == "gzip" and "range" not in fields
        self.holds("the whole is asked for", is_so, fields)

    def test_no_encoding(self) -> None:
        self.origin.how = lambda request: answer(200, self.one.content)
        told = "it has Content-Encoding gzip, and there none"
        self.left("not encoded", told, self.one, [3, 9])

    def test_other_encoding(self) -> None:
        self.origin.how = lambda request: answer(200, self.one.data(), Content_Encoding="br")
        told = "it has Content-Encoding gzip, and there br"
        self.left("another encoding", told, self.one, [3, 9])

    def test_other_bytes(self) -> None:
        """The server encodes it otherwise: of another length, or by chance of the same."""
        other = gzip.compress(self.one.content, 1, mtime=0)
        self.origin.how = lambda request: answer(200, other, Content_Encoding="gzip")
        self.left("another length", "bytes, and the object", self.one, [3, 9])
        right = self.one.data()
        wrong = right[:4300] + bytes(8) + right[4308:]
        self.origin.how = lambda request: answer(200, wrong, Content_Encoding="gzip")
        self.left("other bytes", "its MD5 is wrong", self.one, [3, 9])

    def test_md5_of_encoded(self) -> None:
        digest = base64.b64encode(hashlib.md5(self.one.data()).digest()).decode()
        self.one.more["Content-MD5"] = digest
        self.journal_without("all", [self.one], {1: [3, 9]})
        self.origin.how = self.origin.encoded
        self.whole("the MD5 of the encoded bytes", self.one, [3, 9])

    def test_encoded_file_that_is_not(self) -> None:
        """A server that encodes a file on its way, though it isn't asked to."""
        file = self.sent(1, content(1))
        self.journal_without("all", [file], {1: [3, 9]})
        self.origin.how = lambda request: answer(200, file.content, Content_Encoding="gzip")
        told = "Content-Encoding gzip, which it does not have"
        self.left("encoded on its way", told, file, [3, 9])


class Symbols(Case):
    """Symbols by their numbers, of a file repair server of 3GPP (TS 26.346, section 9.3)."""

    def test_symbols(self) -> None:
        for is_padded in False, True:
            every = [self.sent(toi, content(toi, 400_000)) for toi in (1, 2, 3)]
            self.origin.how = Containers(self.origin, 1400, 64, is_padded)
            lost = {1: [0, 1, 2, 70, 285], 2: self.losses(every[1], 0.3), 3: range(999)}
            self.journal_without("all", every, lost)
            done = self.repaired("symbols", "--symbols", base=f"{self.origin.url}/repair")
            self.files("symbols", every)
            fetched, missing = (
                int(run.match_of(SUM, done.lines()[0])[at].replace(",", ""))
                for at in (3, 4)
            )
            self.holds("hardly more than is missing", fetched < 1.02 * missing, (fetched, missing))
        request = self.origin.requests[0]
        digest = base64.b64encode(hashlib.md5(every[0].content).digest()).decode()
        place = f"{self.origin.url}/news/1.bin".replace(":", "%3A").replace("/", "%2F")
        md5 = digest.replace("+", "%2B").replace("/", "%2F").replace("=", "%3D")
        wanted = f"/repair?fileURI={place}&Content-MD5={md5}"
        wanted += "&SBN=0;ESI=0-2&SBN=1;ESI=12&SBN=4;ESI=56"
        self.holds("the request", request.target == wanted, request.target)

    def test_encoded(self) -> None:
        """The symbols are those of the object, whatever its encoding."""
        text = b"".join(b"%d\n" % number for number in range(60_000))
        data = gzip.compress(text, mtime=0)
        file = self.sent(1, text, object=data, more={"Content-Encoding": "gzip"})
        self.origin.how = Containers(self.origin, 1400, 64)
        self.journal_without("all", [file], {1: [3, 9]})
        self.repaired("symbols of an encoded file", "--symbols")
        self.files("symbols of an encoded file", [file])

    def test_wrong_containers(self) -> None:
        file = self.sent(1, content(1))
        self.journal_without("all", [file], {1: [3, 9]})
        right = Containers(self.origin, 1400, 64)

        def body_of(request: HttpRequest) -> bytes:
            return right(request).partition(b"\r\n\r\n")[2]

        kind = "application/simpleSymbolContainer"
        for name, how, told in (
            ("another type", lambda it: answer(200, body_of(it)), "no simpleSymbolContainer"),
            ("a status", lambda it: answer(404), "status 404"),
            (
                "a cut container",
                lambda it: answer(200, body_of(it)[:-1], Content_Type=kind),
                "the container is cut",
            ),
            (
                "no symbols",
                lambda it: answer(200, b"\0\0\0\0\0\3" + bytes(1400), Content_Type=kind),
                "none of the object",
            ),
            (
                "a block that is none",
                lambda it: answer(200, b"\0\1\0\x09\0\3" + bytes(1400), Content_Type=kind),
                "none of the object",
            ),
            (
                "beyond a block",
                lambda it: answer(200, b"\0\2\0\0\0\77" + bytes(2800), Content_Type=kind),
                "none of the object",
            ),
            ("nothing", lambda it: answer(200, Content_Type=kind), "the answers lack symbols"),
            (
                "more than was asked for",
                lambda it: answer(200, bytes(9000), Content_Type=kind),
                "were asked for",
            ),
            (
                "a file that changed",
                lambda it: answer(200, body_of(it)[:-9] + bytes(9), Content_Type=kind),
                "its MD5 is wrong",
            ),
        ):
            self.origin.how = how
            self.left(name, told, file, [3, 9], by_symbols=True)

    def test_some_come_later(self) -> None:
        """A server that answers one symbol at a time is asked again."""
        file = self.sent(1, content(1))
        self.journal_without("all", [file], {1: [3, 9, 40]})
        right = Containers(self.origin, 1400, 64)

        def first_alone(request: HttpRequest) -> bytes:
            body = right(request).partition(b"\r\n\r\n")[2][:1406]
            return answer(200, body, Content_Type="application/simpleSymbolContainer")

        self.origin.how = first_alone
        self.whole("one at a time", file, [3, 9, 40], by_symbols=True)
        self.holds("asked three times", len(self.origin.requests) == 3)
