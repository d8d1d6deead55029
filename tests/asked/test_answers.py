"""Tests of what a station answers: `flutejoin-station --answer`, and requests that are hostile."""
from __future__ import annotations

import io
import os
import random
import shutil
import sys
from unittest import mock

from flutejoin_tools.common.addresses import sender_bytes
from flutejoin_tools.exchange import exchange
from flutejoin_tools.exchange.exchange import (
    Change,
    New,
    Part,
    Refused,
    Want,
    changes_between,
    parts_of,
    read_changes,
    request_in,
)
from flutejoin_tools.exchange.told import Journal, Told
from flutejoin_tools.fdt import fdt
from flutejoin_tools.formats.records import Cut, ReadFault
from flutejoin_tools.gather import delivered
from flutejoin_tools.journals.holdings import Key
from flutejoin_tools.journals.merged import entries_of
from flutejoin_tools.journals.sums import Sums, sum_of, sums_of
from tests.asked.case import Station
from tests.centre.case import SENDER, TSI, announced, file_of, packets
from tests.support import run
from tests.support.run import Run

SOURCE = sender_bytes(SENDER)
FRONT = f"source {SOURCE.hex()} session {TSI} object"
ASK = "flutejoin ask 1\n"
NEW = f"{ASK}new none\nend\n"


def of(toi: int) -> Key:
    return Key(SOURCE, TSI, 1, toi)


class AnswerCase(run.Case):
    """A station, which is asked by the command that ssh is forced to run."""

    def setUp(self) -> None:
        super().setUp()
        self.station = Station(self.path("news"), random.Random(1))
        self.station.loss = 0

    def ask(self, request: str | bytes, *more: object, **how: object) -> Run:
        """Runs flutejoin-station --answer with this request."""
        data = request if isinstance(request, bytes) else request.encode()
        words = "--answer", "news", "--flutejoin", run.PROGRAM, *more
        return self.tool("flutejoin-station", words, stdin=data, **how)

    def parts(self, done: Run) -> list[tuple[Part, bytes]]:
        """The parts of an answer, each with its bytes."""
        self.check("it answers", done, 0, None, "")
        file = io.BytesIO(done.out)
        return [(part, file.read(part.size)) for part in parts_of(file)]

    def told(self, done: Run) -> dict[str, list[Change]]:
        """The changes of each journal of an answer."""
        return {
            part.words[0]: [*read_changes(io.BytesIO(data), len(data), SOURCE)]
            for part, data in self.parts(done)
            if part.kind == "journal"
        }

    def mark(self, done: Run) -> str:
        """The mark in an answer."""
        (found,) = [part.words[0] for part, _ in self.parts(done) if part.kind == "mark"]
        return found

    def new(self, mark: str, *again: Key) -> Run:
        return self.ask("".join(New(mark, frozenset(again)).text()))


class Answers(AnswerCase):
    def test_all(self) -> None:
        """Without a mark all is told: sums, FDT Instances and the station's status."""
        files = [file_of(toi, 60_000) for toi in (1, 2)]
        self.station.hear(announced(files) + packets(files))
        self.write("news/status.json", '{"free": 7}\n')
        done = self.ask(NEW)
        parts = self.parts(done)
        kinds = [part.kind for part, _ in parts]
        order = "since status document journal mark end".split()
        self.holds("in this order", kinds == order, kinds)
        self.holds("since none", parts[0][0].words[0] == "none")
        self.holds("the status", parts[1][1] == b'{"free": 7}\n')
        xml = self.path("news/fdt").glob("*.xml")
        self.holds("the document", parts[2][1] == next(xml).read_bytes())
        sender, tsi, number = parts[2][0].words[:3]
        self.holds("its name", (sender, tsi, number) == (SOURCE.hex(), str(TSI), "1"))
        (journal,) = self.path("news").glob("[jr]*/*.journal")
        wanted = {key: sums for key, sums in sums_of(str(journal))}
        (changes,) = self.told(done).values()
        self.holds("the sums", {it.key: it.sums for it in changes} == wanted)
        self.holds("all of them", all(it.is_whole and it.is_complete() for it in changes))
        self.holds("they are short", len(parts[3][1]) < 0.02 * journal.stat().st_size)

    def test_only_what_is_new(self) -> None:
        files = [file_of(toi, 30_000) for toi in (1, 2, 3)]
        sent = files[0].packets(TSI)
        self.station.hear(announced(files) + sent[:5] + packets(files[1:2]))
        first = self.mark(self.ask(NEW))
        done = self.new(first)
        kinds = [part.kind for part, _ in self.parts(done)]
        self.holds("nothing is new", kinds == ["since", "mark", "end"], kinds)
        self.holds("the mark stays", self.mark(done) == first)
        self.station.hear(sent[4:8] + packets(files[2:]))
        done = self.new(self.mark(done))
        every = [change for of in self.told(done).values() for change in of]
        more = {it.key: (it.sums.symbol_count(), it.total, it.is_whole) for it in every}
        self.holds("what is new", more == {of(1): (3, 3, True), of(3): (22, 22, True)}, more)
        done = self.new(first)
        self.holds("an older mark is known too", len(self.told(done)) == 1)
        again = [it for of in self.told(self.new(self.mark(done), of(2))).values() for it in of]
        self.holds("all of one again", [(it.key, it.total) for it in again] == [(of(2), 22)])
        self.holds("wholly", again[0].is_whole and again[0].is_complete())

    def test_unknown_marks(self) -> None:
        """All is told again: the mark is lost, or its sums are damaged."""
        self.station.hear(packets([file_of(1)]))
        done = self.ask(NEW)
        wanted, mark = self.told(done), self.mark(done)
        other = self.new("0" * 32)
        self.holds("of another station", self.told(other) == wanted)
        self.holds("that is said", self.parts(other)[0][0].words[0] == "none")
        (sums,) = self.path(f"news/answer/{mark}").glob("*.sums")
        sums.write_bytes(b"\xff" * sums.stat().st_size)
        self.station.hear(packets([file_of(2)]))
        self.station.keeper.merge_all()
        self.station.keeper.merges.finish()
        (changes,) = self.told(self.new(mark)).values()
        self.holds("all is told", [it.key for it in changes] == [of(1), of(2)])
        self.holds("with all sums", all(it.is_whole for it in changes))
        shutil.rmtree(self.path("news/answer"))
        self.path("news/answer").write_text("in the way")
        done = self.ask(NEW)
        self.holds("no mark can be kept", self.mark(done) == "none")
        self.holds("all is told all the same", sum(map(len, self.told(done).values())) == 2)

    def test_marks_are_few(self) -> None:
        self.station.hear(packets([file_of(1)]))
        done = self.ask(NEW)
        for toi in range(2, 14):
            self.station.hear(packets([file_of(toi)]))
            done = self.new(self.mark(done))
        kept = os.listdir(self.path("news/answer"))
        self.holds("the newest are kept", len(kept) <= 9 and self.mark(done) in kept, kept)

    def test_moved_and_gone(self) -> None:
        """A journal that is taken into another one, and objects that are forgotten."""
        self.station.hear(packets([file_of(toi, 30_000) for toi in range(1, 9)]))
        self.station.hear(packets([file_of(20)]))
        done = self.ask(NEW)
        self.holds("two journals", len(self.told(done)) == 2)
        self.station.keeper.merge_all()
        self.station.keeper.merges.finish()
        done = self.new(self.mark(done))
        gone = [part for part, _ in self.parts(done) if part.kind == "gone"]
        (changes,) = self.told(done).values()
        self.holds("one is gone", len(gone) == 1, gone)
        self.holds("the other has what it had", [it.key for it in changes] == [of(20)], changes)
        (large,) = self.path("news/journals").glob("*.journal")
        self.made(["forget", "-o", large, "--tsi", TSI, "--toi", 2, large])
        (changes,) = self.told(self.new(self.mark(done))).values()
        self.holds("an object is gone", [(it.key, it.total) for it in changes] == [(of(2), 0)])

    def values(self, request: str) -> dict[str, dict[tuple[bytes, bytes], bytes]]:
        """The values of symbols in the answer to a request, by journals."""
        found: dict[str, dict[tuple[bytes, bytes], bytes]] = {}
        for part, data in self.parts(self.ask(request)):
            if part.kind == "values":
                self.write("values", data)
                every = entries_of(str(self.path("values")), 1, lambda _: True)
                found[part.words[0]] = {(raw, name): value for raw, name, _, value in every}
        return found

    def test_what_is_wanted(self) -> None:
        """Just that comes, of the journals that are named."""
        files = [file_of(toi, 30_000) for toi in (1, 2)]
        self.station.hear(packets(files))
        (number,) = self.told(self.ask(NEW))
        lines = [f"{FRONT} 1 partial missing 3 conflicting 0 misfit 0\n"]
        lines += ["gap 0/2-3 missing\n", "gap 0/7-7 missing\n"]
        request = "".join(Want({number: lines, "0123456789abcdef": lines}).text())
        found = self.values(request)
        self.holds("of one journal", [*found] == [number])
        names = [(key, name[3]) for key, name in found[number]]
        self.holds("three symbols", names == [(of(1).raw(), at) for at in (2, 3, 7)], names)
        wanted = [files[0].content[1400 * at : 1400 * at + 1400] for at in (2, 3, 7)]
        self.holds("they are right", [*found[number].values()] == wanted)
        self.holds("nothing", self.values("".join(Want({}).text())) == {})

    def test_what_was_delivered(self) -> None:
        """It is noted once in a list, as flutejoin-files --delivered has it."""
        told = tuple((of(toi), f"{toi:032}") for toi in (1, 2, 3))
        request = "".join(New(None, frozenset(), told).text())
        for _ in range(2):
            self.check("it answers", self.ask(request), 0, None, "")
        path = str(self.path("news/delivered.jsonl"))
        found = [*delivered.read(path)]
        self.holds("it is noted", found == [(key, bytes.fromhex(md5)) for key, md5 in told], found)
        most = 2 * os.path.getsize(path) // 3 + 2
        with mock.patch.object(delivered, "MOST_BYTES", most):
            delivered.trim(path)
        found = [*delivered.read(path)]
        self.holds("of a long one the last ones stay", [key for key, _ in found] == [of(3)], found)

    def test_other_files(self) -> None:
        """What is no journal of a station is not told of, nor what a link leads to."""
        self.station.hear(packets([file_of(1)]))
        (journal,) = self.path("news").glob("*/*.journal")
        shutil.copy(journal, self.path("other.journal"))
        self.path("news/journals/10.0.0.9.journal").symlink_to(self.path("other.journal"))
        shutil.copy(journal, self.path("news/journals/any.journal"))
        self.path("news/aside").mkdir()
        shutil.copy(journal, self.path("news/aside/10.0.0.1.20260101000000000000.journal"))
        self.holds("one journal", len(self.told(self.ask(NEW))) == 1)
        self.path("news/journals/10.0.0.8.journal").write_bytes(b"no journal")
        done = self.ask(NEW)
        told = b"10.0.0.8.journal: Magic" in done.err
        self.holds("a damaged one is named", done.status == 0 and told, done)
        self.path("news/fdt").mkdir(exist_ok=True)
        self.write("news/fdt/10.0.0.1-7-1-0123456789abcdef.xml", b"x" * 3)
        self.write("news/fdt/..xml", b"x" * 3)
        parts = parts_of(io.BytesIO(self.ask(NEW).out))
        self.holds("documents by their names", sum(it.kind == "document" for it in parts) == 1)


class Hostile(AnswerCase):
    """Requests that nobody should send get a line and status 1, and change nothing."""

    def setUp(self) -> None:
        super().setUp()
        self.station.hear(packets([file_of(1)]))
        (self.number,) = self.told(self.ask(NEW))
        self.line = f"{FRONT} 1 partial missing 1 conflicting 0 misfit 0\n"

    def tree(self) -> dict[str, int]:
        """The files of the test and their lengths, but for those of answers."""
        return {
            str(path.relative_to(self.folder)): path.stat().st_size
            for path in self.folder.rglob("*")
            if path.is_file() and "answer" not in path.parts
        }

    def refused(self, name: str, request: str | bytes, *more: object) -> None:
        """Checks that a request is refused with one line, and changes nothing."""
        before = self.tree()
        done = self.ask(request, *more)
        lines = done.err.decode().splitlines()
        self.holds(name, done.status == 1 and len(lines) == 1, done)
        self.holds(f"{name}: it is told", lines[0].startswith("flutejoin-station: "), lines)
        self.holds(f"{name}: nothing of the station", b"journal" not in done.out, done.out[:200])
        self.holds(f"{name}: nothing changed", self.tree() == before)

    def test_no_request(self) -> None:
        for request in (
            *("", "\n", "end\n", "GET / HTTP/1.1\r\n\r\n", "flutejoin ask 2\nnew none\nend\n"),
            *(ASK, f"{ASK}new none\n", f"{ASK}new none\nend"),
            f"{ASK}new none\nend\n\n",
            *(f"{ASK}new\nend\n", f"{ASK}new ..\nend\n", f"{ASK}new none\nnew none\nend\n"),
            *(f"{ASK}run id\nend\n", f"{ASK}new none\r\nend\n", f"{ASK} new none\nend\n"),
        ):
            self.refused(repr(request), request)
        self.refused("bytes", b"\xff" * 1000)
        self.refused("no ASCII", f"{ASK}new none\nagain \u0663\nend\n")
        self.refused("NUL", ASK.encode() + b"new none\0\nend\n")

    def test_names(self) -> None:
        """Nothing names a file, or is an option."""
        for name in (
            *("../../etc/passwd", "/etc/passwd", "recent/10.0.0.1.journal", "--config=x", "-o"),
            *("$(touch here)", "`touch here`", "; touch here", self.number + "/..", ""),
            self.number.upper() if self.number.upper() != self.number else "ABCDEF0123456789",
        ):
            self.refused(f"want {name}", f"{ASK}want {name}\n{self.line}gap 0/0-0 missing\nend\n")
            self.refused(f"new {name}", f"{ASK}new {name}\nend\n")
            self.refused(f"again {name}", f"{ASK}new none\nagain {name}\nend\n")
            line = f"delivered {FRONT} 1 {name}\n"
            self.refused(f"delivered {name}", f"{ASK}new none\n{line}end\n")
        self.absent("nothing was run", "here")

    def test_lines(self) -> None:
        """Only lines by which symbols are asked for."""
        front = f"{ASK}want {self.number}\n"
        for lines in (
            "gap 0/0-0 missing\n",
            f"{self.line}gap 0/0-0 conflicting\n",
            f"{self.line}gap 0/0-99999999 missing\n",
            f"{self.line}gap -1/0-0 missing\n",
            f"{FRONT} 1 no information\n",
            f"{FRONT} 1 whole 7\n",
            f"{FRONT} fdt 1 partial missing 1 conflicting 0 misfit 0\n",
            f"{self.line}--only\n",
            f"{self.line}want {self.number}\n",
            f"{self.line}{'x' * 600}\n",
            f"{FRONT} {'9' * 40} partial missing 1 conflicting 0 misfit 0\n",
        ):
            self.refused(lines, f"{front}{lines}end\n")
        for lines in (
            f"{self.line}gap 0/2-1 missing\n",
            f"{self.line}gap 0/1-1 missing\ngap 0/0-0 missing\n",
            f"{self.line}{self.line}",
            f"{FRONT} 01 partial missing 1 conflicting 0 misfit 0\n",
        ):
            self.refused(f"flutejoin refuses {lines}", f"{front}{lines}end\n")

    def test_bounds(self) -> None:
        again = [f"again {FRONT} {toi}\n" for toi in range(1, 4098)]
        self.refused("too many objects", f"{ASK}new none\n{''.join(again)}end\n")
        files = [f"delivered {FRONT} {toi} {'0' * 32}\n" for toi in range(1, 4098)]
        self.refused("too many files", f"{ASK}new none\n{''.join(files)}end\n")
        done = self.ask(f"{ASK}new none\n{''.join(again[:-1])}end\n")
        self.check("as many as may be", done, 0, None, "")
        for key in (f"session {1 << 48} object 1", f"session 1 object {1 << 112}"):
            self.refused(key, f"{ASK}new none\nagain {key}\nend\n")
        journals = "".join(f"want {at:016x}\n" for at in range(4097))
        self.refused("too many journals", f"{ASK}{journals}end\n")
        self.refused("too long", ASK.encode() + b"x" * (1 << 22) + b"\nend\n")

    def test_the_largest_symbols(self) -> None:
        """Blocks and symbols that no journal has are none."""
        lines = f"{self.line}gap 65535/65535-65535 missing\n"
        done = self.ask(f"{ASK}want {self.number}\n{lines}end\n")
        (values,) = [data for part, data in self.parts(done) if part.kind == "values"]
        self.holds("an empty journal", len(values) == 15, values)

    def test_settings(self) -> None:
        done = self.tool("flutejoin-station", ["--answer", "nowhere", "--flutejoin", run.PROGRAM])
        self.holds("no request", done.status == 1, done)
        words = ["--answer", "nowhere", "--flutejoin", run.PROGRAM]
        done = self.tool("flutejoin-station", words, stdin=NEW.encode())
        self.holds("no folder", done.status == 3 and b"there is no folder" in done.err, done)
        done = self.tool("flutejoin-station", ["--answer", ""], stdin=NEW.encode())
        self.holds("an empty word", done.status == 2, done)
        self.absent("nothing was made", "nowhere")
        self.write("news/status.json", "{}")
        self.write("other.json", '{"other": 1}')
        parts = self.parts(self.ask(NEW, "--status", "other.json"))
        status = [data for it, data in parts if it.kind == "status"]
        self.holds("the status", status == [b'{"other": 1}'])

    def test_nobody_listens(self) -> None:
        tool = f"{run.ROOT}/tools/flutejoin-station"
        script = f"exec {tool} --answer news --flutejoin {run.PROGRAM} | true"
        child = self.start(["sh", "-c", script], stdin=NEW.encode())
        done = self.finish(child, NEW.encode())
        self.holds("no traceback", b"Traceback" not in done.err, done)

    def test_where_nothing_may_be_written(self) -> None:
        """A station's folder may be only readable."""
        tried = [sys.executable, run.ROOT / "tools/flutejoin-station", "--answer", "x", "--help"]
        try:
            is_theirs = self.command(tried, nobody=True).status == 0
        except PermissionError:
            is_theirs = False
        if os.geteuid() != 0 or not is_theirs:
            self.skipTest("another user is needed who may run Python and the tools")
        for path in [self.folder.parent, self.folder, *self.folder.rglob("*")]:
            path.chmod(path.stat().st_mode | 0o055)
        shutil.rmtree(self.path("news/answer"))
        words = ["--answer", "news", "--flutejoin", run.PROGRAM]
        done = self.tool("flutejoin-station", words, stdin=NEW.encode(), nobody=True)
        self.holds("it answers", self.mark(done) == "none" and len(self.told(done)) == 1, done)


class Forms(run.Case):
    """The forms of requests, answers and changes."""

    def test_requests(self) -> None:
        new = New("0" * 32, frozenset([of(1), of((1 << 112) - 1)]))
        self.holds("new", request_in("".join(new.text()).encode()) == new)
        new = New(None, frozenset(), ((of(1), "0" * 32), (of(1), "f" * 32)))
        self.holds("delivered", request_in("".join(new.text()).encode()) == new)
        lines = [f"{FRONT} 1 partial missing 2 conflicting 0 misfit 0\n", "gap 0/1-2 missing\n"]
        want = Want({"0123456789abcdef": lines, "f" * 16: []})
        self.holds("want", request_in("".join(want.text()).encode()) == want)

    def test_changes(self) -> None:
        """What changed, taken where the old was told, is what is there now: drawn cases."""
        for seed in range(60):
            draw = random.Random(seed)
            told, file = Told(str(self.path(f"told{seed}"))), io.BytesIO()
            journal = Journal("0" * 16, SOURCE, "kept")
            states = [self.drawn(draw) for _ in range(3)]
            nothing: dict[Key, Sums] = {}
            for old, new in zip([nothing, *states], states):
                again = frozenset(of(toi) for toi in range(1, 9) if draw.random() < 0.1)
                file = io.BytesIO()
                for change in changes_between(sorted(old.items()), sorted(new.items()), again):
                    change.write(file)
                for _ in range(draw.choice((1, 2))):  # twice is once
                    told.take(journal, io.BytesIO(file.getvalue()), file.tell(), lambda _: False)
                found = {it.key: it.sums for it in told.items(journal)}
                if found != new or not all(it.is_complete() for it in told.items(journal)):
                    self.holds(f"seed {seed}", False, (found, new))
        self.holds("all of them", True)

    @staticmethod
    def drawn(draw: random.Random) -> dict[Key, Sums]:
        """Sums of eight objects, each of some drawn symbols of one of two versions."""
        found = {}
        for toi in range(1, 9):
            version = draw.choice("aab")
            symbols = {
                at.to_bytes(4, "big"): sum_of(f"{toi} {at} {version}".encode())
                for at in range(6)
                if draw.random() < 0.6
            }
            if draw.random() < 0.8 and symbols:
                found[of(toi)] = Sums.of(bytes([*bytes(11), draw.randrange(2)]), symbols)
        return found

    def test_the_longest_document(self) -> None:
        longest = exchange.MOST_DOCUMENT
        self.holds("as others read it", longest == fdt.MOST_BYTES, longest)

    def test_damaged_changes(self) -> None:
        out = io.BytesIO()
        sums = Sums.of(bytes(12), {at.to_bytes(4, "big"): bytes([at] * 8) for at in range(3)})
        Change(of(1), sums, 3, True).write(out)
        data = out.getvalue()
        self.holds("whole", len([*read_changes(io.BytesIO(data), len(data), SOURCE)]) == 1)
        swapped = data[:-24] + data[-12:] + data[-24:-12]
        for name, spoiled in {
            "twice": data * 2,
            "out of order": swapped,
            "another sender": data,
            "an FDT Instance": data[:23] + b"\0" + data[24:],
            "a flag": b"\2" + data[1:],
            "more than there are": data[:50] + bytes(3) + b"\2" + data[54:],
            "a great number": data[:54] + b"\xff" * 4 + data[58:],
        }.items():
            source = bytes(16) if name == "another sender" else SOURCE
            with self.subTest(name), self.assertRaises(ReadFault):
                [*read_changes(io.BytesIO(spoiled), len(spoiled), source)]
        for end in range(1, len(data)):
            with self.assertRaises((Cut, ReadFault)):
                [*read_changes(io.BytesIO(data[:end]), len(data), SOURCE)]

    def test_answers(self) -> None:
        """An answer that is cut anywhere, or is another one, is refused."""
        data = b"flutejoin answer 1\nwait\nsince none\nstatus 3\nabcmark none\nend\n"
        kinds = [it.kind for it in parts_of(io.BytesIO(data))]
        self.holds("whole", kinds == ["wait", "since", "status", "mark", "end"], kinds)
        for end in range(len(data)):
            with self.assertRaises(Refused):
                [*parts_of(io.BytesIO(data[:end]))]
        for spoiled in (data + b"x", b"x" + data, data.replace(b"1\n", b"2\n", 1)):
            with self.assertRaises(Refused):
                [*parts_of(io.BytesIO(spoiled))]
        lines = b"status 1048577\n", b"status -1\n", b"status\n", b"values ../x 1\n", b"run 1\n"
        for line in lines:
            with self.assertRaises(Refused):
                [*parts_of(io.BytesIO(data[:24] + line + b"x" * 100))]
        with self.assertRaises(Refused):
            [*parts_of(io.BytesIO(b"flutejoin answer 1\n" + b"wait" * 1000))]
