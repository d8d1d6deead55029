"""Runs of flutejoin-receive, one after another and several at once, and how they end."""
from __future__ import annotations

import os
import re
from signal import SIG_DFL, SIG_IGN, SIGCONT, SIGHUP, SIGINT, SIGKILL, SIGSTOP, SIGTERM

from tests.receive.case import Case, count_line, join_line, said, said_left_out
from tests.support.ports import free_port
from tests.support.run import until

FIRST, SECOND = "7f000001", "7f000002"
NONE = "is no datagram file of version 1, and is left as it is"
ONE = "127.0.0.1.fldg"


class Senders(Case):
    def test_two(self) -> None:
        receiver = self.receive("--count 80 -o two")
        self.send("sent")
        self.send("sent", "127.0.0.2")
        done = receiver.ended()
        wanted = (
            count_line(40, f"two/{ONE}")
            + count_line(40, "two/127.0.0.2.fldg", "127.0.0.2")
            + join_line(FIRST, "two")
            + join_line(SECOND, "two", address="127.0.0.2")
        )
        self.check("two senders", done, 0, wanted)
        self.run_lines("two senders", done)
        for source, address in (FIRST, "127.0.0.1"), (SECOND, "127.0.0.2"):
            self.same(f"the datagrams of {address}", f"two/{address}.fldg", "sent")
            journal = f"two/{address}.journal"
            self.same(f"the journal of {address}", journal, self.direct(source))
        self.made(f"extract -o got --source {SECOND} --tsi 7 --toi 1 two/127.0.0.2.journal")
        self.same("the file", "got", "file")

    def test_another_run(self) -> None:
        """Another run continues the files."""
        receiver = self.receive("--count 80 -o two")
        self.send("sent")
        self.send("sent", "127.0.0.2")
        self.run_lines("a run", receiver.ended())
        receiver = self.receive("--count 2 -o two")
        self.send("sent2")
        done = receiver.ended()
        wanted = count_line(42, f"two/{ONE}", new=", 2 of them new")
        wanted += join_line(FIRST, "two", "127.0.0.1.journal", ONE)
        self.check("a second run", done, 0, wanted)
        self.write("both", self.read("sent") + self.read("sent2")[6:])
        self.same("it goes on behind the first", f"two/{ONE}", "both")
        self.same("the other file stays", "two/127.0.0.2.fldg", "sent")
        self.run_lines("a second run", done)
        journal = self.direct(FIRST, "both")
        self.same("the journal of both runs", "two/127.0.0.1.journal", journal)

    def test_too_many(self) -> None:
        receiver = self.receive("--count 42 --senders 1 -o few")
        self.send("sent")
        self.send("sent2", "127.0.0.2")
        self.send("sent2")
        cause = "more than 1 senders (--senders takes more, and --from names the one)"
        wanted = count_line(42, f"few/{ONE}") + f"left out 2: {cause}\n" + join_line(FIRST, "few")
        told = said_left_out(cause)
        self.check("more senders than are kept", receiver.ended(), 0, wanted, told)
        receiver = self.receive("--senders 1 --count 2 -o few")
        self.send("sent2", "127.0.0.2")
        wanted = count_line(2, "few/127.0.0.2.fldg", "127.0.0.2")
        wanted += join_line(SECOND, "few", address="127.0.0.2")
        self.check("earlier runs keep no sender out", receiver.ended(), 0, wanted)

    def test_one(self) -> None:
        receiver = self.receive("--count 2 --from 127.0.0.2 -o one")
        self.send("sent")
        self.send("sent2", "127.0.0.2")
        cause = "other senders than 127.0.0.2"
        wanted = count_line(2, "one/127.0.0.2.fldg", "127.0.0.2") + f"left out 40: {cause}\n"
        wanted += join_line(SECOND, "one", address="127.0.0.2")
        self.check("one sender", receiver.ended(), 0, wanted, said_left_out(cause))
        self.same("its datagrams", "one/127.0.0.2.fldg", "sent2")

    def test_extremes(self) -> None:
        """The shortest and the longest datagrams, of a sender of FLUTE."""
        extremes = b"\0\0" + b"\xff\xe3" + os.urandom(65_507) + b"\0\0" + b"\0\1x"
        self.write("extremes", self.records_of("sent2", 0, 1) + extremes)
        receiver = self.receive("--count 5 -o extreme")
        self.send("extremes")
        self.check("0 and 65,507 bytes", receiver.ended(), 0, None)
        self.same("their bytes", f"extreme/{ONE}", "extremes")


class Files(Case):
    def test_cut(self) -> None:
        """A file that a kill cut, in each kind of place: in the header, after it, in a length, in a
        datagram, and after a record."""
        for length, whole in (
            *((0, 0), (1, 0), (5, 0), (6, 0), (7, 0), (8, 0), (1044, 1), (1045, 1), (20_000, 19)),
        ):
            folder = f"cut{length}"
            self.path(folder).mkdir()
            self.write(f"{folder}/{ONE}", self.read("sent")[:length])
            expected = self.records_of("sent", 0, whole)
            rest = length - len(expected) if length >= 6 else length
            text = (
                f"{folder}/{ONE}: a record was cut at its end; these {rest} bytes are taken away, "
                f"and kept in {folder}/{ONE}.cut"
            )
            receiver = self.receive(f"--count 2 -o {folder}")
            self.send("sent2")
            self.check(f"{length} bytes", receiver.ended(), 0, None, said(text) if rest else "")
            wanted = expected + self.read("sent2")[6:]
            self.same(f"{length} bytes, mended", f"{folder}/{ONE}", wanted)

    def test_others(self) -> None:
        """A file that is no datagram file is not changed, and keeps no sender out."""
        self.path("other").mkdir()
        nine = "other/127.0.0.9.fldg"
        begun = "another file is begun for its sender"

        def is_left(name: str, told: str) -> None:
            receiver = self.receive("--count 4 -o other")
            self.send("sent2")
            self.send("sent2", "127.0.0.9")
            self.check(name, receiver.ended(), 0, None, said(f"{told}; {begun}"))
            for address in "127.0.0.1", "127.0.0.9.2":
                self.same(f"{name}: of {address}", f"other/{address}.fldg", "sent2")
                self.remove(f"other/{address}.fldg")

        for begin in b"FLDG\0\2", b"FLJN\0\2", b"hello, world", b"x":
            self.write(nine, begin)
            is_left(f"{begin!r}", f"{nine}: {NONE}")
            self.same(f"{begin!r} stays", nine, begin)
        self.remove(nine)
        os.mkfifo(self.path(nine))
        is_left("a pipe", f"{nine}: is no regular file, and is left as it is")
        self.remove(nine)
        self.write("empty", "")
        self.path(nine).symlink_to("../empty")
        is_left("a link", f"{nine}: is a link, and is left as it is")
        self.same("where it leads", "empty", b"")
        self.remove(nine)
        self.path(nine).mkdir()
        is_left("a folder in place of a file", f"cannot open {nine}: Is a directory")
        self.path(nine).rmdir()
        for name in "notes", "127.0.0.9.1", "127.0.0.09", "127.0.0.9.fldg.partial":
            self.write(f"other/{name if '.partial' in name else f'{name}.fldg'}", "x\n")
        receiver = self.receive("--count 2 -o other")
        self.send("sent2")
        self.check("files of other names", receiver.ended(), 0, None)

    def test_split(self) -> None:
        receiver = self.receive("--count 40 --split 10000 -o parts")
        self.send("sent")
        done = receiver.ended()
        names = [ONE, *(f"127.0.0.1.{number}.fldg" for number in range(2, 6))]
        counts = zip((9, 9, 9, 9, 4), names)
        wanted = "".join(count_line(count, f"parts/{name}") for count, name in counts)
        self.check("a split", done, 0, wanted + join_line(FIRST, "parts", *names))
        self.run_lines("a split", done)
        self.same("its journal", "parts/127.0.0.1.journal", self.direct(FIRST))
        receiver = self.receive("--count 2 --split 10000 -o parts")
        self.send("sent2")
        done = receiver.ended()
        self.check("the last part goes on", done, 0, None)
        line = count_line(6, f"parts/{names[-1]}", new=", 2 of them new").strip()
        self.holds("in its place", line in done.lines(), done)

    def test_datagram_a_file(self) -> None:
        receiver = self.receive("--count 80 --split 1 -o many")
        self.send("sent")
        self.send("sent")
        done = receiver.ended()
        self.check("a datagram a file", done, 0, None)
        files = os.listdir(self.path("many"))
        self.holds("as many files as datagrams", len(files) == 80, len(files))
        joins = done.out.count(b"\nflutejoin join ")
        self.holds("more files than one command takes", joins == 2, joins)
        self.run_lines("many parts", done)
        self.same("the journal of many parts", "many/127.0.0.1.journal", self.direct(FIRST))

    def test_as_many_as_a_file_may_have(self) -> None:
        """A file of 16,777,215 empty datagrams takes one more."""
        self.path("most").mkdir()
        self.write(f"most/{ONE}", b"FLDG\0\1")
        os.truncate(self.path(f"most/{ONE}"), 6 + 2 * 16_777_215)
        receiver = self.receive("--count 2 -o most")
        self.send("sent2")
        wanted = (
            count_line(16_777_216, f"most/{ONE}", new=", 1 of them new")
            + count_line(1, "most/127.0.0.1.2.fldg")
            + join_line(FIRST, "most", ONE, "127.0.0.1.2.fldg")
        )
        self.check("as many", receiver.ended(), 0, wanted)


class Ends(Case):
    def test_killed(self) -> None:
        """A run is killed in the middle; the next one keeps what is in the file."""
        receiver = self.receive("-o killed")
        self.send("sent", count=17)
        expected = self.records_of("sent", 0, 17)
        came = until(lambda: self.bytes_of(f"killed/{ONE}") == expected)
        receiver.child.send_signal(SIGKILL)
        receiver.ended()
        self.holds("it came", came)
        self.same("what a killed run leaves", f"killed/{ONE}", expected)
        receiver = self.receive("--count 23 -o killed")
        self.send("sent", first=17)
        done = receiver.ended()
        self.check("the run after a killed one", done, 0, None)
        self.same("it has all", f"killed/{ONE}", "sent")
        self.run_lines("the run after a killed one", done)
        self.same("the journal of both", "killed/127.0.0.1.journal", self.direct(FIRST))

    def test_count_and_time(self) -> None:
        receiver = self.receive("--count 10 -o counted")
        self.send("sent")
        self.check("a number of datagrams", receiver.ended(), 0, None)
        self.same("just as many", f"counted/{ONE}", self.records_of("sent", 0, 10))
        text = said("no datagrams came")
        self.tried("nothing came", "--seconds 0.1 -o nothing", 1, "", text)
        left = os.listdir(self.path("nothing"))
        self.holds("nothing leaves no file", not left, left)

    def test_signals(self) -> None:
        default = {SIGHUP: SIG_DFL, SIGINT: SIG_DFL}
        for number in SIGINT, SIGTERM, SIGHUP:
            folder = f"by_{number.name}"
            receiver = self.receive(f"-o {folder}", signals=default)
            self.send("sent")
            receiver.child.send_signal(number)
            wanted = count_line(40, f"{folder}/{ONE}") + join_line(FIRST, folder)
            self.check(f"the signal {number.name}", receiver.ended(), 0, wanted)
            self.same(f"what came before {number.name}", f"{folder}/{ONE}", "sent")
        ignored = {SIGHUP: SIG_IGN, SIGINT: SIG_DFL}
        receiver = self.receive("-o by_nohup", signals=ignored)
        receiver.child.send_signal(SIGHUP)
        self.send("sent")
        receiver.child.send_signal(SIGINT)
        self.check("a hangup under nohup", receiver.ended(), 0, None)
        self.same("what came behind it", f"by_nohup/{ONE}", "sent")

    def test_drops(self) -> None:
        """The system drops datagrams while the receiver is stopped. The later option counts."""
        receiver = self.receive("--buffer 4096 -o slow", signals={SIGINT: SIG_DFL})
        receiver.child.send_signal(SIGSTOP)
        self.send("sent")
        receiver.child.send_signal(SIGCONT)
        receiver.child.send_signal(SIGINT)
        done = receiver.ended()
        self.check("a receiver that stands still", done, 0, None, None)
        text = done.out.decode()
        kept, dropped = (
            sum(map(int, re.findall(pattern, text, re.MULTILINE)))
            for pattern in (r"fldg: (\d+) datagrams", r"^left out (\d+): dropped by the system ")
        )
        self.holds("all are kept or told", kept + dropped == 40, done)
        self.holds("some were dropped", dropped, done)
        while_it_runs = rb"flutejoin-receive: the system dropped \d* datagrams \(its receive buffer"
        self.holds("and told while it runs", re.search(while_it_runs, done.err), done)

    def test_several_at_once(self) -> None:
        first = self.receive("-o first", signals={SIGINT: SIG_DFL})
        text = said(f"cannot listen at 127.0.0.1 port {self.port}: Address already in use")
        self.tried("on one address", "-o second", 3, "", text)
        of_first, self.port = self.port, free_port()
        text = said("cannot use the folder first: another run writes into it")
        self.tried("with one folder", "-o first", 3, "", text)
        self.send("sent2", port=of_first)
        sent = self.read("sent2")
        came = until(lambda: self.bytes_of(f"first/{ONE}") == sent)
        first.child.send_signal(SIGINT)
        first.ended()
        self.holds("the first run goes on", came)
        self.same("its datagrams", f"first/{ONE}", "sent2")
