"""Devices, pipes and standard streams as the output, to which bytes are written directly."""
from __future__ import annotations

import os
import resource
import stat

from tests.outputs.case import CREATE, CUT, FIRST, LINES_OF_TWO, SECOND, THIRD, WRITE, Case
from tests.support import run

SYMBOL = "10A004000000000000000007000000010000000068656C6C"


class Read:
    """Reads a named pipe meanwhile, and returns its bytes."""

    def __init__(self, test: Case, name: str) -> None:
        self.child = test.start(["cat", name], to="read")
        self.test = test

    def bytes(self) -> bytes:
        self.test.finish(self.child)
        return self.test.read("read")


class Devices(Case):
    def test_devices(self) -> None:
        self.row("a full device", "join -o /dev/full two", 3, "", WRITE)
        self.row("a device that takes all", "join -o /dev/null two", 0, None)
        self.holds("it stays a device", stat.S_ISCHR(os.stat("/dev/null").st_mode))
        self.absent("nothing beside a device", "/dev/null.partial")

    def test_file_without_a_name(self) -> None:
        with self.path("nameless").open("w+b") as file:
            self.remove("nameless")
            words = ["sh", "-c", 'exec "$@" 4>&1 >&2', "sh", run.PROGRAM]
            words += ["join", "-o", "/dev/fd/4", "two"]
            done = self.command(words, to=file)
            self.check("an open file without a name", done, 0, "", LINES_OF_TWO)
            file.seek(0)
            self.same("it is written", file.read(), "two")
        left = [name for name in os.listdir(self.folder) if "nameless" in name]
        self.holds("no file with its old name", not left, left)


class Pipes(Case):
    def setUp(self) -> None:
        super().setUp()
        os.mkfifo(self.path("pipe"))

    def six(self) -> None:
        """An object of 300,000 bytes, and the journal of a part of it."""
        self.write("long", os.urandom(300_000))
        self.made("carousel -o sent6 --tsi 7 --toi 6 --symbol 1400 --block 64 long")
        self.made("join -o six sent6")
        # The last record has a length, a header of 36 bytes and the last 400 bytes.
        self.write("sent_six", self.part("sent6", -438))
        self.made("join -o part_six sent_six")

    def test_extract(self) -> None:
        read = Read(self, "pipe")
        self.row("a pipe with a name", f"extract -o pipe {SECOND} two", 0, "bytes 5")
        self.same("what went through it", read.bytes(), "other")
        self.alone("a pipe", "pipe")

    def test_part(self) -> None:
        """Nothing is written of a part: the pipe has only the bytes that follow."""
        self.six()
        both = os.open(self.path("pipe"), os.O_RDWR)
        words = "extract -o pipe --tsi 7 --toi 6 part_six"
        self.row("a part", words, 1, "", "not whole: 3/52")
        os.write(both, b"behind")
        self.same("no byte of it went through", os.read(both, 6), b"behind")
        os.close(both)

    def test_parts_of_a_write(self) -> None:
        """If a write takes only a part of its bytes, the rest follows."""
        self.six()
        done = self.through("parts", "extract -o - --tsi 7 --toi 6 six")
        self.check("standard output that takes parts", done, 0, self.read("long"), "bytes 300000")
        read = Read(self, "pipe")
        done = self.through("parts", "extract -o pipe --tsi 7 --toi 6 six")
        self.check("a pipe that takes parts", done, 0, "bytes 300000")
        self.same("the pipe took all", read.bytes(), "long")

    def test_from_pipe_to_pipe(self) -> None:
        read = Read(self, "pipe")
        with self.piped("in", self.read("two")):
            self.row("extract", f"extract -o pipe {SECOND} in", 0, "bytes 5")
        self.same("what went through both", read.bytes(), "other")
        listed = self.made("gaps two").out
        self.holds("gaps told something", listed)
        read = Read(self, "pipe")
        with self.piped("in", self.read("two")):
            self.row("gaps", "gaps in", 0, None, to="pipe")
        self.same("the lines that went through both", read.bytes(), listed)
        with self.piped("in", self.part("two", 60)):
            self.row("a pipe that ends early", "gaps in", 1, "", "input 1: Cut")


class StandardOutput(Case):
    """With standard output as the output, the lines go to standard error."""

    def test_outputs(self) -> None:
        for out in "-", "/dev/stdout":
            words = f"join -o {out} two"
            self.row(f"join to {out}", words, 0, self.read("two"), LINES_OF_TWO)
            self.row(f"join to a full {out}", words, 3, "", WRITE, to="/dev/full")
            self.write("got", "before")
            with self.path("got").open("ab") as got:
                words = f"extract -o {out} {SECOND} two"
                self.row(f"extract behind what is there, {out}", words, 0, "", "bytes 5", to=got)
            self.same(f"it is behind, {out}", "got", b"beforehello")
            words = f"merge -o {out} one two"
            self.row(f"merge to a pipe, {out}", words, 0, self.read("both"), "entries 14")
            words = f"extract -o {out} {FIRST} one"
            self.row(f"extract to a full {out}", words, 3, "", WRITE, to="/dev/full")

    def test_files(self) -> None:
        """Standard output is a file."""
        for out in "-", "/dev/stdout":
            self.row(f"join to {out}", f"join -o {out} two", 0, "", LINES_OF_TWO, to="got")
            self.same(f"the journal that went to {out}", "got", "two")

    def test_parts(self) -> None:
        first = 8 + int.from_bytes(self.read("sent1")[6:8], "big")
        self.write("sent_part", self.part("sent1", first))
        self.made("join -o part sent_part")
        self.write("cut_both", self.part("both", -1))
        for out in "-", "/dev/stdout":
            of = f"extract -o {out} {FIRST}"
            self.row(f"a part, {out}", f"{of} part", 1, "", "not whole: 0/1")
            self.row(f"a journal that is cut, {out}", f"{of} cut_both", 1, "", "input 1: Cut")

    def test_file_of_its_name(self) -> None:
        words = f"carousel -o ./- {SECOND} {CUT} other"
        self.row("a file with the name -", words, 0, "datagrams 2")
        self.same("it has the datagrams", "./-", "sent2")


class StandardInput(Case):
    def test_journals(self) -> None:
        two, one = self.read("two"), self.read("one")
        self.row("to standard output", "join -o - -", 0, two, LINES_OF_TWO, stdin=self.path("two"))
        words = "merge -o - - two"
        self.row("merge", words, 0, self.read("both"), "entries 14", stdin=self.path("one"))
        self.row("merge of a pipe", words, 0, self.read("both"), "entries 14", stdin=one)
        wanted = "session 7 object 2 whole 5"
        self.row("gaps", "gaps -", 0, wanted, stdin=self.path("two"))

    def test_content(self) -> None:
        words = f"carousel -o got {SECOND} {CUT} -"
        self.row("from a pipe", words, 0, "datagrams 2", stdin=self.read("other"))
        self.same("its datagrams", "got", "sent2")

    def test_content_that_is_the_output(self) -> None:
        """OUT is kept, under whatever name, if it is the file that standard input is."""
        of = f"{SECOND} {CUT} -"
        self.path("soft").symlink_to("d")
        for out in "d", "./d", "soft":
            self.copy("other", "d")
            words = f"carousel -o {out} {of}"
            self.row(words, words, 2, "", "output is an input", stdin=self.path("d"))
            self.same(f"{words}: the file stays", "d", "other")
            self.alone(words, "d")
            self.row(f"{words}, forced", f"{words} -f", 0, "datagrams 2", stdin=self.path("d"))
            self.same(f"{words}, forced: it has the datagrams", "d", "sent2")

    def test_input_beside_the_output(self) -> None:
        """The file beside OUT is no leftover if it is the file that standard input is."""
        for words in (
            f"carousel -o d {SECOND} {CUT} -",
            *("join -o d - one", "merge -o d - one", "minus -o d - one"),
            *("fill -o d --gaps /dev/null -", "forget -o d --conflicts -"),
            *(f"info -o d {THIRD} -", f"extract -o d {SECOND} -"),
        ):
            self.copy("two", "d.partial")
            self.row(words, words, 3, "", CREATE, stdin=self.path("d.partial"))
            self.same(f"{words}: the file stays", "d.partial", "two")
            self.absent(f"{words}: there is no output", "d")


class Closed(Case):
    """With standard output, standard error or both closed, a command still writes OUT whole."""

    def closed(self, words: str, wanted: str = "") -> None:
        """Runs a command with standard streams closed, and checks its status and outputs."""
        for streams, status, err in (
            ([1], 3, WRITE),
            ([2], 0, ""),
            ([0, 1, 2], 3, ""),
        ):
            if self.exists("closed"):
                self.remove("closed")
            done = self.program(words, closed=streams)
            out = None if 1 not in streams else ""
            self.check(f"{words} without {streams}", done, status, out, err)
            if wanted:
                self.same(f"{words} without {streams}: what it wrote", "closed", wanted)

    def test_commands(self) -> None:
        self.made(f"info -o informed {THIRD} two")
        for words in f"packet {SYMBOL}", "show two", "gaps two":
            self.closed(words)
        zero = "--source 00000000000000000000000000000000"
        for words, wanted in (
            (f"extract -o closed {SECOND} two", "other"),
            (f"extract -o closed {zero} {SECOND} two", "other"),
            (f"info -o closed {THIRD} two", "informed"),
            ("join -o closed two", "two"),
            ("merge -o closed one two", "both"),
            ("minus -o closed both one", "two"),
            ("fill -o closed --gaps /dev/null two", "two"),
            ("forget -o closed --conflicts two", "two"),
            (f"carousel -o closed {SECOND} {CUT} other", "sent2"),
        ):
            self.closed(words, wanted)

    def test_input_in_the_place_of_a_stream(self) -> None:
        """No input is opened in place of a closed stream, whose name may be the output."""
        self.copy("one", "all")
        done = self.program("join -o /dev/stderr all two", closed=[0, 1, 2])
        self.check("standard error as the output", done, 3)
        self.same("the first input stays", "all", "one")

    def test_streams(self) -> None:
        self.row("standard input", "show -", 3, "", "cannot open input 1", closed=[0])
        self.row("the output", "join -o - two", 3, "", WRITE, closed=[1])
        self.row("help", "--help", 3, "", WRITE, closed=[1])


class Sizes(Case):
    """A content of more than 4,294,967,295 bytes is refused by its length, before it is read;
    inputs of join have no such limit."""

    MOST = (1 << 32) - 1

    def huge(self, begin: bytes, size: int) -> None:
        """Makes a sparse file of this size that begins with these bytes."""
        self.write("huge", begin)
        os.truncate(self.path("huge"), size)

    def test_content(self) -> None:
        words = f"carousel -o got {SECOND} --symbol 1400 --block 64 huge"
        self.huge(b"FLDG\0\1", self.MOST + 1)
        # Reading it would take longer.
        limits = {resource.RLIMIT_CPU: 10}
        self.row("4 GiB", words, 1, "", "input 1: TooLarge", limits=limits)
        self.huge(b"FLDG\0\1", self.MOST)
        words = f"carousel -o /dev/null {SECOND} --symbol 1400 --block 64 huge"
        limits = {resource.RLIMIT_AS: 16 << 20}
        self.row("one byte less, in 16 MiB", words, 0, "datagrams 3067834", limits=limits)

    def test_inputs_of_join(self) -> None:
        self.huge(b"FLDG\0\1", self.MOST + 1)
        words = "join -o got other huge"
        self.row("the kind of the input before it", words, 1, "", "input 1: unknown kind")
        words = "join -o got huge two"
        self.row("a datagram file of too many records", words, 1, "", "input 1: TooMany")
        for version in 1, 2:
            self.huge(b"FLJN\0" + bytes([version]), self.MOST + 1)
            words = "join -o got huge"
            self.row(f"a journal of version {version}", words, 1, "", "input 1: Kind")

    def test_datagram_file_of_more_than_4_gib(self) -> None:
        chunk = (b"\xff\xff" + bytes(65_535)) * 256
        child = self.start([run.PROGRAM, "join", "-o", "got", "two", "-"])
        assert child.stdin
        child.stdin.write(b"FLDG\0\1")
        for _ in range(257):
            child.stdin.write(chunk)
        lines = "datagrams 65792\nrefused 65792\nentries 3\n"
        self.check("more than 4 GiB", self.finish(child), 0, lines)
        self.same("the journal beside it", "got", "two")
