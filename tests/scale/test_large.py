"""Runs the built program on sizes that no other test reaches: each call that asks for memory has to
go on where a smaller input would not tell that it gave up."""
from __future__ import annotations

import struct
import subprocess
import tempfile
import unittest
from pathlib import Path

import datagram_files
from tests.support.run import PROGRAM


def run(*words: str | Path, status: int = 0) -> str:
    """What the program prints. It must end with this status."""
    ran = subprocess.run([PROGRAM, *words], capture_output=True, text=True, check=False)
    if ran.returncode != status:
        raise AssertionError(f"{words}: status {ran.returncode}: {ran.stderr}")
    return ran.stdout


def counted(told: str) -> dict[str, int]:
    """The numbers in lines of a word and a number, by the word."""
    return {word: int(number) for word, number in (line.split() for line in told.splitlines())}


class Large(unittest.TestCase):
    def setUp(self) -> None:
        room = tempfile.TemporaryDirectory(prefix="large-")
        self.addCleanup(room.cleanup)
        self.room = Path(room.name)

    def sent(self, name: str, content: bytes, symbol: int, block: int, tsi: int = 7) -> Path:
        """A datagram file of this content, as the object 1 of a session."""
        file, out = self.room / f"{name}.content", self.room / name
        file.write_bytes(content)
        key = ["--tsi", str(tsi), "--toi", "1"]
        run("carousel", "-o", out, *key, "--symbol", str(symbol), "--block", str(block), file)
        return out

    def test_more_than_a_gibibyte_is_sent(self) -> None:
        length = (1 << 30) + 1
        file = self.room / "file"
        with file.open("wb") as zeros:
            zeros.truncate(length)
        command: list[str | Path] = [PROGRAM, "carousel", "-o", "-", "--tsi", "7", "--toi", "1"]
        command += ["--symbol", "65000", "--block", "1000", str(file)]
        with subprocess.Popen(
            command, stdout=subprocess.PIPE, stderr=subprocess.PIPE, text=False
        ) as sending:
            assert sending.stdout and sending.stderr
            size = 0
            while piece := sending.stdout.read(1 << 20):
                size += len(piece)
            told = sending.stderr.read().decode()
        self.assertEqual(sending.returncode, 0, told)
        datagrams = -(-length // 65000)
        self.assertEqual(told, f"datagrams {datagrams}\n")
        self.assertGreater(size, length + datagrams * 4)

    def test_more_than_64_mebibytes_of_a_pipe_are_sent(self) -> None:
        content = bytes(range(251)) * 280_000
        file, sent = self.room / "file", self.room / "sent"
        file.write_bytes(content)
        key = ["--tsi", "7", "--toi", "1", "--symbol", "65000", "--block", "1000"]
        told = run("carousel", "-o", sent, *key, file)
        command: list[str | Path] = [PROGRAM, "carousel", "-o", self.room / "piped", *key, "-"]
        piped = subprocess.run(command, input=content, capture_output=True, check=False)
        self.assertEqual((piped.returncode, piped.stderr), (0, b""))
        self.assertEqual(piped.stdout.decode(), told)
        self.assertEqual((self.room / "piped").read_bytes(), sent.read_bytes())

    def test_two_million_datagrams_are_sent_and_joined(self) -> None:
        """More than a million symbols are held in memory, and put aside where it has less room."""
        file, sent, content = self.room / "file", self.room / "sent", bytes(range(250)) * 8_001
        file.write_bytes(content)
        key = ["--tsi", "7", "--toi", "1"]
        words = [*key, "--symbol", "1", "--block", "60000"]
        told = run("carousel", "-o", sent, *words, file)
        self.assertEqual(told, "datagrams 2000250\n")
        held, apart, out = (self.room / name for name in ("held", "apart", "out"))
        counts = {"datagrams": 2_000_250, "refused": 0, "entries": 2_000_251}
        for journal, memory in (held, "1G"), (apart, "20M"):
            words = ["join", "--any-size", "--memory", memory, "-o", str(journal), str(sent)]
            self.assertEqual(counted(run(*words)), counts)
        run("extract", "--any-size", "-o", out, *key, held)
        self.assertEqual(out.read_bytes(), content)
        self.assertEqual(apart.read_bytes(), held.read_bytes())

    def test_two_million_objects_are_held(self) -> None:
        """Each has one symbol, of four bytes, in one datagram."""
        count, sent = 2_000_001, self.room / "sent"
        head = bytes.fromhex("0018 10A00400 00000000 00000007")  # the length, and before the TOI
        numbers = (toi.to_bytes(4, "big") for toi in range(1, count + 1))
        records = b"".join(head + number + bytes(4) + b"abcd" for number in numbers)
        sent.write_bytes(datagram_files.HEADER + records)
        words = ["--any-size", "--memory", "4G", "-o", str(self.room / "journal"), str(sent)]
        wanted = {"datagrams": count, "refused": 0, "entries": count}
        self.assertEqual(counted(run("join", *words)), wanted)

    def test_long_symbols_go_from_datagrams_to_the_file(self) -> None:
        for symbol in (49_999, 50_000, 55_000, 59_999, 60_000, 62_500, 65_000):
            with self.subTest(symbol=symbol):
                content = bytes(place * 31 % 251 for place in range(symbol)) * 2 + b"end"
                sent = self.sent(f"sent{symbol}", content, symbol, 16)
                journal, joined = self.room / f"j{symbol}", self.room / f"k{symbol}"
                self.assertEqual(
                    counted(run("join", "-o", journal, sent)),
                    {"datagrams": 3, "refused": 0, "entries": 4},
                )
                # (again from the journal, and with sessions chosen)
                run("join", "-o", joined, journal)
                self.assertEqual(joined.read_bytes(), journal.read_bytes())
                told = counted(run("join", "--tsi", "9", "-o", self.room / "none", sent, journal))
                self.assertEqual(told["others"], 3 + 4)
                out = self.room / "out"
                run("extract", "-o", out, "--tsi", "7", "--toi", "1", joined)
                self.assertEqual(out.read_bytes(), content)

    def test_four_million_datagrams_are_joined(self) -> None:
        one = self.sent("one", bytes(1000), 1, 1000).read_bytes()
        many, journal = self.room / "many", self.room / "journal"
        with many.open("wb") as file:
            file.write(one[:6])
            for _ in range(40):
                file.write(one[6:] * 100)
            file.write(one[6:])
        self.assertEqual(
            counted(run("join", "-o", journal, many)),
            {"datagrams": 4_001_000, "refused": 0, "entries": 1001},
        )
        self.assertEqual(
            counted(run("join", "--tsi", "9", "-o", journal, many)),
            {"datagrams": 4_001_000, "refused": 0, "others": 4_001_000, "entries": 0},
        )

    def test_gaps_of_more_than_16_megabytes_are_told(self) -> None:
        journal = self.room / "journal"
        run("join", "-o", journal, self.sent("sent", b"x", 1, 1))
        numbers = ["--length", "65536", "--symbol", "1", "--block", "1"]
        objects = range(2, 16)
        for toi in objects:
            run("info", "-o", journal, "--tsi", "7", "--toi", str(toi), *numbers, journal)
        told = run("gaps", journal)
        self.assertGreater(len(told), 16_000_000)
        self.assertEqual(told.count("\ngap "), len(objects) * 65_536)

    def test_gaps_of_few_bytes_take_no_memory(self) -> None:
        """400 datagrams, 15.6 KB in all, of which each makes 65,535 symbols missing."""
        journal = self.gaping("journal", 0)
        limited = f'ulimit -v {32 << 10}; exec "$@"'
        command = ["sh", "-c", limited, "sh", str(PROGRAM), "gaps", str(journal)]
        with subprocess.Popen(command, stdout=subprocess.PIPE) as gaps:
            assert gaps.stdout
            lines = 0
            while piece := gaps.stdout.read(1 << 20):
                lines += piece.count(b"\n")
        self.assertEqual((gaps.returncode, lines), (0, 400 * 65_536))

    def test_an_answer_to_many_lines_takes_no_memory(self) -> None:
        """26,214,400 lines, of which each of 400 objects has the last at the end of a block."""
        asker, station = self.gaping("asker", 0), self.gaping("station", 65_535)
        piped = f'ulimit -v {32 << 10}; "$1" gaps "$2" | "$1" fill -o "$4" --gaps - "$3"'
        words = [PROGRAM, asker, station, self.room / "answer"]
        ran = subprocess.run(
            ["sh", "-c", piped, "sh", *words], capture_output=True, text=True, check=False
        )
        self.assertEqual((ran.returncode, ran.stdout, ran.stderr), (0, "entries 400\n", ""))

    def gaping(self, name: str, block: int) -> Path:
        """A journal of 400 objects of 65,536 blocks, each with the symbol of this block alone."""
        sent, journal = self.room / f"{name}.sent", self.room / name
        lengths = struct.pack(">BBHIHHI", 64, 4, 0, 65_536, 0, 1, 1)
        with sent.open("wb") as file:
            file.write(datagram_files.HEADER)
            for toi in range(1, 401):
                header = struct.pack(">BBBBIII", 0x10, 0xA0, 8, 0, 0, 7, toi)
                number = struct.pack(">HH", block, 0)
                file.write(datagram_files.record(header + lengths + number + b"x"))
        self.assertEqual(counted(run("join", "-o", journal, sent))["entries"], 800)
        return journal

    def test_each_of_many_inputs_has_the_sender(self) -> None:
        journal, sent = self.room / "journal", []
        for tsi in range(1, 11):
            sent.append(self.sent(f"sent{tsi}", b"x", 1, 1, tsi))
        run("join", "--source", "0a000001", "-o", journal, *sent)
        lines = run("gaps", journal).splitlines()
        self.assertEqual(len(lines), 10)
        named = {line.split(" session ")[0] for line in lines}
        self.assertEqual(named, {"source 00000000000000000000ffff0a000001"})

    def test_information_of_large_numbers_is_kept(self) -> None:
        journal = self.room / "journal"
        run("join", "-o", journal, self.sent("sent", b"x", 1, 1))
        for toi, (length, symbol, block) in enumerate(
            [(6_000_000_001, 60_000, 60_000), (600, 6, 2_000_000)], start=2
        ):
            numbers = ["--length", str(length), "--symbol", str(symbol), "--block", str(block)]
            run("info", "-o", journal, "--tsi", "7", "--toi", str(toi), *numbers, journal)
            line = f"session 7 object {toi} info length {length} symbol {symbol} block {block}"
            self.assertIn(line, run("show", journal).splitlines())
