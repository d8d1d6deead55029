"""Tests flutejoin-receive with full disks, bounds of its files, and files that others change."""
from __future__ import annotations

import contextlib
import fcntl
import os
import shutil
import signal
import subprocess
import threading
import time
from typing import Callable

import datagram_files
from tests.receive.receiver import LONGEST_WAIT, Case, Receiver, packet, records

NEEDS_PROGRAM = False


class Disk(Case):
    def test_a_full_disk_is_tried_again(self) -> None:
        self.needs_namespace()
        os.mkdir(self.path("disk"))
        subprocess.run(
            ["mount", "-t", "tmpfs", "-o", "size=64k", "none", self.path("disk")], check=True
        )
        self.addCleanup(subprocess.call, ["umount", "-l", self.path("disk")])
        with open(self.path("disk/ballast"), "wb") as file:
            file.write(bytes(40000))
        receiver = Receiver(self, "-o", "disk/kept")
        sent = self.symbols(40, 1000)
        receiver.send(sent)
        name = "disk/kept/127.0.0.1.fldg"
        receiver.until_told(f"cannot write {name}: No space left on device")
        with receiver.stopped():  # perhaps during another try
            with open(self.path(name), "rb") as file:
                kept = len(list(datagram_files.records(file.read())))
        self.assertLess(0, kept)
        self.assertLess(kept, 40)
        os.unlink(self.path("disk/ballast"))
        receiver.until_kept(40, name)
        receiver.until_told(f"{name}: can be written again")
        status, lines = receiver.end()
        self.assertEqual((status, records(self.path(name))), (0, sent), receiver.stderr())

    def test_what_cannot_be_kept_is_not_cut_off(self) -> None:
        self.needs_namespace()
        os.mkdir(self.path("kept"))
        subprocess.run(
            ["mount", "-t", "tmpfs", "-o", "size=16k", "none", self.path("kept")], check=True
        )
        self.addCleanup(subprocess.call, ["umount", "-l", self.path("kept")])
        cut = b"FLDG\0\1\0\1x\xff\xff" + bytes(100)
        with open(self.path("kept/127.0.0.1.fldg"), "wb") as file:
            file.write(cut)
        with contextlib.suppress(OSError), open(self.path("kept/ballast"), "wb", 0) as file:
            while file.write(bytes(4096)):
                pass
        receiver = Receiver(self, "-o", "kept", "--count", "1")
        told = "its last 102 bytes, of a record that was cut, cannot be kept elsewhere"
        self.assertIn(told, receiver.stderr())
        os.unlink(self.path("kept/ballast"))
        receiver.send(self.symbols(1))
        self.assertEqual(receiver.ended()[0], 0)
        with open(self.path("kept/127.0.0.1.fldg"), "rb") as file:
            self.assertEqual(file.read(), cut)
        self.assertEqual(len(records(self.path("kept/127.0.0.1.2.fldg"))), 1)
        self.assertEqual(self.names(), ["127.0.0.1.2.fldg", "127.0.0.1.fldg"])

    def test_what_a_full_disk_loses_is_counted(self) -> None:
        self.needs_namespace()
        os.mkdir(self.path("disk"))
        subprocess.run(
            ["mount", "-t", "tmpfs", "-o", "size=20k", "none", self.path("disk")], check=True
        )
        self.addCleanup(subprocess.call, ["umount", "-l", self.path("disk")])
        receiver = Receiver(self, "-o", "disk/kept")
        sent = self.symbols(40, 1000)
        receiver.send(sent)
        receiver.until_told("No space left on device")
        status, lines = receiver.end()
        kept = records(self.path("disk/kept/127.0.0.1.fldg"))
        self.assertEqual((status, kept), (3, sent[: len(kept)]))
        self.assertIn(f"left out {40 - len(kept)}: not written, after a fault", lines)

    def test_the_oldest_files_go_first(self) -> None:
        receiver = Receiver(self, "-o", "kept", "--most", "40000", "--split", "10000")
        sent = self.symbols(100, 1000)
        for begin in range(0, 100, 5):
            receiver.send(sent[begin : begin + 5])
            time.sleep(0.05)
        receiver.until_told("more than 40000 in all")
        status, lines = receiver.end()
        left = [name for name in self.names() if name.endswith(".fldg")]
        numbers = sorted(int(name.split(".")[4]) for name in left)
        self.assertEqual(status, 0)
        self.assertEqual(numbers, list(range(numbers[0], numbers[-1] + 1)))
        kept = [each for number in numbers for each in self.part(number)]
        self.assertEqual(kept, sent[100 - len(kept) :])
        # The lines name the files that exist.
        self.assertEqual(sum("datagrams from" in line for line in lines), len(left))
        self.assertEqual(lines[-1].count(".fldg"), len(left))

    def test_a_file_that_grows_goes_too(self) -> None:
        """Many senders have one each: those that were silent longest go, and the run goes on."""
        receiver = Receiver(self, "-o", "kept", "--most", "40000")
        for number in range(1, 21):
            receiver.send(self.symbols(1, 1000), f"127.0.1.{number}")
            time.sleep(0.02)
        receiver.until_told("more than 40000 in all")
        receiver.send(self.symbols(3, 1000), "127.0.1.1")
        receiver.until(lambda: "127.0.1.1.2.fldg" in self.names(), "a file of the first again")
        status, _ = receiver.end()
        self.assertEqual(status, 0, receiver.stderr())
        self.assertLessEqual(self.held(), 40000)
        self.assertEqual(len(records(self.path("kept/127.0.1.1.2.fldg"))), 3)

    def test_files_of_one_time_go_by_their_numbers(self) -> None:
        """The clock of a file system goes in steps, in which several files may be filled."""
        os.mkdir(self.path("kept"))
        one_time = time.time() - 100
        numbers = [*range(1, 13)]
        for number in numbers:
            name = f"kept/127.0.0.1{f'.{number}' if number > 1 else ''}.fldg"
            datagram_files.write(str(self.path(name)), self.symbols(5, 1000))
            os.utime(self.path(name), (one_time, one_time))
        receiver = Receiver(self, "-o", "kept", "--most", "40000")
        receiver.until(lambda: self.held() <= 40000, "fewer files")
        receiver.send(self.symbols(1, 1000))
        self.assertEqual(receiver.end()[0], 0)
        left = sorted(int(name.split(".")[4]) for name in self.names() if name.count(".") == 5)
        self.assertEqual(self.names(), sorted(f"127.0.0.1.{number}.fldg" for number in left))
        self.assertEqual(left, numbers[-len(left) :])
        self.assertIn(len(left), range(1, 8))

    def test_small_files_take_blocks(self) -> None:
        """What counts is what files take of the disk, and not their lengths."""
        os.mkdir(self.path("kept"))
        for number in range(1, 41):
            datagram_files.write(str(self.path(f"kept/127.0.1.{number}.fldg")), self.symbols(1))
        one, most = self.held() // 40, self.held() // 4
        if one < 4096:
            self.skipTest("small files take no blocks of this file system")
        receiver = Receiver(self, "-o", "kept", "--most", str(most))
        receiver.until(lambda: self.held() <= most, "fewer files")
        self.assertEqual((receiver.end()[0], len(self.names())), (1, most // one))

    def test_a_clock_that_was_set_back(self) -> None:
        """What was written before goes first, though its time is still to come."""
        os.mkdir(self.path("kept"))
        later = time.time() + 10**7
        for name in "127.0.0.1.fldg", "127.0.0.1.2.fldg":
            datagram_files.write(str(self.path(f"kept/{name}")), self.symbols(16, 1000, toi=2))
            os.utime(self.path(f"kept/{name}"), (later, later))
        receiver = Receiver(self, "-o", "kept", "--most", "40000")
        sent = self.symbols(40, 1000)
        for begin in range(0, 40, 5):
            receiver.send(sent[begin : begin + 5])
            time.sleep(0.05)
        self.assertEqual(receiver.end()[0], 0)
        left = sorted(int(name.split(".")[4]) for name in self.names() if name.count(".") == 5)
        kept = [each for number in left for each in self.part(number)]
        self.assertEqual(kept, sent[40 - len(kept) :])
        self.assertGreater(len(kept), 20)
        self.assertNotIn("127.0.0.1.fldg", self.names())

    def test_there_are_never_more_bytes_than_most(self) -> None:
        receiver = Receiver(self, "-o", "kept", "--most", "40000")
        sent = self.symbols(400, 1000)
        for begin in range(0, 400, 40):  # each burst is more than what is kept
            receiver.send(sent[begin : begin + 40])
            time.sleep(0.1)  # less than the second after which the folder is looked at
            with receiver.stopped():
                self.assertLessEqual(self.held(), 40000)
        receiver.send(sent[:40])
        self.assertEqual(receiver.end()[0], 0)
        self.assertLessEqual(self.held(), 40000)
        self.assertGreater(self.held(), 10000)

    def test_one_datagram_stays_whatever_most_is(self) -> None:
        """The newest datagram stays until another one comes, also if an earlier run left it."""
        receiver = Receiver(self, "-o", "kept", "--most", "100")
        sent = self.symbols(20, 1000)
        receiver.send(sent[:10])
        receiver.until(lambda: self.whole_records() == sent[9:10], "a datagram")
        for _ in receiver.seconds(3):
            self.assertEqual(self.whole_records(), sent[9:10])
        self.assertEqual(receiver.end()[0], 0)
        receiver = Receiver(self, "-o", "kept", "--most", "100")
        for _ in receiver.seconds(3):
            self.assertEqual(self.whole_records(), sent[9:10])
        receiver.send(sent[10:])
        self.assertEqual(receiver.end()[0], 0)
        self.assertEqual(self.whole_records(), sent[-1:])

    def test_files_that_are_left_may_be_too_many(self) -> None:
        """Then they go, even if no datagram comes."""
        receiver = Receiver(self, "-o", "kept")
        receiver.send(self.symbols(20, 1000))
        receiver.until_kept(20, "kept/127.0.0.1.fldg")
        self.assertEqual(receiver.end()[0], 0)
        receiver = Receiver(self, "-o", "kept", "--most", "100")
        receiver.until(lambda: not self.whole_records(), "no file")
        self.assertEqual(receiver.end()[0], 1)

    def held(self) -> int:
        """What all files take of the disk; one that is removed meanwhile counts as empty."""
        sizes = []
        for name in self.names():
            with contextlib.suppress(FileNotFoundError):
                sizes.append(512 * os.stat(self.path(f"kept/{name}")).st_blocks)
        return sum(sizes)

    def part(self, number: int) -> list[bytes]:
        return records(self.path(f"kept/127.0.0.1.{number}.fldg"))

    def lost_name(self, lose: Callable[[], object], told: str) -> tuple[Receiver, list[bytes]]:
        """Has a file lose its name while the receiver is stopped. Returns the receiver and what was
        sent."""
        receiver = Receiver(self, "-o", "kept")
        before, after = self.symbols(30), self.symbols(30, toi=2)
        receiver.send(before)
        receiver.until_kept(30, "kept/127.0.0.1.fldg")
        with receiver.stopped():
            lose()
        receiver.until_told_soon(told)
        receiver.send(after)
        receiver.until_kept(30, "kept/127.0.0.1.2.fldg")
        self.assertEqual(receiver.end()[0], 0)
        self.assertEqual(records(self.path("kept/127.0.0.1.2.fldg")), after)
        return receiver, before

    def test_a_file_that_is_removed(self) -> None:
        name = "kept/127.0.0.1.fldg"
        told = f"{name}: was removed while it grew; what it held is written anew"
        _, before = self.lost_name(lambda: os.unlink(self.path(name)), told)
        self.assertEqual(records(self.path(name)), before)

    def test_a_file_that_is_removed_just_before_the_end(self) -> None:
        receiver = Receiver(self, "-o", "kept")
        sent = self.symbols(30)
        receiver.send(sent)
        receiver.until_kept(30, "kept/127.0.0.1.fldg")
        os.unlink(self.path("kept/127.0.0.1.fldg"))
        status, lines = receiver.end()
        self.assertEqual((status, len(lines)), (0, 2))
        self.assertEqual(records(self.path("kept/127.0.0.1.fldg")), sent)

    def test_lines_that_nobody_reads(self) -> None:
        """Another signal ends a run whose lines nobody takes. Its files are whole."""
        receiver = Receiver(self, "-o", "kept")
        assert receiver.process.stdout
        fcntl.fcntl(receiver.process.stdout, fcntl.F_SETPIPE_SZ, 4096)
        for number in range(1, 61):
            receiver.send(self.symbols(1), f"127.0.2.{number}")
        names = [f"kept/127.0.2.{number}.fldg" for number in range(1, 61)]
        receiver.until_kept(60, *names)

        def is_ended() -> bool:
            receiver.process.send_signal(signal.SIGTERM)
            return receiver.process.poll() is not None

        receiver.until(is_ended, "an end")
        self.assertEqual(receiver.process.returncode, 128 + signal.SIGTERM)
        for name in names:
            self.assertEqual(len(records(self.path(name))), 1)

    def test_a_file_that_is_moved(self) -> None:
        name = "kept/127.0.0.1.fldg"
        _, before = self.lost_name(
            lambda: os.rename(self.path(name), self.path("elsewhere")),
            f"{name}: was moved while it grew; another file is begun",
        )
        self.assertEqual(records(self.path("elsewhere")), before)
        self.assertEqual(self.names(), ["127.0.0.1.2.fldg"])

    def test_a_file_that_another_changes(self) -> None:
        name = "kept/127.0.0.1.fldg"
        told = f"{name}: was changed by another; another file is begun"
        self.lost_name(lambda: os.truncate(self.path(name), 100), told)

    def test_a_folder_that_is_removed(self) -> None:
        told = "the folder kept was removed or moved; it is made anew"
        _, before = self.lost_name(lambda: shutil.rmtree(self.path("kept")), told)
        self.assertEqual(records(self.path("kept/127.0.0.1.fldg")), before)

    def test_a_folder_that_is_moved(self) -> None:
        told = "the folder kept was removed or moved; it is made anew"
        _, before = self.lost_name(lambda: os.rename(self.path("kept"), self.path("old")), told)
        self.assertEqual(records(self.path("old/127.0.0.1.fldg")), before)

    def test_nothing_is_lost_while_names_are(self) -> None:
        """Datagrams are kept while a file is removed, and the folder removed or moved."""
        receiver = Receiver(self, "-o", "kept")
        sent: list[bytes] = []

        def send_until(holds: Callable[[], object]) -> None:
            end = time.monotonic() + LONGEST_WAIT
            while not holds():
                self.assertLess(time.monotonic(), end, receiver.stderr())
                sent.extend(packet(os.urandom(100), len(sent) + each) for each in range(20))
                receiver.send(sent[-20:])
                receiver.until(lambda: receiver.waiting() < 100_000, "room in the receive buffer")
                time.sleep(0.01)

        name = self.path("kept/127.0.0.1.fldg")
        send_until(lambda: len(sent) >= 200 and os.path.exists(name))
        os.unlink(name)
        send_until(lambda: "bytes of it are written anew" in receiver.stderr())
        # This file does not grow any more, and is removed with its folder.
        ended = records(name)
        with receiver.stopped():  # otherwise it may make a file while the folder is removed
            shutil.rmtree(self.path("kept"))
        send_until(lambda: receiver.stderr().count("it is made anew") == 1)
        os.rename(self.path("kept"), self.path("old"))
        send_until(lambda: receiver.stderr().count("it is made anew") == 2)
        status, _ = receiver.end()
        found = [self.path(f"old/{name}") for name in self.names("old")]
        found += [self.path(f"kept/{name}") for name in self.names()]
        kept = ended + [datagram for name in found for datagram in records(name)]
        missing = len(set(sent) - set(kept))
        self.assertEqual((status, missing, len(kept)), (0, 0, len(sent)), receiver.stderr())

    def test_what_is_cut_off_is_kept_beside(self) -> None:
        """After one wrong byte in a length, the rest of a file is kept in another file."""
        os.mkdir(self.path("kept"))
        sent = self.symbols(1000, 1380)
        data = datagram_files.content(sent)
        wrong = bytearray(data)
        wrong[6 + 1402 * 970] = 0xFF
        with open(self.path("kept/127.0.0.1.fldg"), "wb") as file:
            file.write(wrong)
        receiver = Receiver(self, "-o", "kept", "--count", "1")
        receiver.send(self.symbols(1))
        self.assertEqual(receiver.ended()[0], 0)
        self.assertIn(
            "kept/127.0.0.1.fldg: a record was cut at its end; these 42060 bytes are taken away, "
            "and kept in kept/127.0.0.1.fldg.cut\n",
            receiver.stderr(),
        )
        with open(self.path("kept/127.0.0.1.fldg.cut"), "rb") as file:
            self.assertEqual(file.read(), wrong[6 + 1402 * 970 :])
        self.assertEqual(records(self.path("kept/127.0.0.1.fldg"))[:970], sent[:970])

    def test_kills(self) -> None:
        """The contents of the files stay: nothing is there twice, and nothing is damaged."""
        sent: list[bytes] = []
        seen: set[bytes] = set()
        for number in range(5):
            receiver = Receiver(self, "-o", "kept", *["--split", "20000"] * (number % 2))
            timer = threading.Timer(0.1 + 0.13 * number, receiver.process.kill)
            while receiver.process.poll() is None:
                sent += [packet(os.urandom(1000), len(sent) + each) for each in range(5)]
                receiver.send(sent[-5:])
                if timer.ident is None and len(self.whole_records()) > len(seen):
                    # Each run writes something before it is killed.
                    timer.start()
                time.sleep(0.002)
            timer.join()
            found = self.whole_records()
            self.assertGreater(len(found), len(seen))
            seen.update(found)
        receiver = Receiver(self, "-o", "kept")
        self.assertNotIn("is left as it is", receiver.stderr())
        receiver.end()
        names = [name for name in self.names() if name.endswith(".fldg")]
        # A file may be empty, if the kill came just after it was made.
        names = [name for name in names if os.path.getsize(self.path(f"kept/{name}"))]
        kept = [each for name in names for each in records(self.path(f"kept/{name}"))]
        self.assertEqual(len(kept), len(set(kept)))
        self.assertEqual(set(kept), seen)
        self.assertLessEqual(seen, set(sent))

    def whole_records(self) -> list[bytes]:
        """The datagrams of all files, which may be cut at their ends."""
        found = []
        for name in self.names():
            if name.endswith(".fldg"):
                with contextlib.suppress(FileNotFoundError):  # it may be removed meanwhile
                    with open(self.path(f"kept/{name}"), "rb") as file:
                        found += [each[2:] for each in datagram_files.records(file.read())]
        return found
