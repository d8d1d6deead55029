"""Tests of what a centre delivers: each file once, whole and right."""
from __future__ import annotations

import json
import os
import random
import signal
import socket
import sys

import datagram_files
from flutejoin_tools.centre.delivering import Deliverer
from tests.centre.case import SENDER, TSI, CentreCase, announced, file_of, packets
from tests.support import run
from tests.support.flute_sender import Sent
from tests.support.ports import free_port
from tests.support.run import Run


class Delivers(CentreCase):
    def test_whole(self) -> None:
        files = [file_of(toi) for toi in (1, 2, 3)]
        self.push("north", announced(files) + packets(files[:2]))
        self.holds("two files are delivered", self.work() == 2)
        wanted = {f"data.example/day/{it.toi:05}.bin": it.content for it in files}
        self.holds("these are right", self.files() == dict(list(wanted.items())[:2]))
        self.push("south", packets(files))
        self.holds("the third one too", self.work() == 1)
        self.holds("all are right", self.files() == wanted)
        lines = self.lines()
        self.holds("each has a line", [it["serial"] for it in lines] == [1, 2, 3], lines)
        told = lines[2]
        self.holds("its name and bytes", told["name"] == files[2].location, told)
        self.holds("its sender", (told["sender"], told["tsi"], told["toi"]) == (SENDER, TSI, 3))
        self.holds("the station that had it", told["stations"] == {"south": 100.0}, told)
        self.holds("nothing waits", not any(self.path("centre/pending").rglob("*.journal")))

    def test_parts(self) -> None:
        """No station has all of a file."""
        file = file_of(1, 20_000)
        sent = file.packets(TSI)
        self.push("north", announced([file]) + sent[::2])
        self.holds("nothing is whole", self.work() == 0)
        self.push("south", sent[1::2])
        self.holds("it is delivered", self.work() == 1)
        self.holds("it is right", [*self.files().values()] == [file.content])
        shares = self.lines()[0]["stations"]
        self.holds("both stations are named", set(shares) == {"north", "south"}, shares)

    def test_once(self) -> None:
        file = file_of(1)
        everything = announced([file]) + packets([file])
        self.push("north", everything)
        self.work()
        (path,) = self.files()
        os.unlink(self.path("centre/files") / path)
        for name in ("north", "south", "north"):
            self.push(name, everything)
            self.holds("nothing is delivered again", self.work() == 0)
        self.open()
        self.push("south", everything)
        self.holds("nor after a start", self.work() == 0)
        self.holds("what was moved away isn't written", not self.files())
        self.holds("it has one line", len(self.lines()) == 1)
        self.holds("nothing waits", not any(self.path("centre/pending").rglob("*.journal")))

    def test_same_toi(self) -> None:
        """A TOI that comes with other contents is another file."""
        old, new = file_of(1), file_of(1, seed=1)
        self.push("north", announced([old]) + packets([old]))
        self.work()
        self.push("north", announced([new], 2) + packets([new]))
        self.holds("the other file is delivered", self.work() == 1)
        self.holds("the newer one has the name", [*self.files().values()] == [new.content])
        self.push("south", packets([old]))
        self.holds("the older one comes late, and is known", self.work() == 0)
        self.holds("the newer one stays", [*self.files().values()] == [new.content])

    def test_same_toi_without_md5(self) -> None:
        """Nothing but their bytes tells that files are others."""
        for turn in (1, 2):
            file = file_of(1, 30_000, seed=turn)
            file.more["Content-MD5"] = None
            self.push("north", announced([file], turn) + packets([file]))
            self.holds(f"file {turn} is delivered", self.work() == 1)
            self.holds(f"file {turn} is right", [*self.files().values()] == [file.content])

    def test_symbols_that_are_shared(self) -> None:
        """A version of a file that was delivered: what both have may come alone."""
        old = file_of(1, 30_000)
        content = bytearray(old.content)
        content[:1400], content[14_000:15_400] = bytes(1400), b"x" * 1400
        new = Sent(1, bytes(content), old.location)
        self.push("north", announced([old]) + packets([old]))
        self.work()
        sent = new.packets(TSI)
        self.push("north", announced([new], 2) + sent[:4])
        self.holds("it is not whole", self.work() == 0)
        self.push("south", sent[4:9] + sent[11:])
        self.holds("one that both don't have lacks", self.work() == 0)
        self.push("north", sent[10:12])
        self.holds("the newer is delivered", self.work() == 1)
        self.holds("it is right", [*self.files().values()] == [new.content])

    def test_older_comes_late(self) -> None:
        """An older file under the name of a newer one is not written over that."""
        old, new = file_of(1, name="news"), file_of(2, name="news")
        self.push("north", announced([old]) + announced([new], 2) + packets([new]))
        self.holds("the newer is delivered", self.work() == 1)
        self.push("north", packets([old]))
        self.holds("the older is not", self.work() == 0)
        self.holds("the newer stays", self.files() == {"news": new.content})
        self.holds("that is told", any("a newer file" in it for it in self.told.printed))

    def test_document_comes_last(self) -> None:
        file = file_of(1)
        self.push("north", packets([file]))
        self.holds("nothing is delivered without a name", self.work() == 0)
        self.open()
        self.push("south", announced([file]))
        self.holds("it is, once its name is known", self.work() == 1)

    def test_wrong(self) -> None:
        """What is whole but has another MD5 is not delivered, until it is right."""
        file = file_of(1)
        wrong = Sent(1, bytes(len(file.content)), file.location)
        self.push("north", announced([file]) + packets([wrong]))
        self.holds("it is not delivered", self.work() == 0)
        self.holds("that is told", any("wrong MD5" in it for it in self.told.printed))
        self.holds("there is no file", not self.files())
        self.push("south", packets([file]))
        self.holds("it is, once a station has it right", self.work() == 1)
        self.holds("it is right", [*self.files().values()] == [file.content])

    def test_no_byte(self) -> None:
        """A file of no byte has no packet, if its FDT Instance alone describes it."""
        file = Sent(1, b"", "empty", is_in_packets=False)
        self.push("north", announced([file]))
        self.holds("it is delivered", self.work() == 1)
        self.holds("it is empty", self.files() == {"empty": b""})
        self.push("north", announced([file, file_of(2)], 2))
        self.holds("it is not delivered again", self.work() == 0)

    def test_hostile_names(self) -> None:
        names = ["../../etc/passwd", "/abs/olute", "a/\u202e&<script>", "-rf", "delivered.jsonl"]
        files = [file_of(toi, name=name) for toi, name in enumerate(names, 1)]
        self.push("north", announced(files) + packets(files))
        self.holds("all are delivered", self.work() == len(names))
        self.holds("below the folder", len(self.files()) == len(names), self.files().keys())
        self.holds("nothing else is written", len(self.lines()) == len(names))
        shown = "".join(self.told.printed)
        self.holds("no unsafe character is printed", "\u202e" not in shown)

    def test_two_senders(self) -> None:
        """A name stays with the sender that had it first, also if the file was moved away."""
        one, other = file_of(1, name="news"), file_of(1, name="news", seed=1)
        self.push("north", announced([one]) + packets([one]))
        self.work()
        os.unlink(self.path("centre/files/news"))
        self.push("north", announced([other]) + packets([other]), "10.0.0.2")
        self.work()
        self.holds("the other has another name", [*self.files()] == ["news.from-10.0.0.2"])

    def test_damaged(self) -> None:
        """A journal that is cut is set aside, and the others are delivered."""
        file = file_of(1)
        self.push("north", announced([file]) + packets([file]))
        (journal,) = self.path("push/north").glob("*.journal")
        journal.write_bytes(journal.read_bytes()[:-40])
        self.push("south", packets([file]))
        self.holds("the other station's is delivered", self.work() == 1)
        self.holds("it is kept aside", len([*self.path("centre/aside").iterdir()]) == 1)
        self.holds("status 1", self.told.status == 1)

    def test_damaged_while_it_waits(self) -> None:
        """A journal of what waits that is damaged is set aside, at whatever moment it is read."""
        one, other, third = (file_of(toi, 14_000) for toi in (1, 2, 3))
        self.push("north", announced([one, other, third]) + one.packets(TSI)[:5])
        self.push("south", other.packets(TSI)[:5])
        self.work()
        (journal,) = self.path("centre/pending/north").glob("*.journal")
        data = journal.read_bytes()
        journal.write_bytes(data[:6] + b"\x77" + data[7:])
        self.open()
        self.push("south", other.packets(TSI)[5:])
        self.holds("the other is delivered", self.work() == 1)
        self.holds("it is told", any("is damaged" in it for it in self.told.printed))
        self.holds("it is kept", len([*self.path("centre/aside").iterdir()]) == 1)
        self.push("south", third.packets(TSI)[:5])
        self.work()
        (journal,) = self.path("centre/pending/south").glob("*.journal")
        data = journal.read_bytes()
        journal.write_bytes(data[:6] + b"\x77" + data[7:])
        self.push("north", packets([one, third]))
        self.holds("also while it runs", self.work() == 2)
        self.holds("all are right", len(self.files()) == 3)

    def test_in_the_way(self) -> None:
        """A folder in a file's place is told; once it is gone the file is delivered."""
        file = file_of(1, name="news")
        self.path("centre/files/news").mkdir()
        self.push("north", announced([file]) + packets([file]))
        self.work()
        self.holds("that is told", any("in the way" in it for it in self.told.printed))
        self.holds("there is no line", not self.lines())
        self.path("centre/files/news").rmdir()
        self.open()
        self.work()
        self.holds("it is delivered", self.files() == {"news": file.content})
        self.holds("with one line", len(self.lines()) == 1)

    def test_two_centres(self) -> None:
        """Two centres of the same stations have the same files, in whatever order it comes."""
        draw, files = random.Random(3), [file_of(toi, 9_000) for toi in range(1, 9)]
        pushes = []
        for at in (0, 4):
            sent = announced(files[: at + 4], at + 1) + packets(files[at : at + 4])
            for name in self.names:
                pushes.append((name, [it for it in sent if draw.random() < 0.6]))
        pushes += [(name, packets(files) + announced(files, 5)) for name in self.names]
        found = []
        for folder in ("one", "other"):
            self.push_all(pushes)
            found.append(self.files())
            self.centre.ledger.close()
            os.rename(self.path("centre"), self.path(folder))
            os.rename(self.path("push"), self.path(f"push.{folder}"))
            for name in self.names:
                self.path(f"push/{name}").mkdir(parents=True)
            self.path("centre").mkdir()
            self.centre = Deliverer(self.settings(), str(run.PROGRAM), self.told, self.clock)
            pushes.reverse()
        self.holds("all files", len(found[0]) == len(files), found[0].keys())
        self.holds("the same", found[0] == found[1])

    def push_all(self, pushes: list[tuple[str, list[bytes]]]) -> None:
        """Pushes datagrams of stations, one after another, with a round after each."""
        for name, datagrams in pushes:
            if datagrams:
                self.push(name, datagrams)
                self.work()


class OneStation(CentreCase):
    """flutejoin-station --deliver: the same for who has one station."""

    def run_station(self, *more: object) -> Run:
        """Runs a station for half a second that delivers its own files."""
        words = ["--port", free_port(), "--seconds", 0.5, "-o", "news", "--deliver", "here", *more]
        return self.tool("flutejoin-station", [*words, "--flutejoin", run.PROGRAM])

    def test_delivers(self) -> None:
        files = [file_of(toi, 14_000) for toi in (1, 2)]
        sent = announced(files) + packets(files[:1]) + files[1].packets(TSI)[:-1]
        self.path("news/in").mkdir(parents=True)
        path = self.path(f"news/in/{SENDER}.fldg")
        datagram_files.write(str(path), sent)
        self.write("told.sh", '#!/bin/sh\necho "$1" >> told\n')
        self.path("told.sh").chmod(0o755)
        done = self.run_station("--on-file", self.path("told.sh"))
        self.check("a run", done, None, "", None)
        first = self.path("here/files/data.example/day/00001.bin")
        self.same("what is whole", first, files[0].content)
        self.holds("the other is not", len([*first.parent.iterdir()]) == 1)
        self.holds("the command", self.read("told").decode() == f"{first}\n", self.read("told"))
        first.unlink()
        with path.open("ab") as file:
            rest = [files[1].packets(TSI)[-1], *packets(files[:1])]
            file.write(datagram_files.content(rest)[len(datagram_files.HEADER) :])
        self.check("a second run", self.run_station(), None, "", None)
        second = first.with_name("00002.bin")
        self.same("it is whole now", second, files[1].content)
        self.holds("the first is not written again", not first.exists())
        lines = self.read("here/delivered.jsonl").splitlines()
        self.holds("two lines", len(lines) == 2, lines)
        self.holds("nothing waits", not any(self.path("news/deliver").iterdir()))
        self.holds("a page", self.path("here/page/index.html").exists())

    def test_at_once(self) -> None:
        """A file is there once its last datagram came: no window ends in this run."""
        port, file = free_port(), file_of(1, 140_000)
        words = ["--port", port, "--every", 10**8, "-o", "news", "--deliver", "here"]
        tool = run.ROOT / "tools/flutejoin-station"
        more = ["--interface", "127.0.0.1", "--flutejoin", run.PROGRAM]
        child = self.start([sys.executable, tool, *words, *more], to="out", err="err")
        self.assertTrue(run.until(lambda: b" listening " in self.read("err")))
        sent, path = file.packets(TSI), self.path("here/files/data.example/day/00001.bin")
        recent, documents = self.path("news/journals"), self.path("news/fdt")
        with socket.socket(socket.AF_INET, socket.SOCK_DGRAM) as udp:
            for packet in announced([file]) + sent[:-1]:
                udp.sendto(packet, ("127.0.0.1", port))
            self.assertTrue(run.until(lambda: [*recent.glob("*.journal")]))
            self.assertTrue(run.until(lambda: [*documents.glob("*.xml")]))
            self.holds("not before", not path.exists())
            udp.sendto(sent[-1], ("127.0.0.1", port))
            self.assertTrue(run.until(path.exists), self.read("err"))
        self.same("the file", path, file.content)
        child.send_signal(signal.SIGTERM)
        self.holds("its status", child.wait(run.LONGEST) == 0, self.read("err"))

    def test_options(self) -> None:
        done = self.tool("flutejoin-station", ["-o", "news", "--port", 4001, "--on-file", "x"])
        self.holds("a command alone", done.status == 2 and b"--deliver" in done.err, done)


class Service(CentreCase):
    """The tool as a process."""

    def test_once(self) -> None:
        file = file_of(1)
        self.push("north", announced([file]) + packets([file]))
        self.write("told.sh", '#!/bin/sh\necho "$1 $FLUTEJOIN_MD5" >> told\n')
        self.path("told.sh").chmod(0o755)
        self.more = {"on-file": str(self.path("told.sh"))}
        self.check("it delivers", self.tool_run("--once"), 0, "", None)
        (line,) = self.read("told").decode().splitlines()
        path, md5 = line.split(" ")
        self.holds("the command has the path", path.endswith("files/data.example/day/00001.bin"))
        self.holds("and the MD5", md5 == self.lines()[0]["md5"])
        self.check("nothing new", self.tool_run("--once"), 0, "", "")
        self.holds("the command ran once", len(self.read("told").splitlines()) == 1)

    def test_command_fails(self) -> None:
        """A command that fails, or that a signal ends, is run again by the next run."""
        file = file_of(1)
        self.push("north", announced([file]) + packets([file]))
        self.more = {"on-file": f"{self.path('told.sh')}"}
        self.check("there is none", self.tool_run("--once"), 0, "", None)
        self.write("told.sh", "#!/bin/sh\necho $$ >> told\nexec sleep 600\n")
        self.path("told.sh").chmod(0o755)
        words = [sys.executable, run.ROOT / "tools/flutejoin-centre", "--once"]
        child = self.start([*words, "--config", self.write_settings()], to="out", err="err")
        self.holds("it runs", run.until(lambda: self.exists("told")))
        child.send_signal(signal.SIGTERM)
        self.holds("a signal ends the run", child.wait(run.LONGEST) == 0, self.read("err"))
        self.write("told.sh", '#!/bin/sh\necho "$1" >> told\n')
        self.check("a third run", self.tool_run("--once"), 0, "", None)
        lines = self.read("told").decode().splitlines()
        self.holds("it ran again", len(lines) == 2 and lines[1].endswith("00001.bin"), lines)
        self.holds("the file was delivered once", len(self.lines()) == 1)

    def test_settings(self) -> None:
        for table, told in (
            ("[centre]\n", "has no folder"),
            ('[centre]\nfolder = "a"\n', "there is no \\[\\[station"),
            ('[centre]\nfolder = "a"\nkeep = "soon"\n', "is no time"),
            ('[centre]\nfolder = "a"\nkep = "7d"\n', "there is no setting kep"),
            ('[centre]\nfolder = "a"\n[[station]]\nname = "../x"\nfolder = "b"\n', "is no name"),
        ):
            self.write("centre.toml", table)
            done = self.tool("flutejoin-centre", ["--config", "centre.toml"])
            self.holds(told, done.status == 2 and told.replace("\\", "") in done.err.decode(), done)

    def test_full_disk(self) -> None:
        """On a full disk nothing is lost, and all is delivered once there is room."""
        files = [file_of(toi, 100_000) for toi in range(1, 7)]
        self.push("north", announced(files) + packets(files))
        config = self.write_settings()
        tool = f"{sys.executable} {run.ROOT}/tools/flutejoin-centre --config {config} --once"
        script = f"""
            mount -t tmpfs -o size=900k none centre 2> /dev/null || exit 9
            {tool}; echo $? > first
            mount -o remount,size=30m centre
            {tool}; echo $? > second
            cp -r centre after"""
        done = self.command(["unshare", "-m", "sh", "-c", script])
        if done.status == 9 or self.command(["unshare", "-m", "true"]).status:
            self.skipTest("since nothing can be mounted here")
        self.holds("it is told", b"No space left" in done.err or b"full" in done.err, done)
        statuses = self.read("first"), self.read("second")
        self.holds("the statuses", statuses == (b"3\n", b"0\n"), (statuses, done))
        lines = self.read("after/delivered.jsonl").splitlines()
        names = [json.loads(line)["path"] for line in lines]
        self.holds("each is delivered once", len(names) == len(set(names)) == len(files), names)
        for file in files:
            name = f"after/files/data.example/day/{file.toi:05}.bin"
            self.same(file.location, name, file.content)

    def test_killed(self) -> None:
        """Killed at random moments, each file is delivered once."""
        draw, files = random.Random(67), [file_of(toi, 60_000) for toi in range(1, 41)]
        config = self.write_settings(every="1s")
        for at in range(0, 40, 4):
            for name in self.names:
                chosen = files[at : at + 4]
                sent = [it for it in packets(chosen) if draw.random() < 0.7] + packets(chosen[:2])
                self.push(name, announced(files[: at + 4], at + 1) + sent)
            for _ in range(5):
                words = [sys.executable, run.ROOT / "tools/flutejoin-centre", "--config", config]
                child = self.start(words, to="out", err="err")
                run.until(lambda: child.poll() is not None, draw.uniform(0.05, 1.2))
                child.send_signal(signal.SIGKILL)
                child.wait()
        for name in self.names:
            self.push(name, packets(files))
        self.check("the last run", self.tool_run("--once"), 0, "", None)
        wanted = {f"data.example/day/{it.toi:05}.bin": it.content for it in files}
        self.holds("all files are right", self.files() == wanted)
        names = [it["path"] for it in self.lines()]
        self.holds("each has one line", sorted(names) == sorted(wanted), names)
        serials = [it["serial"] for it in self.lines()]
        self.holds("in order", serials == sorted(set(serials)), serials)
        left = {*os.listdir(self.path("centre"))} - {"work", "round"}
        self.holds("nothing is left on its way", not os.listdir(self.path("centre/ready")), left)
