"""Tests of [repair] of a centre: what no station has comes from where the files lie."""
from __future__ import annotations

import json
import os
import pathlib
import random
import shutil
import signal
import sys
from typing import Any, Optional, Sequence

import datagram_files
from flutejoin_tools.centre.origin import repairing_of
from flutejoin_tools.centre.service import Service
from flutejoin_tools.centre.settings import Settings
from flutejoin_tools.centre.tries import DAY, Tries, pause
from tests.centre.case import SENDER, TSI, CentreCase, announced
from tests.repair.origin import Origin
from tests.support import run
from tests.support.flute_sender import Sent
from tests.support.ports import free_port
from tests.support.run import until


class RepairCase(CentreCase):
    """A centre of three stations, whose files lie at a server on the loopback."""

    names = "north", "south", "west"
    more = {"silent": "30d"}
    repair: dict[str, Any] = {}

    def setUp(self) -> None:
        self.origin = Origin()
        self.addCleanup(self.origin.close)
        self.service: Optional[Service] = None
        super().setUp()
        self.addCleanup(self.close)

    def table(self) -> dict[str, Any]:
        return {"base": f"{self.origin.url}/day/", "after": "10m", **self.repair}

    def settings(self) -> Settings:
        return super().settings().with_repair(repairing_of(self.table()))

    def write_settings(self, **more: object) -> pathlib.Path:
        path = super().write_settings(**more)
        with path.open("a") as file:
            file.write("[repair]\n")
            file.writelines(f"{key} = {json.dumps(it)}\n" for key, it in self.table().items())
        return path

    def open(self) -> None:
        """Begins the service, as a new process would."""
        self.close()
        self.path("centre").mkdir(exist_ok=True)
        self.service = Service(self.settings(), self.told, lambda: None)
        self.centre = self.service.deliverer
        self.centre.clock = self.clock
        self.service.telling.model.began = self.clock()
        assert self.service.fetching
        self.service.fetching.tries.clock = self.clock

    def close(self) -> None:
        if self.service:
            self.service.stop()
            self.centre.ledger.close()
            os.close(self.service.lock)
            self.service = None

    def files_of(self, *tois: int, size: int = 30_000) -> list[Sent]:
        """Files that the origin has."""
        found = []
        for toi in tois:
            content = random.Random(toi).randbytes(size + toi)
            path = f"/day/{toi}.bin"
            self.origin.files[path], self.origin.tags[path] = content, f'"of-{toi}"'
            found.append(Sent(toi, content, f"{self.origin.url}{path}"))
        return found

    def push_without(self, files: Sequence[Sent], lost: Sequence[int]) -> None:
        """Has all stations push files without these symbols, and each without others too."""
        for at, name in enumerate(self.names):
            sent = announced(files)
            for file in files:
                own = [it for it in enumerate(file.packets(TSI)) if it[0] not in lost]
                sent += [packet for place, packet in own if place % len(self.names) != at]
            self.push(name, sent)

    def steps(self) -> None:
        """Works until no repair goes on and nothing waits to be taken."""
        assert self.service and self.service.fetching
        fetching = self.service.fetching
        self.service.work()
        self.service.telling.tell(at_once=True)
        for _ in range(20):
            fetching.look_at = float("-inf")
            if not fetching.tend():
                return
            self.holds("a repair ends", until(lambda: not fetching.tend()))
            self.service.work()
            self.service.telling.tell(at_once=True)

    def later(self, seconds: float = 601) -> None:
        self.clock.now += seconds

    def status(self) -> dict[str, Any]:
        told: dict[str, Any] = json.loads(self.path("centre/page/status.json").read_text())
        return told

    def delivered(self, name: str, files: Sequence[Sent]) -> None:
        """Checks that the files of the centre are these, as the origin has them."""
        host = self.origin.url.partition("://")[2]
        wanted = {f"{host}/day/{it.toi}.bin": it.content for it in files}
        self.holds(f"{name}: the files are those of the origin", self.files() == wanted,
                   (self.files().keys(), wanted.keys(), self.told.printed[-8:]))


class Repairs(RepairCase):
    def test_three_stations(self) -> None:
        """What all three lost is fetched once it is old enough, and the files are delivered."""
        files = self.files_of(1, 2, 3)
        self.push_without(files, [3, 4, 9])
        self.steps()
        self.holds("nothing is asked at once", not self.origin.requests)
        self.holds("nothing is delivered", not self.files())
        self.later(300)
        self.push("north", files[2].packets(TSI)[:2])
        self.steps()
        self.later(301)
        self.steps()
        self.delivered("the two to which nothing was added for ten minutes", files[:2])
        self.later(300)
        self.steps()
        self.delivered("all", files)
        paths = [it.path for it in self.origin.requests]
        self.holds("each is asked for once", sorted(paths) == sorted({*paths}), paths)
        ranges = self.origin.requests[0].fields["range"]
        self.holds("what is missing alone", ranges == "bytes=4200-6999,12600-13999", ranges)
        shares = self.lines()[0]["stations"]
        self.holds("the log has what the origin gave", 13 < shares["origin"] < 14, shares)
        repair = self.status()["repair"]
        self.holds("the status", repair["files"] == 3 and repair["asked"] == 9, repair)
        self.holds("no fault", repair["fault"] is None and not repair["running"], repair)
        self.holds("its bytes", repair["fetched"] == repair["today"] == self.origin.sent, repair)
        lines = [it for it in self.told.printed if it.startswith("repair: ")]
        self.holds("a line", any("2 files complete" in it for it in lines), lines)
        page = self.path("centre/page/index.html").read_text()
        self.holds("the page", "Repair: 3 files complete by" in page)
        metrics = self.path("centre/page/metrics.prom").read_text()
        self.holds("metrics", "flutejoin_centre_repair_files_total 3\n" in metrics, metrics)
        pending = [*self.path("centre/pending").rglob("*.journal")]
        self.holds("nothing waits", not pending, pending)

    def test_nothing_was_received(self) -> None:
        """A file of which no station has a symbol, ten minutes after it was described."""
        files = self.files_of(1, 2)
        self.push("north", announced(files) + files[0].packets(TSI))
        self.steps()
        self.later()
        self.steps()
        self.delivered("both", files)

    def test_stations_have_other_contents(self) -> None:
        """Of a TOI that came with other contents at a station, the MD5 says which is asked for."""
        (file,) = self.files_of(1)
        other = Sent(1, bytes(30_001), file.location)
        self.push("north", announced([file]) + file.packets(TSI)[:12])
        self.push("south", other.packets(TSI)[:14])
        self.steps()
        self.later()
        self.steps()
        self.delivered("the one that is described", [file])

    def test_once(self) -> None:
        """The tool as a process: --once repairs what is old enough."""
        files = self.files_of(1, 2)
        self.push_without(files, [5])
        self.close()
        self.repair = {"after": 0}
        done = self.tool_run("--once")
        self.check("it delivers", done, 0, "", None)
        self.delivered("by one run", files)
        self.holds("told", b"repair: asked 2 symbols in 2 requests" in done.err, done.err)
        self.check("nothing new", self.tool_run("--once"), 0, "", "")

    def test_off(self) -> None:
        """Without [repair] nothing is asked for, and nothing is told of it."""
        (file,) = self.files_of(1)
        self.push_without([file], [5])
        self.close()
        shutil.rmtree(self.path("centre"))
        self.path("centre").mkdir()
        path = CentreCase.write_settings(self)
        done = self.tool("flutejoin-centre", ["--config", path, "--once"])
        self.check("it runs", done, 0, "", None)
        self.holds("nothing is asked", self.origin.connections == 0)
        self.holds("no status", self.status()["repair"] is None)
        self.absent("no folder", "centre/origin")
        metrics = self.path("centre/page/metrics.prom").read_text()
        self.holds("no metrics", "repair" not in metrics)

    def test_settings(self) -> None:
        front = '[centre]\nfolder = "a"\n[[station]]\nname = "n"\nfolder = "b"\n'
        base = f'base = "{self.origin.url}/"\n'
        for table, told in (
            ("[repair]\n", "[repair] has no base"),
            ('[repair]\nbase = "file:///a"\n', "[repair]: base: 'file:///a' is no URL"),
            (f'[repair]\n{base}after = "soon"\n', "[repair]: after: 'soon' is no time"),
            (f"[repair]\n{base}often = 1\n", "[repair]: often: there is no such setting"),
            ("repair = 1\n" + front, "repair is no [repair]"),
            (f'[[station]]\nname = "origin"\nfolder = "c"\n[repair]\n{base}', "the name origin"),
        ):
            whole = table if front in table else front + table
            self.write("wrong.toml", whole)
            done = self.tool("flutejoin-centre", ["--config", "wrong.toml", "--once"])
            self.holds(told, done.status == 2 and told in done.err.decode(), done)


class Servers(RepairCase):
    """What a server does may harm no delivery."""

    def started(self) -> list[Sent]:
        """Two files of which a symbol is missing everywhere, long enough."""
        files = self.files_of(1, 2)
        self.push_without(files, [5])
        self.steps()
        self.later()
        return files

    def told_of_repair(self) -> list[str]:
        return [it for it in self.told.printed if it.startswith("repair: http")]

    def test_lies(self) -> None:
        """A server with other bytes of the right length: nothing of it is kept, and it is told."""
        files, right = self.started(), {**self.origin.files}
        for path, data in right.items():
            self.origin.files[path] = bytes(len(data))
        before = self.pending()
        self.steps()
        self.holds("nothing is delivered", not self.files())
        self.holds("what is kept is as it was", self.pending() == before)
        lines = self.told_of_repair()
        self.holds("each is told", len(lines) == 2 and "its MD5 is wrong" in lines[0], lines)
        self.holds("when it is asked again", lines[0].endswith("again in 10 min"), lines)
        asked = len(self.origin.requests)
        self.steps()
        self.holds("it isn't asked at once", len(self.origin.requests) == asked)
        self.later()
        self.steps()
        self.holds("it is asked again after a pause", len(self.origin.requests) == asked + 2)
        self.later()
        self.steps()
        self.holds("which grows", len(self.origin.requests) == asked + 2)
        self.holds("what is the same is told once", self.told_of_repair() == lines)
        status = self.status()
        (fault,) = [it["fault"] for it in status["stations"] if it["name"] == "origin"]
        self.holds("the status tells", "its MD5 is wrong (2 files)" in fault, fault)
        self.holds("as a warning", status["level"] == "WARNING", status["problems"])
        self.origin.files = right
        self.later()
        self.steps()
        self.delivered("once the server is right", files)
        self.holds("the fault is over", self.status()["repair"]["fault"] is None)

    def pending(self) -> dict[str, bytes]:
        """The journals of what waits."""
        folder = self.path("centre/pending")
        return {str(it): it.read_bytes() for it in folder.rglob("*.journal")}

    def lies_in_part(self, rest: int) -> None:
        """A lie of which a part came, as the day's bytes were over; a station brings the rest."""
        (file,) = self.files_of(1, size=300_000)
        lost = [*range(2, 200, 2)]
        self.push_without([file], lost)
        self.steps()
        right = self.origin.files["/day/1.bin"]
        self.origin.files["/day/1.bin"] = bytes(len(right))
        self.repair = {"most": 70_000}
        self.open()
        self.later()
        self.steps()
        kept = [*self.path("centre/pending/origin").glob("*.journal")]
        self.holds("some came", len(kept) == 1, (kept, self.told.printed))
        self.repair = {}
        self.open()
        self.push("west", [file.packets(TSI)[at] for at in lost[rest:]])
        for _ in range(2):
            self.later()
            self.steps()
        told = [it for it in self.told.printed if "MD5 is wrong" in it or "does not fit" in it]
        self.holds("it is told", bool(told), self.told.printed)
        self.absent("it is forgotten", "centre/pending/origin/10.0.0.1.journal")
        self.holds("nothing is delivered", not self.files())
        self.origin.files["/day/1.bin"] = right
        self.later(DAY)
        self.steps()
        self.delivered("once the server is right", [file])

    def test_lies_in_part(self) -> None:
        """What came in part and is wrong is forgotten by what comes of the rest."""
        self.lies_in_part(60)

    def test_lies_in_part_and_whole(self) -> None:
        """And if stations bring the rest, so that it is whole with the lie."""
        self.lies_in_part(40)

    def test_lies_and_stations(self) -> None:
        """If stations bring all of it, it is delivered, whatever came of the server."""
        (file,) = self.files_of(1, size=300_000)
        lost = [*range(2, 200, 2)]
        self.push_without([file], lost)
        self.steps()
        self.origin.files["/day/1.bin"] = bytes(len(file.content))
        self.repair = {"most": 70_000}
        self.open()
        self.later()
        self.steps()
        self.push("west", [file.packets(TSI)[at] for at in lost])
        self.steps()
        self.delivered("it is delivered", [file])

    def test_down(self) -> None:
        """A server that is not there: what stations bring is delivered as ever."""
        self.started()
        self.origin.close()
        self.steps()
        lines = self.told_of_repair()
        self.holds("told", lines and "refused" in lines[0], self.told.printed)
        asked = self.status()["repair"]["runs"]
        for _ in range(3):
            self.steps()
        self.holds("it isn't asked again and again", self.status()["repair"]["runs"] == asked)
        (other,) = self.files_of(7)
        self.push("north", announced([other]) + other.packets(TSI))
        self.steps()
        self.delivered("what a station has whole", [other])

    def test_slow(self) -> None:
        """While a server is waited for, what stations bring is delivered; one run at a time."""
        self.started()
        self.origin.how = lambda asked: b"HTTP/1.1 200 said\r\n"
        assert self.service and self.service.fetching
        self.service.fetching.look_at = float("-inf")
        self.holds("a run begins", self.service.fetching.tend())
        self.holds("it asks", until(lambda: self.origin.requests))
        child = self.service.fetching.child
        (other,) = self.files_of(7)
        self.push("north", announced([other]) + other.packets(TSI))
        self.service.next = float("-inf")
        self.service.work_at_times()
        self.delivered("what a station has whole", [other])
        self.service.fetching.look_at = float("-inf")
        self.holds("the same run goes on", self.service.fetching.tend())
        self.holds("there is no other", self.service.fetching.child is child)
        self.service.telling.tell(at_once=True)
        self.holds("the status says so", self.status()["repair"]["running"])
        self.service.stop()
        self.holds("at the end it is ended", child is not None and child.poll() is not None)
        self.absent("nothing of it is left", "centre/repairing")

    def test_seconds(self) -> None:
        """A run has its time."""
        self.repair = {"seconds": 1}
        self.open()
        self.started()
        self.origin.how = lambda asked: b"HTTP/1.1 200 said\r\n"
        self.steps()
        lines = self.told_of_repair()
        self.holds("told", lines and "1 seconds are over" in lines[0], self.told.printed)

    def test_bytes_of_a_day(self) -> None:
        """No more than `most` comes in a day; the next one goes on."""
        most = 110_000  # bytes: of each file 49 symbols of 1,400 are missing, so one has room
        files = self.files_of(1, 2, 3, size=150_000)
        self.push_without(files, [*range(2, 100, 2)])
        self.repair = {"most": most}
        self.open()
        self.steps()
        self.later()
        self.steps()
        self.holds("one file has room", len(self.files()) == 1, self.files().keys())
        self.holds("no more comes", self.origin.sent < most, self.origin.sent)
        repair = self.status()["repair"]
        self.holds("the bound holds", repair["today"] <= most == repair["most"], repair)
        lines = [it for it in self.told.printed if "until tomorrow" in it]
        self.holds("it is told once", len(lines) == 1, self.told.printed)
        self.holds("that is no failure", not self.told_of_repair(), self.told_of_repair())
        for _ in range(4):
            self.later(DAY)
            self.steps()
        self.delivered("on other days", files)

    def test_pauses(self) -> None:
        """A centre asks again ever later; if what it noted of that is damaged, it begins anew."""
        self.holds("they grow", [pause(600, it) for it in (1, 2, 3)] == [600, 1200, 2400])
        self.holds("to a day", pause(600, 99) == DAY == pause(600, 10**6))
        self.write("tries.json", "[]")
        for text in "[]", "{", '{"tries": 7}', '{"tries": {"zz": [1, 2, "a"]}}':
            self.write("tries.json", text)
            tries = Tries(str(self.path("tries.json")), 600, self.clock)
            self.holds(f"{text}: begins anew", not tries.tried and not tries.bytes)


class Killed(RepairCase):
    def test_killed(self) -> None:
        """Killed while it asks, a centre asks anew, and its files are right."""
        files = self.files_of(*range(1, 9))
        self.push_without(files, [5, 6])
        self.close()
        self.repair = {"after": 0}
        draw, config = random.Random(70), self.write_settings(every="1s")
        words = [sys.executable, run.ROOT / "tools/flutejoin-centre", "--config", config]
        for _ in range(6):
            asked = len(self.origin.requests)
            child = self.start(words, to="out", err="err")
            until(lambda: len(self.origin.requests) > asked or child.poll() is not None, 20)
            until(lambda: child.poll() is not None, draw.uniform(0, 0.5))
            child.send_signal(signal.SIGKILL)
            child.wait()
        running = [*self.path("centre").glob("repairing/*")]
        self.check("the last run", self.tool_run("--once"), 0, "", None)
        self.delivered("all", files)
        names = [it["path"] for it in self.lines()]
        self.holds("each once", len(names) == len({*names}) == 8, names)
        self.absent(f"nothing is left of {len(running)}", "centre/repairing")

    def test_terminated(self) -> None:
        """A signal ends the centre while it asks."""
        self.push_without(self.files_of(1), [5])
        self.close()
        self.repair = {"after": 0}
        self.origin.how = lambda asked: b"HTTP/1.1 200 said\r\n"
        words = [sys.executable, run.ROOT / "tools/flutejoin-centre", "--config"]
        child = self.start([*words, self.write_settings(every="1s")], to="out", err="err")
        self.holds("it asks", until(lambda: self.origin.requests))
        child.terminate()
        self.holds("it ends", child.wait(run.LONGEST) == 0, self.read("err"))
        self.absent("nothing is left", "centre/repairing")


class OfStation(RepairCase):
    """flutejoin-station --deliver with [repair] in its settings."""

    def test_station(self) -> None:
        (file,) = self.files_of(1)
        lost = file.packets(TSI)
        del lost[5]
        self.path("news/in").mkdir(parents=True)
        datagram_files.write(str(self.path(f"news/in/{SENDER}.fldg")), announced([file]) + lost)
        self.write("station.toml", f'[[session]]\nport = {free_port()}\n[repair]\n'
                   f'base = "{self.origin.url}/day/"\nafter = 0\n')
        words = ["--config", "station.toml", "-o", "news", "--flutejoin", run.PROGRAM]
        done = self.tool("flutejoin-station", [*words, "--seconds", 0.5])
        self.holds("it has to deliver", b"[repair] needs --deliver" in done.err, done)
        done = self.tool("flutejoin-station", [*words, "--seconds", 0.5, "--deliver", "here"])
        self.check("a run", done, None, "", None)
        host = self.origin.url.partition("://")[2]
        self.same("the file", f"here/files/{host}/day/1.bin", file.content)
