"""Tests of answers that wait until something is new at a station, and of a centre that asks so."""
from __future__ import annotations

import functools
import os
import pathlib
import signal
import subprocess
import sys
import time
from typing import Any, Iterable, Iterator, Sequence
from unittest import mock

from flutejoin_tools.exchange import asked
from flutejoin_tools.exchange.exchange import New, request_in
from flutejoin_tools.exchange.holding import MOST_SECONDS, VARIABLE, Hold, seconds_asked
from flutejoin_tools.exchange.marks import SHARE, Mark, Marks
from flutejoin_tools.exchange.news import has_news
from flutejoin_tools.exchange.wanting import MOST_ASKED
from tests.asked.case import AskedCase, CallWithoutSsh
from tests.asked.test_answers import NEW, AnswerCase, of
from tests.centre.case import TSI, announced, file_of, packets
from tests.support import run
from tests.support.flute_sender import Sent

WORDS = "flutejoin-station --answer --wait "


class Words(run.Case):
    def test_words(self) -> None:
        """Only a number of seconds is taken from what was asked for, and of that not too many."""
        for text, wanted in (("0", 0), ("7", 7), ("30", 30), ("99", MOST_SECONDS)):
            found = seconds_asked({VARIABLE: WORDS + text})
            self.holds(text, found == wanted, found)
        for text in (
            *("", "sh -c x", "flutejoin-station --answer", WORDS, WORDS + "100", WORDS + "-1"),
            *(WORDS + "1.5", WORDS + "7; id", WORDS + "7\n", " " + WORDS + "7", WORDS + "7 -o x"),
            *(WORDS + "\u0667", "other --answer --wait 7", WORDS.upper() + "7"),
        ):
            self.holds(repr(text), seconds_asked({VARIABLE: text}) is None)
        self.holds("nothing is said", seconds_asked({}) is None)


class Held(AnswerCase):
    """A station, whose answers wait."""

    def setUp(self) -> None:
        super().setUp()
        self.files = [file_of(toi, 30_000) for toi in (1, 2)]
        self.station.hear(announced(self.files) + packets(self.files[:1]))
        self.first = self.mark(self.ask(NEW))

    def kinds(self, done: run.Run) -> list[str]:
        return [part.kind for part, _ in self.parts(done)]

    def begin(self, seconds: int, mark: str) -> subprocess.Popen[bytes]:
        """Asks what is new since a mark, with patience, and returns once the answer waits."""
        self.write("request", "".join(New(mark, frozenset()).text()))
        words = [sys.executable, run.ROOT / "tools/flutejoin-station", "--answer", "news"]
        child = self.start(
            [*words, "--flutejoin", run.PROGRAM],
            stdin=pathlib.Path("request"),
            to="answer",
            err="err",
            env={VARIABLE: f"{WORDS}{seconds}"},
        )
        waits = run.until(lambda: b"\nwait\n" in self.read("answer"))
        self.holds("it says that it waits", waits, self.read("err"))
        return child

    def answer(self, child: subprocess.Popen[bytes]) -> run.Run:
        """Waits for the end of an answer, and returns it."""
        child.wait(run.LONGEST)
        return run.Run(child.returncode, self.read("answer"), self.read("err"))

    def test_nothing_new(self) -> None:
        """The answer comes when the time is over, and has the mark of the one before."""
        began = time.monotonic()
        child = self.begin(2, self.first)
        for number in range(5):  # what is no news
            for folder in "recent", "fdt", "aside":
                self.path(f"news/{folder}").mkdir(exist_ok=True)
                self.write(f"news/{folder}/10.0.0.1.{number}.partial", b"")
            time.sleep(0.1)
        done = self.answer(child)
        self.holds("it waited", time.monotonic() >= began + 2)
        self.holds("nothing is new", self.kinds(done) == ["wait", "since", "mark", "end"], done)
        self.holds("the mark stays", self.mark(done) == self.first)

    def test_what_comes_ends_it(self) -> None:
        """A journal, or an FDT Instance alone."""
        mark = self.first
        for name, sent, kind in (
            ("a journal", packets(self.files[1:]), "journal"),
            ("a document", announced([file_of(3)], 2), "document"),
        ):
            mark = self.mark(self.new(mark))
            child, began = self.begin(50, mark), time.monotonic()
            self.holds(f"{name}: it waits", child.poll() is None)
            self.station.hear(sent)
            done = self.answer(child)
            self.holds(f"{name}: it ended", time.monotonic() < began + 45)
            self.holds(f"{name}: it is told", kind in self.kinds(done), self.kinds(done))

    def test_what_is_new_does_not_wait(self) -> None:
        began = time.monotonic()
        for name, mark, again in (
            ("an unknown mark", "0" * 32, ()),
            ("all of an object again", self.first, (of(1),)),
        ):
            request = "".join(New(mark, frozenset(again)).text())
            done = self.ask(request, env={VARIABLE: f"{WORDS}60"})
            self.holds(f"{name}: it is told", "journal" in self.kinds(done), self.kinds(done))
        self.holds("at once", time.monotonic() < began + 2 * MOST_SECONDS)

    def test_nobody_reads(self) -> None:
        """An answer for which nobody waits any more isn't held."""
        self.write("request", "".join(New(self.first, frozenset()).text()))
        tool = f"{run.ROOT}/tools/flutejoin-station --answer news --flutejoin {run.PROGRAM}"
        began = time.monotonic()
        done = self.shell(f"{tool} < request | head -n 2", env={VARIABLE: f"{WORDS}60"})
        self.holds("it is told", b"takes no more" in done.err, done)
        self.holds("at once", time.monotonic() < began + 50)

    def test_quick_looks(self) -> None:
        """Journals and FDT Instances are looked at only where a name has changed."""
        mark = Marks(str(self.path("news/answer"))).of(self.first)
        mark.took = 0
        for path in self.path("news").iterdir():
            os.utime(path, (1, 1))
        with open(os.devnull, "wb") as out, mock.patch(
            "flutejoin_tools.exchange.holding.has_news", return_value=False
        ) as look:
            hold = Hold(str(self.path("news")), mark, out.fileno(), 60)
            self.holds("it waits", hold.goes_on() and hold.goes_on() and hold.goes_on())
            self.holds("one look", look.call_count == 1, look.call_count)
            self.write("news/recent/10.0.0.7.journal", b"")
            self.holds("it goes on", hold.goes_on() and hold.goes_on())
            self.holds("more looks", look.call_count > 1, look.call_count)

    def test_share(self) -> None:
        """After an answer that took long the next one is made later, at the end of its time at the
        latest."""
        mark = Mark(None)
        self.holds("none before", mark.rest() <= 0)
        mark.made_at, mark.took = time.time(), 10.0
        rest = mark.rest()
        self.holds("a share", SHARE * 10 - 5 < rest <= SHARE * 10, rest)
        with open(os.devnull, "wb") as out:
            began, hold = time.monotonic(), Hold(str(self.path("news")), mark, out.fileno(), 0.6)
            self.holds("though all is new", has_news(mark, str(self.path("news"))))
            while hold.goes_on():
                pass
            self.holds("it waits to the end", time.monotonic() >= began + 0.6)
            mark.took = 0.0
            hold = Hold(str(self.path("news")), mark, out.fileno(), 60)
            self.holds("else it doesn't", not hold.goes_on())
        kept = Marks(str(self.path("news/answer"))).of(self.first)
        self.holds("it is kept with the mark", kept.took > 0 and kept.made_at > time.time() - 3600)


class Waiting(CallWithoutSsh):
    """A call of a station whose answers wait until something is new."""

    wait = 0
    waits_for_ever = True

    def __init__(
        self, root: pathlib.Path, command: Sequence[str], request: Iterable[str], *more: Any
    ) -> None:
        self.text = [*request]
        self.folder = str(root / command[command.index("flutejoin-station") - 1])
        self.given = functools.partial(super().__init__, root, command, self.text, *more)
        self.is_answered = False
        if "--wait" not in command or command[-1] == "0" or not self.waits_for_ever:
            self.answer()

    def answer(self) -> None:
        """Has the call end with the answer that it was given."""
        self.is_answered = True
        self.given()

    def is_over(self) -> bool:
        if not self.is_answered:
            new = request_in("".join(self.text).encode())
            assert isinstance(new, New)
            if has_news(Marks(os.path.join(self.folder, "answer")).of(new.mark), self.folder):
                self.answer()
        return self.is_answered

    def stop(self) -> None:
        if self.is_answered:
            super().stop()


class Hasty(Waiting):
    """One that says that its answers wait, and answers at once."""

    waits_for_ever = False


class Hanging(Waiting):
    """One whose station `north` never gives what is wanted."""

    def is_over(self) -> bool:
        hangs = self.text[1].startswith("want ") and self.folder.endswith("north")
        return not hangs and super().is_over()


class Patience(AskedCase):
    """A centre whose stations wait, each call in this process."""

    names = tuple(f"s{number}" for number in range(10)) + ("north", "south")
    is_by_ssh = False

    def by(self, call: type[CallWithoutSsh]) -> None:
        """Has stations be asked by such calls, once each, and then again as if it were time."""
        own = mock.patch.object(asked, "Call", functools.partial(call, self.folder))
        own.start()
        self.addCleanup(own.stop)
        for station in self.stations.values():
            station.loss = 0
        self.ask()
        for each in self.stations_asked():
            each.next = float("-inf")

    def stations_asked(self) -> Iterator[asked.Asking]:
        assert self.asker
        yield from self.asker.stations

    def turn(self) -> None:
        """What a centre does that runs."""
        assert self.asker
        if self.asker.tend(10):
            self.centre.work()

    def delivers(self, files: list[Sent]) -> bool:
        """Takes turns of the centre until it has delivered these files, for a minute."""

        def is_there() -> bool:
            self.turn()
            return self.files() == self.wanted(files)

        return run.until(is_there, 60)

    def waiting(self) -> set[str]:
        return {each.name for each in self.stations_asked() if each.is_waiting}

    def test_side_by_side(self) -> None:
        """All stations wait at a time, and one that has something new is taken meanwhile."""
        self.by(Waiting)
        self.turn()
        self.holds("more than are asked else", len(self.names) > asked.MOST_CALLS)
        self.holds("all wait", self.waiting() == {*self.names}, self.waiting())
        file = file_of(1, 30_000)
        for name, part in ("s3", announced([file])), ("s8", packets([file])):
            self.stations[name].hear(part)
        self.holds("it is delivered", self.delivers([file]), self.told.printed)
        others = {*self.names} - {"s3", "s8"}
        self.holds("the others wait", self.waiting() >= others, self.waiting())
        self.holds("and were asked twice", all(self.answers(name) == 1 for name in others))

    def answers(self, name: str) -> int:
        """How many answers of a station came."""
        return len([*self.path(f"sent.{name}").glob("*")])

    def test_what_waits_is_asked_for_symbols(self) -> None:
        """A station told of symbols that nothing described: once another one brings the FDT
        Instance, the first one is asked for them at once."""
        self.by(Waiting)
        self.turn()
        file = file_of(1, 30_000)
        self.stations["north"].hear(packets([file]))

        def has_told() -> bool:
            self.turn()
            return self.answers("north") >= 2

        told = run.until(has_told, 60)
        self.holds("it told", told)
        time.sleep(asked.PAUSE)
        self.turn()
        self.holds("it waits again", "north" in self.waiting(), self.waiting())
        self.stations["south"].hear(announced([file]))
        self.holds("it is delivered", self.delivers([file]), self.told.printed)

    def all_answer(self) -> None:
        """Asks all stations, which are asked again after the time of the settings."""
        for each in self.stations_asked():
            each.next = float("-inf")

        def have_answered() -> bool:
            self.turn()
            return all(it.call is None and it.next > 0 for it in self.stations_asked())

        began = time.monotonic()
        self.holds("all answer", run.until(have_answered, 60))
        early = [it.name for it in self.stations_asked() if it.next < began + 10]
        self.holds("they are asked again as they are told to be", not early, early)

    def test_older_stations(self) -> None:
        """They answer at once, and are asked as often as the settings say."""
        self.by(CallWithoutSsh)
        self.turn()
        self.holds("none waits", not self.waiting())
        self.all_answer()
        self.stations["south"].hear(packets([file_of(1, 30_000)]))
        self.all_answer()

    def test_who_answers_at_once(self) -> None:
        """A station that says that it waits, and doesn't, isn't asked more often."""
        self.by(Hasty)
        self.all_answer()
        found = [*map(self.answers, self.names)]
        self.holds("each was asked once more", {*found} == {2}, found)

    def test_one_hangs(self) -> None:
        """A station that never gives what is wanted keeps no other from being asked for it."""
        self.by(Waiting)
        own = mock.patch.object(asked, "Call", functools.partial(Hanging, self.folder))
        own.start()
        self.addCleanup(own.stop)
        file = file_of(1, 30_000)
        for name in "north", "south":
            self.stations[name].hear(announced([file]) + packets([file]))
        with mock.patch.object(asked, "SLOW", 0.2):
            self.holds("it is delivered", self.delivers([file]), self.told.printed)
        wanted = any(it.startswith("want ") for it in self.asked("north"))
        self.holds("it was asked", wanted or self.answers("north"), self.asked("north"))

    def test_slow_calls(self) -> None:
        """Where symbols come slowly less is asked for at once."""
        each = next(self.stations_asked())
        each.began = time.monotonic() - 0.6 * asked.SLOW
        self.holds("half", asked.budget_after(each) == MOST_ASKED // 2)
        each.budget = asked.LEAST_ASKED
        self.holds("not less", asked.budget_after(each) == asked.LEAST_ASKED)
        each.began = time.monotonic()
        self.holds("twice", asked.budget_after(each) == 2 * asked.LEAST_ASKED)
        each.budget = MOST_ASKED
        self.holds("not more", asked.budget_after(each) == MOST_ASKED)


class Service(AskedCase):
    """flutejoin-centre as a process, and a station whose answers wait."""

    names = ("north",)
    TRIES = 5

    def test_at_once(self) -> None:
        """What is new comes by a request that began before, and the end waits for no answer."""
        self.centre.ledger.close()
        self.stations["north"].loss = 0
        config = self.write_settings(every="1s")
        words = [sys.executable, run.ROOT / "tools/flutejoin-centre", "--config", config]
        child = self.start(words, to="out", err="err")
        self.holds("it came at once", any(map(self.comes_at_once, range(1, 1 + self.TRIES))))
        self.holds("it is asked again", run.until(self.waiting))
        child.send_signal(signal.SIGTERM)
        self.holds("it ends", child.wait(run.LONGEST) == 0, self.read("err"))
        self.holds("before it is answered", self.waiting())

    def comes_at_once(self, number: int) -> bool:
        """Whether a file that the station hears now comes in answer to an earlier request."""
        self.holds(f"file {number}: it is asked", run.until(self.waiting), self.read("err"))
        file, began = file_of(number, 30_000), time.time_ns()
        self.stations["north"].hear(announced([file], number) + file.packets(TSI))
        name = self.path(f"centre/files/data.example/day/{number:05}.bin")
        self.holds(f"file {number} is delivered", run.until(name.exists), self.read("err"))
        of_before = [it for it in self.path("sent.north").glob("*") if int(it.name) < began]
        return any(b"\njournal " in it.read_bytes() for it in of_before)

    def waiting(self) -> bool:
        """Whether a request isn't answered."""
        asked, sent = (self.path(f"{kind}.north").glob("*") for kind in ("asked", "sent"))
        return bool({it.name for it in asked} - {it.name for it in sent})
