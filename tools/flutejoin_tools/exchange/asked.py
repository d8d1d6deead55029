"""Asks stations what is new, and gets of each what is still missing then: one after another.

What a station told is on the disk before anything is wanted of it, and an answer is looked at to
its end before anything of it is kept. So a kill, or an answer that is cut, only repeats a request.
"""
from __future__ import annotations

import os
import time
from typing import Callable, Iterable, Optional

from flutejoin_tools.centre.arrivals import Arrival
from flutejoin_tools.centre.delivering import Deliverer
from flutejoin_tools.centre.pending import empty_in
from flutejoin_tools.common.file_names import PARTIAL
from flutejoin_tools.common.log import WARNING
from flutejoin_tools.common.program import Failed
from flutejoin_tools.common.service_log import ServiceLog
from flutejoin_tools.common.shelves import remove
from flutejoin_tools.exchange.exchange import MOST_BYTES, MOST_DELIVERED, NONE, New, Refused
from flutejoin_tools.exchange.gathered import Gathered
from flutejoin_tools.exchange.ssh_calls import Call
from flutejoin_tools.exchange.taking import Answer, copy_part, values_in
from flutejoin_tools.exchange.told import Journal, Told
from flutejoin_tools.exchange.wanting import MOST_ASKED, Asked, Wanting
from flutejoin_tools.formats.records import Cut, ReadFault
from flutejoin_tools.journals.holdings import Key

MOST_CALLS = 8  # stations that are asked at a time what is new
SECONDS_NEW, SECONDS_WANT = 3600, 900  # that a call may take
MOST_RATE = 100_000  # bytes in a second that are told again and again
FIRST_DELAY, LONGEST_DELAY = 10, 300  # until one that does not answer is asked again
WAIT = 30  # seconds that an answer waits for what is new
PAUSE = 1  # seconds until a station that waits so is asked what is new after that
LEAST_ASKED = 1 << 18  # bytes of symbols that are asked for at once, where they come slowly
SLOW = 60  # seconds after which a call keeps no other from being made


class Asking:
    """One station: what it told, what is wanted of it, and the call that runs."""

    def __init__(self, arrival: Arrival, told: Told, wanting: Wanting) -> None:
        self.arrival, self.told, self.wanting = arrival, told, wanting
        self.name = arrival.station.name
        self.call: Optional[Call] = None
        self.asked: Optional[Asked] = None  # what the call asks for; None if for what is new
        self.mark: Optional[str] = None  # by which it asks
        self.again: frozenset[Key] = frozenset()  # of which it asks for all
        self.serial = 0  # of the last file of which it says that it was delivered
        self.may_want = True  # whether something may be wanted
        self.was_asked = False  # since the run began
        self.waits = False  # whether its answers wait until something is new
        self.is_waiting = False  # whether the call does
        self.began = float("-inf")  # when the call began
        self.next = self.next_try = float("-inf")  # when it is asked what is new, or anything
        self.delay = 0
        self.budget = MOST_ASKED

    def path(self, *names: str) -> str:
        return os.path.join(self.arrival.station.folder, *names)

    def begin(
        self, request: Iterable[str], most: int, seconds: float, more: Iterable[str] = ()
    ) -> None:
        """Begins a call, whose answer has at most `most` bytes, and takes at most so many seconds.
        `more` are further words of its command."""
        path, command = self.told.path("answer"), (*self.arrival.station.ask, *more)
        self.call, self.began = Call(command, request, path, most, seconds), time.monotonic()

    def end(self) -> None:
        """Ends the call, if there is one."""
        if self.call:
            self.call.stop()
        self.call, self.asked, self.is_waiting = None, None, False

    def is_due(self, now: float) -> bool:
        return (self.call is None or self.is_waiting) and now >= self.next_try

    def takes_turn(self, now: float) -> bool:
        """Whether the call keeps others from being made: if it waits, or is slow, it does not."""
        return self.call is not None and not self.is_waiting and now < self.began + SLOW


class Asker:
    """The stations that a centre asks."""

    def __init__(self, deliverer: Deliverer, report: ServiceLog) -> None:
        self.deliverer, self.report = deliverer, report
        self.stations: list[Asking] = []
        for arrival in deliverer.arrivals:
            if arrival.told and deliverer.gathered:
                held, name = deliverer.gathered.held, arrival.station.name
                wanting = Wanting(arrival.told, held, deliverer, name)
                self.stations.append(Asking(arrival, arrival.told, wanting))

    @property
    def gathered(self) -> Gathered:
        """What was taken of all stations that are asked."""
        assert self.deliverer.gathered
        return self.deliverer.gathered

    def tend(self, every: float) -> bool:
        """Looks at what came, and asks for more. Returns whether anything came.

        A station is asked for what is new this often, in seconds. Raises OSError.
        """
        if not self.deliverer.is_begun:
            return False
        self.decide_anew()
        came = [self.take(each, every) for each in self.stations if each.call]
        self.want_of_one()
        running = sum(each.takes_turn(time.monotonic()) for each in self.stations)
        for each in self.stations:
            now = time.monotonic()
            is_new = now >= each.next and not each.may_want and each.call is None
            if (running < MOST_CALLS or each.waits) and is_new and each.is_due(now):
                self.attempt(each, lambda: self.ask(each))
                running += each.takes_turn(now)
        return any(came)

    def is_busy(self) -> bool:
        """Whether a station has not answered yet, or something is wanted of it."""
        return any(
            each.call or not each.was_asked or each.may_want and not each.delay
            for each in self.stations
        )

    def stop(self) -> None:
        """Ends the calls that run."""
        for each in self.stations:
            each.end()

    def decide_anew(self) -> None:
        """Looks once more at what is told of objects that are described anew."""
        opened, self.deliverer.opened = self.deliverer.opened, set()
        for each in self.stations if opened else ():
            if each.wanting.forget(opened) or not opened.isdisjoint(each.told.symbols):
                each.may_want = True

    def ask(self, each: Asking) -> None:
        """Asks a station what is new."""
        each.asked, each.mark = None, each.told.mark()
        known = each.told.serial()
        delivered = self.deliverer.ledger.since(known, MOST_DELIVERED)
        each.serial = max((serial for serial, _, _ in delivered), default=known)
        told = tuple((key, md5) for _, key, md5 in delivered)
        each.again = frozenset(each.wanting.again)
        request = New(each.mark, each.again, told)
        each.is_waiting = each.waits and each.was_asked and not each.again and not each.delay
        words = "--wait", str(WAIT if each.is_waiting else 0)
        each.begin(request.text(), MOST_BYTES, SECONDS_NEW, words)

    def want_of_one(self) -> None:
        """Asks one station for symbols, unless another one is asked: it may have the same."""
        now = time.monotonic()
        if any(each.asked and each.takes_turn(now) for each in self.stations):
            return
        for at, each in enumerate(self.stations):
            if each.may_want and each.is_due(now):
                each.end()  # what waits is asked again then
                self.attempt(each, lambda: self.want(each))
                if each.call:
                    self.stations = self.stations[at + 1 :] + self.stations[: at + 1]
                    return

    def want(self, each: Asking) -> None:
        """Asks a station for symbols, or takes transmission information that it told, if alone."""
        asked = each.wanting.ask(each.budget)
        self.note_again(each)
        request = asked.request()
        if request.lines:
            each.asked = asked
            each.begin(request.text(), asked.most, SECONDS_WANT)
            return
        for journal in asked.journals:  # transmission information alone, which was told
            self.bring(each, journal, asked, None)
        each.may_want = bool(asked.journals)

    def note_again(self, each: Asking) -> None:
        """Notes what each station had of what was delivered already."""
        shares, each.wanting.shares = each.wanting.shares, {}
        self.deliverer.ledger.see_again(self.deliverer.clock(), shares)

    def attempt(self, each: Asking, step: Callable[[], None]) -> None:
        """Takes a step; a fault of the system puts the station's next request off."""
        try:
            step()
        except OSError as fault:
            self.fail(each, f"{fault.filename or each.name}: {fault.strerror}")

    def take(self, each: Asking, every: float) -> bool:
        """Takes an answer, if a call has ended. Returns whether anything came."""
        call, asked = each.call, each.asked
        if call is None or not call.is_over():
            return False
        waited = each.is_waiting
        each.call, each.asked, each.is_waiting = None, None, False
        try:
            if call.failure is None:
                if asked:
                    came = self.take_values(each, asked, call.path)
                    self.answered(each)
                    each.budget = budget_after(each)
                    return came
                answer = Answer(call.path, each.mark)
                came = self.take_new(each, answer)
                self.answered(each)
                each.waits, each.was_asked = answer.is_held, True
                each.next = time.monotonic() + pause_after(each, answer, waited, every, call.size)
                return came
            each.budget = max(1, each.budget // 8) if call.is_too_long() else each.budget
            self.fail(each, call.failure)
        except (Refused, Failed, ReadFault, Cut) as fault:
            self.fail(each, str(fault) or "the answer is cut")
            if asked and not isinstance(fault, Refused):  # it may be what is here that is damaged
                self.deliverer.set_damaged_aside()
            if not asked and isinstance(fault, (ReadFault, Refused)):
                each.told.put_mark(None)
        except OSError:
            self.fail(each, "what it answered can't be kept now")
            raise
        finally:
            call.stop()
        return False

    def answered(self, each: Asking) -> None:
        """Notes that a station answers, and tells it if it did not before."""
        if each.arrival.fault:
            self.report.warn(f"station {each.name}: answers again")
            self.report.end_fault(each.name)
        each.arrival.fault, each.delay = None, 0

    def fail(self, each: Asking, told: str) -> None:
        """Puts off the next request, and tells why."""
        each.delay = min(max(2 * each.delay, FIRST_DELAY), LONGEST_DELAY)
        each.next_try, each.was_asked = time.monotonic() + each.delay, True
        text = f"no answer that can be taken: {told}"
        if each.arrival.fault != text:
            said = f"station {each.name}: {text}"
            self.report.warn(f"{said}; it is asked again after a while", WARNING)
            self.report.begin_fault(each.name, said)
        each.arrival.fault = text

    def take_new(self, each: Asking, answer: Answer) -> bool:
        """Takes what a station told. Returns whether anything is new."""
        now = self.deliverer.clock()
        answer.keep_status(each.path())
        over = answer.keep_documents(each.path("fdt"), now - self.deliverer.settings.keep)
        over -= self.deliverer.described.by_object.keys()
        wanting = each.wanting
        changed = answer.keep_journals(
            each.told,
            lambda change: change.key in over or wanting.is_delivered(change),
            self.deliverer.program.tend,
        )
        if answer.since != NONE:  # it may have been let go here since it was decided
            wanting.forget(changed)
        wanting.again -= each.again
        self.note_again(each)
        self.deliverer.dirty |= changed
        each.may_want = each.may_want or bool(changed)
        if answer.since == NONE or each.serial > each.told.serial():
            each.told.put_serial(0 if answer.since == NONE else each.serial)
        if changed or over or answer.of_kind("document"):
            self.deliverer.come(each.arrival)
        return bool(answer.of_kind("document") or answer.of_kind("rest"))

    def take_values(self, each: Asking, asked: Asked, path: str) -> bool:
        """Takes the symbols that came of what was wanted. Returns whether any did."""
        journals = {of.id: of for of in asked.journals}
        found = {of.part.words[0]: of for of in values_in(path)}
        came = False
        for number in journals:
            piece = None
            if number in found:
                piece = each.told.path(f"values{PARTIAL}")
                copy_part(path, found[number], piece)
            came = self.bring(each, journals[number], asked, piece) or came
            remove(each.told.path(f"values{PARTIAL}"))
        return came

    def bring(self, each: Asking, journal: Journal, asked: Asked, piece: Optional[str]) -> bool:
        """Joins what came of one journal with what is there. Returns whether anything did."""
        wants = each.wanting.wants(journal, asked.journals[journal])
        answer = piece or empty_in(each.told.folder)
        came = self.gathered.take(journal.source, wants, answer)
        each.wanting.refuse(journal, asked.journals[journal], wants)
        if wants.strange:
            several = "s" if wants.strange > 1 else ""
            told = f"{wants.strange} symbol{several} came that are not as they were told"
            self.report.warn(f"station {each.name}: {told}, and are left out", WARNING)
        self.deliverer.note(came)
        return bool(came)


def budget_after(each: Asking) -> int:
    """How many bytes the next call may ask for: what likely comes in less than half of `SLOW`."""
    is_slow = time.monotonic() > each.began + SLOW / 2
    return max(LEAST_ASKED, each.budget // 2) if is_slow else min(MOST_ASKED, 2 * each.budget)


def pause_after(
    each: Asking, answer: Answer, waited: bool, every: float, size: int
) -> float:
    """How many seconds after this answer, of so many bytes, a station is asked what is new."""
    mark = each.told.mark()
    pause = every if mark else max(every, size / MOST_RATE)  # without a mark all is told each time
    if not answer.is_held or pause == float("inf"):
        return pause
    if waited and not answer.has_news:
        return max(PAUSE, pause - (time.monotonic() - each.began))
    return PAUSE if mark or not answer.has_news else pause
