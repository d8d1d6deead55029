"""What delivers as long as it runs, of a centre or of a single station: rounds, commands, what is
told and what is let go. What fails is told, and tried again."""
from __future__ import annotations

import os
import time
from typing import Callable, Optional

from flutejoin_tools.centre.bound import Bound
from flutejoin_tools.centre.delivering import Deliverer
from flutejoin_tools.centre.fetching import Fetching
from flutejoin_tools.centre.hooks import Hooks
from flutejoin_tools.centre.house import House
from flutejoin_tools.centre.inbox import Station
from flutejoin_tools.centre.origin import Repairing
from flutejoin_tools.centre.settings import Settings
from flutejoin_tools.common.faults import Fault
from flutejoin_tools.common.program import find
from flutejoin_tools.common.service_log import ServiceLog
from flutejoin_tools.common.shelves import take_lock
from flutejoin_tools.exchange.asked import Asker
from flutejoin_tools.pages.telling import Telling

FIRST_DELAY, LONGEST_DELAY = 5, 300  # seconds until what failed is tried again
EACH = 5  # seconds between two rounds of a single station
# Between two rounds of what came meanwhile: seconds, and times what the first one took
LEAST, PAUSE = 0.5, 1
FRESH = "deliver"  # the folder of a station that has what is to be delivered


class Service:
    """Delivers by these settings. Raises Fault and OSError when it is made."""

    def __init__(self, settings: Settings, report: ServiceLog, tend: Callable[[], None]) -> None:
        self.settings, self.report = settings, report
        self.lock, self.tend = take_lock(settings.folder), tend
        program = find(settings.flutejoin)
        self.deliverer = Deliverer(settings, program, report, tend=tend)
        self.hooks = Hooks(settings.on_file, settings.files, self.deliverer.ledger, report)
        self.telling = Telling(self.deliverer, report)
        self.house = House(self.deliverer, self.telling.model, report)
        self.bound = Bound(self.deliverer, self.house, report)
        self.fetching = self.telling.fetching = self.repairing()
        self.asker = Asker(self.deliverer, report)
        self.delay, self.next, self.soon = 0.0, float("-inf"), float("-inf")

    def repairing(self) -> Optional[Fetching]:
        """What repairs, if the settings have it."""
        if not self.settings.repair:
            return None
        return Fetching(self.deliverer, self.telling.model, self.report)

    def work(self) -> bool:
        """Delivers what came. Returns whether it could; if not, it is due again after a delay."""
        return self.attempt(self.round) is not None

    def round(self) -> bool:
        """Delivers what came, and lets go of what is over. Raises Fault and OSError."""
        try:
            self.deliverer.work()
        finally:  # which may make room
            self.house.keep_at_times()
            self.bound.keep_at_times()
        self.report.works("delivering")
        self.delay = 0
        return True

    def work_at_times(self, each: float = EACH) -> None:
        """Delivers what came, if that is due, and does what else is to be done."""
        if self.attempt(lambda: self.asker.tend(each)):
            self.next = float("-inf")
        began = time.monotonic()
        if began >= self.next or began >= self.soon and not self.delay and self.has_news():
            self.work()
            now = time.monotonic()
            self.next = now + max(each, self.delay)
            self.soon = now + max(LEAST, PAUSE * (now - began))
        self.attempt(self.hooks.tend)
        if self.fetching:
            self.attempt(self.fetching.tend)
        self.telling.tell()

    def has_news(self) -> bool:
        """Whether a station's folder has changed since the last round."""
        return any([each.inbox.has_news() for each in self.deliverer.arrivals])

    def hurry(self) -> None:
        """Has the next round come as soon as it may."""
        if not self.delay:
            self.next = min(self.next, self.soon)

    def attempt(self, step: Callable[[], bool]) -> Optional[bool]:
        """Takes a step. None if the system or the program refuses it, which is told."""
        try:
            return step()
        except Fault as fault:
            self.fail(str(fault))
        except OSError as fault:
            self.fail(f"{fault.filename or self.settings.folder}: {fault.strerror}")
        return None

    def fail(self, told: str) -> None:
        """Tells why nothing can be delivered, and puts the next try off."""
        self.delay = min(max(2 * self.delay, FIRST_DELAY), LONGEST_DELAY)
        self.report.fails("delivering", told)

    def finish(self, is_stopped: Callable[[], bool]) -> bool:
        """Delivers what is there, and waits for the commands until one fails or the run is stopped:
        the next run goes on with them. Returns whether it could deliver."""
        has_worked = self.work() and self.ask_all(is_stopped)
        self.telling.tell(at_once=True)
        while self.fetching and has_worked and self.repair_now(is_stopped):
            has_worked = self.work()
            self.telling.tell(at_once=True)
        while not is_stopped() and self.attempt(self.hooks.tend):
            if self.hooks.tries and not self.hooks.child:
                break
            time.sleep(0.02)
        self.stop()
        return has_worked

    def repair_now(self, is_stopped: Callable[[], bool]) -> bool:
        """Repairs what is due, by one run. Returns whether one came to its end."""
        assert self.fetching
        if is_stopped() or not self.attempt(self.fetching.tend):
            return False
        while self.fetching.child is not None:
            if is_stopped():
                return False
            self.tend()
            time.sleep(0.05)
            self.attempt(self.fetching.tend)
        return True

    def ask_all(self, is_stopped: Callable[[], bool]) -> bool:
        """Asks the stations that have `ssh` in the settings, until nothing more is wanted of them,
        and delivers what came.

        Returns whether all that was taken was delivered, without a fault of the system or the
        program.
        """
        has_worked = True
        while has_worked and self.asker.is_busy() and not is_stopped():
            came = self.attempt(lambda: self.asker.tend(float("inf")))
            has_worked = came is not None and (not came or self.work())
            time.sleep(0.02)
        self.asker.stop()
        return (self.work() and has_worked) if self.asker.stations else has_worked

    def stop(self) -> None:
        """Ends the commands and repairs that run: the next run begins them anew."""
        self.hooks.stop()
        self.asker.stop()
        if self.fetching:
            self.fetching.stop()


def of_station(
    folder: str,
    station: str,
    on_file: Optional[str],
    program: str,
    repair: Optional[Repairing] = None,
) -> Settings:
    """The settings by which a station delivers its own files to a folder."""
    place = os.path.abspath(folder)
    name = os.path.basename(os.path.abspath(station)) or "station"
    one = Station("".join(it if it.isalnum() else "-" for it in name), station, True, FRESH)
    settings = Settings(
        place, os.path.join(place, "files"), (one,), {}, on_file=on_file, flutejoin=program
    )
    return settings.with_repair(repair) if repair else settings
