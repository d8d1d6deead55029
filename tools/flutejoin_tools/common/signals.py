"""How signals end a run: what is not whole is removed, and the status is 128 + N."""
from __future__ import annotations

import contextlib
import signal
import sys
import time
from typing import Callable, Iterator

from flutejoin_tools.common.log import Log

STOPPING = (signal.SIGINT, signal.SIGTERM, signal.SIGHUP)
RAISING = (*STOPPING, signal.SIGALRM)  # what `raise_again` uses too
AGAIN = 1  # seconds in which a signal may be a copy of the one that ended the work
ENDS: list[Callable[[], None]] = []  # what is still to be removed if a signal ends the run


def answer_stops(answer: Callable[..., None]) -> None:
    """Sets the handler of the signals that end a run.

    A hangup that is ignored, as under nohup, stays ignored.
    """
    for number in STOPPING:
        if number != signal.SIGHUP or signal.getsignal(number) != signal.SIG_IGN:
            signal.signal(number, answer)


def end_run(number: int, _frame: object) -> None:
    """Ends a run at the first signal, by raising KeyboardInterrupt.

    Later signals are ignored while the run cleans up.
    """
    answer_stops(lambda *_: None)
    sys.unraisablehook = lambda dropped: raise_again(number, dropped)
    raise KeyboardInterrupt(number)


def answer_late_stops() -> None:
    """Once all is written: lets a signal end the run that still waits for somebody to read."""
    since = time.monotonic()

    def answer(number: int, frame: object) -> None:
        if time.monotonic() > since + AGAIN:
            end_run(number, frame)

    answer_stops(answer)


def raise_again(number: int, dropped: sys.UnraisableHookArgs) -> None:
    """Python drops an exception that is raised in a finalizer. This raises it again behind that."""
    if dropped.exc_type is KeyboardInterrupt:
        signal.signal(signal.SIGALRM, lambda *_: end_run(number, None))
        signal.setitimer(signal.ITIMER_REAL, 0.001)
    else:
        sys.__unraisablehook__(dropped)


@contextlib.contextmanager
def later() -> Iterator[None]:
    """A context in which signals are delayed until its end.

    So a process or file that is begun in it is known, and is ended with the run. A hangup that is
    ignored stays ignored, also in that process.
    """
    came: list[int] = []
    before = {
        number: signal.signal(number, lambda number, _frame: came.append(number))
        for number in RAISING
        if signal.getsignal(number) != signal.SIG_IGN
    }
    try:
        yield
    finally:
        for number, answer in before.items():
            signal.signal(number, answer)
    for one in came:  # the first may be ignored
        signal.raise_signal(one)


def keep_status() -> None:
    """At the end of a run: ignores signals, so that the run keeps its status.

    Python lets signals kill it while it ends, and a late Ctrl-C would then change the status.
    """
    for number in RAISING:
        signal.signal(number, signal.SIG_IGN)


def exit_status(work: Callable[[], None], log: Log) -> int:
    """Does the work of a tool, and returns its exit status: 128 + N if signal N ended it."""
    try:
        work()
        keep_status()
    except KeyboardInterrupt as signalled:
        keep_status()
        while ENDS:
            with contextlib.suppress(OSError):
                ENDS.pop()()
        return 128 + int(signalled.args[0])
    return log.status
