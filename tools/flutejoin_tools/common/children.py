"""Prepares children of a tool: they end when it ends, and may run at a low priority."""
from __future__ import annotations

import os
import signal
from typing import Callable

NICE = 10  # lower priority of what runs behind other work
DIE_WITH_PARENT = 1  # prctl's PR_SET_PDEATHSIG


def die_with_parent(number: int = signal.SIGTERM) -> Callable[[], None]:
    """Returns what a child calls before it runs a program, so that it ends with its parent.

    The system ends the child when its parent ends, even if that is killed; a child whose parent
    ended before ends itself. If the system cannot do that, it runs until somebody stops it.
    """
    parent = os.getpid()
    try:
        import ctypes

        prctl = ctypes.CDLL(None).prctl
    except (ImportError, AttributeError, OSError, MemoryError):
        prctl = None

    def ask() -> None:
        # Until it runs the program, a handler of its parent's would take the signal.
        signal.signal(signal.SIGTERM, signal.SIG_DFL)
        if prctl:
            prctl(DIE_WITH_PARENT, int(number))
        if os.getppid() != parent:
            os._exit(1)

    return ask


def in_background() -> Callable[[], None]:
    """Returns what a child calls first that is not waited for: it runs at a low priority, and is
    killed if its parent ends."""
    # A join that is killed leaves its output unchanged.
    ask = die_with_parent(signal.SIGKILL)

    def prepare() -> None:
        os.nice(NICE)
        ask()

    return prepare
