"""The faults of calls. The text of each is the line that the program `flutejoin` prints."""
from __future__ import annotations


class Fault(Exception):
    """Why a call failed."""

    def __init__(self, text: str, code: int, number: int = 0) -> None:
        super().__init__(text)
        self.code = code
        self.number = number  # see each kind

    def __reduce__(self) -> tuple[type[Fault], tuple[str, int, int]]:
        """It can be pickled: a process tells another of it."""
        return type(self), (str(self), self.code, self.number)


class BadArgument(Fault, ValueError):
    """An argument that the library does not take."""


class BadKey(Fault, ValueError):
    """No object has such a name."""


class Refused(Fault, ValueError):
    """The datagram is no packet. `number` is that of the refusal."""


class InputFault(Fault, ValueError):
    """An input is no journal, or a damaged datagram file. `number` is that of the input, from 1."""


class UnknownKind(Fault, ValueError):
    """An input of a join begins as neither a journal nor a datagram file. `number` is that of the
    input, from 1."""


class BadLine(Fault, ValueError):
    """`gaps` prints no such line there. `number` is that of the line, from 1."""


class Full(Fault):
    """There are more sessions, objects, symbols or entries than are taken in."""


class NoObject(Fault):
    """Nothing of the object is held."""


class NoInformation(Fault):
    """Symbols of the object are held, and no transmission information."""


class ConflictingInformation(Fault):
    """Two values of the object's transmission information are held."""


class NotWhole(Fault):
    """A symbol of the object is not held as one fitting value. `number` is that of the first: its
    source block number times 65,536, and its encoding symbol ID."""

    @property
    def symbol(self) -> tuple[int, int]:
        """Its source block number and its encoding symbol ID."""
        return divmod(self.number, 65_536)


class OutOfMemory(Fault, MemoryError):
    """There was no memory."""


# By their numbers (flutejoin.h)
KINDS: dict[int, type[Fault]] = {
    1: BadArgument,
    2: BadKey,
    4: Refused,
    5: InputFault,
    6: UnknownKind,
    7: BadLine,
    8: Full,
    9: NoObject,
    10: NoInformation,
    11: ConflictingInformation,
    12: NotWhole,
    13: OutOfMemory,
}


def fault_of(code: int, number: int, text: str) -> Fault:
    return KINDS.get(code, Fault)(text, code, number)
