"""How the calls of the library are made: what they are given, and what they give."""
from __future__ import annotations

import ctypes
from ctypes import byref
from typing import Callable, Sequence, Union

from flutejoin.faults import BadKey, fault_of
from flutejoin.library import Answer, InstanceFields, ObjectFields, Wide
from flutejoin.values import Object

Bytes = Union[bytes, bytearray, memoryview]
Call = Callable[..., int]

LEAST_ROOM = 4096  # bytes that a call is given first


def check(code: int, answer: Answer) -> None:
    """Raises the fault of an answer, if there is one."""
    if code:
        raise fault_of(code, answer.number, answer.text.decode())


def given(call: Call, arguments: Sequence[object], room: int) -> bytes:
    """The bytes that a call gives, with room for so many first."""
    return bytes(items_given(call, arguments, room, 1))


def items_given(call: Call, arguments: Sequence[object], room: int, size: int) -> bytearray:
    """What a call gives: items of this size. It is made once more if there is room for too few."""
    answer = Answer()
    while True:
        place = bytearray(max(room * size, 1))
        at = ctypes.c_char.from_buffer(place)  # an array would be of a new type for each length
        check(call(*arguments, byref(at), room, byref(answer)), answer)
        del at
        if answer.needed <= room:
            del place[answer.needed * size :]
            return place
        room = answer.needed


def words(data: Bytes) -> tuple[bytes, int]:
    """A pointer to the bytes, and how many there are."""
    kept = constant(data)
    return kept, len(kept)


def constant(data: Bytes) -> bytes:
    """The bytes, which nobody changes. Raises TypeError if it has none, as a number."""
    return data if type(data) is bytes else memoryview(data).tobytes()


def fields_of(object: Object) -> ObjectFields:
    """The name of an object, for a call. Raises BadKey if it is none."""
    try:
        named = object.instance
        instance = InstanceFields(named is not None, number_of(named or 0, 32))
        return ObjectFields(
            wide(object.sender), number_of(object.tsi, 64), wide(object.toi), instance
        )
    except ValueError as error:
        raise BadKey("bad key", 2) from error


def wide(number: int) -> Wide:
    number_of(number, 128)
    return Wide(number >> 64, number & 2**64 - 1)


def number_of(number: int, bits: int) -> int:
    """The number, which has at most so many bits. Raises ValueError."""
    if not 0 <= number < 2**bits:
        raise ValueError(f"{number} is no number of {bits} bits")
    return number
