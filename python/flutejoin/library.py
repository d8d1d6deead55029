"""The shared library: its structs and its calls, as flutejoin.h has them.

It is the file that the environment variable FLUTEJOIN_LIBRARY names, or else the one that the
system finds.
"""
from __future__ import annotations

import ctypes
import functools
import os
from ctypes import POINTER, Structure, c_char, c_size_t, c_uint16, c_uint32, c_uint64, c_void_p

NAME = "libflutejoin.so.0"


class NoLibrary(ImportError):
    """There is no libflutejoin, or it could not be loaded, or it is older than this package."""


class Wide(Structure):
    _fields_ = [("high", c_uint64), ("low", c_uint64)]

    def number(self) -> int:
        return int(self.high) << 64 | int(self.low)


class Answer(Structure):
    _fields_ = [
        ("needed", c_uint64),
        ("code", c_uint32),
        ("number", c_uint64),
        ("text", c_char * 96),
    ]


class InstanceFields(Structure):
    _fields_ = [("present", c_uint32), ("id", c_uint32)]


class ObjectFields(Structure):
    _fields_ = [
        ("sender", Wide),
        ("tsi", c_uint64),
        ("toi", Wide),
        ("instance", InstanceFields),
    ]


class HeldFields(Structure):
    _fields_ = [
        ("status", c_uint32),
        ("length", c_uint64),
        ("missing", c_uint64),
        ("conflicting", c_uint64),
        ("misfit", c_uint64),
    ]


class OptionFields(Structure):
    _fields_ = [("sender", Wide), ("any_size", c_uint32)]


class CountFields(Structure):
    _fields_ = [("datagrams", c_uint64), ("refused", c_uint64), ("entries", c_uint64)]


class InformationFields(Structure):
    _fields_ = [
        ("present", c_uint32),
        ("block", c_uint32),
        ("length", c_uint64),
        ("symbol", c_uint16),
    ]


class SymbolFields(Structure):
    _fields_ = [
        ("present", c_uint32),
        ("sbn", c_uint16),
        ("esi", c_uint16),
        ("start", c_size_t),
        ("length", c_size_t),
    ]


class PacketFields(Structure):
    _fields_ = [
        ("tsi", c_uint64),
        ("toi", Wide),
        ("instance", InstanceFields),
        ("info", InformationFields),
        ("symbol", SymbolFields),
    ]


BYTES = c_void_p, c_size_t  # of an input, or a room, that of entries too
ANSWER = POINTER(Answer)
OBJECT = POINTER(ObjectFields)
CALLS: dict[str, tuple[object, ...]] = {
    "read": (*BYTES, POINTER(PacketFields), ANSWER),
    "merge": (*BYTES, *BYTES, *BYTES, ANSWER),
    "minus": (*BYTES, *BYTES, *BYTES, ANSWER),
    "join": (*BYTES, *BYTES, POINTER(OptionFields), POINTER(CountFields), *BYTES, ANSWER),
    "entries": (*BYTES, *BYTES, ANSWER),
    "gaps": (*BYTES, c_uint32, c_uint32, *BYTES, ANSWER),
    "status": (*BYTES, OBJECT, c_uint32, POINTER(HeldFields), ANSWER),
    "compare": (*BYTES, *BYTES, c_uint32, *BYTES, ANSWER),
    "extract": (*BYTES, OBJECT, c_uint32, *BYTES, ANSWER),
    "fill": (*BYTES, *BYTES, c_uint32, *BYTES, ANSWER),
}


@functools.lru_cache(maxsize=None)
def library() -> ctypes.CDLL:
    """The library, loaded once. Raises NoLibrary."""
    try:
        loaded = ctypes.CDLL(os.environ.get("FLUTEJOIN_LIBRARY") or NAME)
    except OSError as error:
        raise NoLibrary(f"libflutejoin is not there: {error}") from error
    for name, types in CALLS.items():
        try:
            call = getattr(loaded, f"flutejoin_{name}")
        except AttributeError as error:
            raise NoLibrary(f"libflutejoin lacks a call: {error}") from error
        call.argtypes, call.restype = types, c_uint32
    return loaded
