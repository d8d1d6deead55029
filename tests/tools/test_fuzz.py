"""Tests fuzz.py, and gives the parsers of the tools some thousand inputs of a fixed seed.

`make fuzz` gives them more.
"""
from __future__ import annotations

import contextlib
import io
import pathlib
import tempfile
import unittest

from tests.tools import fuzz
from tests.tools.parsers import PARSERS, Parser

NEEDS_PROGRAM = False
RUNS = 840  # inputs of each parser


def fails_behind_four_bytes(data: bytes) -> None:
    if data[:1] == b"F":
        if data[1:2] == b"U":
            if data[2:3] == b"Z":
                if data[3:4] == b"Z":
                    raise ValueError("here")


def goes_on_for_long(data: bytes) -> None:
    for _ in range(1 << 30 if data[:1] == b"F" else 1):
        pass


class OfTests(fuzz.Fuzzed):
    """One whose parser is in this file."""

    code = str(pathlib.Path(__file__).resolve().parent)


class Fuzzing(unittest.TestCase):
    def setUp(self) -> None:
        folder = tempfile.TemporaryDirectory()
        self.addCleanup(folder.cleanup)
        self.folder = folder.name

    def faults(self, kind: type, name: str, parser: Parser, runs: int) -> tuple[int, str]:
        told = io.StringIO()
        with contextlib.redirect_stdout(told):
            fuzzed = kind(name, parser, 1, self.folder)
            fuzzed.turn(runs)
        return fuzzed.faults, told.getvalue()

    def test_faults_are_found(self) -> None:
        """One is found step by step, since inputs are kept that get further, and told once."""
        parser = Parser(lambda: [b"some"], fails_behind_four_bytes, (b"x",))
        count, told = self.faults(OfTests, "four", parser, 40_000)
        self.assertEqual((count, told.count("ValueError: here")), (1, 1), told)
        self.assertEqual(pathlib.Path(self.folder, "four.1.input").read_bytes()[:4], b"FUZZ")

    def test_too_many_steps_are_a_fault(self) -> None:
        parser = Parser(lambda: [b"F"], goes_on_for_long, (b"x",))
        count, told = self.faults(OfTests, "long", parser, 0)
        self.assertEqual(count, 1, told)
        self.assertIn("steps", told)

    def test_parsers(self) -> None:
        for name, parser in PARSERS.items():
            with self.subTest(name):
                self.assertEqual(self.faults(fuzz.Fuzzed, name, parser, RUNS), (0, ""))
