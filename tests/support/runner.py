"""The work of tests/run: finds the tests of a folder, runs them, and counts what passed.

A test is a method `test_..` of a class that a module `test_..` of the folder defines. What counts
is each call of `check`, `same`, `holds` and `absent`, and each test that calls none of them.
"""
from __future__ import annotations

import argparse
import concurrent.futures
import importlib
import os
import re
import subprocess
import sys
import unittest
from types import ModuleType

from tests.support import run
from tests.support.run import PROGRAM, TESTS, Counts

Tests = list[unittest.TestCase]


def folders() -> list[str]:
    return sorted({path.parent.name for path in TESTS.glob("*/test_*.py")})


def modules(folder: str) -> list[ModuleType]:
    """The modules of a folder that have tests."""
    names = sorted(path.stem for path in (TESTS / folder).glob("test_*.py"))
    return [importlib.import_module(f"tests.{folder}.{name}") for name in names]


def tests_of(module: ModuleType) -> Tests:
    """The tests of the classes of a module, without those that it takes from another one."""
    load = unittest.defaultTestLoader.loadTestsFromTestCase
    classes = [it for it in vars(module).values() if isinstance(it, type)]
    own = [it for it in classes if it.__module__ == module.__name__]
    found = [test for it in own if issubclass(it, unittest.TestCase) for test in load(it)]
    return [test for test in found if isinstance(test, unittest.TestCase)]


def is_named(test: unittest.TestCase, name: str) -> bool:
    return f".{name}." in f".{test.id()}."


def selected(folder: str, names: list[str]) -> Tests:
    """The tests of a folder with one of these names, or all. Ends with a text if there is none."""
    found = modules(folder)
    tests = [test for module in found for test in tests_of(module)]
    for name in names:
        if not any(is_named(test, name) for test in tests):
            sys.exit(f"{folder}: no test is named {name}")
    tests = [it for it in tests if not names or any(is_named(it, name) for name in names)]
    without = {it.__name__ for it in found if not getattr(it, "NEEDS_PROGRAM", True)}
    if not PROGRAM.exists() and any(type(it).__module__ not in without for it in tests):
        sys.exit(f"{folder}: there is no program {PROGRAM}; FLUTEJOIN may name one")
    return tests


class Result(unittest.TextTestResult):
    """A test without a check that counts is one itself."""

    before = 0

    def startTest(self, test: unittest.TestCase) -> None:
        super().startTest(test)
        self.before = Counts.passed

    def addSuccess(self, test: unittest.TestCase) -> None:
        super().addSuccess(test)
        Counts.passed += Counts.passed == self.before


def tell_again(line: str) -> None:
    """Adds a line to those that `make test` prints at its end."""
    if path := os.environ.get("TOLD"):
        with open(path, "a", encoding="utf-8") as file:
            file.write(f"{line}\n")


def run_here(folder: str, tests: Tests, verbosity: int) -> int:
    """Runs tests one after another, and returns how many checks failed."""
    runner = unittest.TextTestRunner(resultclass=Result, verbosity=verbosity)
    result = runner.run(unittest.TestSuite(tests))
    for test, why in result.skipped:
        print(f"{folder}: skipped: {test.id().rpartition('.')[2]}, {why}")
    for test, _ in [*result.failures, *result.errors]:
        tell_again(f"{folder}: failed: {test.id()}")
    return len(result.failures) + len(result.errors) + len(result.unexpectedSuccesses)


def processes(test: unittest.TestCase) -> int:
    return test.processes if isinstance(test, run.Case) else 0


def run_beside(folder: str, tests: Tests) -> int:
    """Runs each test in a process of its own, several at once, and returns how many checks failed.
    """

    def run_one(test: unittest.TestCase) -> subprocess.CompletedProcess[str]:
        assert isinstance(test, run.Case)
        words = [sys.executable, str(TESTS / "run"), folder, test.id().split(".", 2)[2], "--here"]
        return subprocess.run([*test.inside(), *words], capture_output=True, text=True)

    failed = 0
    with concurrent.futures.ThreadPoolExecutor(max(map(processes, tests))) as pool:
        for test, done in zip(tests, pool.map(run_one, tests)):
            *lines, last = done.stdout.splitlines() or [""]
            print("".join(f"{line}\n" for line in lines), end="")
            counts = re.fullmatch(r".*: (\d+) passed, (\d+) failed", last)
            Counts.passed += int(counts[1]) if counts else 0
            failed += int(counts[2]) if counts else 1
            if done.returncode or not counts:
                print(f"{test.id()}: status {done.returncode}: {last}\n{done.stderr}", flush=True)
    return failed


def main() -> int:
    parser = argparse.ArgumentParser(prog="tests/run", description="Runs the tests of a folder.")
    parser.add_argument("folder", metavar="FOLDER", choices=folders(), help=", ".join(folders()))
    parser.add_argument("names", metavar="NAME", nargs="*", help="a module, a class or a test")
    parser.add_argument("-v", "--verbose", action="store_true", help="name each test")
    parser.add_argument("--here", action="store_true", help="all in one process")
    told = parser.parse_args()
    tests = selected(told.folder, told.names)
    apart = [it for it in tests if processes(it) and not told.here]
    failed = run_beside(told.folder, apart) if apart else 0
    here = [it for it in tests if it not in apart]
    failed += run_here(told.folder, here, 1 + told.verbose) if here else 0
    last = f"{told.folder}: {Counts.passed} passed, {failed} failed"
    print(last, flush=True)
    if not told.here:
        tell_again(last)
    return int(failed > 0)
