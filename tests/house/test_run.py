"""Tests the helpers of the other tests: each kind of check accepts a right row and refuses wrong
ones, and no test is forgotten. No program is needed but `sh`."""
from __future__ import annotations

import contextlib
import io
import os
import pathlib
import re
import resource
import shutil
import subprocess
import tempfile
import unittest
from unittest import mock

from tests.support import run, runner
from tests.support.run import TESTS, Case, Counts, version2

NEEDS_PROGRAM = False
SCRIPT = "printf 'two\nlines\n'; echo fault >&2; exit 3"
KEY = "000000000007 01 0000000000000000000000000001"


class Checks(unittest.TestCase):
    def setUp(self) -> None:
        self.case = Case("setUp")
        self.case.setUp()
        self.addCleanup(self.case.doCleanups)

    def is_refused(self, check: str, *wanted: object) -> bool:
        try:
            getattr(self.case, check)("a row", *wanted)
        except AssertionError:
            return True
        return False

    def of_run(self, *wanted: object) -> bool:
        return self.is_refused("check", self.case.shell(SCRIPT), *wanted)

    def test_runs(self) -> None:
        lines = "two\nlines"
        for right in (
            *((3, lines, "fault"), (3, f"{lines}\n", "fault\n"), (None, None, None)),
            *((3, b"two\nlines\n", b"fault\n"), (3, re.compile("^lines$", re.M), None)),
        ):
            self.assertFalse(self.of_run(*right), right)
        for wrong in (
            *((0, lines, "fault"), (3, "two", "fault"), (3, lines, ""), (3, "", "fault")),
            *((3, f"{lines}\n\n", "fault"), (3, b"two\nlines", None), (None, None, "faults")),
            (3, re.compile("^line$", re.M), None),
        ):
            self.assertTrue(self.of_run(*wrong), wrong)

    def test_files(self) -> None:
        self.case.write("one", "a")
        self.case.write("two", b"a")
        self.assertFalse(self.is_refused("same", "one", "two"))
        self.assertTrue(self.is_refused("same", "one", b"b"))
        self.assertTrue(self.is_refused("same", "none", "nothing"))
        self.assertFalse(self.is_refused("absent", "none", "nothing"))
        self.assertTrue(self.is_refused("absent", "none", "two"))

    def test_how_a_run_is_started(self) -> None:
        case = self.case
        case.write("given", "text")
        wanted = run.Run(0, b"text", b"")
        self.assertEqual(case.shell("cat", stdin=b"text"), wanted)
        self.assertEqual(case.shell("cat", stdin=case.path("given")), wanted)
        self.assertEqual(case.shell("cat", to="out"), run.Run(0, b"", b""))
        self.assertNotEqual(case.shell("cat given", closed=[1]).status, 0)
        limits = {resource.RLIMIT_FSIZE: 0}
        self.assertNotEqual(case.shell("cat given > copy", limits=limits).status, 0)
        with self.assertRaises(subprocess.TimeoutExpired):
            case.shell("sleep 600", seconds=0.1)

    def test_version2(self) -> None:
        old = f"464C4A4E0001 02 {KEY}\n    01 {KEY} 000000000005 0004 00000002 FF 0000000000000002"
        sender = "00000000000000000000FFFF0A000001"
        new = (
            f"464C4A4E0002 02 {sender} {KEY}\n"
            f"    01 {sender} {KEY} 000000000005 0004 00000002 FF 0000000000000002"
        )
        self.assertEqual(version2(sender, old).split(), new.split())


class Runner(unittest.TestCase):
    def test_no_test_is_forgotten(self) -> None:
        """One that stood elsewhere than in a module test_*.py of a folder would never run."""
        for path in TESTS.rglob("*.py"):
            if not path.match("tests/*/test_*.py"):
                self.assertNotRegex(path.read_text(), r"(?m)^ +def test_", path)

    def test_folders_are_described(self) -> None:
        lines = (TESTS / "README.md").read_text().splitlines()
        described = {line.split()[0] for line in lines if re.match(r" {4}\w+ {2,}\w", line)}
        self.assertEqual(described, {*runner.folders(), "support"})

    def test_names(self) -> None:
        for name in "Checks.test_files", "test_run.Checks.test_files", "test_files":
            found = [test.id() for test in runner.selected("house", [name])]
            self.assertEqual(found, ["tests.house.test_run.Checks.test_files"])
        for name in "Check", "test_runs.Checks", "Nothing":
            with self.assertRaises(SystemExit):
                runner.selected("house", [name])

    def test_counts(self) -> None:
        class Sample(Case):
            def test_two_checks(self) -> None:
                self.holds("one", True)
                self.holds("two", True)

            def test_another_check(self) -> None:
                self.assertEqual(1 + 1, 2)

            def test_one_of_two(self) -> None:
                self.holds("one", False)
                self.holds("two", True)

            def test_a_fault(self) -> None:
                raise ValueError

        tests = [*unittest.defaultTestLoader.loadTestsFromTestCase(Sample)]
        before = Counts.passed
        folder = pathlib.Path(tempfile.mkdtemp(prefix="flutejoin-test."))
        self.addCleanup(shutil.rmtree, folder)
        told = folder / "told"
        with contextlib.redirect_stderr(io.StringIO()):
            with mock.patch.dict(os.environ, TOLD=str(told)):
                failed = runner.run_here("sample", tests, 1)
        self.assertEqual((Counts.passed - before, failed), (4, 2))
        lines = told.read_text().splitlines()
        self.assertEqual([it.startswith("sample: failed: ") for it in lines], [True, True])


class Slowness(unittest.TestCase):
    """How slow the processors are beside a run, here with times that are given."""

    def measured(self, times: float, until: float = 0) -> tuple[float, float]:
        """Where steps take so many times as long as usual: the slowness, and how often some were
        taken."""

        def steps(count: int) -> float:
            return times * count / run.STEPS * run.TAKE

        with mock.patch.object(run, "steps", steps), mock.patch.object(run, "EACH", 0.01):
            with run.Beside() as beside:
                if until:
                    run.until(lambda: beside.count >= until * run.SOME, 60)
            return beside.slowness(), beside.count / run.SOME

    def test_times(self) -> None:
        for times, wanted in ((0.5, 1.0), (1.0, 1.0), (1.5, 1.5), (3.0, 3.0)):
            self.assertAlmostEqual(self.measured(times, 3)[0], wanted)

    def test_a_short_run(self) -> None:
        """It is measured once, at least."""
        slowness, count = self.measured(2.0)
        self.assertAlmostEqual(slowness, 2.0)
        self.assertGreaterEqual(count, 1)

    def test_only_meanwhile(self) -> None:
        """A machine that is busy during the run alone is slow, and one that was before is not."""
        slow = iter([1.0] * 2 + [4.0] * 2)
        with mock.patch.object(run, "steps", lambda _: next(slow)):
            with run.Beside() as before:
                pass
            with run.Beside() as beside:
                pass
        self.assertAlmostEqual(beside.slowness(), 4 * before.slowness())

    def test_steps(self) -> None:
        """More of them take longer; the time of other threads doesn't count."""
        least = [min(run.steps(count) for _ in range(9)) for count in (10_000, 100_000)]
        self.assertGreater(least[1], least[0])
