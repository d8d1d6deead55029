"""Checks the Python of tools/ and examples/, which needs no package, and of the tests.

Each function has type hints, and Python 3.9 can read each file. Those of pyflakes, pycodestyle,
ruff and mypy that are installed report nothing, and the others are named. mypy is strict about the
tools, the examples and the tests.
"""
from __future__ import annotations

import ast
import os
import pathlib
import shutil
import subprocess
import sys
import tempfile
import unittest
from typing import Iterator

from tests.support.run import ROOT

NEEDS_PROGRAM = False
FOLDERS = "tools", "examples", "tests", "python", "python/flutejoin"
OLDEST, OF_TESTS = (3, 9), (3, 11)  # the oldest versions of Python for tools and for tests
PLACES = ".", "tools", "tools/dev", "examples", "python"  # where modules are imported from
MOST_COLUMNS, MOST_LINES = 100, 400
OF_DASK = {"distributed"}  # examples/join_on_dask.py is run by Dask's Python
# Some imports come after the first thing that a tool does, as catching signals (E402). The
# formatter's spaces at colons and operators are right (E203, W503), and the body of a protocol's
# method stands in its line (E704).
IGNORED = "--ignore=E402,E203,W503,E704"


def sources(*folders: str) -> list[pathlib.Path]:
    """The files of Python in these folders, with the scripts."""
    paths = [path for folder in folders for path in sorted((ROOT / folder).rglob("*"))]
    return [it for it in paths if it.suffix == ".py" or (it.is_file() and is_script(it))]


def is_script(path: pathlib.Path) -> bool:
    with path.open("rb") as file:
        return b"python3" in file.readline() if path.is_file() else False


def trees(*folders: str) -> Iterator[tuple[pathlib.Path, ast.Module]]:
    """Yields the files of Python in these folders, parsed as the oldest version does."""
    for path in sources(*folders):
        yield path, ast.parse(path.read_text(), feature_version=OLDEST)


def imported(tree: ast.AST) -> set[str]:
    """The modules that a file imports."""
    found = set()
    for node in ast.walk(tree):
        if isinstance(node, ast.Import):
            found |= {name.name.partition(".")[0] for name in node.names}
        elif isinstance(node, ast.ImportFrom):
            found.add((node.module or "").partition(".")[0])
    return found


def functions(tree: ast.AST) -> list[ast.FunctionDef]:
    return [node for node in ast.walk(tree) if isinstance(node, ast.FunctionDef)]


def lacks_hints(function: ast.FunctionDef) -> bool:
    """Whether the type of a parameter or of the result is missing."""
    of = function.args
    arguments = [*of.posonlyargs, *of.args, *of.kwonlyargs]
    named = [it for it in arguments if it.arg not in ("self", "cls")]
    named += [it for it in (of.vararg, of.kwarg) if it]
    return function.returns is None or any(it.annotation is None for it in named)


def keeps_hints_unread(tree: ast.Module) -> bool:
    """Whether types are not evaluated, so that Python 3.9 takes those of later versions."""
    return any(
        isinstance(node, ast.ImportFrom)
        and node.module == "__future__"
        and any(name.name == "annotations" for name in node.names)
        for node in tree.body
    )


class Sources(unittest.TestCase):
    def test_executable(self) -> None:
        """Each file that names its interpreter can be run, in a new clone too."""
        scripts = [it for it in sources(*FOLDERS) if it.read_bytes().startswith(b"#!")]
        unfit = [it.name for it in scripts if not os.access(it, os.X_OK)]
        self.assertEqual(unfit, [])

    def test_what_is_imported(self) -> None:
        known: frozenset[str] | None = getattr(sys, "stdlib_module_names", None)
        if known is None:
            self.skipTest("Python's own modules are named since 3.10")
        own = {path.stem for path in sources(*FOLDERS)} | {"flutejoin_tools", "flutejoin"}
        for path, tree in trees("tools", "examples"):
            others = imported(tree) - known - own
            self.assertLessEqual(others, OF_DASK, path)

    def test_type_hints(self) -> None:
        for path, tree in trees(*FOLDERS):
            found = functions(tree)
            self.assertEqual([it.name for it in found if lacks_hints(it)], [], path)
            self.assertTrue(not found or keeps_hints_unread(tree), path)

    def test_lengths(self) -> None:
        for path in sources("tools", "examples"):
            lines = path.read_text().splitlines()
            self.assertLessEqual(len(lines), MOST_LINES, path)
        for path in sources(*FOLDERS):
            longest = max(map(len, path.read_text().splitlines()), default=0)
            self.assertLessEqual(longest, MOST_COLUMNS, path)


class Checkers(unittest.TestCase):
    """Other programs that check Python."""

    def finds_nothing(self, names: str, *words: object, **paths: str) -> None:
        """Runs a checker, if one of these names is installed, which must report nothing."""
        found = [path for path in map(shutil.which, names.split()) if path]
        if not found:
            self.skipTest(f"{names.split()[0]} is not installed")
        command = [found[0], *map(str, words)]
        environment = {**os.environ, **paths}
        done = subprocess.run(command, capture_output=True, text=True, cwd=ROOT, env=environment)
        self.assertEqual(done.returncode, 0, done.stdout + done.stderr)

    def test_pyflakes(self) -> None:
        self.finds_nothing("pyflakes3 pyflakes", *sources(*FOLDERS))

    def test_pycodestyle(self) -> None:
        length = f"--max-line-length={MOST_COLUMNS}"
        self.finds_nothing("pycodestyle pycodestyle3", length, IGNORED, *sources(*FOLDERS))

    def test_ruff(self) -> None:
        options = "check", "--isolated", "--no-cache", "--ignore=E402"
        length = f"--line-length={MOST_COLUMNS}"
        self.finds_nothing("ruff", *options, length, *sources(*FOLDERS))

    def test_types(self) -> None:
        options = ["--strict", "--explicit-package-bases", "--scripts-are-modules"]
        options.append("--ignore-missing-imports")  # as of Dask
        places = ":".join(str(ROOT / folder) for folder in PLACES)
        with tempfile.TemporaryDirectory(prefix="flutejoin-mypy.") as cache:
            # Two folders have a captures.py.
            both = (sources("tools", "examples"), OLDEST), (sources("tests"), OF_TESTS)
            for paths, version in both:
                of = "--python-version={}.{}".format(*version)
                words = *options, of, f"--cache-dir={cache}", *paths
                self.finds_nothing("mypy", *words, MYPYPATH=places)
