"""The library for C, built and loaded, for its tests."""
from __future__ import annotations

import functools
import os
import pathlib
import subprocess
import sys
import tempfile
from typing import Optional

from tests.support import run
from tests.support.run import ROOT

sys.path.append(str(ROOT / "python"))
SENDER = "0a000001"
NUMBER = 0xFFFF0A000001  # its address
EMPTY = b"FLJN\0\2\xff" + bytes(8)  # the journal of nothing
STRICT = "-std=c99", "-Wall", "-Wextra", "-pedantic", "-Werror"


class NotBuilt(Exception):
    pass


@functools.lru_cache(maxsize=None)
def built() -> pathlib.Path:
    """A folder with the library. STATIC names the static library that was proved."""
    work = tempfile.TemporaryDirectory(prefix="flutejoin-library.")
    folder = pathlib.Path(work.name)
    KEPT.append(work)
    done = subprocess.run([ROOT / "library" / "build.sh", folder], capture_output=True, text=True)
    if done.returncode:
        raise NotBuilt(done.stderr)
    os.environ["FLUTEJOIN_LIBRARY"] = str(folder / "libflutejoin.so")
    return folder


KEPT: list[tempfile.TemporaryDirectory[str]] = []


def compiled(
    source: pathlib.Path,
    to: pathlib.Path,
    *words: str,
    library: Optional[pathlib.Path] = None,
) -> None:
    """Compiles a program in C that has the whole library in it, or another one of that folder."""
    command: list[str | pathlib.Path] = [os.environ.get("CC", "cc"), *STRICT, *words]
    command += [f"-I{ROOT / 'include'}", "-o", to, source]
    subprocess.run([*command, (library or built()) / "libflutejoin.a"], check=True)


class Case(run.Case):
    @classmethod
    def setUpClass(cls) -> None:
        super().setUpClass()
        built()
