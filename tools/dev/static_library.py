#!/usr/bin/env python3
"""Proves flutejoin_c, and builds its static library, over the libraries that `rt ci` left: these
are not proved again, so they have to be those of this text.

usage: static_library.py OUT
"""
from __future__ import annotations

import os
import subprocess
import sys
import tempfile

sys.dont_write_bytecode = True
from wrong_checks import KIT, checking
from wrong_edits import crate_folder

CRATE = "flutejoin_c"


def main(out: str) -> int:
    os.makedirs(os.path.dirname(out) or ".", exist_ok=True)
    with tempfile.TemporaryDirectory(prefix="static-library-") as kept:
        _, *words = checking(CRATE)
        words[words.index("--incremental") + 1] = kept
        words[0] = "build"
        words += ["--crate-type", "staticlib", "--toolchain", f"{KIT}/toolchain"]
        command = [f"{KIT}/bin/rattle", *words, "-o", os.path.abspath(out)]
        return subprocess.run(command, cwd=crate_folder(CRATE)).returncode


if __name__ == "__main__":
    sys.exit(main(*sys.argv[1:]))
