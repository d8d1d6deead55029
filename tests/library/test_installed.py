"""Tests what `make install-library` leaves: a program in C is compiled by pkg-config, and runs; and
that `make` builds no library."""
from __future__ import annotations

import os
import shutil

from tests.library.case import EMPTY, STRICT, Case, built
from tests.support.run import ROOT, Run

LEFT = (
    *("include/flutejoin.h", "lib/libflutejoin.a", "lib/libflutejoin.so.0"),
    *("lib/pkgconfig/flutejoin.pc", "lib/libflutejoin.so"),
)
ALONE = {"MAKEFLAGS": ""}  # not as a part of the make that runs the tests
SOURCE = ROOT / "tests" / "library" / "library.c"


class Installed(Case):
    def setUp(self) -> None:
        super().setUp()
        self.place = self.path("elsewhere")

    def make(self, target: str) -> Run:
        """Makes it of the library that is built already."""
        words = "make", "--no-print-directory", "-s", "-C", ROOT, "-o", "library", target
        given = f"LIBRARY={built()}", f"DESTDIR={self.folder}", "PREFIX=/elsewhere"
        return self.command([*words, *given], env=ALONE)

    def test_make(self) -> None:
        self.addCleanup(os.umask, os.umask(0o077))
        self.check("make install-library", self.make("install-library"), 0)
        paths = [self.place / name for name in LEFT]
        self.holds("it leaves these", all(path.exists() for path in paths), paths)
        modes = {path.stat().st_mode & 0o777 for path in paths}
        self.holds("everyone may read them", modes == {0o644}, modes)
        if shutil.which("pkg-config"):
            self.used()
        self.check("make uninstall-library", self.make("uninstall-library"), 0)
        self.holds("takes them away", not any(os.path.lexists(path) for path in paths), paths)

    def used(self) -> None:
        env = {"PKG_CONFIG_PATH": str(self.place / "lib" / "pkgconfig")}
        env["PKG_CONFIG_SYSROOT_DIR"] = str(self.folder)
        version = self.command("pkg-config --modversion flutejoin", env=env).out.decode().strip()
        project = (ROOT / "python" / "pyproject.toml").read_text()
        self.holds("its version", f'"{version}"' in project, version)
        flags = self.command("pkg-config --cflags --libs flutejoin", env=env).out.decode().split()
        command = [os.environ.get("CC", "cc"), *STRICT, "-o", "joined", SOURCE, *flags]
        self.check("compiled", self.command(command), 0)
        self.write("journal", EMPTY)
        env = {"LD_LIBRARY_PATH": str(self.place / "lib")}
        self.check("and run", self.command("./joined journal journal journal", env=env), 0)

    def test_first_build(self) -> None:
        """It has the program's crates alone."""
        uses = {
            line.partition(":")[0].split()[0]: set(line.partition(":")[2].split())
            for line in (ROOT / "crates.txt").read_text().splitlines()
        }
        found, more = set[str](), {"flutejoin_cli"}
        while more - found:
            found |= more
            more = set[str]().union(*(uses.get(name, set()) for name in found))
        self.holds("no library for C", "flute_store" in found and "flutejoin_c" not in found, found)
        done = self.command(["make", "-n", "-s", "-C", ROOT, "-W", "crates.txt"], env=ALONE)
        self.check("make", done, 0, "tools/dev/build.sh")
        script = (ROOT / "tools" / "dev" / "build.sh").read_text()
        self.holds("builds none", "flutejoin_c " not in script and "library/" not in script)
