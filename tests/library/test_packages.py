"""Tests the packages for Debian of the library and of the package for Python: builds them, calls
the library out of them, and installs them in a scratch root. They are skipped where dpkg-deb is not
installed."""
from __future__ import annotations

import os
import pathlib
import sys

from tests.library.case import built
from tests.support import packages
from tests.support.packages import needs
from tests.support.run import ROOT

LIBRARY, PYTHON = "libflutejoin0", "python3-flutejoin"
MODULES = "./usr/lib/python3/dist-packages/flutejoin"
DATAGRAM = "10a00400 00000000 00000007 00000001 00000000 68656c6c"
# Reads this datagram, and prints the file that the library is in.
SCRIPT = f"""
import flutejoin
packet = flutejoin.read(bytes.fromhex("{DATAGRAM}"))
assert packet == (7, 1, None, None, (0, 0, b"hell")), packet
print({{line.split()[-1] for line in open("/proc/self/maps") if "libflutejoin" in line}})
"""
INSTALLED = """
chroot "$root" sh -c 'dpkg --force-depends -i /packages/*.deb' > /dev/null || exit 1
chroot "$root" env -u FLUTEJOIN_LIBRARY /usr/bin/python3 -c "$1" || exit 1
[ -d "$root/usr/lib/python3/dist-packages/flutejoin/__pycache__" ] || exit 1
chroot "$root" dpkg -P python3-flutejoin libflutejoin0 > /dev/null || exit 1
[ ! -e "$root/usr/lib/python3/dist-packages/flutejoin" ]
"""
# What deb_library.sh takes of the repository
PARTS = "packaging", "python"


@needs("dpkg-deb")
class Packages(packages.Case):
    def setUp(self) -> None:
        super().setUp()
        self.check("make deb-library", self.command(self.made_by(ROOT, self.folder)), 0, None, None)
        (self.library,) = self.folder.glob(f"{LIBRARY}_*.deb")
        (self.python,) = self.folder.glob(f"{PYTHON}_*_all.deb")

    def made_by(self, copy: pathlib.Path, folder: pathlib.Path) -> list[object]:
        return [copy / "packaging" / "deb_library.sh", built(), folder]

    def test_contents(self) -> None:
        contents = self.contents(self.python)
        for path in sorted((ROOT / "python" / "flutejoin").glob("*.*")):
            is_there = f"{MODULES}/{path.name}\n".encode() in contents
            self.holds(f"it has {path.name}", is_there == (path.suffix in (".py", ".typed")))
        self.holds("the library", b"/libflutejoin.so.0\n" in self.contents(self.library))
        for package in self.library, self.python:
            version = self.control(package, "control").lines()[1].partition(": ")[2]
            is_named = package.name.split("_")[1] == version
            self.holds("its version", is_named and f'"{version}"' in self.project(), version)

    def project(self) -> str:
        return (ROOT / "python" / "pyproject.toml").read_text()

    def test_unpacked(self) -> None:
        for package in self.library, self.python:
            self.extract(package)
        (place,) = self.path("root").rglob("libflutejoin.so.0")
        modules = self.path("root") / MODULES
        env = {"PYTHONPATH": str(modules.parent), "LD_LIBRARY_PATH": str(place.parent)}
        words = ["env", "-u", "FLUTEJOIN_LIBRARY", sys.executable, "-c", SCRIPT]
        self.check("called", self.command(words, env=env), 0, f"{{'{place}'}}")

    @needs("readelf")
    def test_stripped(self) -> None:
        self.extract(self.library)
        (place,) = self.path("root").rglob("libflutejoin.so.0")
        done = self.command(["readelf", "-SW", place])
        self.holds("no symbols", done.status == 0 and b" .symtab " not in done.out, done)

    def test_two_builds(self) -> None:
        """They are equal, whoever makes them, and whatever the time of the files."""
        self.addCleanup(os.umask, os.umask(0o077))
        for folder in "copy", "again":
            self.path(folder).mkdir()
        words = ["cp", "-r", *(ROOT / it for it in PARTS), self.path("copy")]
        self.assertEqual(self.command(words).status, 0)
        again = self.made_by(self.path("copy"), self.path("again"))
        self.check("again", self.command(again, env={"TZ": "Asia/Tokyo"}), 0, None, None)
        for package in self.library, self.python:
            self.same(package.name, self.path("again") / package.name, package.read_bytes())

    @needs("lintian")
    def test_lintian(self) -> None:
        for package in self.library, self.python:
            self.accepted(package)

    def test_in_scratch_root(self) -> None:
        self.in_scratch_root(INSTALLED, SCRIPT)
