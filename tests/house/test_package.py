"""Tests the installation: installs by make and uninstalls; builds the Debian package, installs it
in a scratch root, runs its programs and removes it; and has systemd check the unit."""
from __future__ import annotations

import gzip
import os
import re

from tests.support import packages, run
from tests.support.packages import needs
from tests.support.run import ROOT, Run

COMMANDS = ("flutejoin", *sorted(path.name for path in (ROOT / "tools").glob("flutejoin-*")))
UNITS = "flutejoin-station@.service", "flutejoin-centre.service"
IN_PACKAGE = (
    *("./usr/bin/flutejoin-station", "./usr/lib/flutejoin/flutejoin-station"),
    "./usr/lib/flutejoin/flutejoin_tools/station/keeping.py",
    *("./usr/share/man/man1/flutejoin-station.1.gz", "./etc/flutejoin/example.toml"),
    "./usr/share/bash-completion/completions/flutejoin",
    *("./usr/share/flutejoin/examples/push.sh", "./usr/lib/sysusers.d/flutejoin.conf"),
    *("./usr/share/doc/flutejoin/docs/OPERATING.md", "./usr/share/doc/flutejoin/README.md"),
    "./usr/share/doc/flutejoin/docs/pictures/overview.svg",
    *("./usr/share/doc/flutejoin/copyright", "./usr/share/doc/flutejoin/changelog.gz"),
    *(f"./usr/lib/systemd/system/{unit}" for unit in UNITS),
)
INSTALLED = """
chroot "$root" sh -c 'dpkg --force-depends -i /packages/*.deb' > /dev/null || exit 1
chroot "$root" flutejoin --version | grep -q "^flutejoin $1" || exit 1
chroot "$root" flutejoin-station --help | grep -q 'what is in FOLDER' || exit 1
chroot "$root" flutejoin-station --config /etc/flutejoin/example.toml -o /station --seconds 1
[ -d "$root/station/journals" ] || exit 1
echo changed >> "$root/etc/flutejoin/example.toml"
chroot "$root" dpkg -r flutejoin > /dev/null || exit 1
[ ! -e "$root/usr/bin/flutejoin" ] && [ ! -e "$root/usr/lib/flutejoin" ] || exit 1
grep -q changed "$root/etc/flutejoin/example.toml" || exit 1
chroot "$root" dpkg -P flutejoin > /dev/null || exit 1
[ ! -e "$root/etc/flutejoin" ]
"""


# What deb.sh takes of the repository
PARTS = (
    *("packaging", "tools", "man", "docs", "examples", "completions"),
    *("Makefile", "README.md", "CHANGELOG.md"),
)


class Installed(run.Case):
    def make(self, *words: str) -> Run:
        """Runs make, to install into a folder of the test."""
        given = "--no-print-directory", "-s", "-C", ROOT, f"PROGRAM={run.PROGRAM}"
        place = f"DESTDIR={self.path('by_make')}", "PREFIX=/usr/local"
        return self.command(["make", *given, *words, *place])

    def test_make(self) -> None:
        self.path("by_make").mkdir()
        self.addCleanup(os.umask, os.umask(0o077))
        self.check("make install", self.make("install"), 0, None, None)
        local = self.path("by_make/usr/local")
        for name in COMMANDS:
            done = self.command([local / "bin" / name, "--help"])
            self.check(f"{name} runs", done, 0, None, None)
            page = local / "share" / "man" / "man1" / f"{name}.1"
            self.holds(f"{name} has a man page", page.is_file())
        hidden = [path for path in local.rglob("*") if path.stat().st_mode & 0o444 != 0o444]
        self.holds("all may read what is installed, whoever installs it", not hidden, hidden)
        for name in UNITS:
            unit = (local / "lib" / "systemd" / "system" / name).read_text()
            tool = re.split("[@.]", name)[0]
            is_installed = f"\nExecStart=/usr/local/bin/{tool} " in unit
            self.holds(f"{name} runs what is installed", is_installed, unit)
        self.check("make uninstall", self.make("uninstall"), 0, None, None)
        left = [path for path in self.path("by_make").rglob("*") if not path.is_dir()]
        self.holds("nothing is left", not left, left)

    @needs("systemd-analyze")
    def test_unit(self) -> None:
        # Systemd looks for the program at its installed path.
        for name in UNITS:
            unit = (ROOT / "packaging" / name).read_text()
            self.write(name, unit.replace("/usr/bin/", f"{ROOT}/tools/"))
            done = self.command(["systemd-analyze", "verify", "--man=no", self.path(name)])
            self.check(f"the unit {name}", done, None)
            words = ["systemd-analyze", "security", "--offline=yes", self.path(name)]
            told = re.search(r"exposure level.*: (\d)\.\d", self.command(words).out.decode())
            self.holds(f"the sandbox of {name}", told and int(told[1]) <= 1, told)


@needs("dpkg-deb")
class Package(packages.Case):
    def setUp(self) -> None:
        super().setUp()
        self.version = self.made("--version").lines()[0].split()[1]
        done = self.command([ROOT / "packaging" / "deb.sh", run.PROGRAM, self.folder])
        self.check("make deb", done, 0, None, None)
        machine = self.command("dpkg --print-architecture").out.decode().strip()
        self.package = self.path(f"flutejoin_{self.version}_{machine}.deb")

    def test_contents(self) -> None:
        contents = self.contents(self.package)
        for path in IN_PACKAGE:
            self.holds(f"the package has {path}", path.encode() in contents)
        done = self.control(self.package, "conffiles")
        self.check("settings stay", done, 0, "/etc/flutejoin/example.toml")

    def test_pages(self) -> None:
        self.extract(self.package)
        pages = self.path("root/usr/share/doc/flutejoin")
        self.holds("no licence", "No licence was chosen yet" in (pages / "copyright").read_text())
        with gzip.open(pages / "changelog.gz", "rt") as file:
            first = file.readline()
        self.holds("the version", first.startswith(f"flutejoin ({self.version}) "), first)
        wanted = (ROOT / "docs/OPERATING.md").read_bytes()
        self.same("a page", pages / "docs/OPERATING.md", wanted)

    @needs("readelf")
    def test_stripped(self) -> None:
        self.extract(self.package)
        done = self.command(["readelf", "-SW", self.path("root/usr/bin/flutejoin")])
        self.holds("no symbols", done.status == 0 and b" .symtab " not in done.out, done)

    def test_two_builds(self) -> None:
        """They are equal, whoever makes them, and whatever the time of the files."""
        first = self.package.read_bytes()
        self.addCleanup(os.umask, os.umask(0o077))
        words = ["cp", "-r", *(ROOT / it for it in PARTS), self.path("copy")]
        self.path("copy").mkdir()
        self.assertEqual(self.command(words).status, 0)
        self.path("again").mkdir()
        made = [self.path("copy/packaging/deb.sh"), run.PROGRAM, self.path("again")]
        self.check("again", self.command(made, env={"TZ": "Asia/Tokyo"}), 0, None, None)
        self.same("two builds", self.path("again") / self.package.name, first)

    @needs("lintian")
    def test_lintian(self) -> None:
        self.accepted(self.package)

    def test_in_scratch_root(self) -> None:
        self.in_scratch_root(INSTALLED, self.version)
