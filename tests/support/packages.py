"""Packages for Debian, for tests: what is in them, and what they do once they are installed."""
from __future__ import annotations

import pathlib
import shutil
import unittest
from typing import Callable, TypeVar

from tests.support import run
from tests.support.run import Run

# Mounts this system below the folder `scratch`, in a mount namespace, and puts packages into it;
# status 3 if that is not possible.
MOUNTED = """
mount -t tmpfs none scratch && mkdir scratch/new scratch/work scratch/root &&
    mount -t overlay overlay -o \\
    "lowerdir=/,upperdir=$PWD/scratch/new,workdir=$PWD/scratch/work" scratch/root || exit 3
root=scratch/root
mount -t proc proc "$root/proc" 2> /dev/null
mount --bind /dev "$root/dev"
mkdir "$root/packages"
cp *.deb "$root/packages"
"""

T = TypeVar("T", bound=Callable[..., object])


def needs(program: str) -> Callable[[T], T]:
    return unittest.skipUnless(shutil.which(program), f"since there is no {program}")


class Case(run.Case):
    def control(self, package: pathlib.Path, name: str) -> Run:
        """A file that says how a package is installed."""
        return self.command(["dpkg-deb", "--info", package, name])

    def contents(self, package: pathlib.Path) -> bytes:
        """What is in a package, all of root."""
        done = self.command(["dpkg-deb", "--contents", package])
        others = [line for line in done.lines() if " root/root " not in line]
        self.holds(f"{package.name} is of root", not others, others)
        return done.out

    def extract(self, package: pathlib.Path) -> None:
        """Unpacks a package into the folder `root`."""
        done = self.command(["dpkg-deb", "--extract", package, self.path("root")])
        self.assertEqual(done.status, 0, done)

    def in_scratch_root(self, script: str, *words: str) -> None:
        """Runs a script where this system is below $root, with the packages of the folder in its
        folder /packages."""
        self.path("scratch").mkdir()
        done = self.command(["unshare", "-m", "sh", "-c", MOUNTED + script, "sh", *words])
        if done.status == 3 or self.command("unshare -m true").status != 0:
            self.skipTest("since nothing can be mounted here")
        self.check("in a scratch root", done, 0, None, None)

    def accepted(self, package: pathlib.Path) -> None:
        done = self.command(["lintian", "--fail-on", "error,warning", package])
        self.check(f"lintian: {package.name}", done, 0, None, None)
