"""Runs of the program under strace: its calls of the system on files, and faults in them."""
from __future__ import annotations

import os
import pathlib
import re
import shutil
from typing import Any, NamedTuple, Optional

from tests.outputs.case import Case as Outputs
from tests.support import run
from tests.support.run import Run

# What reads files and names, and what changes them or brings them to the disk
READS = "read pread64 readv statx newfstatat fstat getdents64 readlink readlinkat lseek".split()
CHANGES = """write pwrite64 writev pwritev pwritev2 sendfile copy_file_range splice fsync fdatasync
    sync syncfs sync_file_range rename renameat renameat2 link linkat symlink symlinkat unlink
    unlinkat mkdir mkdirat mknod mknodat rmdir creat truncate ftruncate fallocate chmod fchmod
    fchmodat chown fchown lchown fchownat utimensat setxattr fsetxattr lsetxattr flock""".split()
WATCHED = ",".join(["open", "openat", *READS, *CHANGES])
# What the names of calls that also take a folder, or a larger number, have behind plain ones
PLAIN = re.compile(r"(at2?|64)$")
TO_CHANGE = {"O_WRONLY", "O_RDWR", "O_CREAT", "O_TRUNC"}

CALL = re.compile(r"(?:\d+ +)?(\w+)\((.*)\) += (-?\d+)(?:<.*?>)?(?: (E\w+))?(.*)$")
FILE = re.compile(r"(\d+|AT_FDCWD)<((?:\\x[0-9a-f]{2})*)>")
TEXT = re.compile(r'"((?:\\x[0-9a-f]{2})*)"')
MODE = re.compile(r"\b0[0-7]*$")
LONGEST_TEXT = 300_000  # bytes of a call's text that strace prints


class Call(NamedTuple):
    """A call of the system. Its paths are relative to the test's folder, if they are in it."""

    name: str
    number: int  # of the calls of this name in the run, from 1
    path: str
    to: str = ""  # the new name of what a rename moves
    flags: frozenset[str] = frozenset()
    mode: Optional[int] = None
    stream: Optional[int] = None  # the number of the open file that it is of
    content: bytes = b""  # what a write took, or should have taken
    asked: int = 0  # how many bytes a read may give
    error: str = ""
    is_injected: bool = False

    def plain(self) -> str:
        return PLAIN.sub("", self.name)

    def changes(self) -> bool:
        """Whether it may change a file or a name, or brings one to the disk."""
        return self.name in CHANGES or self.plain() == "open" and bool(self.flags & TO_CHANGE)


def bytes_of(text: str) -> bytes:
    return bytes.fromhex(text.replace("\\x", ""))


def calls_of(log: str, folder: pathlib.Path) -> list[Call]:
    """The calls that strace wrote down, with all texts in hexadecimal."""
    calls: list[Call] = []
    counts: dict[str, int] = {}
    for line in log.splitlines():
        if found := CALL.match(line):
            name = found[1]
            counts[name] = counts.get(name, 0) + 1
            calls.append(call_of(found, counts[name], folder))
    return calls


def call_of(found: re.Match[str], number: int, folder: pathlib.Path) -> Call:
    """The call of the system in a line of strace."""
    name, arguments, returned, error, behind = found.groups()
    texts = [bytes_of(it) for it in TEXT.findall(arguments)]
    file = FILE.match(arguments)
    at = bytes_of(file[2]).decode() if file else str(folder)
    stream = int(file[1]) if file and file[1].isdigit() else None
    is_content = name.startswith(("write", "pwrite", "read", "pread"))
    names = [] if is_content else [os.path.join(at, it.decode()) if it else at for it in texts]
    if "rename" in name and stream is None and len(names) > 1:
        names[1] = os.path.join(folder, texts[1].decode())
    paths = [inside(it, folder) for it in names or [at]]
    mode = MODE.search(arguments)
    return Call(
        name,
        number,
        paths[0],
        paths[1] if "rename" in name and len(paths) > 1 else "",
        frozenset(re.findall(r"\b[A-Z]+(?:_[A-Z]+)+\b", arguments)),
        int(mode[0], 8) if mode else None,
        stream,
        b"".join(texts[:1])[: None if error else int(returned)] if is_content else b"",
        int((re.findall(r", (\d+)$", arguments) or [0])[0]),
        error or "",
        "(INJECTED)" in behind,
    )


def inside(path: str, folder: pathlib.Path) -> str:
    """A path as seen from the folder, or as it is if it leads elsewhere; "" of a pipe."""
    if not path.startswith("/"):
        return ""
    path = os.path.normpath(path)
    return os.path.relpath(path, folder) if path.startswith(f"{folder}{os.sep}") else path


class Case(Outputs):
    """Skipped where strace is not installed, or may not trace."""

    def setUp(self) -> None:
        super().setUp()
        self.strace = shutil.which("strace")
        if not self.strace:
            self.skipTest("since there is no strace")
        if self.command([self.strace, "-qq", "-o", "/dev/null", "true"]).status != 0:
            self.skipTest("strace may not trace here")
        self.folder = self.folder.resolve()

    def traced(self, words: run.Words, *faults: str, **how: Any) -> tuple[Run, list[Call]]:
        """Runs the program under strace, with these faults (`fsync:error=EIO:when=1`), and returns
        the run and its calls."""
        log = self.bin / "log"
        command = [self.strace, "-f", "-y", "-xx", "-qq", "-s", LONGEST_TEXT, "-o", log]
        command += ["-e", f"trace={WATCHED}"]
        for fault in faults:
            command += ["-e", f"inject={fault}"]
        done = self.command([*command, run.PROGRAM, *run.split(words)], **how)
        return done, calls_of(log.read_text(), self.folder)
