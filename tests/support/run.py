"""Runs of the built program and the tools for tests, each in a temporary folder of the test's own.

Each call of `check`, `same`, `holds` and `absent` is a check that counts (`tests/run` prints how
many passed), and its failure doesn't end its test.

The program is that of the environment variable FLUTEJOIN, or else bin/flutejoin.
"""
from __future__ import annotations

import contextlib
import os
import pathlib
import re
import resource
import shlex
import shutil
import signal
import subprocess
import sys
import tempfile
import threading
import time
import unittest
from typing import (
    IO,
    Any,
    Callable,
    Iterable,
    Iterator,
    Mapping,
    NamedTuple,
    Optional,
    Pattern,
    Sequence,
    Union,
)

SUPPORT = pathlib.Path(__file__).resolve().parent
TESTS = SUPPORT.parent
ROOT = TESTS.parent
PROGRAM = pathlib.Path(os.environ.get("FLUTEJOIN", ROOT / "bin" / "flutejoin")).absolute()
LONGEST = 600.0  # seconds that a run may take, on a machine under load
STEPS, TAKE = 2_000_000, 0.13  # steps of Python, and the seconds that they usually take
SOME, EACH = 100_000, 0.25  # steps beside a run, and the seconds between them
NOBODY = 65534  # the number of a user without permissions
SHOWN = 600  # bytes of an output that a failure shows

# The words of a command line: a text is split as a shell does
Words = Union[str, Sequence[object]]
# A text is whole lines, and may lack the last line feed; `None` matches any output
Expected = Union[str, bytes, Pattern[str], None]
# The name of a file of the test's folder, or bytes
Content = Union[str, pathlib.Path, bytes]


class Run(NamedTuple):
    """The result of a run."""

    status: int  # below zero if a signal ended the run
    out: bytes
    err: bytes

    def lines(self) -> list[str]:
        return self.out.decode().splitlines()


class Row(NamedTuple):
    """A run of the program, and the expected result."""

    name: str
    words: Words
    status: Optional[int] = 0
    out: Expected = ""
    err: Expected = ""


class Counts:
    passed = 0


def split(words: Words) -> list[str | bytes]:
    """The words of a command line, as a shell splits them."""
    if isinstance(words, str):
        return [*shlex.split(words)]
    return [word if isinstance(word, bytes) else str(word) for word in words]


def is_expected(wanted: Expected, output: bytes) -> bool:
    if wanted is None:
        return True
    if isinstance(wanted, bytes):
        return output == wanted
    if isinstance(wanted, str):
        end = "\n" if wanted and not wanted.endswith("\n") else ""
        return output == (wanted + end).encode()
    return wanted.search(output.decode(errors="replace")) is not None


def match_of(pattern: str | re.Pattern[str], text: str | None) -> re.Match[str]:
    """The match of a whole text, which is there."""
    found = re.fullmatch(pattern, text or "")
    assert found, (pattern, text)
    return found


def search_of(pattern: str | re.Pattern[str], text: str) -> re.Match[str]:
    """The first match in a text, which is there."""
    found = re.search(pattern, text)
    assert found, (pattern, text)
    return found


def end(child: subprocess.Popen[bytes]) -> None:
    """Kills a child, if it runs, and closes its streams."""
    with contextlib.suppress(ProcessLookupError):
        child.kill()
    child.wait()
    for stream in child.stdin, child.stdout, child.stderr:
        if stream:
            with contextlib.suppress(OSError):
                stream.close()


def until(is_so: Callable[[], object], seconds: float = LONGEST) -> bool:
    """Waits until a condition holds. Returns False if it doesn't in time."""
    ends = time.monotonic() + seconds
    while not is_so():
        if time.monotonic() > ends:
            return False
        time.sleep(0.005)
    return True


def steps(count: int) -> float:
    """The seconds of a processor that steps of Python take this thread."""
    began, total = time.thread_time(), 0
    for number in range(count):
        total += number & 7
    return time.thread_time() - began


def slowness() -> float:
    """How many times as long as usual steps of Python take the processor here; at least 1."""
    return max(1.0, steps(STEPS) / TAKE)


class Beside:
    """Measures how slow the processors are while something else runs: some steps of Python now and
    then, a fortieth of one processor. What is busy only before or after the run doesn't count."""

    def __init__(self) -> None:
        self.count, self.seconds = 0, 0.0
        self.has_ended = threading.Event()
        self.thread = threading.Thread(target=self.measure, daemon=True)

    def measure(self) -> None:
        while not self.count or not self.has_ended.wait(EACH):
            steps(SOME // 5)  # what wakes up is slow at first
            self.seconds += steps(SOME)
            self.count += SOME

    def __enter__(self) -> Beside:
        self.thread.start()
        return self

    def __exit__(self, *_: object) -> None:
        self.has_ended.set()
        self.thread.join()

    def slowness(self) -> float:
        """How many times as long as usual steps took the processor meanwhile; at least 1."""
        return max(1.0, self.seconds / self.count * STEPS / TAKE)


def waits(child: subprocess.Popen[bytes]) -> bool:
    """Whether a run waits for something else than a processor or a disk, or has ended."""
    status = pathlib.Path(f"/proc/{child.pid}/stat").read_text()
    return status.rpartition(") ")[2][0] in "SZ"


def hexadecimal(text: str) -> bytes:
    return bytes.fromhex(text)


# An entry of a journal of version 1 begins with its kind, the TSI, and the object's tag and number,
# separated by single spaces.
ENTRY = re.compile(r"(?<!\S)(0[1-4])\s+([0-9A-F]{12} 0[01] [0-9A-F]{28})")
ZERO = "0" * 32


def version2(sender: str, text: str) -> str:
    """Turns a journal of version 1 in hexadecimal, or entries, into version 2, with this sender in
    each entry."""
    return ENTRY.sub(rf"\1 {sender} \2", re.sub("^464C4A4E0001", "464C4A4E0002", text))


class Case(unittest.TestCase):
    """A test: runs are in `folder`, and `bin` has links to the program and the tools."""

    # How many tests of the class run at once, each in a process of its own, since they mostly wait
    processes = 0

    @classmethod
    def inside(cls) -> Sequence[str]:
        """Words before the command of such a process, which run it elsewhere."""
        return ()

    def setUp(self) -> None:
        whole = pathlib.Path(tempfile.mkdtemp(prefix="flutejoin-test."))
        self.addCleanup(shutil.rmtree, whole, ignore_errors=True)
        self.folder, self.bin = whole / "work", whole / "bin"
        for folder in (self.folder, self.bin):
            folder.mkdir()
        (self.bin / "flutejoin").symlink_to(PROGRAM)
        for tool in (ROOT / "tools").glob("flutejoin-*"):
            (self.bin / tool.name).symlink_to(tool)

    # Files

    def path(self, name: str | pathlib.Path) -> pathlib.Path:
        return self.folder / name

    def write(self, name: str, content: str | bytes) -> None:
        self.path(name).write_bytes(content if isinstance(content, bytes) else content.encode())

    def read(self, name: str | pathlib.Path) -> bytes:
        return self.path(name).read_bytes()

    def file(self, name: str, *text: str) -> None:
        """Writes a file of bytes given in hexadecimal."""
        self.write(name, hexadecimal(" ".join(text)))

    def journal(self, name: str, *text: str) -> None:
        """Writes NAME, a journal of version 1, and NAME2, the same in version 2 with sender 0."""
        self.file(name, *text)
        self.file(f"{name}2", version2(ZERO, " ".join(text)))

    def remove(self, *names: str) -> None:
        for name in names:
            self.path(name).unlink()

    def exists(self, *names: str) -> list[str]:
        """Those of these names that are in the folder."""
        return [name for name in names if os.path.lexists(self.path(name))]

    # Runs

    def environment(self, more: Mapping[str, str]) -> dict[str, str]:
        path = f"{self.bin}:{os.environ.get('PATH', os.defpath)}"
        given = {name: value for name, value in os.environ.items() if name != "FLUTEJOIN"}
        return {**given, "PATH": path, "PYTHONDONTWRITEBYTECODE": "1", **more}

    def start(
        self,
        words: Words,
        *,
        stdin: bytes | pathlib.Path = b"",
        to: str | IO[bytes] | None = None,
        err: str | None = None,
        closed: Iterable[int] = (),
        env: Mapping[str, str] = {},
        limits: Mapping[int, int] = {},
        signals: Mapping[int, signal.Handlers] = {},
        nobody: bool = False,
        kept: Sequence[int] = (),
        folder: str | pathlib.Path = ".",
    ) -> subprocess.Popen[bytes]:
        """Starts a command. `stdin` is its input (bytes are sent through a pipe) or a file's name,
        `to` a file for its standard output and `err` one for standard error. `closed` are the
        numbers of closed streams, `limits` and `signals` its limits by `setrlimit` and its handlers
        of signals at the start. `nobody` runs it as a user without permissions, if this user is
        root; it inherits the open files `kept`."""

        def prepare() -> None:
            for number, most in limits.items():
                resource.setrlimit(number, (most, most))
            for number, handler in signals.items():
                signal.signal(number, handler)
            for stream in closed:
                os.close(stream)

        other: dict[str, Any] = {"user": NOBODY, "group": NOBODY, "extra_groups": []}
        given: int | IO[bytes] = subprocess.PIPE
        out: int | IO[bytes] = subprocess.PIPE
        told: int | IO[bytes] = subprocess.PIPE
        with contextlib.ExitStack() as files:
            if isinstance(stdin, pathlib.Path):
                given = files.enter_context(self.path(stdin).open("rb"))
            if isinstance(to, str):
                out = files.enter_context(self.path(to).open("wb"))
            elif to is not None:
                out = to
            if err:
                told = files.enter_context(self.path(err).open("wb"))
            child = subprocess.Popen(
                split(words),
                stdin=given,
                stdout=out,
                stderr=told,
                cwd=self.path(folder),
                env=self.environment(env),
                pass_fds=kept,
                preexec_fn=prepare if limits or signals or closed else None,
                **(other if nobody and os.geteuid() == 0 else {}),
            )
        self.addCleanup(end, child)
        return child

    def finish(
        self, child: subprocess.Popen[bytes], given: bytes = b"", within: float = LONGEST
    ) -> Run:
        """Waits for a started command, which gets these bytes if its input is a pipe."""
        out, err = child.communicate(given if child.stdin else None, timeout=within)
        return Run(child.returncode, out or b"", err or b"")

    def command(self, words: Words, *, seconds: float = LONGEST, **how: Any) -> Run:
        """Runs a command, with the options of `start`."""
        given = how.get("stdin", b"")
        child = self.start(words, **how)
        return self.finish(child, given if isinstance(given, bytes) else b"", seconds)

    def program(self, words: Words, **how: Any) -> Run:
        return self.command([PROGRAM, *split(words)], **how)

    def tool(self, name: str, words: Words, **how: Any) -> Run:
        """Runs a tool with this Python."""
        return self.command([sys.executable, ROOT / "tools" / name, *split(words)], **how)

    def shell(self, script: str, **how: Any) -> Run:
        return self.command(["sh", "-c", script], **how)

    def made(self, words: Words, **how: Any) -> Run:
        """Runs the program to make a file; it must succeed."""
        done = self.program(words, **how)
        self.assertEqual(done.status, 0, (words, done))
        return done

    @contextlib.contextmanager
    def piped(self, name: str, content: bytes) -> Iterator[None]:
        """Makes a named pipe, into which these bytes are written meanwhile."""
        if not self.exists(name):
            os.mkfifo(self.path(name))
        writer = threading.Thread(target=self.path(name).write_bytes, args=[content], daemon=True)
        writer.start()
        yield
        writer.join(LONGEST)

    # Checks

    def holds(self, name: str, claim: object, told: object = "") -> None:
        with self.subTest(name):
            self.assertTrue(claim, told)
            Counts.passed += 1

    def check(
        self,
        name: str,
        run: Run,
        status: int | None = 0,
        out: Expected = "",
        err: Expected = "",
    ) -> None:
        """Checks the result of a run (`None` matches anything)."""
        told = f"status {run.status}, output {run.out[:SHOWN]!r}, error {run.err[:SHOWN]!r}"
        is_status = status is None or run.status == status
        self.holds(
            name,
            is_status and is_expected(out, run.out) and is_expected(err, run.err),
            f"{told}; and not {status}, {f'{out!r}, {err!r}'[:SHOWN]}",
        )

    def same(self, name: str, left: Content, right: Content) -> None:
        """Checks that two files, or texts in bytes, are equal."""
        pair = [it if isinstance(it, bytes) else self.bytes_of(it) for it in (left, right)]
        self.holds(name, pair[0] is not None and pair[0] == pair[1], f"{left!r:.600} is another")

    def bytes_of(self, name: str | pathlib.Path) -> bytes | None:
        return self.read(name) if self.path(name).is_file() else None

    def absent(self, name: str, *files: str) -> None:
        """Checks that the folder has none of these names."""
        found = self.exists(*files)
        self.holds(name, not found, f"there is {found}")

    # Rows

    def row(
        self,
        name: str,
        words: Words,
        status: int | None = 0,
        out: Expected = "",
        err: Expected = "",
        **how: Any,
    ) -> Run:
        """Runs the program, and checks the result."""
        done = self.program(words, **how)
        self.check(name, done, status, out, err)
        return done

    def rows(self, *rows: Sequence[Any]) -> None:
        """Runs rows with the fields of `Row`, whose last ones may be missing, one after another."""
        for row in rows:
            self.row(*Row(*row))
