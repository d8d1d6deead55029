"""Runs the program flutejoin: nothing else here starts it, or says how a run of it failed."""
from __future__ import annotations

import collections
import contextlib
import os
import re
import select
import shutil
import signal
import subprocess
import sys
from typing import (
    IO,
    Callable,
    Generator,
    Iterable,
    Iterator,
    NamedTuple,
    Optional,
    Sequence,
    TypeVar,
    Union,
)

from flutejoin_tools.common.children import in_background
from flutejoin_tools.common.faults import Fault
from flutejoin_tools.common.signals import later
from flutejoin_tools.common.texts import shown

T = TypeVar("T")
Child = subprocess.Popen[bytes]
PIECE = 1 << 20  # bytes that are read at once
LOOK = 0.5  # seconds between two calls of `tend` during a run
TEND_EACH = 4096  # items
FULL = "full"  # the program's message where more came than one join holds
ALL = "the journals joined"  # the name of what a run reads from several journals
PLACE = re.compile(r"(?:input (\d+): (.*)|(cannot open) input (\d+))")  # the input at fault


def find(name: Optional[str]) -> str:
    """The path of the program: the one that is named, or beside this tool, or on the PATH.

    Raises Fault.
    """
    beside = os.path.join(os.path.dirname(os.path.abspath(sys.argv[0])), "flutejoin")
    if name is None and os.path.isfile(beside) and os.access(beside, os.X_OK):
        return beside
    path = shutil.which(name or "flutejoin")
    if path is None:
        if name:
            raise Fault(3, f"there is no program {shown(name)}")
        raise Fault(3, "there is no program flutejoin; --flutejoin names it")
    return path


def argument(path: str) -> str:
    """A path as an argument: with `./` if it begins with `-`, as options do."""
    return f"./{path}" if path.startswith("-") else path


class Answer(NamedTuple):
    """How a run of flutejoin ended, its message if it failed, and what it printed."""

    status: int
    told: str  # its message: what it printed on standard error
    out: bytes = b""  # what it printed on standard output
    signal: int = 0  # that ended it

    def count(self, what: str) -> int:
        """A number that a join printed, as of the datagrams that it `refused`."""
        found = re.search(rf"^{what} (\d+)$".encode(), self.out, re.MULTILINE)
        return int(found[1]) if found else 0

    def reasons(self) -> collections.Counter[str]:
        """How many datagrams a join refused for each reason."""
        found = re.findall(rb"^refused (\d+): (.+)$", self.out, re.MULTILINE)
        return collections.Counter({reason.decode(): int(count) for count, reason in found})

    def is_cut(self) -> bool:
        """Whether it failed to write, as where nobody reads any more."""
        return self.signal == signal.SIGPIPE or self.told.endswith("cannot write")

    def named(self, names: Sequence[str]) -> str:
        """Its message, with the name of the input at fault in the place of its number.

        Where nothing has a name, the message stays as it is.
        """
        if not names:
            return self.told
        text = shown(self.told.rpartition("\n")[2])
        place = PLACE.fullmatch(text)
        number = int(place[1] or place[4]) if place else 0
        if place and 0 < number <= len(names):
            return f"{names[number - 1]}: {place[2] or place[3]}"
        return text if self.signal else f"{names[0] if len(names) == 1 else ALL}: {text}"


class Failed(Fault):
    """A run of flutejoin failed; the answer says how."""

    def __init__(self, answer: Answer, names: Sequence[str] = ()) -> None:
        status = answer.status if answer.status in (1, 2, 3) else 3
        super().__init__(status, answer.named(names))
        self.answer = answer


class Command(NamedTuple):
    """The words of a run of flutejoin, and the names of its inputs, which faults are to name."""

    words: Sequence[str]
    names: Sequence[str] = ()


class Program:
    """The program flutejoin, by its path.

    Somebody waits for a run of it; or, with `tend`, it is run behind other work, at a low priority,
    and ends with this process. Meanwhile `tend` is called, at least once a second.
    """

    def __init__(
        self,
        path: str,
        tend: Optional[Callable[[], None]] = None,
        sessions: Sequence[int] = (),
    ) -> None:
        """`sessions` are those of all joins."""
        self.path, self.sessions = path, sessions
        self.is_behind, self.tend = tend is not None, tend or (lambda: None)
        self.kept: tuple[int, ...] = ()  # open files that the program inherits

    def join(
        self,
        source: bytes,
        out: Union[str, IO[bytes]],
        inputs: Sequence[str],
        fed: Optional[Iterable[bytes]] = None,
        sessions: Sequence[int] = (),
        without_fdt: bool = False,
    ) -> Answer:
        """Runs `flutejoin join` of inputs, of these sessions alone, or of those of all joins.

        What is fed to that run, as its last input, are the pieces of a datagram file. An output
        that is an open file is not brought to the disk.
        """
        words = ["join", "--source", source.hex(), "--any-size", *["--no-fdt"] * without_fdt]
        words += [word for tsi in sessions or self.sessions for word in ("--tsi", str(tsi))]
        path = out if isinstance(out, str) else "-"
        words += ["--reasons", "-o", path, *inputs, *["-"] * (fed is not None)]
        given = subprocess.DEVNULL if fed is None else subprocess.PIPE
        return self.answered(words, given, subprocess.PIPE if isinstance(out, str) else out, fed)

    def fed(self, words: Sequence[str], fed: Iterable[bytes], out: IO[bytes]) -> None:
        """Runs a command that reads pieces on standard input, and writes to a file. Raises Failed.
        """
        answer = self.answered(words, subprocess.PIPE, out, fed)
        if answer.status:
            raise Failed(answer)

    def compare(self, kept: str, new: str) -> Iterator[bytes]:
        """Yields the lines that say how two journals compare in each object. Raises Failed."""
        return self.lines(Command(["compare", "--any-size", kept, new]))

    def run(
        self,
        words: Sequence[str],
        given: Union[int, IO[bytes]] = subprocess.DEVNULL,
        out: Union[int, IO[bytes]] = subprocess.PIPE,
    ) -> Answer:
        """Runs a command, and returns how it ended."""
        return self.answered(words, given, out)

    def answered(
        self,
        words: Sequence[str],
        given: Union[int, IO[bytes]],
        out: Union[int, IO[bytes]],
        fed: Optional[Iterable[bytes]] = None,
    ) -> Answer:
        """Runs a command, feeds it, and returns how it ended."""
        try:
            with self.running([Command(words)], given, out) as (child,):
                if fed is not None:
                    self.feed(child, fed)
                return self.answer(child)
        except Failed as failed:
            return failed.answer

    def lines(self, *commands: Command) -> Generator[bytes, None, None]:
        """Yields the lines that the last command prints, each with its line feed.

        Each one reads what the one before it writes. Raises Failed if one fails.
        """
        rest = b""
        with contextlib.closing(self.pieces(*commands)) as pieces:
            for piece in pieces:
                *lines, rest = (rest + piece).split(b"\n")
                for line in lines:
                    yield line + b"\n"

    def pieces(self, *commands: Command) -> Generator[bytes, None, None]:
        """Yields what the last command prints, as `lines`."""
        with self.running(commands, subprocess.DEVNULL, subprocess.PIPE) as children:
            yield from self.pieces_of(out_of(children[-1]).fileno())
            answers = [self.answer(child) for child in children]
            failed = [Failed(it, of.names) for it, of in zip(answers, commands) if it.status]
            # An earlier command failed to write because the next one had stopped reading.
            for each in [it for it in failed if not it.answer.is_cut()] or failed:
                raise each

    def pieces_of(self, out: int) -> Iterator[bytes]:
        """Yields what a run prints, as it comes, and calls `tend` meanwhile."""
        while True:
            if not self.is_behind or select.select([out], [], [], LOOK)[0]:
                piece = os.read(out, PIECE)
                if not piece:
                    return
                yield piece
            self.tend()

    @contextlib.contextmanager
    def running(
        self,
        commands: Sequence[Command],
        given: Union[int, IO[bytes]],
        out: Union[int, IO[bytes]],
    ) -> Iterator[list[Child]]:
        """A context in which these run, each reading what the one before it writes.

        None is left at its end. Raises Failed if one cannot be run.
        """
        children: list[Child] = []
        try:
            for command in commands:
                before = out_of(children[-1]) if children else None
                with later():
                    children.append(self.start(command.words, before or given, out))
                if before:
                    before.close()
            yield children
        finally:
            for child in children:
                child.kill()
                with child:  # which waits for its end
                    pass

    def start(
        self, words: Sequence[str], given: Union[int, IO[bytes]], out: Union[int, IO[bytes]]
    ) -> Child:
        """Starts a run of the program. Raises Failed if that cannot be done."""
        try:
            return subprocess.Popen(
                [self.path, *words],
                stdin=given,
                stdout=out,
                stderr=subprocess.PIPE,
                pass_fds=self.kept,
                preexec_fn=in_background() if self.is_behind else None,
            )
        except (OSError, subprocess.SubprocessError) as fault:
            why = fault.strerror if isinstance(fault, OSError) else fault
            raise Failed(Answer(3, f"{shown(self.path)}: cannot be run: {why}")) from None

    def feed(self, child: Child, pieces: Iterable[bytes]) -> None:
        """Sends pieces of an input to a run. If the run ends early, its message says why."""
        pipe, child.stdin = child.stdin, None
        assert pipe
        os.set_blocking(pipe.fileno(), False)
        try:
            with pipe:
                for piece in pieces:
                    self.write(pipe.fileno(), memoryview(piece))
        except BrokenPipeError:
            pass

    def write(self, pipe: int, rest: memoryview) -> None:
        """Writes to a pipe, which may be read slowly or not at all."""
        while rest:
            if select.select([], [pipe], [], LOOK)[1]:
                rest = rest[os.write(pipe, rest) :]
            self.tend()

    def answer(self, child: Child) -> Answer:
        """Waits for the end of a run, and tends meanwhile."""
        while True:
            try:
                out, told = child.communicate(timeout=LOOK)
            except subprocess.TimeoutExpired:
                self.tend()
                continue
            status = child.returncode
            if status < 0:
                return Answer(3, f"flutejoin was ended by signal {-status}", signal=-status)
            text = os.fsdecode(told).strip() or f"flutejoin ended with status {status}"
            return Answer(status, text, out or told)  # where the output is that of a join

    def tending(self, items: Iterable[T]) -> Iterator[T]:
        """Yields the items, and tends meanwhile."""
        for number, item in enumerate(items):
            if number % TEND_EACH == 0:
                self.tend()
            yield item


def out_of(child: Child) -> IO[bytes]:
    """The standard output of a run of the program."""
    assert child.stdout
    return child.stdout
