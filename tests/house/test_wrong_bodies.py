"""Tests tools/dev/wrong_bodies.py on a small crate of its own, wrong_bodies/: what it may count as
refused. (`rt ci` requires each .rt and .antt file to be proved, so the files of that crate have
another ending, which goes in the copy that the tool is run on.)"""
from __future__ import annotations

import pathlib
import re
import shutil
import subprocess
import tempfile

from tests.support import run
from tests.support.run import ROOT

NEEDS_PROGRAM = False
CRATE = pathlib.Path(__file__).parent / "wrong_bodies"
COUNTER, JOIN = "src/counter.rt", "src/join.rt"
IS_EMPTY = "pub fn is_empty(&self) -> bool"


class Tool(run.Case):
    """The edits of a test are in its folder, and the tool and the crate in a repository."""

    repository: pathlib.Path
    crate: pathlib.Path

    @classmethod
    def setUpClass(cls) -> None:
        cls.repository = pathlib.Path(tempfile.mkdtemp(prefix="flutejoin-test."))
        cls.addClassCleanup(shutil.rmtree, cls.repository, ignore_errors=True)
        cls.crate = cls.repository / "crates" / "sample"
        (cls.repository / "tools" / "dev").mkdir(parents=True)
        for file in (ROOT / "tools" / "dev").glob("wrong_*.py"):
            shutil.copy(file, cls.repository / "tools" / "dev")
        shutil.copytree(CRATE, cls.crate)
        for file in [*cls.crate.rglob("*.sample")]:
            file.rename(file.with_suffix(""))
        (cls.repository / "crates.txt").write_text("sample:\n")
        # Each check begins with what this one keeps.
        check = ["rt", "check", "--jobs", "1"]
        subprocess.run(check, cwd=cls.crate, check=True, capture_output=True)

    def edit(self, name: str, path: str, *texts: tuple[str, str]) -> None:
        """Writes an edit, with pairs of an old text and a new one."""
        pairs = "".join(f"old: {old}\nnew: {new}\n" for old, new in texts)
        self.write(f"{name}.edit", f"file: {path}\n{pairs}")

    def over(self, name: str, head: str, body: str) -> None:
        """Writes a body over the counter's function with this head."""
        self.write(f"{name}.edit", f"file: {COUNTER}\nover: {head}\nnew: {body}\n")

    def tried(self, status: int, *told: tuple[str, str], own: str | None = None) -> None:
        """Tries the edits of the folder, or with these words those of the crate's own: the tool
        must end with this status, and print one line with each of these patterns."""
        words: list[object] = ["--edits", self.folder]
        if own is not None:
            words = [*own.split()]
        tool = self.repository / "tools" / "dev" / "wrong_bodies.py"
        done = self.command([tool, *words, "sample"])
        self.check("the status", done, status, None, None)
        text = (done.out + done.err).decode()
        for name, pattern in told:
            self.holds(name, len(re.findall(pattern, text, re.M)) == 1, text)

    def test_wrong(self) -> None:
        """A wrong body, one of a function that a third one calls, bodies over a function that
        change its result, and two edits of it: all in one check."""
        self.edit("never_raised", COUNTER, ("self.count < count", "count < count"))
        self.edit("not_counted", COUNTER, ("self.count += 1;", "return;"))
        self.edit("never_full", COUNTER, ("255 - self.count", "1"))
        self.over("not_so", IS_EMPTY, "!self.is_empty()")
        self.over("always", IS_EMPTY, "self.is_empty() || true")
        self.edit("ever", COUNTER, ("self.count == 0", "true"))
        self.edit("never", COUNTER, ("self.count == 0", "false"))
        self.tried(
            0,
            ("the first over a function", r"^sample/not_so: refused: .*wrong_is_empty_not_so$"),
            ("the second over it", r"^sample/always: refused: .*wrong_is_empty_always$"),
            ("the first edit is of it", r"^sample/ever: refused: .*::Counter::is_empty$"),
            ("the second edit is of a copy", r"^sample/never: refused: .*::wrong_is_empty_never$"),
            ("all in one check", r"^sample: 7 wrong bodies in 1 checks$"),
            ("all are refused", r"^wrong bodies: 7 refused, 0 unfit, 0 failed$"),
        )

    def test_mixed(self) -> None:
        """A body that means the same, one that does not compile, and a wrong one with them."""
        self.edit("means_the_same", COUNTER, ("self.count < count", "self.count <= count"))
        self.edit("does_not_compile", COUNTER, ("self.count == 0", "Nothing::at_all(self)"))
        self.edit("never_full", COUNTER, ("255 - self.count", "1"))
        self.tried(
            1,
            ("the same is proved", r"^sample/means_the_same: FAILED"),
            ("what does not compile is not refused", r"^sample/does_not_compile: FAILED"),
            ("the wrong one is refused", r"^sample/never_full: refused"),
            ("one of three is refused", r"^wrong bodies: 1 refused, 0 unfit, 2 failed$"),
        )

    def test_compile(self) -> None:
        """Without a proof: a body that has a name which the code lacks, and a wrong one."""
        self.edit("unknown_name", COUNTER, ("self.count == 0", "self.counted == 0"))
        self.edit("never_full", COUNTER, ("255 - self.count", "1"))
        self.tried(
            1,
            ("what does not compile", r"^sample/unknown_name: FAILED: it does not compile: \S+:"),
            ("it alone", r"^wrong bodies: 1 do not compile$"),
            own=f"--compile --edits {self.folder}",
        )

    def test_unfit(self) -> None:
        """Bodies without the call that a written answer names are tried without that answer: the
        wrong one is refused at values. Nothing is shown of one that means the same, or has another
        name that the written proof does not know."""
        call = "let left = self.left();"
        self.edit("room_of_200", COUNTER, (call, "let left = 200 - self.count.min(200);"))
        self.edit("room_the_same", COUNTER, (call, "let left = 255 - self.count;"))
        texts = (
            ("let mut highest = self.count;", "let mut top = self.count;"),
            ("if highest < *count", "if top < *count"),
            ("highest = *count;", "top = *count;"),
            ("self.count = highest;", "self.count = top;"),
        )
        self.edit("highest_is_top", COUNTER, *texts)
        at_values = r"returns, false at some values: without its written answers: "
        unfit = "UNFIT: only a written proof does not fit: "
        self.tried(
            0,
            ("the wrong one", rf"^sample/room_of_200: refused: {at_values}.*::has_room$"),
            ("the same", rf"^sample/room_the_same: {unfit}"),
            ("the same under another name", rf"^sample/highest_is_top: {unfit}"),
            ("at values", r"^of 1 that are refused, 1 are so at values that a check found$"),
            ("two are left", r"^wrong bodies: 1 refused, 2 unfit, 0 failed$"),
        )

    def test_copies(self) -> None:
        """The second edit of a function is of a copy, with the written proof if it has one. No copy
        has the clauses of a trait, so a second edit of its method waits."""
        self.edit("loop_a_lowest", COUNTER, ("highest < *count", "*count < highest"))
        self.edit("loop_b_forgotten", COUNTER, ("highest = *count;", "highest = 0;"))
        self.edit("loop_c_the_same", COUNTER, ("highest < *count", "highest <= *count"))
        self.edit("raise_a_never", COUNTER, ("self.count < count", "count < count"))
        self.edit("raise_b_the_same", COUNTER, ("self.count < count", "self.count <= count"))
        raised = "self.raise_to(other.count);"
        self.edit("trait_a_last", JOIN, (raised, "self.count = other.count;"))
        self.edit("trait_b_first", JOIN, (raised, "let _ = other;"))
        self.over("calls_alone", IS_EMPTY, "self.is_empty()")
        proved = r"FAILED: still proved: .*"
        self.tried(
            1,
            (
                "the copy with a written proof",
                r"^sample/loop_b_forgotten: refused: .*::wrong_raise_to_all_loop_b_forgotten$",
            ),
            (
                "such a copy that is proved",
                rf"^sample/loop_c_the_same: {proved}::wrong_raise_to_all_loop_c_the_same$",
            ),
            (
                "a copy that is proved",
                rf"^sample/raise_b_the_same: {proved}::wrong_raise_to_raise_b_the_same$",
            ),
            ("the trait's method", r"^sample/trait_b_first: refused: .*::CounterJoin::join$"),
            (
                "what calls its function alone is proved",
                rf"^sample/calls_alone: {proved}::Counter::wrong_is_empty_calls_alone$",
            ),
            ("five of eight are refused", r"^wrong bodies: 5 refused, 0 unfit, 3 failed$"),
            ("the trait's method waits", r"^sample: 8 wrong bodies in 2 checks$"),
        )

    def test_outside(self) -> None:
        """An edit outside functions is tried alone, with the function that it names."""
        self.edit("a_comment", COUNTER, ("//! A counter that stops at 255.", "//! A counter."))
        self.write("a_comment.edit", self.read("a_comment.edit") + b"of: Counter::is_empty\n")
        self.tried(
            1,
            ("its function is proved", r"^only=1 proved=1$"),
            ("it is not refused", r"^wrong bodies: 0 refused, 0 unfit, 1 failed$"),
        )

    def test_absent(self) -> None:
        self.edit("no_such_text", COUNTER, ("no such text", "nor this"))
        told = r"no_such_text: its text is 0 times in src/counter.rt, and not once$"
        self.tried(2, ("its text is not there", told))

    def test_none(self) -> None:
        self.tried(1, ("none were tried", r"^wrong bodies: 0 refused, 0 unfit, 0 failed$"))

    def test_private(self) -> None:
        """A wrong body of the crate's own, of a private function, is tried with --all alone."""
        own = self.crate / "wrong-bodies"
        own.mkdir()
        self.addCleanup(shutil.rmtree, own)
        self.edit("not_told", COUNTER, ("self.left() == 0", "false"))
        shutil.copy(self.path("not_told.edit"), own)
        self.tried(1, ("it is left out", r"^sample: 0 wrong bodies in 0 checks$"), own="")
        refused = r"^sample/not_told: refused: .*::Counter::is_full$"
        self.tried(0, ("it is tried", refused), own="--all")
