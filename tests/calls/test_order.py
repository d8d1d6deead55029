"""The order of a command's calls on its output and on what it puts aside, under strace."""
from __future__ import annotations

import os

from tests.calls.case import Call, Case
from tests.outputs.case import CUT, FIRST, SECOND, THIRD
from tests.support.run import Run

OLD = b"what was there before"
MODE = 0o640  # permissions of the file that is there before
NEW_MODE = 0o666  # permissions with which a new file is made, before the umask
INFORMED = "session 7 object 3 info length 5 symbol 4 block 2\n"
# Each command that leaves a file, with the numbers of its inputs
COMMANDS = {
    "join -o {} one two": {"one": 1, "two": 2},
    "join -o {} sent1 two": {"sent1": 1, "two": 2},
    "merge -o {} one two": {"one": 1, "two": 2},
    "minus -o {} both one": {"both": 1, "one": 2},
    "fill -o {} --gaps asked both": {"both": 1, "asked": 2},
    "forget -o {} --conflicts two": {"two": 1},
    f"forget -o {{}} {FIRST} both": {"both": 1},
    f"carousel -o {{}} {SECOND} {CUT} other": {"other": 1},
    f"extract -o {{}} {FIRST} both": {"both": 1},
    f"info -o {{}} {THIRD} two": {"two": 1},
    "info -o {} --list listed two": {"two": 1, "listed": 2},
}
ALL = "extract --all -o {} three"


class Writing(Case):
    """`kept/there` is there, and `kept/new` isn't."""

    def setUp(self) -> None:
        super().setUp()
        self.path("kept").mkdir()
        self.write("asked", "session 7 object 2 whole 5\n")
        self.write("listed", INFORMED)
        # Two objects are whole, and one has no symbol.
        self.made(f"info -o three {THIRD} both")
        self.begin()

    def begin(self) -> None:
        """Makes the folder as it is before each run."""
        for name in os.listdir(self.path("kept")):
            if self.path(f"kept/{name}").is_dir():
                for inner in os.listdir(self.path(f"kept/{name}")):
                    self.remove(f"kept/{name}/{inner}")
                self.path(f"kept/{name}").rmdir()
            else:
                self.remove(f"kept/{name}")
        self.write("kept/there", OLD)
        self.path("kept/there").chmod(MODE)

    def files(self, folder: str) -> dict[str, bytes]:
        """The files of a folder."""
        return {it.name: it.read_bytes() for it in self.path(folder).iterdir()}


def steps_of(calls: list[Call]) -> list[tuple[object, ...]]:
    """The calls that change something but for standard streams: each with its path, and what
    belongs to it. Writes that follow each other are one."""
    steps: list[tuple[object, ...]] = []
    for call in calls:
        if not call.changes() or call.stream in (0, 1, 2):
            continue
        name = call.plain()
        step: tuple[object, ...] = name, call.path
        if name == "open":
            made = call.flags & {"O_CREAT", "O_EXCL", "O_TRUNC", "O_WRONLY", "O_RDWR"}
            step = name, call.path, *sorted(made), call.mode
        elif name in ("mkdir", "fchmod"):
            step = name, call.path, call.mode
        elif name == "flock":
            step = name, call.path, *sorted(call.flags)
        elif name == "rename":
            step = name, call.path, call.to
        if steps[-1:] != [step] or name != "write":
            steps.append(step)
    return steps


def created(path: str, mode: int) -> tuple[object, ...]:
    return "open", path, "O_CREAT", "O_EXCL", "O_WRONLY", mode


def locked(path: str) -> tuple[object, ...]:
    return "flock", path, "LOCK_EX", "LOCK_NB"


class Order(Writing):
    def wrong(self, calls: list[Call], wanted: list[tuple[object, ...]]) -> object:
        """The first step that is not the one that is wanted."""
        steps = steps_of(calls)
        pairs = zip([*steps, None], [*wanted, None])
        return next(((made, other) for made, other in pairs if made != other), None)

    def in_order(self, words: str, target: str, done: Run, calls: list[Call]) -> None:
        """What is beside OUT is made alone and locked, gets OUT's mode, is written, and is on the
        disk before its name changes; then the folder is. Nothing else is changed."""
        out, beside = f"kept/{target}", f"kept/{target}.partial"
        is_there = target == "there"
        wanted: list[tuple[object, ...]] = []
        wanted += [("open", out, "O_RDWR", None)] if is_there else []
        wanted += [created(beside, MODE if is_there else NEW_MODE), locked(beside)]
        wanted += [("fchmod", beside, MODE)] if is_there else []
        wanted += [("write", beside), ("fsync", beside), ("rename", beside, out), ("fsync", "kept")]
        self.check(f"{words}: its end", done, 0, None)
        wrong = self.wrong(calls, wanted)
        self.holds(f"{words}: its calls", wrong is None, (wrong, steps_of(calls)))
        written = b"".join(it.content for it in calls if it.path == beside and it.name == "write")
        self.same(f"{words}: what was written", out, written)

    def test_files(self) -> None:
        for words in COMMANDS:
            for target in "there", "new":
                self.begin()
                into = words.format(f"kept/{target}")
                self.in_order(into, target, *self.traced(into))

    def test_leftover(self) -> None:
        """What a killed run left is locked before it is removed, and its mode is not kept."""
        self.write("kept/new.partial", "left")
        done, calls = self.traced("join -o kept/new one two")
        beside = "kept/new.partial"
        wanted = [
            locked(beside),
            ("unlink", beside),
            *(created(beside, NEW_MODE), locked(beside), ("write", beside), ("fsync", beside)),
            *(("rename", beside, "kept/new"), ("fsync", "kept")),
        ]
        self.check("its end", done, 0, None)
        wrong = self.wrong(calls, wanted)
        self.holds("its calls", wrong is None, (wrong, steps_of(calls)))

    def test_link(self) -> None:
        """A link as OUT stays, and all that is said is said of what it leads to."""
        self.path("link").symlink_to("kept/there")
        words = "join -o link one two"
        self.in_order(words, "there", *self.traced(words))
        self.holds("the link stays", self.path("link").is_symlink())

    def test_folder(self) -> None:
        """Each file is on the disk before the folder's names are, these before its own name
        changes, and then that one is. What is not whole is removed."""
        done, calls = self.traced(ALL.format("kept/out"))
        self.check("its end", done, 0, None)
        beside, files = "kept/out.partial", [f"{0:032x}-7-{toi}" for toi in (1, 2)]
        wanted = [("mkdir", beside, 0o777), locked(beside)]
        for file in files:
            path = f"{beside}/{file}"
            wanted += [created(path, NEW_MODE), ("write", path), ("fsync", path)]
        wanted += [("fsync", beside), ("rename", beside, "kept/out"), ("fsync", "kept")]
        steps = self.without_left(calls, f"{beside}/")
        self.holds("its calls", steps == wanted, steps)
        found = sorted(os.listdir(self.path("kept/out")))
        self.holds("its files", found == files, found)

    def without_left(self, calls: list[Call], folder: str) -> list[tuple[object, ...]]:
        """The steps without those of files in this folder that are removed again."""
        steps = steps_of(calls)
        left = {it[1] for it in steps if it[0] == "unlink" and str(it[1]).startswith(folder)}
        return [it for it in steps if it[1] not in left]


class PutAside(Writing):
    """What is put aside is private, has no name before it has a byte, and is made if needed."""

    def sent(self, name: str, length: int, toi: int) -> None:
        """Makes a datagram file of an object of drawn bytes."""
        self.write("large", os.urandom(length))
        self.made(f"carousel -o {name} --tsi 7 --toi {toi} --symbol 1000 --block 64 large")

    def asides(self, words: str, **how: object) -> list[str]:
        """The paths of what was put aside, in the order in which they were made."""
        done, calls = self.traced(words, **how)
        self.check(f"{words}: its end", done, 0, None, None)
        made: list[str] = []
        for call in calls:
            if "O_CREAT" not in call.flags or call.path.endswith(".partial"):
                continue
            made.append(call.path)
            later = calls[calls.index(call) + 1 :]
            following = next((it for it in later if it.changes()), None)
            is_gone = following and (following.plain(), following.path) == ("unlink", call.path)
            self.holds(f"{words}: its name is taken away at once", is_gone, following)
            is_alone = "O_EXCL" in call.flags and "O_RDWR" in call.flags
            self.holds(f"{words}: it is new", is_alone, call)
            self.holds(f"{words}: it is private", call.mode == 0o600, call)
        return made

    def test_content(self) -> None:
        of = "--tsi 7 --toi 9 --symbol 1400 --block 64 -"
        content = os.urandom(600_000)
        for out, beside in ("kept/there", "kept/there.aside."), ("-", "tmp/flutejoin."):
            self.path("tmp").mkdir(exist_ok=True)
            env = {"TMPDIR": str(self.path("tmp"))}
            made = self.asides(f"carousel -o {out} {of}", stdin=content, env=env)
            self.holds(f"one is made, {out}", made == [f"{beside}0"], made)
            few = self.asides(f"carousel -f -o {out} {of}", stdin=content[:60_000], env=env)
            self.holds(f"none for few bytes, {out}", not few, few)

    def test_facts(self) -> None:
        """Facts are put aside as the room that is given demands, and not more often."""
        for toi in 1, 2:
            self.sent(f"many{toi}", 400_000, toi)
        words = "join --any-size -f -o kept/there many1 many2"
        self.holds("none with ample room", not self.asides(words))
        # 800 symbols take some 900 KB.
        made = self.asides(words.replace("-f", "--memory 256K -f"))
        self.holds("few with less", 2 <= len(made) <= 8, made)
        self.holds("with names beside OUT", {*made} == {"kept/there.aside.0"}, made)


class Buffers(Writing):
    def test_many_inputs(self) -> None:
        """64 inputs share one mebibyte for reading."""
        names = [f"input{number}" for number in range(64)]
        for name in names:
            self.copy("both", name)
        done, calls = self.traced(f"join -o kept/new {' '.join(names)}")
        self.check("its end", done, 0, None)
        most = {it.path: it.asked for it in calls if it.name == "read" and it.path in names}
        self.holds("all are read", sorted(most) == sorted(names), most)
        self.holds("the sum of what they may give", sum(most.values()) <= 1 << 20, most)
