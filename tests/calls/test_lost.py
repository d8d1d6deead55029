"""What a power that is lost at any moment of a command may leave as OUT, by its calls."""
from __future__ import annotations

from tests.calls.case import Call
from tests.calls.disk import Disk, Left, first_loss
from tests.calls.test_faults import runs
from tests.calls.test_order import ALL, Writing


class LostPower(Writing):
    """OUT is what it was or the new file, whole, and after success the new one."""

    def lasts(self, words: str, out: str) -> None:
        """Runs a command, and checks at each of its calls that a lost power leaves the old or the
        new output."""
        self.begin()
        disk = Disk(self.folder)
        done, calls = self.traced(words)
        self.check(words, done, 0, None)
        new = self.new(out)
        lost = first_loss(disk, calls, out, new)
        self.holds(f"{words}: at each moment one of both", lost is None, lost)
        self.holds(f"{words}: then the new one", disk.left(out) == [new], disk.left(out))
        self.bears(words, calls, out, new)

    def new(self, out: str) -> Left:
        """The output of a command: its bytes, or its files."""
        if self.path(out).is_dir():
            return {name: [content] for name, content in self.files(out).items()}
        return self.read(out)

    def bears(self, words: str, calls: list[Call], out: str, new: Left) -> None:
        """Without any of the calls that bring something to the disk, a lost power may leave
        something else: so the check above would find that."""
        synced = [it for it in calls if it.plain() == "fsync"]
        self.holds(f"{words}: it syncs a file and its folder", len(synced) >= 2, synced)
        for call in synced:
            self.begin()
            disk = Disk(self.folder)
            lost = first_loss(disk, [it for it in calls if it is not call], out, new)
            is_found = lost is not None or disk.left(out) != [new]
            self.holds(f"{words}: without fsync of {call.path}", is_found)

    def test_files(self) -> None:
        for words, out, _ in runs():
            self.lasts(words, out)

    def test_folder(self) -> None:
        self.lasts(ALL.format("kept/out"), "kept/out")
