"""Runs the command lines of a page as they are printed.

The blocks of kind `console` in a section run in one folder, one after another. Each command must
print what the page shows, and change no file that was there before.
"""
from __future__ import annotations

import pathlib

from tests.support import run


def sections(page: str) -> dict[str, list[str]]:
    """The lines of each section of a page, by its title."""
    found: dict[str, list[str]] = {}
    lines: list[str] = []
    for line in page.splitlines():
        if line.startswith("## "):
            lines = found.setdefault(line[3:], [])
        else:
            lines.append(line)
    return found


def steps(lines: list[str]) -> list[tuple[str, str]]:
    """The commands of a section, each with the output that the page shows."""
    found: list[tuple[str, str]] = []
    is_shown = False
    for line in lines:
        if line.startswith("```"):
            is_shown = line == "```console"
        elif is_shown and line.startswith("$ "):
            found.append((line[2:], ""))
        elif is_shown and found:
            found[-1] = found[-1][0], f"{found[-1][1]}{line}\n"
    return found


def block(page: str, title: str, kind: str) -> str:
    """The text of the first block of this kind in a section."""
    return "\n".join(sections(page)[title]).partition(f"```{kind}\n")[2].partition("```")[0]


class Case(run.Case):
    def files(self, folder: str) -> dict[pathlib.Path, tuple[int, bytes]]:
        """The files of a folder, with inode numbers, which show that a file was replaced; not those
        in the folders of a centre, and in those to which stations push."""
        found = {}
        for path in self.path(folder).rglob("*"):
            is_of_centre = {"centre", "push"} & {*path.relative_to(self.folder).parts}
            if path.is_file() and not path.is_symlink() and not is_of_centre:
                found[path] = path.stat().st_ino, path.read_bytes()
        return found

    def session(self, page: str, title: str, folder: str) -> None:
        """Runs the commands of a section, and checks each."""
        self.path(folder).mkdir(parents=True, exist_ok=True)
        commands = steps(sections(page).get(title, []))
        self.holds(f"{title} has commands", commands)
        for command, shown in commands:
            before = self.files(folder)
            done = self.shell(f"exec 2>&1\n{command}", folder=folder)
            self.check(f"{title}: {command}", done, None, shown.encode())
            after = self.files(folder)
            changed = [path for path, file in before.items() if after.get(path) != file]
            if changed:
                self.holds(f"{title}: {command} changes no file", False, changed)

    def all_run(self, page: str, *titles: str) -> None:
        """Checks that the page has commands only in the sections with these titles."""
        found = {title for title, lines in sections(page).items() if "```console" in lines}
        self.holds("no other section has commands", found == set(titles), found ^ set(titles))
