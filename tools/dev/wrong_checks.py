"""Checks of a crate in which wrong bodies are tried: their command, and what they print."""
from __future__ import annotations

import os
import re
import shutil
import time
from typing import Iterable, NamedTuple

from wrong_edits import ROOT, crate_folder, text_of

KIT = os.path.dirname(os.path.dirname(os.path.realpath(shutil.which("rt") or "rt")))

# The line of a check about a function.
ANSWER = re.compile(r"^fn (\S+): (.*)$", re.M)
# A goal that the check leaves open: in a note before the function's result, and in that result. The
# note says so if the check found values at which the goal is false.
OPEN = re.compile(r"^note: \S+ it is not proved .*?\(`([^`]+)`\)(.*this goal is false)?", re.M)
UNFOUND = re.compile(r"`search` did not prove ((?:`[^`]+`(?:, )?)+)")
# The last line of a check that ran to its end and did not prove everything.
UNPROVED = re.compile(r"^(logic=not-proved|only=\d+ (proved|holes)=\d+)", re.M)
# The place of a fault.
FAULT = re.compile(r"(note: )?\S+:\d+:\d+: (error|it is not proved)")
# A limit of the check itself, which it meets each time that it checks the same code.
LIMIT = re.compile(
    r"antt ran out of (stack|the (steps|memory) that the check of one declaration may (take|use))"
    r"|(outgrew the memory limit|stopped at the step limit) \("
)


class Goal(NamedTuple):
    """A goal that a check leaves open."""

    name: str
    is_false: bool = False  # whether the check found values at which it is


def last_names(name: str) -> str:
    """The last parts of a function's name: for a method, a check names the type's module too."""
    return "::".join(name.split("::")[-2:])


def found_in(answers: dict[str, str], name: str) -> str:
    """The name by which a check reports this function, or the name itself if that is not clear."""
    alike = [it for it in answers if it.endswith(f"::{last_names(name)}")]
    return name if name in answers or len(alike) != 1 else alike[0]


def is_refused(said: str) -> bool:
    """Whether a function is refused for its own body, and not only for a function that it calls."""
    return said.startswith("not proved") or "` did not prove `" in said


def is_proved(said: str) -> bool:
    """Whether a function is proved by the contracts of those that it calls, which may be holes."""
    return said.startswith(("proved", "no holes", "depends on a hole"))


def lacks_invariant(said: str) -> bool:
    """Whether a function is refused with an invariant of its written proof that does not fit: what
    else the check leaves open, it may leave open for that alone."""
    return re.search(r"it stands on [^;]*\.Invariants\.", said) is not None


def goals_of(told: str) -> dict[str, list[Goal]]:
    """The goals that a check leaves open, by function: notes come before their function."""
    goals: dict[str, list[Goal]] = {}
    open_goals: dict[str, Goal] = {}
    for line in told.split("\n"):
        note, answer = OPEN.match(line), ANSWER.match(line)
        if note:
            open_goals[note[1]] = Goal(note[1], note[2] is not None)
        elif answer:
            unfound = UNFOUND.search(answer[2])
            named = re.findall("`([^`]+)`", unfound[1]) if unfound else []
            goals[answer[1]] = [*({it: Goal(it) for it in named} | open_goals).values()]
            open_goals = {}
    return goals


def shown(goals: list[Goal]) -> str:
    """The first of these goals that is false, or else that belongs to a clause, or else the first,
    and how many more."""
    of_clause = [it for it in goals if it.name.startswith("returns")]
    first = next((it for it in [*of_clause, *goals] if it.is_false), [*of_clause, *goals][0])
    said = "false at some values" if first.is_false else "open"
    more = f" and {len(goals) - 1} more" if len(goals) > 1 else ""
    return f"{first.name}, {said}{more}"


def false_alone(wrong: list[Goal], right: list[Goal]) -> list[Goal]:
    """The goals that are false at some values of a wrong body, and are not so of the right one:
    there the check may lack a fact that rules those values out."""
    as_well = {it.name for it in right if it.is_false}
    return [it for it in wrong if it.is_false and it.name not in as_well]


def is_unproved(status: int, told: str) -> bool:
    return status == 1 and UNPROVED.search(told) is not None


def listed_libraries() -> dict[str, list[str]]:
    """The libraries that crates.txt lists for each crate."""
    lines = text_of(f"{ROOT}/crates.txt").split("\n")
    listed = [it.partition("#")[0].partition(":") for it in lines]
    return {it[0].split()[0]: it[2].split() for it in listed if it[0].strip()}


def libraries_of(name: str) -> tuple[list[str], list[str], list[str]]:
    """The crate's libraries: those of the repository, with all below them, and the kit's."""
    listed = listed_libraries()
    own = [it for it in listed[name] if it in listed]
    below = [*own]
    for one in below:
        below += [it for it in listed[one] if it in listed and it not in below]
    return own, below, [it for it in listed[name] if it not in listed]


def rlibs(name: str) -> str:
    return f"{crate_folder(name)}/out/rlib"


def checking(name: str) -> list[str]:
    """The command that checks the crate in the current folder over its built libraries."""
    own, below, of_kit = libraries_of(name)
    root = "main" if os.path.isfile(f"{crate_folder(name)}/src/main.rt") else "lib"
    words = [f"{KIT}/bin/rattle", "check", "--crate-name", name, f"src/{root}.rt"]
    for it in ["std", *of_kit]:
        words += ["--extern", f"{it}={KIT}/rlibs/{it}.rlib"]
    words += ["-L", f"dependency={KIT}/rlibs"]
    for it in own:
        words += ["--extern", f"{it}={rlibs(it)}/{it}.rlib"]
    for it in below:
        words += ["-L", f"dependency={rlibs(it)}"]
    words += ["--antt-project", f"{KIT}/rattle/logic/antt-project.json"]
    words += ["--logic-built", f"{KIT}/logic_built"]
    return [*words, "--links", f"{name}=", "--jobs", "1", "--incremental", "kept"]


def wait_for(libraries: Iterable[str], process: int) -> None:
    """Waits until these libraries are built, as long as this process, which builds them, runs."""
    while not are_built(libraries):
        try:
            os.kill(process, 0)
        except ProcessLookupError:
            raise ValueError(f"not all of {', '.join(libraries)} are built") from None
        time.sleep(1)


def are_built(libraries: Iterable[str]) -> bool:
    return all(os.path.isdir(f"{rlibs(it)}/{it}.rlib") for it in libraries)
