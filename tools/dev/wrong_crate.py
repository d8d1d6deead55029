"""A crate in which wrong bodies are tried: see wrong_bodies.py."""
from __future__ import annotations

import os
import shutil
import subprocess
from pathlib import Path
from typing import Iterable, NamedTuple, Optional

from wrong_checks import (
    ANSWER,
    FAULT,
    LIMIT,
    Goal,
    checking,
    false_alone,
    found_in,
    goals_of,
    is_proved,
    is_refused,
    is_unproved,
    lacks_invariant,
    last_names,
    shown,
)
from wrong_edits import Body, Piece, crate_folder, with_bodies


class Counts(NamedTuple):
    """How many wrong bodies were refused, of these how many for a goal that is false at values that
    a check found, how many were unfit, and how many failed."""

    refused: int
    at_values: int
    unfit: int
    failed: int


class Crate:
    """A crate in a folder of its own, in which its wrong bodies are tried."""

    def __init__(self, folder: str, name: str, edits: Iterable[str]) -> None:
        self.name, self.folder = name, folder
        self.lines: list[str] = []  # what is printed at the end
        self.refused = self.at_values = self.failed = self.checks = 0
        self.unfit: list[tuple[Body, str]] = []  # with why each is
        self.bodies = [Body(name, it) for it in edits]

    def check(
        self,
        bodies: list[Body],
        functions: Iterable[str] = (),
        by_contract: bool = False,
        with_answers: bool = True,
    ) -> tuple[int, str]:
        """Checks a copy of the crate that has these bodies, or these functions of it. If
        `by_contract`, what they call is not proved; their written answers may be left out. Returns
        the status of the check and what it printed."""
        for part in "src", "specs", "proofs":
            shutil.rmtree(f"{self.folder}/{part}", ignore_errors=True)
            if os.path.isdir(f"{crate_folder(self.name)}/{part}"):
                shutil.copytree(f"{crate_folder(self.name)}/{part}", f"{self.folder}/{part}")
        files = with_bodies(self.name, bodies, by_contract, with_answers)
        for path, text in files.items():
            file = Path(self.folder, path)
            if text is None:
                file.unlink(missing_ok=True)
            else:
                file.parent.mkdir(parents=True, exist_ok=True)
                file.write_text(text, encoding="utf-8")
        self.checks += 1
        words = ["--allow-holes"] * by_contract
        words += [word for it in sorted(functions) for word in ("--only", last_names(it))]
        ran = subprocess.run(
            [*checking(self.name), *words],
            cwd=self.folder,
            stdin=subprocess.DEVNULL,
            stdout=subprocess.PIPE,
            stderr=subprocess.STDOUT,
            errors="replace",
        )
        return ran.returncode, ran.stdout

    def compile(self) -> None:
        """Compiles each body by itself, without a proof: one that does not compile failed."""
        for body in self.bodies:
            body.is_beside = body.is_over
            status, told = self.check([body], [""])
            if status:
                said = next((it for it in told.split("\n") if FAULT.match(it)), told[-160:])
                self.fail(body, f"it does not compile: {said[:160]}")

    def group(self, pending: list[Body]) -> list[Body]:
        """As many of these bodies as can be tried together: the first of a function in its place,
        others beside it."""
        chosen: list[Body] = []
        edited: set[Piece] = set()
        for body in pending:
            body.is_beside = body.is_over or not edited.isdisjoint(body.texts)
            if body.is_of_functions() and (not body.is_beside or body.may_be_beside()):
                chosen.append(body)
                edited.update([] if body.is_beside else body.texts)
        return chosen

    def fail(self, body: Body, why: str) -> None:
        self.failed += 1
        self.lines.append(f"{body.name}: FAILED: {why}")

    def refuse(self, body: Body, goals: list[Goal], why: str) -> None:
        """Counts the body as refused, for the first of these goals; without a goal as unfit."""
        if not goals:
            self.unfit.append((body, why))
            return
        self.refused += 1
        self.at_values += any(it.is_false for it in goals)
        self.lines.append(f"{body.name}: refused: {shown(goals)}: {why}")

    def open_without_answers(self, bodies: list[Body]) -> dict[str, list[Goal]]:
        """The goals that checks of these bodies without their functions' written answers leave
        open, by the bodies' names."""
        found: dict[str, list[Goal]] = {}
        left = bodies
        while left:
            chosen = self.group(left) or left[:1]
            left = [it for it in left if it not in chosen]
            named = {name for it in chosen for name in it.functions()}
            _, told = self.check(chosen, named, by_contract=True, with_answers=False)
            answers, goals = dict(ANSWER.findall(told)), goals_of(told)
            for body in chosen:
                names = [found_in(answers, it) for it in body.functions()]
                found[body.name] = [goal for it in names for goal in goals.get(it, [])]
        return found

    def weigh(self) -> None:
        """Tries those that are unfit without the written answers, beside the right bodies."""
        unfit, self.unfit = self.unfit, []
        bodies = [it for it, _ in unfit if it.is_of_functions() and not it.is_over]
        wrong = self.open_without_answers(bodies)
        right = self.open_without_answers([it.right() for it in bodies])
        for body, why in unfit:
            if goals := false_alone(wrong.get(body.name, []), right.get(body.name, [])):
                self.refuse(body, goals, f"without its written answers: {why}")
            else:
                self.unfit.append((body, why))
                self.lines.append(f"{body.name}: UNFIT: only a written proof does not fit: {why}")

    def alone(self, body: Body) -> None:
        """Tries one body, with which the crate has to be unproved. A limit of the prover is no
        proof either."""
        body.is_beside = body.is_over
        status, told = self.check([body], body.named)
        said = next((it for it in told.split("\n") if FAULT.match(it)), told[-160:])
        why = f"alone: {said[:160]}"
        if status == 3 and LIMIT.search(told):
            self.refuse(body, [Goal("a limit")], why)
        elif is_unproved(status, told):
            self.refuse(body, [goal for goals in goals_of(told).values() for goal in goals], why)
        else:
            self.fail(body, why)

    def together(self, bodies: list[Body]) -> Optional[list[Body]]:
        """Tries these bodies together, and returns those of which nothing is known yet, or None
        if that tells nothing of any."""
        named = {name for it in bodies for name in it.functions()}
        status, told = self.check(bodies, named, by_contract=True)
        answers, goals = dict(ANSWER.findall(told)), goals_of(told)
        functions = {it: sorted(found_in(answers, one) for one in it.functions()) for it in bodies}
        edited = {name for names in functions.values() for name in names}
        others = [it for it, said in answers.items() if is_refused(said) and it not in edited]
        if not is_unproved(status, told) or others:
            why = ", ".join(others) or told[-300:]
            self.lines.append(f"{self.name}: {len(bodies)} together told nothing: {why}")
            return None
        left = []
        for body in bodies:
            said = [answers.get(it, "no answer") for it in functions[body]]
            names = ", ".join(functions[body])
            if any(lacks_invariant(it) for it in said):
                self.alone(body)
            elif any(is_refused(it) for it in said):
                of_body = [goal for it in functions[body] for goal in goals.get(it, [])]
                self.refuse(body, of_body, f"not proved: {names}")
            elif all(is_proved(it) for it in said):
                self.fail(body, f"still proved: {names}")
            else:
                left.append(body)
        return left

    def left_of(self, bodies: list[Body]) -> list[Body]:
        """Tries these bodies together, or in halves if that shows nothing.

        Returns those that are still open.
        """
        left = self.together(bodies) if bodies[0].is_of_functions() else None
        if len(bodies) == 1 and left != []:
            self.alone(bodies[0])
            return []
        if left is None or len(left) == len(bodies):
            half = len(bodies) // 2
            return self.left_of(bodies[:half]) + self.left_of(bodies[half:])
        return left

    def run(self) -> None:
        pending = self.bodies
        while pending:
            bodies = self.group(pending) or pending[:1]
            pending = self.left_of(bodies) + [it for it in pending if it not in bodies]
        if self.unfit:
            self.weigh()

    def counts(self) -> Counts:
        return Counts(self.refused, self.at_values, len(self.unfit), self.failed)
