#!/usr/bin/env python3
"""Tries wrong bodies: edits of the code that a contract has to refuse.

An edit is a file as `rt must-fail` reads it, with lines 'file: PATH', 'old: TEXT' and 'new: TEXT'.
In the place of 'old: TEXT' it may have 'over: HEAD', the first line of a function: then another
function is put behind that one, with its signature and clauses and the body TEXT, which calls it
and changes what comes of it. Such a body is for a function whose proof is written down: what calls
it is proved by its clauses alone, so a goal that is left open is left by what the body changes. It
has the edit's name in its own, so that a function may have several at a time.

A function is proved from the contracts of those that it calls, and from nothing else of them. So
the edits of a crate are tried together, in a copy of the crate in which no other function has to be
proved: these have an empty body where they can. The first edit of a function is in its place, and
each other in a copy of the function that is put behind it, with its clauses and its written proof.
A trait's method has no copy: another edit of it waits for a further check. Each function that was
edited or put there has to be refused for a goal of its own, and no other function may be. One that
only waits for an edited function that it calls is tried again without that one. What is in doubt is
tried alone, in the crate as it is, and so is an edit outside functions: with the whole crate, or
with the functions that its lines 'of: FUNCTION' name. As many crates are tried side by side as
there are processors.

If the contract of a function that no other crate can call lets a wrong body through, no promise of
the crate does: those of its public functions are proved from it. So edits of functions that are not
public, but for those of `run`'s crate, those of wrong-bodies/more/ and those of must-fail/, which
`rt ci` tries, are tried with --all, --alone or --edits only.

A goal that the check leaves open is what refuses a body: the check names it, and says so if it
found values at which that goal is false. A goal that is only open may still be true.

Where the check names none, only an answer of the written proof no longer fits. That alone shows
nothing of the contract. So such a body is tried once more without the written answers of its
function, and beside it the right body without them: it is refused if the check finds values at
which a goal is false, and finds none for that goal of the right body. Else it is told apart, as
unfit: then nothing is known of it, and it is to be written anew, or its proof adapted by hand.

The last line is 'wrong bodies: N refused, M unfit, K failed', and the status is 0 if some were
refused and none failed. The line before counts those that are refused at values.
"""
from __future__ import annotations

import argparse
import os
import shutil
import subprocess
import sys
import tempfile
import threading
from concurrent.futures import ThreadPoolExecutor
from typing import Iterable, Optional

sys.dont_write_bytecode = True
from wrong_checks import are_built, libraries_of, listed_libraries, wait_for
from wrong_crate import Counts, Crate
from wrong_edits import ROOT, Body, crate_folder, text_of

# The crate of `run`
RUN = "flutejoin_run"


def edits_in(folders: Iterable[str]) -> list[str]:
    """The files of edits in these folders."""
    files = [f"{at}/{it}" for at in folders if os.path.isdir(at) for it in sorted(os.listdir(at))]
    return [it for it in files if it.endswith(".edit")]


def edits_of(name: str, options: argparse.Namespace) -> list[str]:
    """The files of the crate's wrong bodies."""
    if options.edits:
        return edits_in([options.edits])
    folders = ["wrong-bodies"]
    if options.all:
        folders.append("wrong-bodies/more")
    if options.all or options.alone:
        folders.append("must-fail")
    return edits_in([f"{crate_folder(name)}/{it}" for it in folders])


def take_kept(name: str, to: str) -> None:
    """Gives the checks in a copy of the crate the results that its own check kept, if any.

    Such a file is replaced and never written into, so a link is enough.
    """
    kept = f"{crate_folder(name)}/out/incremental"
    try:
        shutil.copytree(kept, to, copy_function=os.link)
    except (OSError, shutil.Error):
        shutil.rmtree(to, ignore_errors=True)
        os.mkdir(to)


def tried(name: str, options: argparse.Namespace) -> Counts:
    """Tries the wrong bodies of a crate in a copy of it."""
    with tempfile.TemporaryDirectory(prefix="wrong-bodies-") as room:
        take_kept(name, f"{room}/kept")
        crate = Crate(room, name, edits_of(name, options))
        if not (options.all or options.edits or name == RUN):
            crate.bodies = [it for it in crate.bodies if it.is_public()]
        if options.compile:
            crate.compile()
        else:
            crate.run()
    crate.lines.append(f"{name}: {len(crate.bodies)} wrong bodies in {crate.checks} checks")
    print("\n".join(crate.lines), flush=True)
    return crate.counts()


def first_of(crates: list[str], process: Optional[int]) -> str:
    """The crate that begins next. If this process builds the libraries meanwhile, it is the highest
    of those that may begin, since the checks of a high crate take longest."""
    if not process:
        return crates[0]
    while True:
        ready = [it for it in crates if are_built(libraries_of(it)[1])]
        if ready:
            return ready[-1]
        wait_for(libraries_of(crates[0])[1], process)


def all_tried(crates: list[str], options: argparse.Namespace) -> list[Counts]:
    """Tries the wrong bodies of these crates, of as many side by side as there are processors."""
    left, turn = [*crates], threading.Lock()

    def work() -> list[Counts]:
        found: list[Counts] = []
        while True:
            with turn:
                if not left:
                    return found
                name = first_of(left, options.process)
                left.remove(name)
            found.append(tried(name, options))

    workers = len(os.sched_getaffinity(0))
    with ThreadPoolExecutor(workers) as pool:
        works = [pool.submit(work) for _ in range(workers)]
        return [it for one in works for it in one.result()]


def each_alone(names: list[str], options: argparse.Namespace) -> int:
    """Lets `rt must-fail` try each wrong body of these crates by itself."""
    with tempfile.TemporaryDirectory(prefix="wrong-bodies-") as room:
        copied = shutil.ignore_patterns("out", "must-fail")
        shutil.copytree(f"{ROOT}/crates", f"{room}/crates", ignore=copied)
        for file in ("crates.txt", "HANDLES"):
            shutil.copyfile(f"{ROOT}/{file}", f"{room}/{file}")
        for name in names:
            os.mkdir(f"{room}/crates/{name}/must-fail")
            for edit in edits_of(name, options):
                if "\nover: " not in text_of(edit):
                    shutil.copy(edit, f"{room}/crates/{name}/must-fail")
        return subprocess.run(["rt", "must-fail", *names], cwd=room).returncode


def size_of(name: str) -> int:
    """The bytes of the crate's code, which decide how long its check takes."""
    found = os.walk(f"{crate_folder(name)}/src")
    return sum(os.path.getsize(f"{at}/{it}") for at, _, files in found for it in files)


def options_of(words: list[str]) -> argparse.Namespace:
    parser = argparse.ArgumentParser(
        description=__doc__, formatter_class=argparse.RawDescriptionHelpFormatter
    )
    parser.add_argument(
        "crates", metavar="CRATE", nargs="*", help="a crate whose wrong bodies are tried; else all"
    )
    parser.add_argument(
        "--all",
        action="store_true",
        help="also those of functions that no other crate can call, and those in wrong-bodies/more"
        " and must-fail",
    )
    parser.add_argument(
        "--alone",
        action="store_true",
        help="let 'rt must-fail' try each by itself, those in must-fail too, but for those over a"
        " function, in half a minute to two minutes for each",
    )
    parser.add_argument(
        "--compile",
        action="store_true",
        help="only compile each, in seconds: one whose text names what the code no longer has does"
        " not compile",
    )
    parser.add_argument("--edits", metavar="FOLDER", help="the edits in this folder, all of CRATE")
    parser.add_argument(
        "--while",
        dest="process",
        metavar="PROCESS",
        type=int,
        help="the number of a process that builds the libraries meanwhile, as 'rt ci' does: a crate"
        " waits for those below it",
    )
    options = parser.parse_args(words)
    if options.edits and len(options.crates) != 1:
        parser.error("--edits wants one CRATE")
    crates = sorted(os.listdir(f"{ROOT}/crates"))
    options.crates = options.crates or [it for it in crates if edits_of(it, options)]
    return options


def in_order(options: argparse.Namespace) -> list[str]:
    """The crates whose wrong bodies are tried: as they are built meanwhile, else the longest
    first."""
    if options.process:
        return [it for it in listed_libraries() if it in options.crates]
    needed = {below for it in options.crates for below in libraries_of(it)[1]}
    if not are_built(needed):
        # (a check of the program builds all libraries below it)
        subprocess.run(["rt", "check"], cwd=crate_folder("flutejoin_cli"), check=True)
    return sorted(options.crates, key=size_of, reverse=True)


def main(words: list[str]) -> int:
    options = options_of(words)
    if options.alone:
        return each_alone(options.crates, options)
    try:
        # A body whose text is gone is told before anything is proved.
        for name in options.crates:
            for edit in edits_of(name, options):
                Body(name, edit)
        found = all_tried(in_order(options), options)
    except ValueError as fault:
        print(f"wrong_bodies.py: {fault}", file=sys.stderr)
        return 2
    refused, at_values, unfit, failed = (sum(numbers) for numbers in zip(*found))
    if options.compile:
        print(f"wrong bodies: {failed} do not compile")
        return 1 if failed else 0
    print(f"of {refused} that are refused, {at_values} are so at values that a check found")
    print(f"wrong bodies: {refused} refused, {unfit} unfit, {failed} failed")
    return 1 if failed or not refused else 0


if __name__ == "__main__":
    sys.exit(main(sys.argv[1:]))
