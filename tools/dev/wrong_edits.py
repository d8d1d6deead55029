"""Wrong bodies as files have them, and the functions of a crate that they edit.

An edit has lines 'file: PATH', 'old: TEXT' or 'over: HEAD', 'new: TEXT', and 'of: FUNCTION': see
wrong_bodies.py.
"""
from __future__ import annotations

import copy
import functools
import os
import re
from pathlib import Path
from typing import Iterable, NamedTuple, Optional

ROOT = os.path.dirname(os.path.dirname(os.path.dirname(os.path.abspath(__file__))))

PUB = r"(?:pub(?:\([^)]*\))? )?"
# (an export of a library for C has its ABI in its head)
HEAD = rf"{PUB}(?:const |final |unsafe |extern \"C\" )*fn (\w+)"
FUNCTION = re.compile(rf"^(?: *#\[.*\]\n)*( *){HEAD}", re.M)
ITEM = re.compile(rf"^{PUB}(?:impl|trait|struct|enum)\b[^{{;]*", re.M)
OWNER = re.compile(rf"{PUB}(?:impl|trait)\b")
# The files of a written proof.
ANSWERS = "Answers.antt"
PROOFS = (ANSWERS, "Invariants.antt", "Proof.antt")


def text_of(path: str) -> str:
    with open(path, encoding="utf-8") as file:
        return file.read()


def crate_folder(name: str) -> str:
    return f"{ROOT}/crates/{name}"


class Piece(NamedTuple):
    """A function in a file of a crate, with the attributes above it, or a text between functions,
    which has no name."""

    path: str
    start: int
    text: str
    name: str = ""  # as a check tells it, but for the module of a trait's method
    is_free: bool = False  # of no trait and in no cycle of calls
    is_public: bool = True  # a text between functions, or one that other crates can call


class Body:
    """A wrong body: its name, what it makes of each piece that it changes, whether that calls the
    function that was there, and whether it is put beside that function or in its place."""

    def __init__(self, crate: str, file: str) -> None:
        what = os.path.basename(file)[: -len(".edit")]
        self.crate, self.name, self.suffix = crate, f"{crate}/{what}", re.sub(r"\W", "_", what)
        self.texts: dict[Piece, str] = {}
        edit = text_of(file)
        self.named = re.findall(r"^of: (\S+)$", edit, re.M)
        pairs = pairs_of(edit)
        if len({key for _, key, _, _ in pairs}) != 1:
            raise ValueError(f"{self.name}: no pair of texts, or pairs of both kinds")
        self.is_over = self.is_beside = pairs[0][1] == "over"
        for path, _, old, new in pairs:
            made = {it: self.texts.get(it, it.text) for it in pieces_of(crate, path)}
            times = sum(it.count(old) for it in made.values())
            if times != 1:
                raise ValueError(f"{self.name}: its text is {times} times in {path}, and not once")
            piece, text = next(it for it in made.items() if old in it[1])
            changed = with_body(text, old, new) if self.is_over else text.replace(old, new)
            self.texts[piece] = changed

    def functions(self) -> set[str]:
        """The names of the functions that it edits or adds: "" if it edits a text outside them."""
        return {self.renamed(it.name) if self.is_beside else it.name for it in self.texts}

    def renamed(self, function: str) -> str:
        """The name of the function that it puts beside this one, so that there may be several."""
        return re.sub(r"(\w+)$", rf"wrong_\1_{self.suffix}", function)

    def is_of_functions(self) -> bool:
        return all(it.name for it in self.texts)

    def is_public(self) -> bool:
        return any(it.is_public for it in self.texts)

    def may_be_beside(self) -> bool:
        """Whether copies of its functions are refused as these are. No copy has the clauses of a
        trait, and a whole proof that is written names its function in more ways."""
        is_free = all(it.is_free for it in self.texts)
        return self.is_over or is_free and PROOFS[2] not in {it.name for it in self.proofs()}

    def proofs(self) -> list[Path]:
        """The files of its functions' written proofs: a method's are in the module of its type."""
        found: list[Path] = []
        for piece in self.texts:
            names = piece.name.split("::")[1:]
            at = "/".join(["proofs", *(["**"] if names[1:] else []), *names[-2:], "*.antt"])
            found += Path(crate_folder(self.crate)).glob(at)
        return [it for it in found if it.name in PROOFS]

    def right(self) -> Body:
        """The right body in its place: that of each of its functions as it is."""
        body = copy.copy(self)
        body.texts, body.is_beside = {it: it.text for it in self.texts}, False
        return body

    def files(self, with_answers: bool = True) -> dict[str, Optional[str]]:
        """The files of its functions' written proofs that are added or go: those of its copies,
        under the copies' names, with the answers or without; and in its place the answers, if it
        is tried without."""
        files: dict[str, Optional[str]] = {}
        for file in [] if self.is_over else self.proofs():
            folder = str(file.parent.relative_to(crate_folder(self.crate)))
            is_left_out = file.name == ANSWERS and not with_answers
            if self.is_beside and not is_left_out:
                old, new = (f".{it.replace('/', '.')}." for it in (folder, self.renamed(folder)))
                text = text_of(str(file)).replace(old, new)
                files[f"{self.renamed(folder)}/{file.name}"] = text
            elif is_left_out and not self.is_beside:
                files[f"{folder}/{file.name}"] = None
        return files


def pairs_of(text: str) -> list[tuple[str, str, str, str]]:
    """The pairs of an edit in their order: the path, 'old' or 'over', and the two texts."""
    pairs, path, key, old = [], "", "", ""
    for line in text.split("\n"):
        if line.startswith("file: "):
            path = line[len("file: ") :].strip()
        elif line.startswith(("old: ", "over: ")):
            key, _, old = line.partition(": ")
        elif line.startswith("new:") and path and old:
            pairs.append((path, key, old, line[len("new:") :].removeprefix(" ")))
            old = ""
    return pairs


def with_body(text: str, head: str, body: str) -> str:
    """The function with this head with another body, without the attributes above it, so that it is
    no export of a library for C."""
    text = text[text.rfind("\n", 0, text.index(head)) + 1 :].replace('extern "C" ', "", 1)
    indent = " " * (len(text) - len(text.lstrip(" ")))
    clauses = text[: text.index(f"\n{indent}{{\n")]
    return f"{clauses}\n{indent}{{\n{indent}    {body}\n{indent}}}\n"


def with_bodies(
    crate: str,
    bodies: Iterable[Body],
    by_contract: bool = False,
    with_answers: bool = True,
) -> dict[str, Optional[str]]:
    """The files of a crate that these bodies change or add, with them; None for one that goes.

    If `by_contract`, no other function has to be proved: each that can has an empty body, and a
    hole for its proof. Their functions' written answers may be left out.
    """
    made: dict[Piece, str] = {}
    files: dict[str, Optional[str]] = {}
    stubs = stubs_of(crate) if by_contract else {}
    for body in sorted(bodies, key=lambda it: it.is_beside):
        for piece, text in body.texts.items():
            head = "fn " + piece.name.rpartition("::")[2]
            beside = text.replace(head, body.renamed(head), 1)
            there = made.get(piece, stubs.get(piece, piece.text))
            made[piece] = there + beside if body.is_beside else text
            if not body.is_beside:
                stubs.pop(piece, None)
        files |= body.files(with_answers)
    for piece, text in stubs.items():
        made.setdefault(piece, text)
        files |= hole_of(piece)
    for path in {it.path for it in made}:
        files[path] = "".join(made.get(it, it.text) for it in pieces_of(crate, path))
    return files


def stubs_of(crate: str) -> dict[Piece, str]:
    """The functions of a crate that can have an empty body, with it."""
    stubs = {}
    for file in sorted(Path(f"{crate_folder(crate)}/src").rglob("*.rt")):
        for piece in pieces_of(crate, str(file.relative_to(crate_folder(crate)))):
            head = FUNCTION.search(piece.text) if piece.is_free and piece.name else None
            # The brace has a line of its own behind clauses.
            brace = head and re.compile(rf"^{head[1]}\{{\n", re.M).search(piece.text, head.end())
            if head and brace:
                body = f"{head[1]}    unreachable!()\n{head[1]}}}\n"
                stubs[piece] = piece.text[: brace.end()] + body
    return stubs


def hole_of(piece: Piece) -> dict[str, Optional[str]]:
    """The files that make the proof of a function a hole."""
    crate, *names = piece.name.split("::")
    folder, spec = "/".join(["proofs", *names]), f"{names[-1]}_spec"
    module = ".".join([f"Rattle.{crate}.proofs", *names, "Statement"])
    files: dict[str, Optional[str]] = {f"{folder}/{it}": None for it in PROOFS}
    hole = f"use {module}.{{statement}}\n\npub {spec} : {{M : Type 1}} → statement M\n{spec} = ?\n"
    return {**files, f"{folder}/{PROOFS[2]}": hole}


@functools.cache
def pieces_of(crate: str, path: str) -> list[Piece]:
    """The pieces of a file in their order."""
    text, module = text_of(f"{crate_folder(crate)}/{path}"), module_of(path)
    heads = [*FUNCTION.finditer(text)]
    pieces, end = [], 0
    for head, until in zip(heads, [*(it.start() for it in heads[1:]), len(text)]):
        pieces.append(Piece(path, end, text[end : head.start()]))
        indent, name = head.groups()
        # A function ends with its brace, and one without a body with the trait that it is in.
        last = re.compile(rf"^{indent}(?:\{{\}}|\}})\n|^(?!{indent}|$)", re.M)
        closing = last.search(text, head.end(), until)
        end = closing.end() if closing else until
        owners = [it[0] for it in ITEM.finditer(text[: head.start()]) if OWNER.match(it[0])]
        owner = re.sub(f"^{PUB}", "", " ".join(owners[-1].split())) if indent else ""
        code = text[head.start() : end]
        is_of_trait = re.search(r"^trait\b| for ", owner) is not None
        of_type = {} if is_of_trait else modules_of_types(crate)
        at = [*of_type.get(owned_by(owner), module), owner_name(owner)] if owner else module
        full_name = "::".join([crate, *at, name])
        is_free = not is_of_trait and "#[cycle" not in code
        is_pub = is_of_trait or re.search(r"^ *pub ", head[0], re.M) is not None
        seen = {owned_by(owner) if owner else name, *module[:1]} & exported_by(crate)
        is_public = is_pub and bool(seen)
        pieces.append(Piece(path, head.start(), code, full_name, is_free, is_public))
    return [*pieces, Piece(path, end, text[end:])]


def module_of(path: str) -> list[str]:
    """The module that a file is."""
    inside = path[len("src/") : -len(".rt")]
    return [] if inside in ("lib", "main") else inside.split("/")


@functools.cache
def modules_of_types(crate: str) -> dict[str, list[str]]:
    """The modules of a crate's types, whose methods may be in other files."""
    files = sorted(Path(f"{crate_folder(crate)}/src").rglob("*.rt"))
    return {
        name: module_of(str(file.relative_to(crate_folder(crate))))
        for file in files
        for name in re.findall(rf"^{PUB}(?:struct|enum) (\w+)", text_of(str(file)), re.M)
    }


@functools.cache
def exported_by(crate: str) -> set[str]:
    """The types, functions and modules that a library's root exports."""
    root = f"{crate_folder(crate)}/src/lib.rt"
    text = text_of(root) if os.path.isfile(root) else ""
    passed_on = re.findall(r"^pub (?:mod|use) (?:\w+::)*([^;]*);", text, re.M)
    names = {name for it in passed_on for name in re.findall(r"\w+", it)}
    return names | {*re.findall(r"^pub (?:struct|enum|trait|fn) (\w+)", text, re.M)}


def owned_by(head: str) -> str:
    """The type or trait whose methods an impl or trait with this head has."""
    if head.startswith("trait"):
        return bare(head[len("trait") :])
    trait, _, of = without_parameters(head[len("impl") :].strip()).partition(" for ")
    return bare(of or trait)


def owner_name(head: str) -> str:
    """The name that a check has for the owner of methods, from the head of its impl or trait."""
    if head.startswith("trait"):
        return bare(head[len("trait") :])
    whole = head[len("impl") :].strip()
    head = without_parameters(whole)
    own = re.findall(r"\w+", whole[: len(whole) - len(head)])
    trait, _, of = head.partition(" for ")
    if not of:
        trait, of = "", trait
    # The name contains the type that a trait is of, as the one that a conversion converts from.
    typed = re.fullmatch(r"([\w:]+)<([A-Z].*)>", trait.strip())
    trait = bare(typed[1]) + bare(typed[2]) if typed else bare(trait)
    # A reference to a type parameter, or to a slice of one, is named as such.
    lent = re.match(r"&mut (\[?)", of)
    # It also contains the types that a type is of, if they are no parameters of the impl.
    parts = re.findall(r"(?<!')\b[A-Z]\w*", of.partition("<")[2])
    of = f"RefMut{'Slice' if lent[1] else ''}" if lent else bare(of)
    of += "".join(part for part in parts if part not in own)
    return of[:1].upper() + of[1:] + trait


def without_parameters(head: str) -> str:
    """The head of an impl after its list of parameters."""
    if not head.startswith("<"):
        return head
    depth = 0
    for at, letter in enumerate(head):
        depth += (letter == "<") - (letter == ">" and head[at - 1] != "-")
        if not depth:
            return head[at + 1 :].strip()
    return head


def bare(name: str) -> str:
    """The name of a type or trait, without its path, its lifetime and its parameters."""
    name = re.sub(r"<.*", "", name.strip().lstrip("&")).strip()
    return name.rpartition("::")[2]
