"""What a disk may have after its power was lost, by the calls of the system that were made before.

A name leads to any of the files that it led to since its folder was last brought to the disk, each
name for itself. A file has any of the contents that it had since it was last brought there, or a
part of what a write gave it, or zeros in its place.
"""
from __future__ import annotations

import pathlib
from typing import Optional, Union

from tests.calls.case import Call

# What a name may lead to: nothing, a file's bytes, or the possible contents of a folder's names
Left = Union[None, bytes, "dict[str, list[Left]]"]
GARBAGE = b"what nobody wrote"


class Node:
    """A file or a folder: as it is, and as the disk may have it."""

    def __init__(self, content: Optional[bytes]) -> None:
        self.content = content  # None: a folder
        self.may = [content or b""]
        self.names: dict[str, list[Optional[Node]]] = {}

    def now(self, name: str) -> Optional[Node]:
        return self.names.get(name, [None])[-1]

    def change(self, name: str, to: Optional[Node]) -> None:
        self.names.setdefault(name, [None]).append(to)

    def grow(self, more: bytes) -> None:
        """Adds bytes that the disk may have in part, as zeros, or not yet."""
        before = self.content or b""
        self.content = before + more
        halves = before + more[: len(more) // 2], before + bytes(len(more)), before + more
        self.may += [it for it in halves if it not in self.may]

    def sync(self) -> None:
        """Brings the bytes, and of a folder the names, to the disk."""
        self.may = [self.content or b""]
        self.names = {name: nodes[-1:] for name, nodes in self.names.items()}

    def left(self) -> list[Left]:
        """What it may be."""
        if self.content is not None:
            return [*self.may]
        found = {name: may_be(nodes) for name, nodes in self.names.items()}
        return [{name: left for name, left in found.items() if left != [None]}]


def may_be(nodes: list[Optional[Node]]) -> list[Left]:
    """What the disk may have of any of these files, each once."""
    found: list[Left] = []
    for node in nodes:
        found += [it for it in (node.left() if node else [None]) if it not in found]
    return found


class Disk:
    """A disk with all that a folder contains now."""

    def __init__(self, folder: pathlib.Path) -> None:
        self.top = node_of(folder)

    def at(self, path: str) -> tuple[Node, str]:
        """The folder that a path is in, and its name there."""
        *folders, name = pathlib.PurePath(path).parts
        node = self.top
        for each in folders:
            inner = node.now(each)
            assert inner is not None, path
            node = inner
        return node, name

    def node(self, path: str) -> Optional[Node]:
        """The file that a path leads to now."""
        folder, name = self.at(path)
        return folder.now(name)

    def left(self, path: str) -> list[Left]:
        """What this name may lead to after the power was lost."""
        folder, name = self.at(path)
        return may_be(folder.names.get(name, [None]))

    def take(self, call: Call) -> None:
        """Changes the disk as a call did that was made. A call in another place changes nothing,
        nor does one of a file without a name."""
        if not call.changes() or not call.path or call.path.startswith("/"):
            return
        if call.error:
            self.fail(call)
            return
        name = call.plain()
        if name in ("write", "fsync"):
            node = self.node(call.path)
            if node and name == "write":
                node.grow(call.content)
            elif node:
                node.sync()
        elif name == "rename":
            from_folder, old = self.at(call.path)
            to_folder, new = self.at(call.to)
            to_folder.change(new, from_folder.now(old))
            from_folder.change(old, None)
        else:
            self.name(call, *self.at(call.path))

    def name(self, call: Call, folder: Node, name: str) -> None:
        """Does what changes one name, or none."""
        plain = call.plain()
        if plain in ("unlink", "rmdir"):
            folder.change(name, None)
        elif plain == "mkdir":
            folder.change(name, Node(None))
        elif plain == "open":
            node = folder.now(name)
            if node and "O_TRUNC" in call.flags:
                node.content = b""
                node.may.append(b"")
            elif not node and "O_CREAT" in call.flags:
                folder.change(name, Node(b""))
        elif plain not in ("flock", "fchmod"):
            raise AssertionError(f"what it does is not known: {call}")

    def fail(self, call: Call) -> None:
        """What a file has after a write or a sync of it failed is not known."""
        node = self.node(call.path) if call.plain() in ("write", "fsync") else None
        if node and node.content is not None:
            node.grow(call.content)
            node.may.append(GARBAGE)


def first_loss(disk: Disk, calls: list[Call], path: str, new: Left) -> Optional[Call]:
    """Makes these calls on a disk, and returns the first after which a lost power may leave
    something else at this path than before, and than this."""
    old = disk.left(path)
    for call in calls:
        disk.take(call)
        if any(it not in (*old, new) for it in disk.left(path)):
            return call
    return None


def node_of(path: pathlib.Path) -> Node:
    """What is there, all of it on the disk. A link is no part of it."""
    if not path.is_dir():
        return Node(path.read_bytes())
    node = Node(None)
    for inner in path.iterdir():
        if inner.is_dir() or inner.is_file():
            node.names[inner.name] = [node_of(inner)]
    return node
