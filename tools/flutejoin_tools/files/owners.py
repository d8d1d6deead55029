"""Which sender has a name in a folder: a file there keeps the sender as an extended attribute."""
from __future__ import annotations

import hashlib
import os
from typing import TYPE_CHECKING, Optional

from flutejoin_tools.common.addresses import sender_bytes
from flutejoin_tools.common.places import PIECE, REGULAR, SENDER, Place

if TYPE_CHECKING:
    from flutejoin_tools.files.catalogue import Catalogue


class Owners:
    """The senders of the files that are in a folder.

    Where the file system keeps no such attribute, or a file was copied without it, it is the sender
    that described a file with the same MD5.
    """

    def __init__(self, place: Place, catalogue: Catalogue, named: Optional[bytes]) -> None:
        self.place, self.catalogue, self.named = place, catalogue, named
        self.known: dict[str, Optional[bytes]] = {}
        self.contested = catalogue.contested()
        self.senders: Optional[dict[bytes, set[bytes]]] = None

    def of(self, path: str) -> Optional[bytes]:
        """The sender whose file has this path; None if there is none, or that is unknown.

        Where the user named a sender, a file is that sender's.
        """
        if self.named is not None:
            return None
        if path not in self.known:
            self.known[path] = self.look(path)
        return self.known[path]

    def look(self, path: str) -> Optional[bytes]:
        """The sender of the file at a path: by its attribute, or if it is contested by its MD5."""
        try:
            with self.place.parent(path, False) as (folder, name):
                file = os.open(name, REGULAR, dir_fd=folder)
        except OSError:
            return None
        try:
            return sender_bytes(os.getxattr(file, SENDER).decode())
        except (OSError, ValueError, AttributeError):
            return self.by_md5(file) if path in self.contested else None
        finally:
            os.close(file)

    def by_md5(self, file: int) -> Optional[bytes]:
        """The only sender that described a file with these bytes."""
        digest = hashlib.md5(usedforsecurity=False)
        while piece := os.read(file, PIECE):
            digest.update(piece)
        senders = self.by_digest().get(digest.digest(), set())
        return next(iter(senders)) if len(senders) == 1 else None

    def by_digest(self) -> dict[bytes, set[bytes]]:
        """The senders that described a file, by its MD5."""
        if self.senders is None:
            self.senders = {}
            for session in self.catalogue:
                for toi in session.files:
                    for md5 in session.md5s(toi):
                        self.senders.setdefault(md5, set()).add(session.source)
        return self.senders
