"""Gives files that are ready their names, each once, whenever the run is killed.

The steps of each are in a database (`ledger`), each on the disk before the next begins.
"""
from __future__ import annotations

import contextlib
import errno
import json
import os
import time
from typing import Callable, Iterable, NamedTuple, Optional

from flutejoin_tools.centre.ledger import DONE, PLACED, READY, TOLD, Delivery, Ledger, Told
from flutejoin_tools.centre.rounds import Made, Outcome
from flutejoin_tools.centre.symbols import Contents
from flutejoin_tools.common.log import Log
from flutejoin_tools.common.places import Place, bring_to_disk
from flutejoin_tools.common.texts import shown
from flutejoin_tools.fdt import names
from flutejoin_tools.files.owners import Owners
from flutejoin_tools.files.session import APART, address_of
from flutejoin_tools.files.writing import told_of
from flutejoin_tools.journals.holdings import Key

LAST = 1 << 16  # bytes at the end of the log of what was delivered, in which serials are looked for


class New(NamedTuple):
    """A file that is ready, and where it is."""

    delivery: Delivery
    contents: Optional[Contents]
    source: str


class Shipping:
    """The folder of files, the log `delivered.jsonl`, and the folder of what is ready."""

    def __init__(
        self, folder: str, out: str, ledger: Ledger, report: Log
    ) -> None:
        """`folder` has the log and what is ready; `out` gets the files, on the same disk."""
        self.ready, self.log = os.path.join(folder, "ready"), os.path.join(folder, LOG)
        self.out, self.ledger, self.report = out, ledger, report
        self.failing: dict[int, str] = {}  # why a file could not be given its name
        os.makedirs(self.ready, exist_ok=True)
        os.makedirs(out, exist_ok=True)
        if os.stat(out).st_dev != os.stat(self.ready).st_dev:
            told = f"is on another disk than {folder}, so no file could appear there whole"
            raise OSError(errno.EXDEV, told, out)

    def resume(self) -> None:
        """Does the steps that a run before did not."""
        known = {str(it.serial) for it in self.ledger.at_step(READY)}
        for name in os.listdir(self.ready):
            if name not in known:
                os.unlink(os.path.join(self.ready, name))
        self.place()
        self.tell()

    def ship(
        self, outcome: Outcome, shares: Callable[[Key, Made], dict[str, float]], now: float
    ) -> int:
        """Delivers what a round made and was not delivered before. Returns how many files."""
        made = [it for it in outcome.made if not self.is_known(it, now)]
        paths = self.paths(outcome, made)
        serial, new = self.ledger.next_serial(), []
        for it in sorted(made, key=lambda it: it.ready.session.key(it.ready.toi)):
            key = key_of(it)
            step = READY if paths.get(key) else DONE
            delivery = Delivery(
                *(serial, key._replace(number=key.number % APART), step, paths.get(key)),
                *(now, now, told_of_file(it), shares(key, it)),
            )
            new.append(New(delivery, it.contents, it.ready.source))
            serial += 1
        self.enter(new)
        self.place()
        self.tell()
        return sum(it.delivery.step == READY for it in new)

    def enter(self, new: Iterable[New]) -> None:
        """Puts the files beside their places, on the disk, and notes them."""
        entered = [*new]
        for it in entered:
            if it.delivery.step == READY:
                os.rename(it.source, self.ready_path(it.delivery))
            else:
                told = "a newer file of this name was delivered; it is not written"
                self.report.warn(f"{shown(it.delivery.told.name)}: {told}")
        folder = os.open(self.ready, os.O_RDONLY | os.O_DIRECTORY)
        try:
            bring_to_disk(folder)
        finally:
            os.close(folder)
        self.ledger.add((it.delivery, it.contents) for it in entered)

    def ready_path(self, delivery: Delivery) -> str:
        """Where a file is from the step READY until it gets its name."""
        return os.path.join(self.ready, str(delivery.serial))

    def is_known(self, made: Made, now: float) -> bool:
        """Whether the same file of the same object was delivered before.

        Then its sums are noted again, which may be forgotten.
        """
        key = key_of(made)
        object_key = key._replace(number=key.number % APART)
        serial = self.ledger.serial_of(object_key, made.md5.hex())
        if serial is not None and made.contents:
            self.ledger.renew(serial, made.contents, now)
        return serial is not None

    def paths(self, outcome: Outcome, made: list[Made]) -> dict[Key, str]:
        """The paths of files; of one that is older than what has its name there is none."""
        chosen = {key_of(it): it for it in made}
        claims = [claim for session in outcome.catalogue for claim in session.claims()]
        claims = [claim for claim in claims if claim.key in chosen]
        claims.sort(key=lambda claim: -claim.certainty)
        place = Place(self.out)
        try:
            owners = Owners(place, outcome.catalogue, None)
            paths = names.assign(claims, lambda path: self.owner_of(path, owners))
        finally:
            place.close()
        self.tell_owners(paths)
        for claim in claims:
            path = paths.by_object.get(claim.key)
            last = self.ledger.last_at(path) if path else None
            if path and last and last.tsi != claim.key.tsi:
                path = paths.by_object[claim.key] = f"{path}~{claim.mark}"
                last = self.ledger.last_at(path)
            if last and last.rank > claim.rank:
                del paths.by_object[claim.key]
        return paths.by_object

    def owner_of(self, path: str, owners: Owners) -> Optional[bytes]:
        """The sender that had a path last: what was delivered may have been moved away."""
        last = self.ledger.last_at(path)
        return last.source if last else owners.of(path)

    def tell_owners(self, paths: names.Paths) -> None:
        """Tells of files whose names other senders have."""
        for key, owner in paths.owners.items():
            if key in paths.by_object:
                told = f"sender {address_of(owner)} has the name"
                self.report.warn(f"{key.text()}: {told}; it is {shown(paths.by_object[key])}")

    def place(self) -> None:
        """Gives each file that is ready its name. One that can't have it now stays ready."""
        waiting = self.ledger.at_step(READY)
        if not waiting:
            return
        place = Place(self.out)
        try:
            placed = [it for it in waiting if self.place_one(place, it)]
            bring_to_disk(place.folder)
        finally:
            place.close()
        self.ledger.step((it.serial for it in placed), PLACED)

    def place_one(self, place: Place, delivery: Delivery) -> bool:
        """Gives a file its name. Returns whether it has it; if not, that is told once."""
        assert delivery.path
        source = self.ready_path(delivery)
        if not os.path.lexists(source):  # a killed run moved it
            return True
        try:
            place.move_in(source, delivery.path, delivery.key.source)
            self.failing.pop(delivery.serial, None)
            return True
        except OSError as fault:
            told = f"{shown(os.path.join(self.out, delivery.path))}: {told_of(fault)}"
            if self.failing.get(delivery.serial) != told:
                self.failing[delivery.serial] = told
                self.report.fault(1, f"{told}; it is tried again")
            return False

    def tell(self) -> None:
        """Adds a line to the log for each file that has its name."""
        placed = self.ledger.at_step(PLACED)
        if not placed:
            return
        last = self.mend_log()
        with open(self.log, "ab") as file:
            for it in placed:
                if it.serial > last:
                    file.write((json.dumps(line_of(it)) + "\n").encode())
            file.flush()
            os.fsync(file.fileno())
        for it in placed:
            self.report.warn(f"delivered {it.path} ({it.told.bytes} bytes, {it.told.verdict})")
        self.ledger.step((it.serial for it in placed), TOLD)

    def mend_log(self) -> int:
        """Removes a line that a kill cut, and returns the last serial number that is there."""
        last = 0
        with contextlib.suppress(FileNotFoundError), open(self.log, "r+b") as file:
            size = file.seek(0, os.SEEK_END)
            begin = file.seek(max(0, size - LAST))
            data = file.read()
            end = data.rfind(b"\n") + 1
            if end < len(data):
                file.truncate(begin + end)
            for line in data[:end].splitlines():
                with contextlib.suppress(ValueError, TypeError, KeyError):
                    last = max(last, int(json.loads(line)["serial"]))
        return last


LOG = "delivered.jsonl"


def key_of(made: Made) -> Key:
    """The object of a file; a further file of a TOI has a number above all TOIs (`APART`)."""
    return made.ready.session.key(made.ready.toi)


def told_of_file(made: Made) -> Told:
    """What the log and the page tell of a file."""
    described = made.ready.session.files[made.ready.toi]
    newest = [it.expires for it in made.ready.session.heads if it.name == described.instance]
    md5 = made.described()
    return Told(
        described.file.location,
        described.file.type,
        made.size,
        made.md5.hex(),
        md5.hex() if md5 else None,
        made.ready.checked.verdict.value,
        described.rank,
        next(iter(newest), None),
    )


def line_of(delivery: Delivery) -> dict[str, object]:
    """What the log has of a file."""
    told = delivery.told
    return {
        "serial": delivery.serial,
        "time": time.strftime("%Y-%m-%dT%H:%M:%SZ", time.gmtime(delivery.at)),
        "path": delivery.path,
        "name": told.name,
        "type": told.type or None,
        "bytes": told.bytes,
        "md5": told.md5,
        "verified": told.verdict == "verified",
        "sender": address_of(delivery.key.source),
        "tsi": delivery.key.tsi,
        "toi": delivery.key.number,
        "stations": delivery.shares,
    }
