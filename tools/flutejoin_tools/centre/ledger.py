"""What was delivered, and what waits: a database of one folder, in steps that a kill may cut.

Each file has a row until nothing of its object came for `keep`, and then a small one until nothing
came for `keep-partial`, if that is longer: by it the file is known if it comes again, and an older
one doesn't take its path.

A file that is delivered goes through steps, each of which is on the disk before the next one
begins: it is ready beside its place, it has its name, its line is in the log of what was
delivered, and its command has run. So after a kill each step is done that was not, and none twice
but the command, which nobody can tell to have ended.
"""
from __future__ import annotations

import contextlib
import errno
import hashlib
import json
import sqlite3
from typing import Any, Collection, Iterable, Iterator, NamedTuple, Optional

from flutejoin_tools.centre.symbols import Contents
from flutejoin_tools.common.gaps import Numbers
from flutejoin_tools.formats.entries import FILE
from flutejoin_tools.journals.holdings import Key

READY, PLACED, TOLD, DONE = range(4)  # steps

TABLES = """
CREATE TABLE IF NOT EXISTS delivered (
    serial INTEGER PRIMARY KEY AUTOINCREMENT, source BLOB NOT NULL, tsi INTEGER NOT NULL,
    toi TEXT NOT NULL, step INTEGER NOT NULL, path TEXT, at REAL NOT NULL, seen REAL NOT NULL,
    told TEXT NOT NULL, shares TEXT NOT NULL, numbers TEXT, sums BLOB);
CREATE INDEX IF NOT EXISTS of_object ON delivered (source, tsi, toi);
CREATE INDEX IF NOT EXISTS of_path ON delivered (path);
CREATE INDEX IF NOT EXISTS of_step ON delivered (step) WHERE step < 3;
CREATE INDEX IF NOT EXISTS of_seen ON delivered (seen);
CREATE TABLE IF NOT EXISTS senders (sender INTEGER PRIMARY KEY, source BLOB NOT NULL UNIQUE);
CREATE TABLE IF NOT EXISTS small (
    serial INTEGER PRIMARY KEY, sender INTEGER NOT NULL, tsi INTEGER NOT NULL, toi TEXT NOT NULL,
    seen INTEGER NOT NULL, md5 BLOB NOT NULL, described BLOB, path BLOB, expires INTEGER NOT NULL,
    number INTEGER NOT NULL, numbers TEXT, sums BLOB);
CREATE INDEX IF NOT EXISTS small_of_object ON small (sender, tsi, toi);
CREATE INDEX IF NOT EXISTS small_of_path ON small (path) WHERE path IS NOT NULL;
CREATE INDEX IF NOT EXISTS small_of_seen ON small (seen);
CREATE INDEX IF NOT EXISTS small_with_sums ON small (seen) WHERE sums IS NOT NULL;
CREATE TABLE IF NOT EXISTS waiting (
    source BLOB NOT NULL, tsi INTEGER NOT NULL, toi TEXT NOT NULL, since REAL NOT NULL,
    seen REAL NOT NULL, PRIMARY KEY (source, tsi, toi)) WITHOUT ROWID;
CREATE TABLE IF NOT EXISTS kept (
    source BLOB NOT NULL, tsi INTEGER NOT NULL, toi TEXT NOT NULL, journal TEXT NOT NULL,
    PRIMARY KEY (source, tsi, toi, journal)) WITHOUT ROWID;
CREATE INDEX IF NOT EXISTS of_journal ON kept (journal);
CREATE TABLE IF NOT EXISTS stations (name TEXT PRIMARY KEY, came REAL NOT NULL) WITHOUT ROWID;
"""
SUMS = 1  # the version of the database in which sums are those of `sums`
COLUMNS = "serial, source, tsi, toi, step, path, at, seen, told, shares"
OBJECT = "source = ? AND tsi = ? AND toi = ?"
# The rows of both kinds, each read by an index
FILES = """(
    SELECT serial, source, tsi, toi, numbers, sums, json_extract(told, '$.md5') AS md5,
        json_extract(told, '$.described') AS described FROM delivered
    UNION ALL SELECT serial, source, tsi, toi, numbers, sums, lower(hex(md5)),
        nullif(lower(hex(CASE described WHEN x'' THEN md5 ELSE described END)), '')
        FROM small, senders WHERE small.sender = senders.sender)"""
OF_PATH = """
    SELECT serial, source, tsi, json_extract(told, '$.rank[0]'), json_extract(told, '$.rank[1]')
        FROM delivered WHERE path = ?
    UNION ALL SELECT serial, source, tsi, expires, number FROM small, senders
        WHERE path = ? AND small.sender = senders.sender
    ORDER BY serial DESC LIMIT 1"""


class Told(NamedTuple):
    """What is told of a file: its description and its bytes."""

    name: str
    type: str
    bytes: int
    md5: str  # of the file, in hexadecimal digits
    described: Optional[str]  # the MD5 of its FDT Instance, which may be that of the encoded bytes
    verdict: str
    rank: tuple[int, int]  # of its FDT Instance
    expires: Optional[int]  # seconds since 1970


class Delivery(NamedTuple):
    """A file that was delivered, or is being delivered."""

    serial: int
    key: Key
    step: int
    path: Optional[str]  # below the folder of files; None if a newer file has the name
    at: float
    seen: float  # when something of its object came last
    told: Told
    shares: dict[str, float]  # of the object's symbols, in percent, by the names of stations


class Owner(NamedTuple):
    """Whose file was delivered last under a path, and the rank of its FDT Instance."""

    source: bytes
    tsi: int
    rank: tuple[int, int]


class Waited(NamedTuple):
    """Since when an object waits, and when something of it came last."""

    since: float
    seen: float


def delivery_of(row: tuple[Any, ...]) -> Delivery:
    serial, source, tsi, toi, step, path, at, seen, told, shares = row
    fields = json.loads(told)
    fields["rank"] = tuple(fields["rank"])
    key = Key(source, tsi, FILE, int(toi))
    return Delivery(serial, key, step, path, at, seen, Told(**fields), json.loads(shares))


def object_of(key: Key) -> tuple[bytes, int, str]:
    """An object as the columns of a table: a TOI has more bits than a number there."""
    return key.source, key.tsi, str(key.number)


def add_small(base: sqlite3.Connection, of: Delivery) -> None:
    """Adds the small row of a file."""
    told, path = of.told, of.path
    described = None if told.described is None else bytes.fromhex(told.described)
    if told.described == told.md5:
        described = b""  # they are the same
    source, tsi, toi = object_of(of.key)
    base.execute("INSERT OR IGNORE INTO senders (source) VALUES (?)", (source,))
    base.execute(
        "INSERT INTO small SELECT ?, sender, ?, ?, ?, ?, ?, ?, ?, ?, NULL, NULL FROM senders "
        "WHERE source = ?",
        (
            *(of.serial, tsi, toi, int(of.seen), bytes.fromhex(told.md5), described),
            *(None if path is None else short(path), *told.rank, source),
        ),
    )


def short(path: str) -> bytes:
    """A path, as small rows have it."""
    return hashlib.sha256(path.encode()).digest()[:8]


class Ledger:
    """The database. Its faults are raised as OSError, and leave it as it was."""

    def __init__(self, path: str) -> None:
        self.path = path
        with self.faults():
            self.base = sqlite3.connect(path, isolation_level=None, timeout=2)
            self.base.execute("PRAGMA synchronous = FULL")
            self.base.executescript(TABLES)
            if self.base.execute("PRAGMA user_version").fetchone()[0] < SUMS:
                self.base.execute("UPDATE delivered SET sums = NULL")  # what comes again has others
                self.base.execute(f"PRAGMA user_version = {SUMS}")

    def close(self) -> None:
        self.base.close()

    @contextlib.contextmanager
    def faults(self) -> Iterator[None]:
        try:
            yield
        except sqlite3.Error as fault:
            raise OSError(errno.EIO, str(fault), self.path) from None

    @contextlib.contextmanager
    def changes(self) -> Iterator[sqlite3.Connection]:
        """A context whose changes are on the disk together at its end, or are not made."""
        with self.faults():
            self.base.execute("BEGIN IMMEDIATE")
            try:
                yield self.base
                self.base.execute("COMMIT")
            except BaseException:
                with contextlib.suppress(sqlite3.Error):
                    self.base.execute("ROLLBACK")
                raise

    def rows(self, words: str, *values: object) -> list[tuple[Any, ...]]:
        with self.faults():
            return self.base.execute(words, values).fetchall()

    def next_serial(self) -> int:
        rows = self.rows("SELECT seq FROM sqlite_sequence WHERE name = 'delivered'")
        return int(rows[0][0]) + 1 if rows else 1

    def add(self, deliveries: Iterable[tuple[Delivery, Optional[Contents]]]) -> None:
        with self.changes() as base:
            for it, contents in deliveries:
                numbers = json.dumps(contents.numbers) if contents else None
                base.execute(
                    f"INSERT INTO delivered ({COLUMNS}, numbers, sums) "
                    "VALUES (?, ?, ?, ?, ?, ?, ?, ?, ?, ?, ?, ?)",
                    (
                        *(it.serial, *object_of(it.key), it.step, it.path, it.at, it.seen),
                        *(json.dumps(it.told._asdict()), json.dumps(it.shares)),
                        *(numbers, contents and contents.sums),
                    ),
                )

    def step(self, serials: Iterable[int], step: int) -> None:
        with self.changes() as base:
            base.executemany(
                "UPDATE delivered SET step = ? WHERE serial = ?", [(step, it) for it in serials]
            )

    def at_step(self, step: int, most: int = 1 << 16) -> list[Delivery]:
        words = f"SELECT {COLUMNS} FROM delivered WHERE step = ? ORDER BY serial LIMIT ?"
        return [*map(delivery_of, self.rows(words, step, most))]

    def serial_of(self, key: Key, md5: str) -> Optional[int]:
        """The serial number under which a file of an object was delivered."""
        words = f"SELECT serial FROM {FILES} WHERE {OBJECT} AND md5 = ? ORDER BY serial DESC"
        return next((serial for (serial,) in self.rows(words, *object_of(key), md5)), None)

    def contents(self, key: Key) -> list[tuple[int, Contents]]:
        """The contents of an object that were delivered, with their serial numbers."""
        words = f"SELECT serial, numbers, sums FROM {FILES} WHERE {OBJECT} AND sums IS NOT NULL"
        delivered_rows = self.rows(words, *object_of(key))
        return [
            (serial, Contents(numbers_of(json.loads(numbers)), sums))
            for serial, numbers, sums in delivered_rows
        ]

    def has_sums(self, key: Key) -> bool:
        words = f"SELECT 1 FROM {FILES} WHERE {OBJECT} AND sums IS NOT NULL LIMIT 1"
        return bool(self.rows(words, *object_of(key)))

    def since(self, serial: int, most: int) -> list[tuple[int, Key, str]]:
        """The serial number, the object and the MD5 of what was delivered after one."""
        words = "SELECT serial, source, tsi, toi, md5 "
        words += f"FROM {FILES} WHERE serial > ? ORDER BY serial LIMIT ?"
        return [
            (number, Key(source, tsi, FILE, int(toi)), md5)
            for number, source, tsi, toi, md5 in self.rows(words, serial, most)
        ]

    def last_at(self, path: str) -> Optional[Owner]:
        """Whose file was delivered last under a path."""
        for _, source, tsi, *rank in self.rows(OF_PATH, path, short(path)):
            return Owner(source, tsi, (rank[0], rank[1]))
        return None

    def newest(self, most: int) -> list[Delivery]:
        words = f"SELECT {COLUMNS} FROM delivered ORDER BY serial DESC LIMIT ?"
        return [*map(delivery_of, self.rows(words, most))]

    def named(self, name: str, most: int) -> list[Delivery]:
        """The files in whose name or path a text is, the newest first."""
        words = (
            f"SELECT {COLUMNS} FROM delivered WHERE instr(json_extract(told, '$.name'), ?) > 0 "
            "OR instr(path, ?) > 0 ORDER BY serial DESC LIMIT ?"
        )
        return [*map(delivery_of, self.rows(words, name, name, most))]

    def count(self) -> int:
        """How many files were delivered, ever."""
        return self.next_serial() - 1

    def see_again(self, now: float, again: dict[int, dict[str, float]]) -> None:
        """Notes that objects came again, and the shares of stations, by serial numbers."""
        if not again:
            return
        with self.changes() as base:
            for serial, shares in again.items():
                words = "SELECT shares FROM delivered WHERE serial = ?"
                delivered_rows = base.execute(words, (serial,)).fetchall()
                for (text,) in delivered_rows:
                    known = json.loads(text)
                    more = {name: max(it, known.get(name, 0)) for name, it in shares.items()}
                    base.execute(
                        "UPDATE delivered SET seen = ?, shares = ? WHERE serial = ?",
                        (now, json.dumps({**known, **more}), serial),
                    )
                if not delivered_rows:
                    base.execute("UPDATE small SET seen = ? WHERE serial = ?", (int(now), serial))

    def renew(self, serial: int, contents: Contents, now: float) -> None:
        """Notes the sums of what came again, which may be forgotten."""
        sums = json.dumps(contents.numbers), contents.sums
        with self.changes() as base:
            for table, seen in (("delivered", now), ("small", int(now))):
                base.execute(
                    f"UPDATE {table} SET seen = ?, numbers = ?, sums = ? WHERE serial = ?",
                    (seen, *sums, serial),
                )

    def forget(self, rows: float, small: float) -> set[Key]:
        """Makes the rows small of what came last before a time, and forgets what came last before
        another. Returns the objects of which a file was forgotten."""
        with self.changes() as base:
            of_old = "FROM delivered WHERE seen < ? AND step = ?"
            for row in base.execute(f"SELECT {COLUMNS} {of_old}", (rows, DONE)):
                add_small(base, delivery_of(row))
            base.execute(f"DELETE {of_old}", (rows, DONE))
            for table in "delivered", "small":
                words = f"UPDATE {table} SET numbers = NULL, sums = NULL WHERE seen < ? "
                base.execute(words + "AND sums IS NOT NULL", (rows,))
            words = "SELECT sender, source, tsi, toi FROM small JOIN senders USING (sender) "
            gone = base.execute(words + "WHERE seen < ?", (small,)).fetchall()
            base.execute("DELETE FROM small WHERE seen < ?", (small,))
            words = "DELETE FROM senders WHERE sender = ? AND NOT EXISTS "
            words += "(SELECT 1 FROM small WHERE small.sender = senders.sender)"
            base.executemany(words, {(sender,) for sender, *_ in gone})
        return {Key(source, tsi, FILE, int(toi)) for _, source, tsi, toi in gone}

    def wait(self, keys: Iterable[Key], now: float) -> None:
        """Notes that something of these objects came."""
        with self.changes() as base:
            base.executemany(
                "INSERT INTO waiting VALUES (?, ?, ?, ?, ?) "
                "ON CONFLICT DO UPDATE SET seen = excluded.seen",
                [(source, tsi, str(toi), now, now) for source, tsi, _, toi in keys],
            )

    def waited(self, keys: Collection[Key]) -> dict[Key, Waited]:
        """Since when some objects wait."""
        waiting: dict[Key, Waited] = {}
        # One by one, under one lock: for a list of objects the database reads the whole table.
        words = "SELECT since, seen FROM waiting WHERE source = ? AND tsi = ? AND toi = ?"
        with self.faults():
            self.base.execute("BEGIN")
            try:
                for key in keys:
                    for times in self.base.execute(words, object_of(key)):
                        waiting[key] = Waited(*times)
            finally:
                self.base.execute("COMMIT")
        return waiting

    def keep(self, journal: str, keys: Iterable[Key]) -> None:
        """Notes that a journal that is kept has these objects."""
        with self.changes() as base:
            base.executemany(
                "INSERT OR IGNORE INTO kept VALUES (?, ?, ?, ?)",
                [(*object_of(key), journal) for key in keys],
            )

    def kept(self, key: Key) -> list[str]:
        """The journals that have an object that was delivered."""
        words = "SELECT journal FROM kept WHERE source = ? AND tsi = ? AND toi = ?"
        return [journal for (journal,) in self.rows(words, *object_of(key))]

    def drop_kept(self, journal: str) -> None:
        with self.changes() as base:
            base.execute("DELETE FROM kept WHERE journal = ?", (journal,))

    def come(self, station: str, now: float) -> None:
        """Notes that something came of a station."""
        with self.changes() as base:
            base.execute(
                "INSERT INTO stations VALUES (?, ?) ON CONFLICT DO UPDATE SET came = excluded.came",
                (station, now),
            )

    def came_at(self, station: str) -> Optional[float]:
        rows = self.rows("SELECT came FROM stations WHERE name = ?", station)
        return rows[0][0] if rows else None

    def described(
        self, keys: Optional[Iterable[Key]] = None
    ) -> Iterator[tuple[Key, Optional[str]]]:
        """Each object of which a file was delivered, or some of them, and the MD5 of its
        description."""
        words = f"SELECT source, tsi, toi, described FROM {FILES}"
        if keys is not None:
            words += f" WHERE {OBJECT}"
        every: Iterable[tuple[object, ...]] = [()] if keys is None else map(object_of, keys)
        for values in every:
            for source, tsi, toi, described in self.rows(words, *values):
                yield Key(source, tsi, FILE, int(toi)), described

    def silent(self, since: float) -> list[Key]:
        """The objects of which nothing came since a time."""
        rows = self.rows("SELECT source, tsi, toi FROM waiting WHERE seen < ?", since)
        return [Key(source, tsi, FILE, int(toi)) for source, tsi, toi in rows]

    def longest_silent(self) -> list[Key]:
        """The objects that wait: first that of which nothing came for longest."""
        rows = self.rows("SELECT source, tsi, toi FROM waiting ORDER BY seen, since")
        return [Key(source, tsi, FILE, int(toi)) for source, tsi, toi in rows]

    def end_waiting(self, keys: Iterable[Key]) -> None:
        with self.changes() as base:
            base.executemany(
                "DELETE FROM waiting WHERE source = ? AND tsi = ? AND toi = ?",
                [object_of(key) for key in keys],
            )


def numbers_of(of: list[int]) -> Numbers:
    length, symbol, block = of
    return length, symbol, block
