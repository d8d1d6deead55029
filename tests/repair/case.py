"""Runs of tools/flutejoin-repair for tests, with servers on the loopback."""
from __future__ import annotations

import contextlib
import io
import json
import random
from typing import Any, Dict, List, Mapping, NamedTuple, Optional, Sequence

import datagram_files
from flutejoin_tools.common.addresses import sender_bytes
from flutejoin_tools.fdt import fdt as fdt_module
from flutejoin_tools.formats.entries import FILE
from flutejoin_tools.journals.holdings import Key
from flutejoin_tools.journals.states import State
from flutejoin_tools.repair import fetched, http, lacking, origins
from flutejoin_tools.repair.repairing import Repair
from tests.repair.origin import Origin
from tests.support import run
from tests.support.flute_sender import Sent, fdt, instance
from tests.support.run import Run

SENDER = "10.9.0.1"
SYMBOL, BLOCK = 1400, 64  # bytes of a symbol, symbols of a block


class Repaired(NamedTuple):
    """What became of a file: why it is left, what came as a datagram file, and how much came."""

    why: str
    out: bytes
    is_complete: bool
    received: int


def content(number: int, size: int = 200_000) -> bytes:
    return random.Random(number).randbytes(size + number)


class Case(run.Case):
    def setUp(self) -> None:
        super().setUp()
        self.origin = self.server()

    def server(self, **how: Any) -> Origin:
        """Starts a server with these settings, which ends with the test."""
        origin = Origin(**how)
        self.addCleanup(origin.close)
        return origin

    def sent(self, toi: int, data: bytes, name: str = "", **how: Any) -> Sent:
        """A file that the origin has, and that is sent."""
        path = name or f"/news/{toi}.bin"
        self.origin.files[path] = how.get("object", data)
        self.origin.tags[path] = f'"of-{toi}"'
        return Sent(toi, data, f"{self.origin.url}{path}", symbol=SYMBOL, block=BLOCK, **how)

    def journal_without(
        self,
        name: str,
        every: Sequence[Sent],
        lost: Mapping[int, Sequence[int]],
        described: Optional[bytes] = None,
        tsi: int = 7,
    ) -> None:
        """Makes a journal that lacks these symbols of these files.

        It has an FDT Instance that describes them, or this one, or none, if that has no bytes.
        """
        xml = fdt(every) if described is None else described
        packets = [*instance(tsi, 1, xml)] if xml else []
        for file in every:
            gone = {*lost.get(file.toi, ())}
            own = file.packets(tsi)
            packets += [own[at] for at in range(len(own)) if at not in gone]
        datagram_files.write(str(self.path(f"{name}.sent")), packets)
        self.made(f"join --source {SENDER} -o {name} {name}.sent")

    def losses(self, file: Sent, share: float, seed: int = 1) -> List[int]:
        """Symbols of a file that are lost at random, at least one."""
        drawn = random.Random(seed)
        count = -(-len(file.data()) // SYMBOL)
        return [at for at in range(count) if drawn.random() < share] or [count // 2]

    def repair(self, words: str = "", *, base: Optional[str] = None, **how: Any) -> Run:
        """Runs the tool on `all`, with OUT `more`, below the folder of the origin."""
        below = f"{self.origin.url}/news/" if base is None else base
        given = f"--base {below} " if below else ""
        if "more" in self.exists("more"):
            self.remove("more")
        every = f"{given}--flutejoin {run.PROGRAM} {words} -o more all"
        return self.tool("flutejoin-repair", every, **how)

    def repaired(self, name: str, words: str = "", **how: Any) -> Run:
        """Runs the tool, which has to succeed, and checks that nothing is missing then."""
        done = self.repair(words, **how)
        self.check(name, done, 0, None, "")
        self.is_joined(name)
        return done

    def is_joined(self, name: str) -> None:
        """Joins what came, and checks each file."""
        done = self.program(f"join --source {SENDER} -o new all more")
        self.check(f"{name}: join", done, 0, None)
        self.check(f"{name}: whole", self.program("gaps --check new"), 0, None)

    def files(self, name: str, every: Sequence[Sent], status: Optional[int] = 0) -> None:
        """Checks that the files of what was joined are those of the origin."""
        done = self.tool("flutejoin-files", f"--flutejoin {run.PROGRAM} -o files new")
        self.check(f"{name}: files", done, status, None, None)
        for file in every:
            host, _, path = file.location.partition("://")[2].partition("/")
            self.same(f"{name}: {path}", f"files/{host}/{path}", file.content)

    def ask(
        self,
        file: Sent,
        lost: Sequence[int],
        base: Optional[str] = None,
        *,
        by_symbols: bool = False,
        most: int = 10**9,
        seconds: float = 600,
    ) -> Repaired:
        """Asks in this process for these symbols of a file, of which `all` has the others."""
        xml = io.BytesIO(fdt([file]))
        of = fdt_module.read_from(xml, 1, "1", fdt_module.XmlBudget()).files[file.toi]
        allowed = origins.Origins([origins.url_of(base or f"{self.origin.url}/news/")])
        lack = lacking.Lack(Key(sender_bytes(SENDER), 7, FILE, file.toi), "", State("partial"))
        lack.numbers = of.information()
        lack.ranges = [*lacking.ranges_of(sorted(lost), lack)]
        urls = allowed.bases
        if not by_symbols:
            urls, refusal = origins.first_refusal([file.location], allowed)
            self.assertIsNone(refusal)
        lack.sources = [lacking.Source(of, urls, "")]
        spending = http.Spending(most, seconds)
        with contextlib.closing(Repair(http.Client(allowed, spending), by_symbols)) as repair:
            repair.run([lack], str(self.path("all")))
            out = io.BytesIO()
            fetched.write(out, [*repair.right.values()])
        is_complete = lack.key in repair.complete
        return Repaired(lack.why, out.getvalue(), is_complete, spending.received)

    def whole(self, name: str, file: Sent, lost: Sequence[int], **how: Any) -> None:
        """Asks in this process, and checks that what is lost comes."""
        came = self.ask(file, lost, **how)
        own = file.packets(7)
        self.same(name, came.out, datagram_files.content(own[at] for at in lost))
        self.holds(f"{name}: complete", came.is_complete and not came.why, came.why)

    def left(self, name: str, told: str, file: Sent, lost: Sequence[int], **how: Any) -> None:
        """Asks in this process, and checks that nothing comes, and what is told."""
        came = self.ask(file, lost, **how)
        self.holds(f"{name}: told", told in came.why, f"{came.why}, and not {told}")
        self.same(f"{name}: nothing is written", came.out, datagram_files.HEADER)

    def left_by_tool(self, name: str, told: str, words: str = "", **how: Any) -> Run:
        """Runs the tool, which leaves something and says so, and checks that OUT is empty."""
        done = self.repair(words, **how)
        self.check(name, done, 1, None, None)
        self.holds(f"{name}: told", told in done.err.decode(), done.err.decode()[-600:])
        self.holds(f"{name}: no traceback", b"Traceback" not in done.err, done.err)
        self.same(f"{name}: nothing is written", "more", datagram_files.HEADER)
        return done

    def json(self, done: Run) -> List[Dict[str, Any]]:
        return [json.loads(line) for line in done.lines()]
