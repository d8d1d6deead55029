"""Tests flutejoin-repair with journals of several generations, as flutejoin-gather keeps them."""
from __future__ import annotations

from typing import Dict, Iterable, List, Sequence, Tuple

import datagram_files
from tests.repair.case import SENDER, Case, content
from tests.support import run
from tests.support.flute_sender import EXPIRES, Sent, fdt, instance
from tests.support.run import Run

TSI = 7
# The FDT Instance ID of a run of the sender, its files, and the symbols of each that are lost
Came = Tuple[int, Sequence[Sent], Dict[int, Sequence[int]]]


class Generations(Case):
    """A TOI that came with several contents: each is asked for where its MD5 fits."""

    def gather(self, *every: Came) -> None:
        """Has a station keep what came of several runs of a sender, in `kept`."""
        for at, (number, files, lost) in enumerate(every):
            packets = instance(TSI, number, fdt(files, EXPIRES + number))
            for file in files:
                own = enumerate(file.packets(TSI))
                packets += [it for place, it in own if place not in lost.get(file.toi, ())]
            name = f"{at}.fldg"
            datagram_files.write(str(self.path(name)), packets)
            self.gathered("--source", SENDER, name)

    def gathered(self, *words: object) -> Run:
        """Runs flutejoin-gather."""
        words = "-o", "kept", "--flutejoin", run.PROGRAM, *words
        done = self.tool("flutejoin-gather", words)
        self.check("gathered", done, 0, None, None)
        return done

    def kept(self) -> List[str]:
        return sorted(it.name for it in self.path("kept").glob("*.journal"))

    def mend(self, words: str = "") -> Run:
        """Runs flutejoin-repair on the journals that were gathered."""
        every = f"--base {self.origin.url}/news/ --flutejoin {run.PROGRAM} {words} -o more.fldg"
        return self.tool("flutejoin-repair", f"{every} kept/{SENDER}.journal")

    def mended(self, name: str, files: Iterable[Sent], words: str = "") -> Run:
        """Repairs, does what the line says, and compares the files with those of the origin."""
        done = self.mend(words)
        self.check(name, done, 0, None, "")
        line = done.lines()[-1]
        wanted = f"flutejoin-gather --source {SENDER} -o kept more.fldg"
        self.holds(f"{name}: the next step", line == wanted, line)
        self.gathered("--source", SENDER, "more.fldg")
        self.holds(f"{name}: no third generation", len(self.kept()) == 2, self.kept())
        self.absent(f"{name}: nothing is aside", "kept/aside")
        journal = f"kept/{SENDER}.journal"
        done = self.tool("flutejoin-files", f"--flutejoin {run.PROGRAM} -o files {journal}")
        self.check(f"{name}: files", done, None, None, None)
        for file in files:
            host, _, path = file.location.partition("://")[2].partition("/")
            self.same(f"{name}: {path}", f"files/{host}/{path}", file.content)
        return done

    def ranges(self) -> List[str]:
        return [request.fields["range"] for request in self.origin.requests]

    def two(self) -> Tuple[Sent, Sent]:
        """The contents of TOI 1 in two runs of the sender, each under its own name."""
        old = self.sent(1, content(1, 50_000), "/news/old.bin")
        return old, self.sent(1, content(2, 49_999), "/news/new.bin")

    def test_second_is_asked_for(self) -> None:
        """The first run's contents are whole; those of the second lack symbols that both lack."""
        old, new = self.two()
        self.gather((1, [old], {}), (2, [new], {1: [3, 30]}))
        self.holds("two journals", len(self.kept()) == 2, self.kept())
        self.mended("the second", [old, new])
        self.holds("what it lacks alone", self.ranges() == ["bytes=4200-5599,42000-43399"])

    def test_first_is_asked_for(self) -> None:
        """As the MD5 of the second is there, nothing is asked for by its description."""
        old, new = self.two()
        self.gather((1, [old], {1: [5]}), (2, [new], {}))
        self.mended("the first", [old, new])
        paths = [it.path for it in self.origin.requests]
        self.holds("by its own description", paths == ["/news/old.bin"], paths)

    def test_both(self) -> None:
        """Of an object one generation is written in a run, and the next run asks for the other."""
        old, new = self.two()
        self.gather((1, [old], {1: [5]}), (2, [new], {1: [5, 6]}))
        done = self.mend()
        self.check("the first run", done, 1, None, None)
        self.holds("the other is told", b"left to another run" in done.err, done.err)
        self.gathered("--source", SENDER, "more.fldg")
        self.remove("more.fldg")
        self.mended("the second run", [old, new])

    def test_same_name(self) -> None:
        """The older contents of a name are replaced by the newer ones that are there."""
        old = self.sent(1, content(1, 50_000), "/news/one.bin")
        new = self.sent(1, content(2, 49_999), "/news/one.bin")
        self.gather((1, [old], {1: [5]}), (2, [new], {}))
        done = self.mend()
        self.check("nothing is missing", done, 0, None, "")
        self.holds("nothing is asked for", self.origin.connections == 0)

    def test_other_length(self) -> None:
        """A description whose length does not fit a generation is not tried with it."""
        old = self.sent(1, content(1, 50_000), "/news/old.bin")
        new = self.sent(1, content(2, 70_000), "/news/new.bin")
        self.gather((1, [old], {1: [5]}), (2, [new], {1: [40]}))
        self.mend()
        asked = [(it.path, it.fields["range"]) for it in self.origin.requests]
        wanted = [("/news/old.bin", "bytes=7000-8399")]
        self.holds("each with its own", asked == wanted, asked)

    def test_no_md5(self) -> None:
        """Without an MD5 nothing tells which contents a server has."""
        old, new = self.two()
        for file in old, new:
            file.more["Content-MD5"] = None
        self.gather((1, [old], {1: [5]}), (2, [new], {1: [5, 6]}))
        done = self.mend()
        self.check("nothing is asked for", done, 1, None, None)
        self.holds("why", b"came with several contents, and no FDT" in done.err, done.err)
        self.holds("no server is asked", self.origin.connections == 0)

    def test_server_has_other_contents(self) -> None:
        """What comes and has no MD5 that is wanted is written into no generation."""
        old, new = self.two()
        self.gather((1, [old], {1: [5]}), (2, [new], {1: [5, 6]}))
        for path, data in [*self.origin.files.items()]:
            self.origin.files[path] = bytes(len(data))
        done = self.mend()
        self.check("nothing fits", done, 1, None, None)
        self.holds("why", b"its MD5 is wrong" in done.err, done.err)
        self.same("nothing is written", "more.fldg", datagram_files.HEADER)

    def test_other_objects(self) -> None:
        """Objects of one generation are repaired as ever, beside those of several."""
        old, new = self.two()
        more = self.sent(2, content(3, 50_000), "/news/more.bin")
        self.gather((1, [old, more], {1: [5], 2: [9, 10]}), (2, [new], {}))
        self.mended("both", [old, new, more])
