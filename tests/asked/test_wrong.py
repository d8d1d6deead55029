"""Tests of a centre whose stations don't answer, or answer what is wrong: it tells that, asks
again, and what is kept stays as it was."""
from __future__ import annotations

import json
import random
from typing import Optional
from unittest import mock

from flutejoin_tools.exchange import asked as exchange_asked
from flutejoin_tools.exchange import ssh_calls
from flutejoin_tools.journals.sums import sum_of
from flutejoin_tools.pages.telling import Telling
from tests.asked.case import AskedCase
from tests.asked.test_centre import files_of, rounds
from tests.centre.case import announced, file_of, packets
from tests.support import run
from tests.support.flute_sender import EXPIRES, Sent

KEPT = "gathered", "asked/north/told", "asked/north/fdt", "fdt", "files"


# Changes the values in an answer
LYING = """
import re
found = re.search(rb'values [0-9a-f]{16} (\\d+)\\n', data)
if found:
    at, size = found.end(), int(found[1])
    values = data[at : at + size]
    @
    data = data[: found.start(1)] + b'%d\\n' % len(values) + values + data[at + size :]
"""


def when(kind: str, words: str) -> dict[str, str]:
    """What ssh does wrong to an answer, if the request is of this kind."""
    return {"after": f"if b'\\n{kind} ' in request:\n {words}"}


class Wrong(AskedCase):
    names = ("north",)

    def setUp(self) -> None:
        super().setUp()
        self.stations["north"].loss = 0
        self.all = [file_of(toi, 30_000) for toi in (1, 2, 3)]

    def kept(self) -> dict[str, dict[str, bytes]]:
        """What is kept at the centre; but for what only says how it was asked."""
        found = {folder: self.contents(folder) for folder in KEPT}
        return {
            folder: {name: data for name, data in of.items() if not name.endswith(".partial")}
            for folder, of in found.items()
        }

    def fault(self) -> Optional[str]:
        return self.centre.arrivals[0].fault

    def again(self) -> None:
        """Asks the stations again at once, instead of after a while."""
        assert self.asker
        assert self.asker
        for each in self.asker.stations:
            each.delay = 0
        self.ask()

    def refuses(self, name: str, told: str, before: str = "", after: str = "") -> None:
        """An answer that is wrong changes nothing, and is told. Of symbols that are wanted: what
        the station told before is taken."""
        kept = self.kept()
        if "want" in before + after:
            kept = {folder: kept[folder] for folder in ("gathered", "files")}
        self.wrong("north", before, after)
        self.ask()
        fault = self.fault() or ""
        self.holds(f"{name}: told", fault and told in fault, (fault, self.told.printed[-3:]))
        self.same_kept(name, kept)
        self.wrong("north")

    def same_kept(self, name: str, kept: dict[str, dict[str, bytes]]) -> None:
        """Checks that what is kept is as it was, but for marks."""
        now = self.kept()
        for folder, of in kept.items():
            paths = of.keys() | now[folder].keys()
            changed = {path for path in paths if of.get(path) != now[folder].get(path)}
            self.holds(f"{name}: {folder} stays", not changed - {"mark"}, changed)

    def is_right(self, files: list[Sent]) -> None:
        self.again()
        told = self.told.printed[-5:]
        self.holds("then it is delivered", self.files() == self.wanted(files), told)
        self.holds("and no fault is left", self.fault() is None, self.fault())

    def test_cut(self) -> None:
        """What is new, and what was wanted, cut at many places: by an end, and by a failure."""
        draw, sent = random.Random(4), announced(self.all)
        for at, file in enumerate(self.all):
            self.stations["north"].hear(sent + packets([file]))
            for kind in "new", "want":
                for number, place in enumerate((0.0, 0.02, 0.5, 0.9, 0.999, draw.random())):
                    cut = f"data = data[: int({place} * len(data))]; status = {number % 2}"
                    told = "" if number % 2 else "answer"
                    self.refuses(f"{kind} {place}", told, **when(kind, cut))
                    self.put_off()
            self.is_right(self.all[: at + 1])

    def put_off(self) -> None:
        """The next request comes at once."""
        assert self.asker
        for each in self.asker.stations:
            each.delay, each.next_try = 0, float("-inf")

    def test_other_versions(self) -> None:
        self.hears_all()
        for line in (b"flutejoin answer 2\n", b"SSH-2.0-OpenSSH\r\n", b"Welcome!\n"):
            after = f"data = {line!r} + data[19:]"
            self.refuses(repr(line), "no answer that is known here", after=after)
            self.put_off()
        self.is_right(self.all)

    def hears_all(self) -> None:
        self.stations["north"].hear(announced(self.all) + packets(self.all))

    def test_other_answers(self) -> None:
        """An answer to another request, or of another order."""
        self.hears_all()
        end = "data = data[:-4] + b'values 0123456789abcdef 0\\nend\\n'"
        for name, told, after in (
            ("a mark", "to another request", f"data = data.replace(b'none', b'{'0' * 32}', 1)"),
            ("no mark", "0 lines of mark", "data = data[: data.rindex(b'mark')] + b'end\\n'"),
            ("values", "not asked for", end),
            ("twice", "goes on after its end", "data = data + data"),
            ("a journal twice", "", "data = data[:-4] + data[data.index(b'journal'):]"),
        ):
            self.refuses(name, told, after=after)
            self.put_off()
        self.is_right(self.all)

    def test_too_long(self) -> None:
        """Of what is new, and of what was wanted: more than may come."""
        self.hears_all()
        endless = "sys.stdout.buffer.write(b'flutejoin answer 1\\n')\n while True:\n"
        endless += "  sys.stdout.buffer.write(b'wait\\n' * 100_000)"
        with mock.patch.object(exchange_asked, "MOST_BYTES", 1 << 22):
            self.refuses("new", "the answer is too long", when("new", endless)["after"])
        self.put_off()
        self.refuses("want", "the answer is too long", when("want", endless)["after"])
        self.put_off()
        self.is_right(self.all)

    def test_never_ends(self) -> None:
        """Nothing comes, or ever a little: it is ended, and asked again."""
        self.hears_all()
        with mock.patch.object(ssh_calls, "STALL", 0.3):
            self.refuses("nothing", "nothing came for", before="time.sleep(600)")
        self.put_off()
        little = "while True:\n sys.stdout.buffer.write(b'wait\\n')\n"
        little += " sys.stdout.flush()\n time.sleep(0.01)"
        with mock.patch.object(exchange_asked, "SECONDS_NEW", 1):
            self.refuses("ever a little", "it takes too long", before=little)
        self.put_off()
        self.is_right(self.all)

    def pause(self) -> None:
        """Waits until all calls of the centre have ended."""
        assert self.asker
        for each in self.asker.stations:
            if each.call:
                run.until(each.call.is_over)

    def lying(self, words: str) -> None:
        """Has the values that the station answers changed by some words, on `values`."""
        self.wrong("north", after=LYING.replace("@", words.replace("\n", "\n    ")))

    def test_other_values(self) -> None:
        """Symbols that are not as they were told are left out, and told; others are taken."""
        self.hears_all()
        self.lying("values = values.replace(values[2000:2010], bytes(10))")
        self.ask()
        self.holds("it is told", any("not as they were told" in it for it in self.told.printed))
        self.holds("the others are delivered", len(self.lines()) == 2, self.lines())
        right = self.wanted(self.all)
        self.holds("rightly", all(right[name] == data for name, data in self.files().items()))
        before = self.sent()
        self.wrong("north")
        self.ask()
        self.holds("it is not asked for as it was told", self.sent() - before < 1000)
        self.open()
        self.is_right(self.all)

    def test_other_objects(self) -> None:
        """Symbols of another TOI, session or sender than was asked for."""
        self.hears_all()
        for place, name in ((36, "TOI"), (21, "TSI"), (15, "sender")):
            self.lying(
                "values = bytearray(values)\n"
                "for at in range(6, len(values) - 9, 1444):\n"
                f"    values[at + 1 + {place}] ^= 64\n"
                "values = bytes(values)"
            )
            self.put_off()
            self.open()
            self.ask()
            self.holds(f"{name}: nothing is delivered", not self.lines())
            kept = self.contents("gathered")
            self.holds(f"{name}: nothing is kept", not kept, kept.keys())
        self.wrong("north")
        self.open()
        self.is_right(self.all)

    def test_values_that_are_none(self) -> None:
        """A journal that is cut, or none; of a version that isn't known."""
        self.hears_all()
        for words in (
            *("values = values[:-20]", "values = b''", "values = b'x' * len(values)"),
            "values = b'FLJN\\0\\7' + values[6:]",
            "values = values[:6] + b'\\x77' + values[7:]",
        ):
            self.lying(words)
            self.ask()
            self.holds(f"{words}: told", self.fault(), self.told.printed)
            self.holds(f"{words}: nothing is kept", not self.contents("gathered"))
            told = [it for it in self.contents("asked/north/told") if it.endswith(".kept")]
            self.holds(f"{words}: what was told stays", len(told) == 1, told)
            self.put_off()
        self.wrong("north")
        self.is_right(self.all)

    def test_what_is_damaged_here(self) -> None:
        """A journal of what came that is damaged is set aside, and what it had is asked for
        again."""
        sent = packets(self.all)
        self.stations["north"].hear(announced(self.all) + sent[:30])
        self.ask()
        self.holds("one is delivered", len(self.lines()) == 1)
        (journal,) = self.path("centre/gathered").glob("*.journal")
        data = journal.read_bytes()
        journal.write_bytes(data[:6] + b"\x77" + data[7:])
        self.stations["north"].hear(sent[30:40])
        self.ask()
        told = [it for it in self.told.printed if "is damaged" in it]
        self.holds("it is told", len(told) == 1 and "centre/aside/" in told[0], self.told.printed)
        self.stations["north"].hear(sent[40:])
        self.is_right(self.all)

    def test_sums_that_are_wrong(self) -> None:
        """Who tells sums of what it hasn't only harms itself."""
        self.hears_all()
        told = sum_of(self.all[0].content[:1400])
        self.wrong("north", after=f"data = data.replace({told!r}, {bytes(range(8))!r})")
        self.ask()
        self.holds("the others are delivered", len(self.lines()) == 2)
        self.wrong("north")
        self.stations["north"].hear(announced([file_of(9)], 9) + packets([file_of(9)]))
        self.ask()
        self.holds("and new ones", len(self.lines()) == 3, self.told.printed)

    def test_names_that_are_hostile(self) -> None:
        """FDT Instances and journals are named by numbers alone."""
        self.hears_all()
        for old, new in (
            (b"document ", b"document ../../../x "),
            (b"journal ", b"journal ../../x "),
            (b" kept ", b" ../kept "),
            (b"mark ", b"mark ../x"),
        ):
            self.refuses(repr(new), "", after=f"data = data.replace({old!r}, {new!r}, 1)")
            self.put_off()
        self.is_right(self.all)
        names = [path for path in self.folder.parent.rglob("x*") if path.name in ("x", "xkept")]
        self.holds("nothing has such a name", not names, names)


class Away(AskedCase):
    def test_one_is_away(self) -> None:
        """It is told in the log, the status and the page, and asked again with a growing pause; the
        others' files are delivered, and its own once it is back."""
        files = files_of(1, range(1, 6))
        self.wrong("south", before="sys.exit('ssh: connect to host south: No route to host')")
        for name, station in self.stations.items():
            station.loss = 0 if name == "south" else 0.3
        late = file_of(99, 30_000)
        self.stations["south"].hear(announced([late], 9) + packets([late]))
        self.hear(rounds(files, 1, EXPIRES, 4), 10**6)
        self.holds("the others' are delivered", self.files() == self.wanted(files))
        said = [it for it in self.told.printed if "station south: no answer" in it]
        self.holds("it is said", len(said) == 1 and "No route to host" in said[0], said)
        assert self.asker
        (south,) = [it for it in self.asker.stations if it.name == "south"]
        delays = []
        for _ in range(8):
            self.ask()
            delays.append(south.delay)
        wanted = [20, 40, 80, 160, 300, 300, 300, 300]
        self.holds("the pause grows, to a bound", delays == wanted, delays)
        said = [it for it in self.told.printed if "station south: no answer" in it]
        self.holds("it is said once", len(said) == 1, said)
        telling = Telling(self.centre, self.told)
        telling.write()
        status = json.loads(self.read("centre/page/status.json"))
        (row,) = [it for it in status["stations"] if it["name"] == "south"]
        self.holds("in the status", "No route to host" in row["fault"], row)
        self.holds("as a warning", status["level"] == "WARNING", status["level"])
        page = self.read("centre/page/index.html").decode()
        self.holds("and the page", "station south: no answer" in page)
        self.wrong("south")
        self.ask()
        self.holds("it is back", any("answers again" in it for it in self.told.printed))
        self.holds("its file is delivered", self.files() == self.wanted([*files, late]))
        telling.write()
        status = json.loads(self.read("centre/page/status.json"))
        self.holds("no fault is left", all(it["fault"] is None for it in status["stations"]))

    def test_status_comes_along(self) -> None:
        told = {"free": 12345, "refused": 3, "time": "2026-01-01T00:00:00Z"}
        self.write("north/status.json", json.dumps(told))
        self.write("south/status.json", "no JSON")
        self.ask()
        telling = Telling(self.centre, self.told)
        telling.write()
        status = json.loads(self.read("centre/page/status.json"))
        rows = {it["name"]: it for it in status["stations"]}
        found = rows["north"]["free"], rows["north"]["refused"]
        self.holds("of north", found == (12345, 3), rows)
        self.holds("of south there is none", rows["south"]["free"] is None, rows)

    def test_goes_away_in_the_middle(self) -> None:
        """Of what one told and didn't give, another one gives it."""
        file = file_of(1, 140_000)
        for station in self.stations.values():
            station.loss = 0
        for name in "north", "south":
            self.stations[name].hear(announced([file]) + packets([file]))
        gone = "if b'\\nwant ' in request:\n sys.exit('Connection closed')"
        self.wrong("north", before=gone)
        self.wrong("south", after="if b'\\nwant ' in request:\n data = data[:50_000]")
        self.ask()
        faults = {it.station.name for it in self.centre.arrivals if it.fault}
        self.holds("two are told", faults == {"north", "south"}, faults)
        self.stations["west"].hear(packets([file]))
        self.ask()
        self.holds("it is delivered", [*self.files().values()] == [file.content])
        asked = len(self.asked("north"))
        self.wrong("north")
        self.wrong("south")
        assert self.asker
        for each in self.asker.stations:
            each.delay = 0
        self.ask()
        wants = [it for it in self.asked("north")[asked:] if it.startswith("want ")]
        self.holds("it isn't asked for again", not wants, wants)
        self.holds("no fault is left", not any(it.fault for it in self.centre.arrivals))

    def test_no_ssh(self) -> None:
        (self.bin / "ssh").unlink()
        with mock.patch.dict("os.environ", {"PATH": str(self.bin)}):
            self.ask()
        fault = self.centre.arrivals[0].fault or ""
        self.holds("it is told", "No such file" in fault, fault)
