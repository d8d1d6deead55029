"""A session: its files, as FDT Instances describe them and as journals hold them."""
from __future__ import annotations

import collections
import ipaddress
from typing import Callable, Iterator, NamedTuple, Optional

from flutejoin_tools.common.gaps import Numbers
from flutejoin_tools.common.texts import shown
from flutejoin_tools.fdt import fdt, names
from flutejoin_tools.fdt.content import ENCODINGS, Checked, Verdict
from flutejoin_tools.formats.entries import FILE
from flutejoin_tools.formats.partition import Partition, fault_of
from flutejoin_tools.journals.holdings import NOTHING, Held, Key
from flutejoin_tools.journals.states import MISSING, State

MOST_TOPS = 16  # FDT Instances of a session of which it is kept which files they describe
NUMBERS = 1 << 20  # of FDT Instances; after the last comes 0 (RFC 6726, section 3.4.1)
NO_NOTES: collections.Counter[str] = collections.Counter()


class Described(NamedTuple):
    """A description of a file. Of equal ones it is that of the newest FDT Instance."""

    file: fdt.File
    rank: tuple[int, int]
    instance: str
    number: Optional[int]  # of that FDT Instance

    def left_alone(self) -> str:
        """Why the object is left alone; empty if it is not."""
        if self.file.fec != fdt.NO_CODE:
            return f"FEC Encoding ID {self.file.fec}"
        if self.file.encoding and self.file.encoding not in ENCODINGS:
            return f"Content-Encoding {self.file.encoding}"
        return ""


BAD = Verdict.WRONG, Verdict.WRONG_MD5, Verdict.LEFT  # with these a session isn't done
APART = 1 << 112  # no TOI is so great: a further file of a TOI has its number and some times this


class Outcome(NamedTuple):
    """What became of a whole object."""

    checked: Checked
    path: str  # below the folder
    put: Optional[str]  # "new" or "changed"; None if the file was there already, unchanged


class Session:
    """A session: its FDT Instances, its files by TOI, and what is held of its objects."""

    def __init__(self, source: bytes, tsi: int) -> None:
        self.source, self.tsi = source, tsi
        self.heads: list[fdt.Instance] = []  # the FDT Instances, without their files
        self.tops: list[tuple[fdt.Instance, frozenset[int]]] = []  # the newest of them
        self.unread: dict[int, State] = {}  # FDT Instances that are not whole
        self.files: dict[int, Described] = {}
        self.others: dict[int, list[Described]] = {}  # further descriptions that differ
        self.held: dict[int, Held] = {}
        self.strays = 0  # objects that nothing describes, beside those that are held here
        self.states: dict[int, State] = {}
        self.checked: dict[int, Checked] = {}
        self.outcomes: dict[int, Outcome] = {}
        self.replaced: set[int] = set()
        self.proved: dict[int, Numbers] = {}  # transmission information that the MD5 shows
        self.resolved: dict[int, str] = {}  # what of an object was resolved
        self.unresolved: dict[int, str] = {}  # why symbols in conflict were not resolved
        self.suspects: dict[str, Described] = {}  # FDT Instances that are likely forged
        self.paths: dict[str, str] = {}  # of documents, by their names

    def title(self) -> str:
        return f"sender {address_of(self.source)} session {self.tsi}"

    def key(self, toi: int) -> Key:
        return Key(self.source, self.tsi, FILE, toi)

    def add(self, instance: fdt.Instance) -> None:
        """Adds an FDT Instance.

        Of several descriptions of a file that of the newest comes first, until one is verified.
        """
        rank = instance.rank()
        for toi, file in instance.files.items():
            known = self.described(toi)
            mine = Described(file, rank, instance.name, instance.number)
            same = next((each for each in known if each.file == file), None)
            if same is None or rank > same.rank:
                known = [each for each in known if each is not same] + [mine]
            known.sort(key=lambda each: each.rank, reverse=True)
            self.describe(toi, known)
        self.heads.append(instance._replace(files={}, notes=NO_NOTES))
        self.tops.append((self.heads[-1], frozenset(instance.files)))
        self.tops.sort(key=lambda top: top[0].rank(), reverse=True)
        del self.tops[MOST_TOPS:]

    def described(self, toi: int) -> list[Described]:
        """The descriptions of a file: first the one that counts."""
        first = self.files.get(toi)
        return [first, *self.others.get(toi, ())] if first else []

    def describe(self, toi: int, described: list[Described]) -> None:
        """Replaces the descriptions of a file: the first one counts."""
        self.files[toi] = described[0]
        if len(described) > 1:
            self.others[toi] = described[1:]

    def apart(self, toi: int, is_one: Callable[[Described], bool]) -> int:
        """Gives some of the descriptions a number of their own, and returns it."""
        number = max(it for it in self.files if it % APART == toi) + APART
        every, self.held[number] = self.described(toi), self.held[toi]
        self.others.pop(toi, None)
        self.describe(toi, [each for each in every if not is_one(each)])
        self.describe(number, [*filter(is_one, every)])
        return number

    def usable(self, toi: int) -> list[Described]:
        """The descriptions by which a file can be made, those of newer FDT Instances first."""
        usable = [each for each in self.described(toi) if not each.left_alone()]
        return sorted(usable, key=lambda each: each.rank, reverse=True)

    def is_encoded(self, toi: int) -> bool:
        """Whether a file may be made of an object by decoding it."""
        return any(each.file.encoding for each in self.usable(toi))

    def is_left_alone(self, toi: int) -> bool:
        """Whether no file is made of an object, since no description of it is usable."""
        return not self.usable(toi)

    def check(self, toi: int, checked: Checked, by: Described) -> None:
        """Notes the result of the check of an object, and by which description it was made."""
        self.checked[toi] = checked
        self.describe(toi, [by, *(each for each in self.described(toi) if each is not by)])

    def is_verified(self, toi: int) -> bool:
        return toi in self.checked and self.checked[toi].verdict is Verdict.VERIFIED

    @property
    def newest(self) -> Optional[fdt.Instance]:
        return self.newest_and_files()[0]

    def newest_and_files(self) -> tuple[Optional[fdt.Instance], frozenset[int]]:
        """The newest FDT Instance that is not suspect, and the files that it describes."""
        for instance, tois in self.tops:
            if instance.name not in self.suspects:
                return instance, tois
        return self.tops[0] if self.tops else (None, frozenset())

    def settle(self) -> None:
        """Notes which FDT Instances are suspect.

        These contradict several files that another description verifies, whose Instance is older,
        and verify none.
        """
        contradicted: collections.Counter[str] = collections.Counter()
        verified = set()
        by_name = {}
        for toi in filter(self.is_verified, self.files):
            verified.add(self.files[toi].instance)
            for other in self.others.get(toi, ()):
                if other.rank > self.files[toi].rank:
                    contradicted[other.instance] += 1
                    by_name[other.instance] = other
        for name, count in contradicted.items():
            if count > 1 and name not in verified:
                self.suspects[name] = by_name[name]

    def differences(self) -> Iterator[str]:
        """Yields lines about descriptions that differ, and which of them count."""
        for toi in sorted(self.others):
            one = self.files[toi]
            for other in self.others[toi]:
                attributes = one.file.differences(other.file)
                numbers = sorted((one, other), key=lambda it: it.rank, reverse=True)
                names = " and ".join(each.instance for each in numbers)
                yield (
                    f"{self.title()} object {toi % APART}: FDT Instances {names} differ in "
                    f"{attributes}; {one.instance} counts, {self.why(toi, other)}"
                )

    def why(self, toi: int, other: Described) -> str:
        """Why the first description of a file counts, and not another one."""
        one = self.files[toi]
        if self.is_verified(toi) and one.file.md5 != other.file.md5:
            return "whose MD5 the object has"
        if one.rank == other.rank:
            return "which was read first"
        if one.rank > other.rank:
            is_later = one.rank[0] != other.rank[0]
            return "which expires later" if is_later else "which has the greater number"
        if self.is_verified(toi):
            return "by which the object can be decoded"
        return "which has an MD5" if one.file.md5 else "by which a file can be made"

    def suspicions(self) -> Iterator[str]:
        """Yields lines about FDT Instances that are likely forged, and what removes them."""
        source = f" --source {self.source.hex()}" if any(self.source) else ""
        for name, described in sorted(self.suspects.items()):
            words = f"{self.title()}: FDT Instance {name} contradicts files whose MD5 is right, "
            words += "and none is as it says: it may be forged"
            if self.paths.get(name):
                words += f"; its file is {shown(self.paths[name])}"
            elif described.number is not None:
                words += f"; flutejoin forget{source} --tsi {self.tsi} --toi 0 "
                words += f"--fdt {described.number} -o J J removes it"
            yield words

    def tois(self) -> list[int]:
        """The objects that are described, or that are held in part, in order."""
        every = self.files.keys() | self.held.keys()
        return sorted(every, key=lambda number: (number % APART, number))

    def state(self, toi: int) -> State:
        return self.states.get(toi, MISSING)

    def added(self) -> Iterator[tuple[Key, Numbers]]:
        """Yields transmission information that an FDT Instance has and the journal lacks.

        Of an object of which nothing is received only if it is empty.
        """
        for toi in self.files:
            held, told = self.held.get(toi, NOTHING), self.numbers_in_fdt(toi)
            if not told or held.information or held.is_disputed:
                continue
            if held.symbols or not told[0][0]:
                yield self.key(toi), told[0]

    def numbers_in_fdt(self, toi: int) -> list[Numbers]:
        """The valid transmission information of FDT Instances, that of the newest first."""
        every = [each.file.information() for each in self.usable(toi)]
        return [*dict.fromkeys(each for each in every if each and not fault_of(*each))]

    def lengths(self, toi: int) -> list[Numbers]:
        """All transmission information that came: of packets, and of FDT Instances."""
        held = self.held.get(toi, NOTHING).information
        return [*dict.fromkeys(([held] if held else []) + self.numbers_in_fdt(toi))]

    def is_in_doubt(self, toi: int) -> bool:
        """Whether something differs about an object that is not verified."""
        if self.is_verified(toi):
            return False
        held, state = self.held.get(toi, NOTHING), self.state(toi)
        if not held.symbols:
            return False
        is_disputed = held.is_disputed or state.is_disputed
        return is_disputed or bool(self.md5s(toi)) and len(self.lengths(toi)) > 1

    def md5s(self, toi: int) -> list[bytes]:
        """The MD5s of a file by its descriptions, the newest first."""
        return [*dict.fromkeys(it.file.md5 for it in self.usable(toi) if it.file.md5)]

    def disagreements(self) -> Iterator[str]:
        """Yields lines about FEC OTI in the FDT that is not valid or contradicts the packets.

        An object that is left alone gets a line too.
        """
        for toi, described in sorted(self.files.items()):
            front = f"{self.title()} object {toi % APART}"
            told, fault = described.file.information(), described.file.fault()
            held = self.held.get(toi, NOTHING).information
            if self.is_left_alone(toi):
                yield f"{front}: {described.left_alone()}: left alone"
            elif fault:
                yield f"{front}: the FDT has transmission information that is not valid: {fault}"
            elif held and told and held != told and held[0] + told[0]:
                yield f"{front}: packets have {numbers(held)}, and the FDT has {numbers(told)}"

    def information(self, toi: int) -> tuple[int, int, int] | None:
        """The transmission information from packets, else from the FDT; None if unknown."""
        held = self.held.get(toi, NOTHING)
        if toi in self.proved:
            return self.proved[toi]
        described = self.files.get(toi)
        return held.information or (described.file.information() if described else None)

    def symbols(self, toi: int) -> int | None:
        """How many symbols an object has; None if that is unknown."""
        information = self.information(toi)
        if information is None or fault_of(*information):
            return None
        return Partition(*information).symbols

    def gaps_of_strays(self) -> int:
        """An upper bound of the number of gaps in objects that no FDT Instance describes."""
        found = 0
        for toi in self.held.keys() - self.files.keys():
            information = self.held[toi].information
            if information and not fault_of(*information):
                found += Partition(*information).blocks + self.held[toi].symbols
        return found

    def wanted_bytes(self, toi: int) -> int:
        """An upper bound of the missing bytes of an object."""
        length, symbol, _ = self.information(toi) or (0, 0, 0)
        return min(length, self.state(toi).wanted * symbol)

    def is_done(self) -> bool:
        """Whether each file of the newest FDT Instance is written, and none is wrong or left."""
        newest, tois = self.newest_and_files()
        if newest is None or any(map(self.may_be_newest(newest), self.unread.items())):
            return False
        if any(outcome.checked.verdict in BAD for outcome in self.outcomes.values()):
            return False
        described = [toi for toi in self.files if toi % APART in tois and toi >= APART]
        others = [toi for toi in described if self.files[toi].instance == newest.name]
        is_all = all(self.is_here(toi) and not self.has_rival(toi, newest) for toi in tois)
        return is_all and all(map(self.is_here, others))

    def may_be_newest(self, newest: fdt.Instance) -> Callable[[tuple[int, State]], bool]:
        """Whether an FDT Instance that is not whole may be newer than the newest one.

        As many numbers are newer as are older, since they begin again from 0. One in conflict is
        not counted if the user gave an FDT Instance as a file.
        """
        numbers = [head.number for head in self.heads if head.number is not None]
        is_given = len(numbers) < len(self.heads)
        last = newest.number
        if last is None:
            last = max(numbers) if numbers else None

        def is_newer(unread: tuple[int, State]) -> bool:
            number, state = unread
            if state.is_disputed and is_given:
                return False
            return last is None or 0 < (number - last) % NUMBERS < NUMBERS // 2

        return is_newer

    def has_rival(self, toi: int, newest: fdt.Instance) -> bool:
        """Whether a file is verified by another description than that of the newest Instance."""
        others = self.others.get(toi, ()) if self.is_verified(toi) else ()
        return any(each.instance == newest.name for each in others)

    def is_here(self, toi: int) -> bool:
        if self.is_left_alone(toi):
            return False
        outcome = self.outcomes.get(toi)
        if outcome:
            return outcome.checked.verdict is Verdict.VERIFIED
        return self.state(toi).is_whole()

    def certainty(self, toi: int) -> int:
        """How certain it is that a file is right: 3 if verified, or whole and not checked yet, 2 if
        it has no MD5, 1 if it is wrong, 0 if it is not there."""
        checked = self.checked.get(toi)
        if checked:
            return {Verdict.VERIFIED: 3, Verdict.NO_MD5: 2}.get(checked.verdict, 1)
        return 3 if self.state(toi).is_whole() and not self.is_left_alone(toi) else 0

    def claims(self) -> list[names.Claim]:
        """The paths that the files ask for, those of newer descriptions first."""
        described = sorted(self.files.items(), key=lambda of: ([-it for it in of[1].rank], of[0]))
        session = self.source, self.tsi
        return [
            names.Claim(
                self.key(toi),
                names.path_of(it.file.location),
                session,
                it.instance,
                it.rank,
                self.certainty(toi),
                f"{self.tsi}-{it.file.toi}",
            )
            for toi, it in described
        ]


def address_of(source: bytes) -> str:
    """A sender's address as text."""
    address = ipaddress.IPv6Address(source)
    return str(address.ipv4_mapped or address)


def numbers(information: tuple[int, int, int]) -> str:
    """Transmission information as flutejoin prints it."""
    return "length {} symbol {} block {}".format(*information)
