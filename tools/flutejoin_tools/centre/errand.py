"""One repair of a centre, by a process of its own: deliveries go on meanwhile, and a kill of it
loses nothing but what it fetched.

It is given FOLDER, which has `job.json` (`Job`), and gets `result.json`.

What stations have of some objects of a sender is put together by what agrees, what is missing is
asked for, and what came goes as one journal to the folder of the origin, which is taken like a
station's.
"""
from __future__ import annotations

import json
import os
from typing import Any, List, Mapping, NamedTuple, Optional, Sequence

from flutejoin_tools.centre.pending import ENDING, copies, journals_in
from flutejoin_tools.centre.rounds import Chosen
from flutejoin_tools.common.faults import Fault
from flutejoin_tools.common.log import INFORMATION, Log
from flutejoin_tools.common.outputs import replace_text
from flutejoin_tools.common.places import Scratch
from flutejoin_tools.common.program import Failed, Program
from flutejoin_tools.common.shelves import Shelf, begin_file, bring_to_disk
from flutejoin_tools.common.signals import answer_stops, end_run, exit_status
from flutejoin_tools.fdt.instances import Found
from flutejoin_tools.fdt.names import stem_of
from flutejoin_tools.files.delivery import Delivery
from flutejoin_tools.formats.entries import FILE
from flutejoin_tools.gather.gathering import Gathering
from flutejoin_tools.gather.generations import generation
from flutejoin_tools.journals.holdings import Copy, Key
from flutejoin_tools.repair.lacking import Located
from flutejoin_tools.repair.repairs import Result, repair, settings_of

JOB, RESULT = "job.json", "result.json"
TRIES = 3  # of reading journals that are replaced meanwhile


class Job(NamedTuple):
    """What is to be done."""

    program: str
    table: Mapping[str, Any]  # the section [repair]
    most: int  # bytes that may come
    pending: Sequence[str]  # the folders of what stations have
    out: str  # the folder that gets what came
    source: str  # the sender, by hexadecimal digits
    objects: Sequence[Sequence[int]]  # the TSI and the TOI of each
    documents: Sequence[Sequence[Any]]  # their FDT Instances: path, TSI, number and digest

    def keys(self) -> List[Key]:
        """The objects of the job."""
        source = bytes.fromhex(self.source)
        return [Key(source, tsi, FILE, toi) for tsi, toi in self.objects]

    def found(self) -> List[Found]:
        """The FDT Instances of the job, as files of a folder."""
        source = bytes.fromhex(self.source)
        return [Found(path, source, *of) for path, *of in self.documents]


class Quiet(Log):
    """Says nothing: the result tells it."""

    def warn(self, text: str, priority: int = INFORMATION) -> None:
        pass


class Gathered(NamedTuple):
    """What stations have of the objects of a job."""

    journal: str
    job: Job

    @property
    def source(self) -> Optional[bytes]:
        return bytes.fromhex(self.job.source)

    def read(self, program: Program, scratch: Scratch, catalogue: Located) -> Delivery:
        """Reads what the journal has, and describes the objects of the job alone."""
        delivery = Chosen(program, [self.journal], scratch, catalogue, self.job.found())
        delivery.read((), [])
        catalogue.leave_out_others(frozenset(self.job.keys()))
        return delivery


class Errand:
    """The work of one process, in the folder that it is given."""

    def __init__(self, folder: str, job: Job) -> None:
        self.folder, self.job = folder, job
        self.program, self.report = Program(job.program, lambda: None), Quiet("repair")

    def at(self, name: str) -> str:
        return os.path.join(self.folder, name)

    def run(self) -> dict[str, object]:
        """Repairs, and returns what is told of it."""
        settings = settings_of(self.job.table)._replace(most=self.job.most)
        gathered, out = Gathered(self.gather(), self.job), self.at("came.fldg")
        program = Program(self.job.program)
        result = repair(settings, gathered, out, program, self.report)
        if result.datagrams:
            self.bring(out)
        return told_of(result)

    def gather(self) -> str:
        """Puts together by what agrees what stations have. Returns the path of the journal."""
        for left in reversed(range(TRIES)):
            try:
                return self.gather_once(str(left))
            except FileNotFoundError:
                if not left:
                    raise
        raise AssertionError

    def gather_once(self, name: str) -> str:
        """As `gather`; raises FileNotFoundError if a journal was replaced meanwhile."""
        copied, joined = self.at(f"copied{name}"), self.at(f"joined{name}")
        for folder in copied, joined:
            os.mkdir(folder)
        keys = frozenset(self.job.keys())
        paths = [path for folder in self.job.pending for path in journals_in(folder)]
        gathering = Gathering(joined, self.program, self.report)
        try:
            for path in copies(paths, keys, copied):
                gathering.take(path)
        finally:
            gathering.end()
        stem = stem_of(bytes.fromhex(self.job.source))
        path = os.path.join(joined, generation(stem, 1))
        if not os.path.exists(path):  # nothing was received of any
            with begin_file(path) as out:
                Copy(out).finish()
        return path

    def bring(self, path: str) -> None:
        """Makes a journal of what came, and gives it its name once it is on the disk."""
        source, new = bytes.fromhex(self.job.source), self.at(f"came{ENDING}")
        answer = self.program.join(source, new, [path])
        if answer.status:
            raise Failed(answer)
        bring_to_disk(new)
        os.makedirs(self.job.out, exist_ok=True)
        kept = Shelf(self.job.out).next(stem_of(source), ENDING)
        os.rename(new, kept)
        bring_to_disk(kept)


def told_of(result: Result) -> dict[str, object]:
    """The result of a repair, in the words of the job."""
    every = [*((lack, True) for lack in result.complete), *((lack, False) for lack in result.left)]
    return {
        "line": result.line(),
        "asked": result.asked,
        "requests": result.requests,
        "fetched": result.received,
        "datagrams": result.datagrams,
        "spent": result.spent,
        "files": [
            {"tsi": lack.key.tsi, "toi": lack.key.number, "told": "" if is_complete else lack.why}
            for lack, is_complete in every
        ],
    }


def main(folder: str) -> int:
    """Runs a repair that the centre of this folder asks for, and returns its status."""
    report = Log("flutejoin-repair")

    def work() -> None:
        answer_stops(end_run)
        with open(os.path.join(folder, JOB), encoding="utf-8") as file:
            job = Job(**json.load(file))
        told: dict[str, object] = {}
        try:
            told = Errand(folder, job).run()
        except (Fault, Failed) as fault:
            told = {"fault": str(fault)}
        except OSError as fault:
            told = {"fault": f"{fault.filename or folder}: {fault.strerror}"}
        replace_text(os.path.join(folder, RESULT), json.dumps(told))

    return exit_status(work, report)
