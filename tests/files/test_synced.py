"""Tests of how often a run of flutejoin-files waits for the disk. They are skipped where strace is
not installed, or may not trace."""
from __future__ import annotations

import gzip
import random
import shutil
import subprocess

from tests.files.case import Case, md5, text
from tests.support.flute_sender import Sent
from tests.support.run import PROGRAM

FILES = 40
OTHERS = 8  # calls that are not of a file, as of folders
STRACE = "strace -f -qq -e trace=fsync,fdatasync,syncfs"


class Synced(Case):
    memory = -1  # strace has its own

    def setUp(self) -> None:
        super().setUp()
        tried = [*STRACE.split(), "-o", "/dev/null", "true"]
        if not shutil.which("strace") or subprocess.run(tried, capture_output=True).returncode:
            self.skipTest("strace is not installed, or may not trace")
        self.log = self.folder / "log"
        self.program.write_text(f'#!/bin/sh\nexec {STRACE} -A -o {self.log} {PROGRAM} "$@"\n')

    def calls(self, *words: object) -> int:
        """How many such calls the runs of the program make, of a run of the tool."""
        self.log.write_text("")
        self.files(*words)
        return self.log.read_text().count("sync(") + self.log.read_text().count("syncfs(")

    def test_only_new_files(self) -> None:
        """Each new file once, and none that is there or that nobody keeps."""
        sent = [Sent(toi, text(toi), f"http://h/{toi}") for toi in range(1, FILES + 1)]
        self.session("all", sent)
        first = self.calls("-o", "files", "all")
        self.assertEqual(len(self.tree()), FILES)
        self.assertLessEqual(first, FILES + OTHERS)
        self.assertGreaterEqual(first, FILES)
        self.assertLessEqual(self.calls("-o", "files", "all"), OTHERS)
        self.assertEqual(self.calls("--list", "all"), 0)

    def test_no_large_object_that_is_decoded(self) -> None:
        """It is decoded from an output that nobody syncs; the file is synced with all others."""
        sent = []
        for toi in range(1, FILES + 1):
            content = random.Random(toi).randbytes(70_000)
            more = {"Content-Encoding": "gzip", "Content-MD5": md5(content)}
            sent.append(Sent(toi, content, f"http://h/{toi}", gzip.compress(content), more=more))
        self.session("all", sent)
        self.assertLessEqual(self.calls("-o", "files", "all"), OTHERS)
        made = {f"h/{each.toi}": each.content for each in sent}
        self.assertEqual(self.tree(), made)


class Apart(Case):
    """A large object that is to be decoded goes through the standard output of a run."""

    def test_a_run_that_fails_leaves_nothing_wrong(self) -> None:
        content = random.Random(1).randbytes(100_000)
        more = {"Content-Encoding": "gzip", "Content-MD5": None}
        sent = Sent(1, content, "http://h/1", gzip.compress(content), more=more)
        self.session("all", [sent])
        for how, status in ("exit 3", 3), ("kill -9 $$", 3), ("exit 1", 1):
            program = f'{PROGRAM} "$@"'
            cases = f'*"-o - "*) {program} | head -c 50000; {how};; *) exec {program};;'
            self.program.write_text(f'#!/bin/sh\ncase "$*" in {cases} esac\n')
            self.files("-o", "files", "all", status=status)
            self.assertEqual(self.tree(), {"h/1": content} if status == 1 else {}, how)
