"""Runs of tools/flutejoin-files for tests, each in a folder of its own."""
from __future__ import annotations

import base64
import hashlib
import os
import pathlib
import random
import resource
import shutil
import subprocess
import sys
import tempfile
import unittest
from typing import Any

import datagram_files
from tests.support.flute_sender import Sent, fdt, instance
from tests.support.run import PROGRAM, ROOT

TOOL = ROOT / "tools" / "flutejoin-files"
MEMORY = 64 << 20  # bytes of data that a run may have in memory
LONGEST = 300  # seconds of a run
SENDER = "10.9.0.1"


def text(toi: int, size: int = 5000) -> bytes:
    """The content of a file, which compresses well."""
    return bytes(random.Random(toi).choices(b"abcdefgh \n", k=size))


def md5(data: bytes) -> str:
    return base64.b64encode(hashlib.md5(data).digest()).decode()


class Answer:
    """The result of a run of the tool."""

    def __init__(self, done: subprocess.CompletedProcess[bytes]) -> None:
        self.status = done.returncode
        self.out, self.err = (data.decode() for data in (done.stdout, done.stderr))


class Case(unittest.TestCase):
    environment: dict[str, str] = {}  # beside that of the test
    memory = MEMORY

    def setUp(self) -> None:
        self.folder = pathlib.Path(tempfile.mkdtemp())
        self.addCleanup(shutil.rmtree, self.folder)
        self.runs = self.folder / "runs"
        self.program = self.folder / "flutejoin"
        self.program.write_text(f'#!/bin/sh\necho "$1" >> {self.runs}\nexec {PROGRAM} "$@"\n')
        self.program.chmod(0o755)
        (self.folder / "tmp").mkdir()

    def start(self, *words: object, **more: Any) -> subprocess.Popen[bytes]:
        command = [sys.executable, TOOL, "--flutejoin", self.program, *words]
        environment = {**os.environ, "TMPDIR": str(self.folder / "tmp"), **self.environment}
        return subprocess.Popen(
            [*map(str, command)],
            cwd=self.folder,
            env=environment,
            stdout=subprocess.PIPE,
            stderr=subprocess.PIPE,
            preexec_fn=lambda: resource.setrlimit(resource.RLIMIT_DATA, (self.memory, -1)),
            **more,
        )

    def files(self, *words: object, status: int | None = 0) -> Answer:
        """Runs the tool, and checks that it leaves nothing but FOLDER and prints no traceback."""
        self.runs.write_text("")
        child = self.start(*words)
        self.addCleanup(child.kill)
        out, err = child.communicate(timeout=LONGEST)
        answer = Answer(subprocess.CompletedProcess([], child.returncode, out, err))
        told = f"{words}: {answer.out[-1500:]}{answer.err[-1500:]}"
        if status is not None:
            self.assertEqual(answer.status, status, told)
        self.assertNotIn("Traceback", answer.err)
        self.assertNotRegex(answer.out + answer.err, "[^\n -~\u00a0-\U0010ffff]")
        self.assertEqual([*self.folder.rglob("*.partial"), *(self.folder / "tmp").iterdir()], [])
        return answer

    def journal(self, name: str, *of: list[bytes], sender: str = SENDER) -> str:
        """Makes a journal of packets, and returns its name."""
        sent = [packet for group in of for packet in group]
        datagrams = self.folder / f"{name}.fldg"
        datagrams.write_bytes(datagram_files.content(sent))
        words = "join", "--source", sender, "-o", self.folder / name, datagrams
        done = subprocess.run([PROGRAM, *map(str, words)], capture_output=True, timeout=LONGEST)
        self.assertEqual((done.returncode, b"refused 0" in done.stdout), (0, True), done)
        return name

    def session(self, name: str, files: list[Sent], **root: Any) -> str:
        """Makes a journal of a session whose FDT Instance 1 describes these files."""
        sent = [file.packets(7) for file in files]
        return self.journal(name, instance(7, 1, fdt(files, **root)), *sent)

    def tree(self, folder: str = "files") -> dict[str, bytes]:
        """The files in a folder, by their paths there."""
        root = self.folder / folder
        paths = [path for path in root.rglob("*") if path.is_file()]
        return {str(path.relative_to(root)): path.read_bytes() for path in paths}
