#!/usr/bin/python3
"""join_on_dask.py SCHEDULER: for reduce.sh, runs each line of standard input by Dask.

SCHEDULER is an address, as tcp://scheduler:8786.
"""
from __future__ import annotations

import subprocess
import sys

from distributed import Client


def run(line: str) -> int:
    return subprocess.run(["sh", "-c", line], check=True).returncode


if __name__ == "__main__":
    client = Client(sys.argv[1])
    client.gather(client.map(run, sys.stdin.read().splitlines(), pure=False, retries=2))
