"""Which signals a process catches, so that tests send them when they are waited for."""
from __future__ import annotations

import pathlib


def catches(process: int, number: int) -> bool:
    """Whether a process catches or ignores a signal."""
    lines = pathlib.Path(f"/proc/{process}/status").read_text().splitlines()
    sets = [int(line.split()[1], 16) for line in lines if line.startswith(("SigCgt", "SigIgn"))]
    return any(each >> (number - 1) & 1 for each in sets)
