#!/usr/bin/env python3
"""lose.py IN OUT PERCENT SEED: copies a datagram file without some of its records.

OUT lacks about PERCENT of the records of IN. Which ones depends only on SEED, so the example is the
same each time.
"""
from __future__ import annotations

import random
import sys

sys.dont_write_bytecode = True
import datagram_files


def main() -> None:
    source, target, percent, seed = sys.argv[1], sys.argv[2], float(sys.argv[3]), int(sys.argv[4])
    draw = random.Random(seed)
    sent = datagram_files.read(source)
    kept = [datagram for datagram in sent if draw.random() * 100 >= percent]
    datagram_files.write(target, kept)


main()
