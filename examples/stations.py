#!/usr/bin/env python3
"""stations.py SENT FOLDER COUNT PERCENT [FIRST]: makes COUNT datagram files in FOLDER.

Each is the datagram file SENT without about PERCENT of its records. They are s00000, s00001, .. (or
from sFIRST on). Which records each loses depends on its number alone, so they are the same each
time.
"""
from __future__ import annotations

import os
import random
import sys

sys.dont_write_bytecode = True
import datagram_files


def main() -> None:
    if len(sys.argv) not in (5, 6):
        sys.exit(__doc__)
    source, folder, count, percent = sys.argv[1], sys.argv[2], int(sys.argv[3]), float(sys.argv[4])
    first = int(sys.argv[5]) if len(sys.argv) == 6 else 0
    sent = list(datagram_files.read(source))
    os.makedirs(folder, exist_ok=True)
    for station in range(first, first + count):
        draw = random.Random(station)
        kept = [datagram for datagram in sent if draw.random() * 100 >= percent]
        datagram_files.write(os.path.join(folder, "s%05d" % station), kept)


main()
