#!/usr/bin/env python3
"""first_session.py FOLDER: makes what two stations received of a file, and a list of commands.

The file is sent as ten datagrams of session 7, object 1, with symbols of 8 bytes in one block. The
first station received the first six of them, the second all but the first three. FOLDER then has
`file`, the datagram files `received1` and `received2`, and in `cases` a file NAME.args for each run
of the program, with its words.
"""
from __future__ import annotations

import os
import struct
import sys

sys.dont_write_bytecode = True
import datagram_files

TEXT = b"A file is sent, each station loses other datagrams, and joined they have it.\n"
SYMBOL, BLOCK = 8, 16  # bytes of a symbol, symbols of a block
COMMANDS = [
    "join -o station1 received1",
    "gaps station1",
    "join -o station2 received2",
    "gaps station2",
    "join -o both station1 station2",
    "gaps both",
    "extract -o out --tsi 7 --toi 1 both",
]
FILES = ("received1", "received2", "station1", "station2", "both", "out")


def datagram(number: int) -> bytes:
    """The FLUTE packet of a symbol (docs/FORMATS.md, "The datagrams that are written")."""
    header = bytes.fromhex("10A0080000000000") + struct.pack(">II", 7, 1)
    information = b"\x40\x04" + struct.pack(">HIHHI", 0, len(TEXT), 0, SYMBOL, BLOCK)
    symbol = TEXT[number * SYMBOL : (number + 1) * SYMBOL]
    return header + information + struct.pack(">HH", 0, number) + symbol


def main() -> None:
    folder = sys.argv[1]
    sent = [datagram(number) for number in range(-(-len(TEXT) // SYMBOL))]
    datagram_files.write(os.path.join(folder, "received1"), sent[:6])
    datagram_files.write(os.path.join(folder, "received2"), sent[3:])
    with open(os.path.join(folder, "file"), "wb") as file:
        file.write(TEXT)
    cases = os.path.join(folder, "cases")
    os.mkdir(cases)
    for number, command in enumerate(COMMANDS, 1):
        # The program runs in a folder of its own.
        words = [
            os.path.join(folder, word) if word in FILES else word for word in command.split()
        ]
        with open(os.path.join(cases, f"{number}"), "wb"):
            pass  # standard input
        with open(os.path.join(cases, f"{number}.args"), "w", encoding="utf-8") as file:
            file.writelines(f"{word}\n" for word in words)


main()
