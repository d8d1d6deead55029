"""Counts what files take of the disk: whole blocks."""
from __future__ import annotations

import os

MOST_BYTES = (1 << 32) - 1  # of a datagram file, so that it fits on any file system
# Bytes in which systems count the blocks of a file, and those of a block on most of them
UNIT, BLOCK = 512, 4096


def blocks_of(found: os.stat_result) -> int:
    """The bytes of the disk that a file takes."""
    return found.st_blocks * UNIT


def disk_bytes(size: int) -> int:
    """The bytes of the disk that a file of so many bytes will likely take."""
    return -(-size // BLOCK) * BLOCK
