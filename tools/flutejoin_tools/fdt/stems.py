"""The names of files in a folder of FDT Instances, and the senders in them."""
from __future__ import annotations

import re
from typing import Optional

from flutejoin_tools.common.file_names import name_of

# SENDER-TSI-INSTANCE-HASH.xml
NAME = re.compile(r"(.+)-(\d{1,15})-(\d{1,7})-([0-9a-f]{16})\.xml", re.ASCII)
REST = ".fldg"  # the datagrams of those that are not whole yet, of one sender


def source_of(stem: str) -> Optional[bytes]:
    """The sender whose files have this stem; None if it is none."""
    name = name_of(stem + REST)
    if name is None or name.epoch > 1 or name.part > 1:
        return None
    packed = name.address.packed
    return packed if len(packed) == 16 else bytes(10) + b"\xff\xff" + packed
