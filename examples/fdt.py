#!/usr/bin/env python3
"""fdt.py TOI LOCATION FILE [TOI LOCATION FILE]..: prints an FDT Instance (RFC 6726) of files.

For each file these are the TOI of its object, the name that it gets, and the file that is sent. The
FDT Instance has no FEC OTI, since the packets of `flutejoin carousel` have it.
"""
from __future__ import annotations

import base64
import hashlib
import mimetypes
import sys
from xml.sax.saxutils import quoteattr

EXPIRES = 4294967295  # seconds since 1900: early in 2036


def entry(toi: str, location: str, name: str) -> str:
    """The File element of a file."""
    with open(name, "rb") as file:
        content = file.read()
    attributes = {
        "TOI": toi,
        "Content-Location": location,
        "Content-Length": str(len(content)),
        "Content-Type": mimetypes.guess_type(location)[0] or "application/octet-stream",
        "Content-MD5": base64.b64encode(hashlib.md5(content).digest()).decode(),
    }
    return "".join(f" {key}={quoteattr(value)}" for key, value in attributes.items())


def main() -> None:
    words = sys.argv[1:]
    if not words or len(words) % 3:
        print("usage: fdt.py TOI LOCATION FILE [TOI LOCATION FILE]..", file=sys.stderr)
        sys.exit(2)
    print('<?xml version="1.0" encoding="UTF-8"?>')
    print(f'<FDT-Instance xmlns="urn:ietf:params:xml:ns:fdt" Expires="{EXPIRES}">')
    for of_file in zip(words[::3], words[1::3], words[2::3]):
        print(f" <File{entry(*of_file)}/>")
    print("</FDT-Instance>")


main()
