"""Compares what servers say of a file: whether all answers are of one, the one described."""
from __future__ import annotations

import base64
import re
from typing import Dict, Iterator, Optional

from flutejoin_tools.fdt.fdt import File
from flutejoin_tools.repair.http import Answer, AnswerFault

TAG = re.compile(r'(W/)?"[!#-~]{0,200}"')
DATE = re.compile(r"[A-Za-z0-9 ,:]{1,40}")
# MD5 of the whole file (RFC 9530, and RFC 3230 before)
DIGEST = re.compile(r"(?:^|,)\s*md5\s*=\s*:?([A-Za-z0-9+/]{22}==):?\s*(?:,|$)", re.IGNORECASE)


class Validator:
    """The entity tag of a file, or else its date (RFC 9110, section 8.8)."""

    def __init__(self) -> None:
        self.tag_or_date: Optional[str] = None
        self.is_known = False

    def fields(self) -> Dict[str, str]:
        """The field of a request by which the server answers ranges of the same file alone."""
        if not self.tag_or_date or self.tag_or_date.startswith("W/"):
            return {}
        return {"If-Range": self.tag_or_date}

    def check(self, answer: Answer) -> None:
        """Raises AnswerFault if an answer is of another file than those before."""
        tag, date = answer.field("etag"), answer.field("last-modified")
        now = tag if TAG.fullmatch(tag) else date if DATE.fullmatch(date) else None
        if self.is_known and now != self.tag_or_date:
            raise AnswerFault("it changed there while it was fetched (its ETag or date)")
        self.tag_or_date, self.is_known = now, True


def digests(answer: Answer) -> Iterator[str]:
    """The MD5s that an answer says the whole file has, in base64."""
    for name in "repr-digest", "digest":
        found = DIGEST.search(answer.field(name))
        if found:
            yield found[1]
    if answer.status == 200 and "content-md5" in answer.fields:
        yield answer.field("content-md5")


def check_digest(answer: Answer, file: File) -> None:
    """Raises AnswerFault if a server says that a file, which is not encoded, has another MD5."""
    if not file.md5:
        return
    told = base64.b64encode(file.md5).decode()
    if any(digest != told for digest in digests(answer)):
        raise AnswerFault("there it has another MD5 than in the FDT Instance")
