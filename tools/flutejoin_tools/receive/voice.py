"""The log of a receiver, for all of its modules and both of its threads."""
from __future__ import annotations

from flutejoin_tools.common.service_log import EACH, ServiceLog

LOG = ServiceLog("flutejoin-receive", most=None)
note = LOG.warn


class EachMinute:
    """Reports counts that rise: at once, and then once a minute while they rise."""

    def __init__(self) -> None:
        self.last: dict[str, tuple[float, int]] = {}  # by causes: when one was told, and its count

    def tell(self, cause: str, count: int, now: float, text: str = "left out {}: {}") -> None:
        """Reports how much this count has risen, unless its cause was reported a moment ago."""
        at, before = self.last.get(cause, (float("-inf"), 0))
        if count > before and now >= at + EACH:
            note(text.format(count - before, cause))
            self.last[cause] = now, count
