"""A service's log that keeps its lines."""
from __future__ import annotations

from flutejoin_tools.common.log import INFORMATION
from flutejoin_tools.common.service_log import ServiceLog


class KeptLog(ServiceLog):
    """Keeps the lines that a station or a centre would print."""

    def __init__(self, tool: str = "station", printed: list[str] | None = None) -> None:
        super().__init__(tool)
        self.printed: list[str] = [] if printed is None else printed

    def print(self, text: str, priority: int = INFORMATION) -> None:
        self.printed.append(text)
