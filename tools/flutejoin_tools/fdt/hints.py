"""Notices that a sender sends an FDT Instance with other contents than before.

It decides nothing: what a sender sends again under other contents, `flutejoin-gather` and a station
see by comparing what they join. This only tells, at reception and in bounded memory, for which
senders that matters now.
"""
from __future__ import annotations

from typing import Iterator

from flutejoin_tools.fdt.instances import may_be_of_instance
from flutejoin_tools.formats.reading import packet_of
from flutejoin_tools.formats.records import Buffer

MOST_SYMBOLS = 4096  # symbols of a sender that are remembered


def told_of_instance(payload: Buffer) -> Iterator[tuple[bytes, int]]:
    """Yields the address of each fact about an FDT Instance in a datagram, and a hash of its value.

    Yields nothing if the datagram is of a file, or flutejoin refuses it.
    """
    packet = packet_of(payload)
    if packet is None or packet.instance is None:
        return
    instance = packet.tsi.to_bytes(6, "big") + packet.instance.to_bytes(3, "big")
    if packet.information is not None:
        yield instance, hash(packet.information)
    if packet.symbol:
        yield instance + packet.payload_id, hash(packet.symbol)


class Hint:
    """What is remembered of the FDT Instances that one sender sent: the most recent facts."""

    def __init__(self) -> None:
        self.hashes: dict[bytes, int] = {}
        self.has_changed = False  # an FDT Instance came with other contents

    def look(self, payload: Buffer) -> bool:
        """Looks at a datagram that may be of an FDT Instance.

        Returns whether it is the first that contradicts an earlier one.
        """
        if not may_be_of_instance(payload):
            return False
        changed = False
        for address, value in told_of_instance(payload):
            changed |= self.hashes.pop(address, value) != value
            self.hashes[address] = value
        while len(self.hashes) > MOST_SYMBOLS:
            del self.hashes[next(iter(self.hashes))]
        is_first = changed and not self.has_changed
        self.has_changed |= changed
        return is_first


TOLD = "changes an FDT Instance: flutejoin-gather keeps apart what differs"
