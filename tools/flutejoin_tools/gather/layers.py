"""Parts the datagrams of a batch that contradicts itself, by time, into layers: each is a datagram
file without a contradiction, of which a journal is joined."""
from __future__ import annotations

import contextlib
import os
from typing import AbstractSet, BinaryIO, Callable, Collection, Iterable, Iterator, NamedTuple
from typing import Optional

from flutejoin_tools.common.file_names import PARTIAL
from flutejoin_tools.common.program import Answer, Failed
from flutejoin_tools.common.shelves import begin_file, remove
from flutejoin_tools.formats.entries import FILE
from flutejoin_tools.formats.reading import packet_of
from flutejoin_tools.formats.records import HEADER, LENGTH
from flutejoin_tools.gather.generations import Contents, contents_of
from flutejoin_tools.journals.holdings import Key

MOST_LAYERS = 8  # of an object


class Layer:
    """The values of an object in one layer: those of a batch that do not contradict each other."""

    def __init__(self) -> None:
        self.values: dict[bytes, int] = {}  # hashes of symbols, and of transmission information

    def agrees(self, came: dict[bytes, int]) -> bool:
        """Whether none of the values that came in a datagram contradicts the layer."""
        return all(self.values.get(place, value) == value for place, value in came.items())

    def has(self, came: dict[bytes, int]) -> bool:
        """Whether the layer has all values that came in a datagram."""
        return all(self.values.get(place) == value for place, value in came.items())


class Layers:
    """Datagrams of objects of which a batch has several values, taken apart by time.

    A sender that starts again contradicts what it sent before, and from then on sends the other
    values; a forged datagram is one alone. So what contradicts begins a layer, unless it came in
    one before, which goes on then. Which of them are joined is decided as for any others.
    """

    def __init__(self, keys: Iterable[Key], front: str) -> None:
        self.front = front
        self.objects = {(key.tsi, key.number): [Layer()] for key in keys if key.tag == FILE}
        self.current = dict.fromkeys(self.objects, 0)
        self.files: list[BinaryIO] = []
        self.dropped = 0

    def take(self, datagram: bytes) -> None:
        """Adds a datagram to a layer of its object; if none can have it, it is dropped."""
        packet = packet_of(datagram)
        layers = self.objects.get((packet.tsi, packet.toi)) if packet else None
        if packet is None or layers is None:
            return
        came = {}
        if packet.information is not None:
            came[b""] = hash(packet.information)
        if packet.symbol:
            came[packet.payload_id] = hash(packet.symbol)
        of = packet.tsi, packet.toi
        number = self.choose(layers, self.current[of], came)
        if number is None:
            self.dropped += 1
            return
        self.current[of] = number
        layers[number].values.update(came)
        while len(self.files) <= number:
            path = f"{self.front}.layer{len(self.files)}{PARTIAL}"
            self.files.append(begin_file(path))
            self.files[-1].write(HEADER)
        self.files[number].write(LENGTH.pack(len(datagram)) + datagram)

    @staticmethod
    def choose(layers: list[Layer], current: int, came: dict[bytes, int]) -> Optional[int]:
        """The number of the layer to which the values of a datagram go; None if there is none."""
        if layers[current].agrees(came):
            return current
        for number, layer in enumerate(layers):
            if layer.has(came):
                return number
        if len(layers) < MOST_LAYERS:
            layers.append(Layer())
            return len(layers) - 1
        return next((at for at, layer in enumerate(layers) if layer.agrees(came)), None)

    def finish(self) -> list[str]:
        """Ends the datagram files of the layers, and returns their paths."""
        for file in self.files:
            file.close()
        return [file.name for file in self.files]

    def remove(self) -> None:
        """Removes the datagram files of the layers."""
        for path in self.finish():
            with contextlib.suppress(FileNotFoundError):
                os.unlink(path)


class Piece(NamedTuple):
    """A journal, the objects that are not taken of it, and what it contains, if that is known."""

    path: str
    without: AbstractSet[Key] = frozenset()
    found: Optional[Contents] = None


def pieces_of(
    new: str,
    join: Callable[[str, str], Answer],
    datagrams: Callable[[], Iterable[bytes]],
    known: Collection[Key],
    found: Optional[Contents] = None,
) -> Iterator[Piece]:
    """Yields journals in which nothing is in conflict, of a journal that was joined of datagrams.

    The first is that one, without the objects in conflict; `known` are those whose transmission
    information is told, and `found` is what it has, if somebody looked. The others are removed when
    the next is asked for. Raises Failed.
    """
    found = found or contents_of(new, known)
    yield Piece(new, found.disputed, found)
    if not found.disputed:
        return
    layers = Layers(found.disputed, new.removesuffix(PARTIAL))
    try:
        for datagram in datagrams():
            layers.take(datagram)
        for number, path in enumerate(layers.finish()):
            journal = f"{new.removesuffix(PARTIAL)}.{number}{PARTIAL}"
            answer = join(journal, path)
            if answer.status:
                raise Failed(answer)
            try:
                yield Piece(journal)
            finally:
                remove(journal)
    finally:
        layers.remove()
