"""Takes many packets of a capture at once: those of one length whose headers are those of packets
that are taken, and differ in nothing but the symbol, and what goes with that.

Each is tested as all others are. If anything is wrong with one, those before it are taken, and it
is taken by itself.
"""
from __future__ import annotations

from typing import NamedTuple, Optional

from flutejoin_tools.capture.captures import Record
from flutejoin_tools.capture.datagrams import Datagrams
from flutejoin_tools.capture.inputs import Stream
from flutejoin_tools.capture.parts import Files
from flutejoin_tools.capture.rows import UDP_BYTES, Form, Rows, Sums, form_of
from flutejoin_tools.fdt.instances import may_be_of_instance

ALIKE = 4  # packets of one length that come one after another before a run is tried
SHORT, MOST_ALIKE = 16, 64  # a run that takes less than its start; how many come after such ones
FEW, MOST = 4, 512  # packets that are tried at once
MOST_BYTES = 1 << 17  # of these: the C library gives more back to the system each time


class Flow(NamedTuple):
    """Packets of one sender with the same headers, which are taken."""

    sender: bytes
    sums: Sums


class Runs:
    """Takes runs of packets that would be taken one by one by `wanted`, and written by `out`."""

    def __init__(self, wanted: Datagrams, out: Files, is_as_received: bool) -> None:
        self.wanted, self.out, self.is_as_received = wanted, out, is_as_received
        self.before, self.count, self.alike = b"", 0, 0
        self.many = FEW  # that are tried at once: more, as long as all are right
        self.wanted_alike = 0  # before a run, if the last ones were short

    def take(self, record: Record, link: int, frame: bytes, stream: Stream) -> int:
        """After a packet was taken: takes those behind it that are alike.

        Returns how many. No bytes are waited for.
        """
        taken, self.count = self.wanted.count - self.count, self.wanted.count
        is_alike = taken == 1 and record.sizes == self.before
        self.alike, self.before = self.alike + 1 if is_alike else 0, record.sizes
        if self.alike < max(ALIKE, self.wanted_alike):
            return 0
        if len(stream.view(FEW * len(frame))) < FEW * len(frame):
            return 0
        form = form_of(record, link, frame)
        if form is None or not self.flow(form, frame):
            self.alike = 0
            return 0
        self.take_all(form, stream)
        taken, self.count = self.wanted.count - self.count, self.wanted.count
        if not self.alike:
            more = min(MOST_ALIKE, 2 * max(ALIKE, self.wanted_alike))
            self.wanted_alike = more if taken < SHORT else 0
        return taken

    def take_all(self, form: Form, stream: Stream) -> None:
        """Takes what is alike: more at once, as long as all is right."""
        most = max(FEW, min(MOST, MOST_BYTES // form.size))
        flows: dict[bytes, Optional[Flow]] = {}
        while self.alike:
            self.many = min(self.many, most)
            data = stream.view(self.many * form.size)
            count = min(self.many, len(data) // form.size)
            if count < most:  # else `fields_of` would remember many numbers of records
                count = 1 << count.bit_length() >> 1
            if count < FEW:
                break
            taken = self.take_rows(Rows(form, data[: count * form.size], count), flows)
            stream.skip(taken * form.size)
            self.wanted.count += taken
            if taken < count:
                self.alike, self.many = 0, max(FEW, 2 * taken)
            else:
                self.many = max(self.many, 2 * count)

    def take_rows(self, rows: Rows, known: dict[bytes, Optional[Flow]]) -> int:
        """Takes rows as long as they are right and of flows that are taken, and returns how many.
        Flows that `known` lacks are added there."""
        keys = rows.keys()
        for at, key in enumerate(keys):
            if key not in known:
                frame = rows.frame(at)
                known[key] = self.flow(rows.form, frame) if frame else None
        flows: list[Flow] = []
        for key in keys:
            flow = known[key]
            if flow is None:
                break
            flows.append(flow)
        count = rows.count if len(flows) == len(keys) else len(flows)
        count = rows.right([flow.sums for flow in flows], count) if flows else 0
        if not count:
            return 0
        records, senders = rows.records(count), [flow.sender for flow in flows[:count]]
        return count if self.out.add_records(senders, records, len(records) // count) else 0

    def flow(self, form: Form, frame: bytes) -> Optional[Flow]:
        """The flow of a frame of this form, if its packets are taken and written as they are."""
        wanted, (sender, target) = self.wanted, form.addresses(frame)
        port = int.from_bytes(frame[form.udp + 2 : form.udp + 4], "big")
        if wanted.any_checksum or wanted.is_of_others(sender, target) or port not in wanted.ports:
            return None
        payload = frame[form.udp + UDP_BYTES : form.end]
        if sender not in self.out.open or may_be_of_instance(payload):
            return None
        adapting = self.out.adapting.get(sender)
        if not self.is_as_received and (adapting is None or not adapting.is_plain(payload)):
            return None
        return Flow(sender, form.sums(frame))
