"""Receives at one port: takes the datagrams of admitted senders, and counts the others."""
from __future__ import annotations

import collections
import errno
import heapq
import ipaddress
import itertools
import socket
import time
from typing import Iterator, Optional

from flutejoin_tools.common.addresses import IPAddress
from flutejoin_tools.common.faults import Fault
from flutejoin_tools.fdt.instances import may_be_of_instance
from flutejoin_tools.formats.adapting import Adapting, Taken
from flutejoin_tools.formats.packets import TOI_PLACES, ZEROS, is_like_flute
from flutejoin_tools.formats.records import LENGTH, Buffer
from flutejoin_tools.receive.batches import Batch
from flutejoin_tools.receive.floods import Flood
from flutejoin_tools.receive.found import address_of
from flutejoin_tools.receive.sender import Sender
from flutejoin_tools.receive.senders import Senders
from flutejoin_tools.receive.settings import SessionOptions
from flutejoin_tools.receive.silence import AFTER, advice, on
from flutejoin_tools.receive.sockets import (
    LINUX,
    Interface,
    ask_for_buffer,
    dropped_by_system,
    listen_again,
    open_socket,
)
from flutejoin_tools.receive.voice import EachMinute, note

LONGEST = 65535  # bytes of a datagram that a record can hold
LOOK_EACH = 10  # seconds between two looks at whether the system still receives for a socket
MOST_TESTS = 10000  # datagrams of unknown senders that are looked at in a second
TESTS_EACH = 0.1  # seconds, in each of which a tenth of these is looked at
# Then unknown senders are remembered, and the next datagram of one is looked at too: among made-up
# addresses that each send once, it is that of a real sender.
MOST_ONCE = 1 << 14

UNLIKE = "of senders from whom nothing like FLUTE came"
UNSEEN = f"of senders that are not kept, beyond {MOST_TESTS:,} in a second"
TOO_LONG = "more than 65,535 bytes"


def packed_for(family: int, address: IPAddress) -> bytes:
    """What a socket of this family names an address by, or begins with."""
    if family == socket.AF_INET6 and address.version == 4:
        return ipaddress.ip_address(f"::ffff:{address}").packed
    return address.packed


class Session:
    """One socket, and the datagrams that come to it."""

    def __init__(self, options: SessionOptions, interface: Interface, senders: Senders) -> None:
        self.options, self.senders, self.interface = options, senders, interface
        self.where, self.place = "", ("", False)
        self.is_lost, self.look_at = False, float("-inf")
        self.udp = self.listen(interface)
        self.batch, self.flood = Batch(self.udp), Flood(self.udp)
        self.only = packed_for(self.udp.family, options.sender) if options.sender else None
        self.by_key: dict[bytes, Sender] = {}
        self.newcomers = senders.newcomers.by_key
        self.datagrams = self.bytes = 0
        self.has_come, self.silent_at = False, time.monotonic() + AFTER
        self.seen_at: Optional[float] = None
        self.others = self.full = self.unlike = self.unseen = self.too_long = 0
        self.tests = self.repeats = 0
        self.tests_at = float("-inf")
        self.once: set[bytes] = set()
        self.causes: collections.Counter[str] = collections.Counter()  # of unknown senders
        self.minutely = EachMinute()

    def listen(self, interface: Interface) -> socket.socket:
        """Opens the socket, and returns it. Raises Fault if the system refuses it."""
        options = self.options
        where = options.group or interface.address or "every address"
        try:
            udp = open_socket(options, interface)
        except OSError as error:
            hint = ""
            if options.group and not options.interface:
                hint = " (name the interface by --interface)"
            raise Fault(3, f"cannot listen at {where} port {options.port}: {error.strerror}{hint}")
        buffer = ask_for_buffer(udp, options.buffer)
        named = bool(options.interface) and where != interface.address
        at = f"{where} port {options.port}"
        self.where = at + (f" on {options.interface}" if named else "")
        self.place = at, named
        of = f" to {options.sender}" if options.sender else ""
        note(f"listening{of} at {self.here()}, with a receive buffer of {buffer} bytes")
        return udp

    def here(self) -> str:
        """Where it listens, with the interface as it is now."""
        at, named = self.place
        options = self.options
        return at + (on(options.interface, options.group) if named or options.group else "")

    def look(self, now: float) -> None:
        """Looks whether the system still receives for the socket.

        After the interface was removed it does not: the socket listens again once there is one
        with that name.
        """
        if not LINUX or now < self.look_at:
            return
        self.look_at = now + LOOK_EACH
        try:
            interface = Interface(self.options.interface)
            is_again = listen_again(self.udp, self.options, interface, self.interface)
        except Fault as fault:
            self.lose(str(fault))
        except OSError as error:
            if error.errno != errno.ENODEV:
                raise Fault(3, f"cannot listen at {self.where} any more: {error.strerror}")
            self.lose(f"{error.strerror}")
        else:
            if is_again or self.is_lost:
                note(f"listening again at {self.where}")
            self.interface, self.is_lost = interface, False

    def lose(self, why: str) -> None:
        """Tells that the socket receives nothing; it is opened again later."""
        if not self.is_lost:
            told = f"cannot listen at {self.where}: {why}"
            note(f"{told}; it is tried again each {LOOK_EACH} seconds")
        self.is_lost = True

    def receive(self, most: int, now: float) -> tuple[int, int]:
        """Takes the waiting datagrams, up to a batch.

        Returns how many came, and how many are kept.
        """
        came = kept = size = 0
        get, put_length = self.by_key.get, LENGTH.pack_into
        is_as_received = self.options.as_received
        buffer, view = self.batch.buffer, self.batch.view
        for key, length, (head,), place in self.batch.receive(most):
            came += 1
            begin, end = place + 2, place + 2 + length
            sender = get(key) or self.admit(key, view[begin:end], now)
            if sender is None:
                continue
            if not is_as_received:
                behind = head[2] << 2
                if not behind + 4 < length <= sender.adapting.plain.get(head[:behind], 0):
                    is_kept = self.take(sender, view[begin:end], now)
                    kept += is_kept
                    size += length * is_kept
                    continue
            # Datagrams of FDT Instances have TOI 0.
            if head[TOI_PLACES[(head[0] & 15) << 8 | head[1]]] in ZEROS:
                sender.look(view[begin:end])
            if length > LONGEST:
                self.too_long += 1
                continue
            grown = sender.grown + 2 + length
            if grown > sender.room:
                sender.make_room(2 + length)
                grown = sender.grown + 2 + length
            put_length(buffer, place, length)
            sender.waiting += view[place:end]
            sender.grown = grown
            sender.records += 1
            kept += 1
            size += length
        self.has_come = self.has_come or came > 0
        if kept:
            self.datagrams += kept
            self.bytes += size
            self.seen_at = time.time()
        return came, kept

    def take(self, sender: Sender, datagram: Buffer, now: float) -> bool:
        """Takes a datagram, in the form that flutejoin reads, and returns whether it is kept."""
        if len(datagram) > LONGEST:
            self.too_long += 1
            return False
        is_kept, taken = False, Taken((datagram,))
        if not self.options.as_received:
            taken = sender.adapting.take(datagram)
        if taken.left_out:
            sender.leave_out(taken.left_out, 1)
        for written in taken.datagrams:
            if may_be_of_instance(written):
                sender.look(written)
            sender.add(written)
            is_kept = True
        return is_kept

    def admit(self, key: bytes, datagram: Buffer, now: float) -> Optional[Sender]:
        """Admits a sender that has no place here, and returns it; None if its datagram waits or is
        left out.

        Anyone who can send here can invent addresses, any number of them. So this is quick, and
        remembers a few thousand senders at most.
        """
        if self.only is not None:
            if not key.startswith(self.only):
                self.others += 1
                if now >= self.tests_at:
                    self.begin_tests(now)
                return None
            return self.register(key, self.senders.admit(address_of(key)))
        newcomer = self.newcomers.get(key)
        if newcomer is not None:
            self.senders.hold_more(newcomer, self, datagram)
            return None
        if now >= self.tests_at:
            self.begin_tests(now)
        if self.tests <= 0 and not self.is_repeated(key):
            self.unseen += 1
            return None
        self.tests -= 1
        if not self.is_like_flute(datagram):
            return None
        address = address_of(key)
        sender = self.senders.place(address, now)
        if sender is None:
            self.senders.hold(key, address, self, datagram, now)
            return None
        return self.register(key, sender)

    def register(self, key: bytes, sender: Sender) -> Sender:
        """Notes that a sender's datagrams at this socket have this address."""
        sender.keys.append((self.by_key, key))
        self.by_key[key] = sender
        return sender

    def keep(self, key: bytes, sender: Sender, datagram: bytes, now: float) -> None:
        """Keeps a datagram that waited until its sender got a place."""
        if key not in self.by_key:
            self.register(key, sender)
        if self.take(sender, datagram, now):
            self.datagrams += 1
            self.bytes += len(datagram)
            self.seen_at = time.time()

    def begin_tests(self, now: float) -> None:
        """Begins the next tenth of a second, in which unknown senders are looked at."""
        self.tests = self.repeats = int(MOST_TESTS * TESTS_EACH)
        self.tests_at = now + TESTS_EACH
        self.once.clear()
        self.flood.tend(self.known)

    def known(self, most: int) -> Iterator[bytes]:
        """The senders whose datagrams come in also in a flood: some without a place, that sent
        most, too."""
        if self.only is not None:
            yield self.only
        yield from itertools.islice(self.by_key, most)
        left = max(0, most - len(self.by_key))
        again = (key for key, it in self.newcomers.items() if it.count > 1)
        yield from heapq.nlargest(left, again, key=lambda key: self.newcomers[key].count)

    def is_like_flute(self, datagram: Buffer) -> bool:
        """Whether a datagram of an unknown sender is like FLUTE, in whatever form."""
        if is_like_flute(datagram):
            return True
        taken = None if self.options.as_received else Adapting().take(datagram)
        if taken and taken.is_flute():
            return True
        if taken and taken.left_out:
            self.causes[taken.left_out] += 1
        else:
            self.unlike += 1
        return False

    def is_repeated(self, key: bytes) -> bool:
        once = self.once
        if key not in once:
            if len(once) < MOST_ONCE:
                once.add(key)
            return False
        self.repeats -= 1
        return self.repeats >= 0

    def dropped(self) -> int:
        return dropped_by_system(self.udp) or 0

    def left_out(self) -> collections.Counter[str]:
        """How many datagrams that came here were left out, by cause."""
        only, most = self.options.sender, self.senders.most
        full = f"more than {most} senders (--senders takes more, and --from names the one)"
        causes = {
            f"other senders than {only}": self.others,
            full: self.full,
            UNLIKE: self.unlike,
            UNSEEN: self.unseen,
            TOO_LONG: self.too_long,
            **self.causes,
        }
        return collections.Counter({cause: count for cause, count in causes.items() if count})

    def each_second(self, now: float) -> None:
        """What is done once a second: tells of silence, and of what is left out."""
        self.flood.tend(self.known)
        if now >= self.silent_at and not self.has_come:
            self.silent_at = float("inf")
            options = self.options
            told = advice(options.interface, options.group, options.port)
            note(f"nothing came in {AFTER} seconds at {self.here()}: {told}")
        for cause, count in self.left_out().items():
            self.minutely.tell(cause, count, now)
        for sender in set(self.by_key.values()):
            for line in sender.adapting.lines(now):
                note(f"{sender.growing.address} {line}")
