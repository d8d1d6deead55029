"""Tests of groups, each in a network namespace of its own, whose loopback receives them."""
from __future__ import annotations

from tests.receive.case import Case, count_line, join_line
from tests.support.run import until

LOOPBACK = "ip link set lo up && ip link set lo multicast on && ip route add 224.0.0.0/4 dev lo"
# A loopback receives IPv6 groups only if they are routed to it as addresses of its own.
IPV6 = (
    "ip -6 addr add 2001:db8::1/128 dev lo nodad && ip -6 addr add 2001:db8::2/128 dev lo nodad && "
    "ip -6 route add local ff00::/8 dev lo table local"
)
FIRST, SECOND = "127.0.0.1", "127.0.0.2"
# Another interface, to which groups are routed
OF_D0 = "10.9.0.1"
INTERFACE = (
    f"ip link add d0 type veth peer name d1 && ip addr add {OF_D0}/24 dev d0 && "
    "ip link set d0 up && ip link set d1 up && ip route replace 224.0.0.0/4 dev d0"
)


class Groups(Case):
    listen_at = ""

    def setUp(self) -> None:
        super().setUp()
        self.port = 4001
        words = ["unshare", "-rn", "sh", "-c", f"{LOOPBACK} && echo ready && exec cat"]
        holder = self.start(words)
        assert holder.stdout
        if holder.stdout.readline() != b"ready\n":
            self.skipTest("no network namespace with a loopback can be had here")
        self.prefix = (
            *("nsenter", "--preserve-credentials", "-U", "-n", "-t", holder.pid),
            "--",
        )

    def group(self, group: str, first: str, second: str, source: str) -> None:
        """Receives a group, and the same group from one sender only."""
        stems = first.replace(":", "-"), second.replace(":", "-")
        of = f"--group {group} --interface lo"
        receiver = self.receive(f"{of} --count 80 -o group")
        self.send("sent", first, group)
        self.send("sent", second, group)
        done = receiver.ended()
        self.check("a group", done, 0, None)
        for stem in stems:
            self.same(f"a group, the datagrams of {stem}", f"group/{stem}.fldg", "sent")
        self.run_lines("a group", done)
        self.same("a group, the journal", f"group/{stems[0]}.journal", self.direct(source))
        receiver = self.receive(f"{of} --from {second} --count 40 -o of_one")
        self.send("sent", first, group)
        self.send("sent", second, group)
        done = receiver.ended()
        self.check("one sender, where the system leaves others out", done, 0, None)
        self.holds("nothing is left out by the tool", b"left out" not in done.out, done)
        self.same("a group of one sender", f"of_one/{stems[1]}.fldg", "sent")
        self.absent("no file of another", f"of_one/{stems[0]}.fldg")

    def test_ipv4(self) -> None:
        self.group("239.1.1.1", FIRST, SECOND, "7f000001")

    def test_source_specific_ipv4(self) -> None:
        self.group("232.1.1.1", FIRST, SECOND, "7f000001")

    def test_interface_by_its_address(self) -> None:
        """Neither another group at the port nor the address itself is received."""
        of = f"--group 239.1.1.1 --interface {FIRST} --from {SECOND}"
        receiver = self.receive(f"{of} --count 2 -o by_address")
        for target in "239.1.1.2", FIRST, "239.1.1.1":
            self.send("sent2", SECOND, target)
        self.check("the interface by its address", receiver.ended(), 0, None)
        self.same("nothing of another group", f"by_address/{SECOND}.fldg", "sent2")

    def test_an_interface_that_is_made_again(self) -> None:
        """What was joined on it is gone with it, however it was named."""
        if self.command([*self.prefix, "sh", "-c", INTERFACE]).status != 0:
            self.skipTest("no interface can be made here")
        of = "", "--interface d0", f"--interface {OF_D0}", f"--interface d0 --from {OF_D0}"
        receivers = [
            self.receive(f"--group 239.1.1.1 -o of{number} {words}")
            for number, words in enumerate(of)
        ]

        def are_told(text: bytes) -> bool:
            return all(text in receiver.told() for receiver in receivers)

        self.send("sent", OF_D0, "239.1.1.1", count=20)
        self.command([*self.prefix, "ip", "link", "del", "d0"])
        self.holds("an interface is gone", until(lambda: are_told(b"cannot listen at")))
        self.command([*self.prefix, "sh", "-c", INTERFACE])
        self.holds("it is there again", until(lambda: are_told(b"listening again at")))
        self.send("sent", OF_D0, "239.1.1.1", first=20)
        for number, receiver in enumerate(receivers):
            receiver.child.terminate()
            self.check("an interface made again", receiver.ended(), 0, None, None)
            self.same(f"what came on it, {number}", f"of{number}/{OF_D0}.fldg", "sent")

    def test_two_runs(self) -> None:
        """Two runs at once each receive everything that is sent to one group."""
        of = "--group 239.1.1.1 --count 40 -o"
        receivers = [self.receive(f"{of} {folder}") for folder in ("first", "second")]
        self.send("sent", FIRST, "239.1.1.1")
        for receiver, folder in zip(receivers, ("first", "second")):
            self.check(f"the {folder}", receiver.ended(), 0, None)
            self.same(f"the datagrams of the {folder}", f"{folder}/{FIRST}.fldg", "sent")

    def test_each_address(self) -> None:
        """Without a group, groups of other runs are not received. The interface is named."""
        first = self.receive("--group 239.1.1.1 --count 2 -o first")
        self.port = 4002
        other = self.receive("--interface lo --count 2 -o alone")
        self.send("sent2", FIRST, "239.1.1.1")
        self.send("sent2", FIRST, FIRST)
        self.send("sent2", FIRST, "239.1.1.1", port=4001)
        self.check("the group", first.ended(), 0, None)
        wanted = count_line(2, f"alone/{FIRST}.fldg") + join_line("7f000001", "alone")
        self.check("each address of an interface, of IPv4", other.ended(), 0, wanted)

    def test_ipv6(self) -> None:
        if self.command([*self.prefix, "sh", "-c", IPV6]).status != 0:
            self.skipTest("the loopback cannot have addresses of IPv6")
        source = "20010db8000000000000000000000001"
        self.group("ff3e::8000:1", "2001:db8::1", "2001:db8::2", source)
        receiver = self.receive("--count 2 -o alone6")
        self.send("sent2", "2001:db8::1", "::1")
        wanted = count_line(2, "alone6/2001-db8--1.fldg", "2001:db8::1")
        wanted += join_line(source, "alone6", address="2001-db8--1")
        self.check("each address, of IPv6", receiver.ended(), 0, wanted)

    def test_one_address_on_two_links(self) -> None:
        """Senders of an IPv6 address that is of one link alone have the link in their names."""
        links = "ip link add d.0 type veth peer name d1 && ip link set d.0 up && ip link set d1 up"
        adds = [f"ip -6 addr add fe80::7/64 dev {link} nodad" for link in ("d.0", "d1")]
        if self.command([*self.prefix, "sh", "-c", " && ".join([links, *adds])]).status != 0:
            self.skipTest("no interface can be made here")
        receiver = self.receive("--count 4 -o links")
        for link in "d.0", "d1":
            self.send("sent2", f"fe80::7%{link}", f"fe80::7%{link}")
        done = receiver.ended()
        self.check("two links", done, 0, None)
        for link in "d_0", "d1":
            self.same(f"what came on {link}", f"links/fe80--7%{link}.fldg", "sent2")
        self.run_lines("two links", done)
        of = self.direct("fe800000000000000000000000000007", "sent2")
        self.same("the journal of one", "links/fe80--7%d1.journal", of)
        receiver = self.receive("--interface d1 --from fe80::7 --count 2 -o link")
        for link in "d.0", "d1":
            self.send("sent2", f"fe80::7%{link}", f"fe80::7%{link}")
        self.check("one link", receiver.ended(), 0, None)
        self.same("what came on it", "link/fe80--7%d1.fldg", "sent2")
        self.absent("nothing of the other", "link/fe80--7%d_0.fldg")
