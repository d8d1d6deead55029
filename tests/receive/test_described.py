"""Session descriptions (SDP): what each asks to receive, and which are refused, by their lines."""
from __future__ import annotations

from typing import Optional, Sequence, Tuple

from flutejoin_tools.receive.sdp import described
from flutejoin_tools.receive.settings import words_of_station
from tests.receive.case import OPTIONS, PYTHON, SEND, TOOL
from tests.support import run
from tests.support.ports import free_port
from tests.support.run import ROOT, split

# The example of TS 26.346, section 7.3
EXAMPLE = """\
v=0
o=user123 2890844526 2890842807 IN IP6 2201:056D::112E:144A:1E24
s=File delivery session example
i=More information
t=2873397496 2873404696
a=mbms-mode:broadcast 1234 1
a=FEC-declaration:0 encoding-id=1
a=source-filter: incl IN IP6 * 2001:210:1:2:240:96FF:FE25:8EC9
a=flute-tsi:3
m=application 12345 FLUTE/UDP 0
c=IN IP6 FF1E:03AD::7F2E:172A:1E24/1
b=AS:64
a=lang:EN
a=FEC:0
"""
FRONT = "v=0\no=- 1 1 IN IP4 10.0.0.1\ns=-\nt=0 0\n"
GROUP = "c=IN IP4 239.1.1.1/127\n"
MEDIUM = "m=application 4001 FLUTE/UDP 0\n"

# Port, group, sender and TSI of a session
Found = Tuple[int, Optional[str], Optional[str], Optional[int]]


class Described(run.Case):
    def found(self, text: str) -> list[Found]:
        """Port, group, sender and TSI of each session."""
        return [
            (
                it.port,
                str(it.group) if it.group else None,
                str(it.sender) if it.sender else None,
                it.tsi,
            )
            for it in described(text.encode())
        ]

    def finds(self, name: str, text: str, *wanted: Found) -> None:
        """Checks what a session description says."""
        found = self.found(text)
        self.holds(name, found == list(wanted), found)

    def test_what_is_described(self) -> None:
        group, sender = "ff1e:3ad::7f2e:172a:1e24", "2001:210:1:2:240:96ff:fe25:8ec9"
        self.finds("the example", EXAMPLE, (12345, group, sender, 3))
        self.finds("CR and LF", EXAMPLE.replace("\n", "\r\n"), (12345, group, sender, 3))
        one = 4001, "239.1.1.1", None, None
        self.finds("a group of the session", FRONT + GROUP + MEDIUM, one)
        self.finds("a group of the medium", FRONT + "c=IN IP4 239.9.9.9/1\n" + MEDIUM + GROUP, one)
        self.finds("an address", FRONT + "c=IN IP4 192.0.2.7\n" + MEDIUM, (4001, None, None, None))
        two = MEDIUM + "a=flute-tsi:7\n", "m=application 4002 flute/udp *\na=flute-tsi:0\n"
        told = FRONT + "a=flute-ch:2\n" + GROUP + "".join(two)
        self.finds("media", told, (4001, "239.1.1.1", None, 7), (4002, "239.1.1.1", None, 0))
        others = "m=audio 4003 RTP/AVP 0\nc=IN IP4 nowhere.example\na=flute-tsi:x\n"
        self.finds("others are passed over", FRONT + GROUP + others + MEDIUM + others, one)
        off = MEDIUM.replace("4001", "0")
        self.finds("a medium that is off", FRONT + GROUP + off + MEDIUM, one)

    def test_several_addresses_and_ports(self) -> None:
        groups = [f"239.1.1.{at}" for at in (1, 2)]
        rows = [(port, group, None, None) for port in (4001, 4002) for group in groups]
        several = GROUP.replace("\n", "/2\n")
        ports = MEDIUM.replace("4001", "4001/2")
        self.finds("addresses", FRONT + several + MEDIUM, *rows[:2])
        self.finds("ports", FRONT + GROUP + ports, rows[0], rows[2])
        self.finds("both, which belong together", FRONT + several + ports, rows[0], rows[3])
        six = "c=IN IP6 FF3E::8000:1/2\n"
        found = [(4001, f"ff3e::8000:{at}", None, None) for at in (1, 2)]
        self.finds("of IPv6", FRONT + six + MEDIUM, *found)

    def test_source_filters(self) -> None:
        def of(*senders: str) -> list[Found]:
            return [(4001, "239.1.1.1", sender, None) for sender in senders]

        front = FRONT + GROUP
        every = "a=source-filter: incl IN IP4 * 10.0.0.1 10.0.0.2\n"
        exact = "a=source-filter:incl IN IP4 239.1.1.1 10.0.0.3\n"
        other = "a=source-filter: incl IN IP4 239.1.1.9 10.0.0.4\n"
        six = "a=source-filter: incl IN IP6 * 2001:db8::1\n"
        both = "a=source-filter: incl IN * * 2001:db8::1 10.0.0.5\n"
        self.finds("of all", front + every + MEDIUM, *of("10.0.0.1", "10.0.0.2"))
        self.finds("of the group", front + every + exact + MEDIUM, *of("10.0.0.3"))
        self.finds("of the medium", front + exact + MEDIUM + every, *of("10.0.0.1", "10.0.0.2"))
        one = 4001, "239.1.1.1", None, None
        self.finds("of another group", front + other + six + MEDIUM, one)
        self.finds("of both versions", front + both + MEDIUM, *of("10.0.0.5"))

    REFUSED = {
        "": "line 1 is none of SDP",
        "v=1\n": "begins with another line than v=0",
        "\0": "line 1 has a NUL",
        "v=0\rm=x\n": "CR without LF",
        FRONT: "no medium of FLUTE/UDP",
        FRONT + "m=application 4001 ROUTE/UDP 0\n" + GROUP: "its media are of ROUTE/UDP",
        FRONT + MEDIUM: "no line c=",
        FRONT + "x=1\n": "line 5 is none of SDP: 'x=1'",
        FRONT + "nothing": "line 5 is none of SDP",
        FRONT + GROUP + MEDIUM + FRONT: "a second description begins",
        FRONT + GROUP + MEDIUM.replace("4001", "0"): "all have port 0",
        FRONT + GROUP + MEDIUM.replace("4001", "65536"): "'65536' is not a number",
        FRONT + GROUP + MEDIUM.replace("4001", "65535/2"): "a port is beyond 65535",
        FRONT + GROUP + MEDIUM.replace("4001", "1/9999"): "'9999' is not a number",
        FRONT + GROUP + MEDIUM.replace("4001", "-1"): "'-1' is not a number",
        FRONT + GROUP + MEDIUM.replace("4001", "4١"): "'4١' is not a number",
        FRONT + "c=IN IP4 files.example/1\n" + MEDIUM: "names are not looked up",
        FRONT + "c=IN IP4 239.1.1.1/256\n" + MEDIUM: "the TTL is beyond 255",
        FRONT + "c=IN IP4 239.1.1.1/1/0\n" + MEDIUM: "'0' is not a number",
        FRONT + "c=IN IP4 239.1.1.1/1/999\n" + MEDIUM: "'999' is not a number",
        FRONT + "c=IN IP4 239.255.255.255/1/2\n" + MEDIUM: "beyond those of multicast groups",
        FRONT + "c=IN IP4 255.255.255.255/1/2\n" + MEDIUM: "no multicast group",
        FRONT + "c=IN IP4 10.0.0.1/1\n" + MEDIUM: "10.0.0.1 is no multicast group",
        FRONT + "c=IN IP6 ff3e::1/1/1\n" + MEDIUM: "IPv6 has no TTL",
        FRONT + "c=IN IP6 fe80::1%eth0\n" + MEDIUM: "'fe80::1%eth0' is no address of IPv6",
        FRONT + "c=IN IP4 ff3e::1\n" + MEDIUM: "'ff3e::1' is no address of IPv4",
        FRONT + "c=IN\n" + MEDIUM: "is not IN IP4 or IN IP6",
        FRONT + "c=ATM NSAP 47.0091\n" + MEDIUM: "is not IN IP4 or IN IP6",
        FRONT + GROUP + MEDIUM + "a=source-filter: excl IN IP4 * 10.0.0.1\n": "excl leaves",
        FRONT + GROUP + MEDIUM + "a=source-filter: incl IN IP4 *\n": "is no source filter",
        FRONT + GROUP + MEDIUM + "a=source-filter: incl IN IP5 * 10.0.0.1\n": "'IP5' is not IP4",
        FRONT + GROUP + MEDIUM + "a=source-filter: incl IN IP4 * h.example\n": "not looked up",
        FRONT + GROUP + MEDIUM + "a=source-filter: incl IN IP4 * 239.1.1.1\n": "a multicast group",
        FRONT + GROUP + MEDIUM + "a=flute-tsi:x\n": "'x' is not a number",
        FRONT + GROUP + MEDIUM + f"a=flute-tsi:{1 << 48}\n": "is not a number from 0",
        FRONT + GROUP + MEDIUM + "a=flute-tsi:1\na=flute-tsi:2\n": "flute-tsi comes a second time",
        FRONT + GROUP + MEDIUM + "a=flute-ch:2\n": "flute-ch says 2 channels, and 1 are described",
        FRONT + GROUP + MEDIUM * 65: "describes more than 64 sessions",
        FRONT + GROUP.replace("\n", "/2\n") + MEDIUM.replace("4001", "4001/3"): "3 ports have 2",
        FRONT + "a=x\n" * 5000: "has more than 4096 lines",
        FRONT + "a=" + "x" * 66_000: "is longer than 65536 bytes",
        FRONT + GROUP + MEDIUM.replace("0\n", "\x1b[2J\n") + "c=IN IP4 \x1b[2J\n": r"\x1b[2J",
    }

    def test_what_is_refused(self) -> None:
        for text, wanted in self.REFUSED.items():
            with self.assertRaises(ValueError, msg=text[:200]) as fault:
                described(text.encode())
            told = str(fault.exception)
            self.holds(f"{text[-60:]!r}", wanted in told and len(told) < 300, told)
            self.holds("no character that a terminal obeys", "\x1b" not in told, told)
        with self.assertRaises(ValueError) as fault:
            described(b"v=0\n\xff")
        self.holds("UTF-8", "is not UTF-8" in str(fault.exception))

    def refused(self, tool: str, words: str | Sequence[object], told: bytes) -> None:
        """Checks that a tool refuses a session description by one line."""
        done = self.tool(tool, words)
        is_line = done.err.count(b"error: ") == 1 and b"Traceback" not in done.err
        self.holds(f"{tool} {words}", done.status == 2 and is_line and told in done.err, done)

    def test_command_lines(self) -> None:
        self.write("news.sdp", FRONT + GROUP + MEDIUM)
        self.write("bad.sdp", FRONT + GROUP)
        for tool in "flutejoin-receive", "flutejoin-station":
            beside = "-o kept --sdp news.sdp --group 239.1.1.1"
            self.refused(tool, "-o kept --sdp gone.sdp", b"gone.sdp: No such file or directory")
            self.refused(tool, "-o kept --sdp bad.sdp", b"describes no medium of FLUTE/UDP")
            self.refused("flutejoin-receive", beside, b"--group: not allowed with argument --sdp")
            of_both = "--sdp news.sdp --sdp news.sdp" + " --interface lo" * 3
            self.refused("flutejoin-receive", f"-o kept {of_both}", b"is given 3 times, and not 2")
        for text, told in {
            'sdp = "news.sdp"\n[[session]]\nport = 1': b"sdp: there is no such setting",
            '[[session]]\nsdp = "news.sdp"\nport = 1': b"has sdp, and port beside it",
            "[[session]]\nsdp = 5": b"5: No such file",
            '[[session]]\nsdp = "bad.sdp"': b"describes no medium of FLUTE/UDP",
        }.items():
            self.write("news.toml", text)
            self.refused("flutejoin-receive", "-o kept --config news.toml", told)

    def test_sessions_of_a_station(self) -> None:
        for name, more in ("one", "a=flute-tsi:7\n"), ("two", "a=flute-tsi:8\n"), ("none", ""):
            self.write(f"{name}.sdp", FRONT + GROUP + MEDIUM + more)

        def words(*names: str, front: str = "") -> list[str]:
            tables = [f'[[session]]\nsdp = "{self.path(it)}.sdp"\n' for it in names]
            self.write("news.toml", front + "".join(tables))
            return [*words_of_station(str(self.path("news.toml")))]

        self.holds("those that are described", words("one", "two") == ["--tsi=7", "--tsi=8"])
        self.holds("all, if one has no TSI", words("one", "none") == [])
        found = words("one", front="[station]\ntsi = [9]\n")
        self.holds("those that are named", found == ["--tsi=9"], found)

    def test_receives(self) -> None:
        """What is sent to the address of this machine, by a description of that."""
        port = free_port()
        self.write("file", "hello")
        self.made("carousel -o sent --tsi 7 --toi 1 --symbol 4 --block 2 file")
        told = FRONT + f"c=IN IP4 127.0.0.1\nm=application {port} FLUTE/UDP 0\n"
        self.write("news.sdp", told + "a=source-filter: incl IN IP4 * 127.0.0.1\n")
        words = split(f"--sdp news.sdp --interface 127.0.0.1 --count 2 {OPTIONS} -o kept")
        child = self.start([*PYTHON, TOOL, *words], to="out", err="err")
        self.assertTrue(run.until(lambda: b": listening " in self.read("err") or child.poll()))
        send = [*PYTHON, "-c", SEND, "sent", "127.0.0.1", "127.0.0.1", port, 0, 9]
        done = self.command(send, env={"PYTHONPATH": str(ROOT / "examples")})
        self.assertEqual(done.status, 0, done)
        self.assertEqual(child.wait(run.LONGEST), 0)
        self.same("the datagrams", "kept/127.0.0.1.fldg", "sent")
