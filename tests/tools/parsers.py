"""The parsers of the tools that fuzz.py calls: what each is given, and what has to be so.

Each call takes bytes as a stranger may send them. An input that is refused as the parser's users
expect is no fault; any other exception is one, and so is an assertion of this file.
"""
from __future__ import annotations

import gzip
import hashlib
import io
import ipaddress
import os
import struct
import tempfile
import zlib
from typing import Any, Callable, Iterator, NamedTuple, Sequence

from flutejoin_tools.capture import captures, inputs
from flutejoin_tools.capture.datagrams import Datagrams
from flutejoin_tools.fdt import content, fdt, names
from flutejoin_tools.fdt.hints import Hint
from flutejoin_tools.fdt.instances import InstanceAssembler
from flutejoin_tools.formats import adapting, packets
from flutejoin_tools.formats.entries import HEADER as JOURNAL
from flutejoin_tools.formats.entries import Entries, reader_of
from flutejoin_tools.formats.partition import Partition
from flutejoin_tools.formats.records import (
    HEADER,
    LENGTH,
    Cut,
    ReadFault,
    Records,
    last_whole,
    whole_records,
)
from flutejoin_tools.journals.holdings import Key
from flutejoin_tools.mend.salvage import Salvage
from flutejoin_tools.receive import sdp
from flutejoin_tools.repair import locations as places
from flutejoin_tools.repair import containers, http, origins, ranges
from tests.support import captures as made
from tests.support import flute_sender
from tests.support.flute_sender import Sent, Shape
from tests.support.run import ROOT

TOOLS = str(ROOT / "tools")
LONGEST = 65535  # bytes of a datagram
SENDERS = b"\n\0\0\1", ipaddress.ip_address("2001:db8::1").packed
WORK = tempfile.TemporaryDirectory(prefix="flutejoin-fuzz.")


class Parser(NamedTuple):
    corpus: Callable[[], Sequence[bytes]]
    call: Callable[[bytes], None]
    words: Sequence[bytes]  # that its inputs are made of


def session() -> list[bytes]:
    """The datagrams of a small session of two files."""
    sent = [Sent(1, b"number one" * 9, "http://h/a", symbol=20), Sent(2, b"", "b", symbol=8)]
    return [*flute_sender.instance(7, 1, b"<FDT/>"), *sent[0].packets(7), *sent[1].packets(7)]


def shaped() -> list[list[bytes]]:
    """Sessions of other forms of FLUTE."""
    shapes = Shape(1), Shape(encoding=3), Shape(1, times=3), Shape(together=3), Shape(fec=1)
    sent = Sent(3, bytes(range(90)), "http://h/c", symbol=9, block=4)
    small = [[*flute_sender.instance(7, 1, b"<a/>", it), *sent.packets(7, it)] for it in shapes]
    return [session(), *small, [flute_sender.close(7), b"", b"no packet"]]


def frames(link: str = "ethernet", fragment: int = 0) -> list[made.Frame]:
    """These datagrams in frames of a link."""
    kind, *heads = made.LINKS[link]
    found = []
    for at, datagram in enumerate(session()):
        source = SENDERS[at % 2]
        target = ipaddress.ip_address(made.GROUPS[6 if at % 2 else 4]).packed
        udp = made.udp(source, target, datagram)
        cut = made.fragments(source, target, udp, at, fragment) if fragment else []
        for packet in cut or [made.ip(source, target, 17, udp)]:
            frame = heads[at % 2] + packet
            found.append((kind, frame, len(frame)))
    return found


def of_captures() -> list[bytes]:
    """Captures that others are made of."""
    forms = [form(frames(), 1 << 16) for name, form in made.FORMS.items() if "ng" not in name]
    pcapng = made.FORMS["pcapng"](frames()[:2], 1 << 16).replace(bytes(70_000), bytes(12))
    links = [made.pcap(frames(link), "<", 0xA1B2C3D4, 1 << 16) for link in made.LINKS]
    pieces = [made.pcap(frames(fragment=16), "<", 0xA1B2C3D4, 1 << 16)]
    cut = [(link, frame[:30], length) for link, frame, length in frames()]
    blocks = [
        made.block("<", 0x0A0D0D0A, struct.pack("<IHHq", 0x1A2B3C4D, 1, 0, -1))
        + made.block("<", 1, struct.pack("<HHIHHBxxx", 1, 0, 0, 9, 1, 9))
        + made.block("<", kind, struct.pack("<IIIII", 0, 0, 1, 60, 60) + frames()[0][1][:60])
        for kind in (2, 3, 6)
    ]
    return [*forms, pcapng, *links, *pieces, made.pcap(cut, "<", 0xA1B2C3D4, 30), *blocks,
            gzip.compress(forms[0], 6, mtime=0), gzip.compress(blocks[0], 0, mtime=0)]


class Bytes(io.RawIOBase):
    """An input of these bytes."""

    def __init__(self, data: bytes) -> None:
        self.rest = memoryview(data)

    def readable(self) -> bool:
        return True

    def readinto(self, buffer: Any) -> int:
        size = min(len(buffer), len(self.rest))
        buffer[:size], self.rest = self.rest[:size], self.rest[size:]
        return size


def capture(data: bytes) -> None:
    """Reads a capture as flutejoin-capture does."""

    def hand_on(source: bytes, target: bytes, port: int, payload: bytes) -> None:
        assert len(source) == len(target) in (4, 16) and len(payload) <= LONGEST, payload
        taken = adapting.Adapting().take(payload)
        assert all(len(each) <= LONGEST for each in taken.datagrams)

    wanted = Datagrams({made.PORT}, set(), len(data) % 2 == 1, hand_on)
    source: io.RawIOBase = Bytes(data)
    if data.startswith(inputs.GZIP):
        source = inputs.Inflated(io.BufferedReader(source))
    try:
        for packet in captures.packets(inputs.Stream(source)):
            wanted.take(*packet[:4])
    except inputs.CaptureFault:
        pass
    wanted.finish()


def of_fdt() -> list[bytes]:
    """FDT Instances that others are made of."""
    more = {"Content-Encoding": "gzip"}
    sent = [Sent(1, b"one", "http://h/a"), Sent(2, b"two" * 99, "b c", b"2", 9, 2, more=more)]
    plain = flute_sender.fdt(sent)
    odd = flute_sender.fdt(sent, "0x9", "f", FEC_OTI_FEC_Encoding_ID=129, Content_Type="a/b")
    stream = zlib.compressobj(wbits=-15)
    return [plain, odd, plain.decode().encode("utf-16"), gzip.compress(plain, mtime=0),
            zlib.compress(plain), stream.compress(plain) + stream.flush(), b"<FDT-Instance/>"]


def instance(data: bytes) -> None:
    """Reads an FDT Instance."""
    fdt.likely_rank(data, 1)
    try:
        found = fdt.read_from(io.BytesIO(data), 1, "1", fdt.XmlBudget(1 << 24))
    except (fdt.Refused, fdt.Spent):
        return
    assert found.rank() and found.expiry()
    for toi, file in found.files.items():
        assert 0 < toi < 1 << 112 and not file.differences(file), file
        assert len(file.location) <= fdt.MOST_LOCATION and file.md5 in (None, file.md5)
        assert file.information() is not None or file.fault() is None
        names.path_of(file.location)


def entry(kind: int, sender: bytes, toi: int, rest: bytes) -> bytes:
    """An entry of a journal: of this kind and object, and with this rest."""
    key = sender + struct.pack(">IHB", 0, 7, 1) + toi.to_bytes(14, "big")
    return bytes([kind]) + key + rest


def of_files() -> list[bytes]:
    """Journals and datagram files that others are made of."""
    datagrams = HEADER + b"".join(LENGTH.pack(len(it)) + it for it in session())
    sender = bytes(10) + b"\xff\xff\n\0\0\1"
    information = struct.pack(">HIHI", 0, 90, 20, 64)
    journals = []
    for version, source in (1, b""), (2, sender):
        held = [entry(1, source, 1, information)]
        held += [entry(3, source, 1, struct.pack(">HHH", 0, at, 20) + bytes(20)) for at in range(4)]
        held += [entry(4, source, 1, b"\0\0\0\4"), entry(2, source, 2, b"")]
        end = b"\xff" + len(held).to_bytes(8, "big")
        journals.append(JOURNAL[:5] + bytes([version]) + b"".join(held) + end)
    return [datagrams, *journals, datagrams[:-3], journals[1][:-20]]


def files(data: bytes) -> None:
    """A datagram file or a journal, read whole, and what is whole of a damaged one."""
    try:
        reader = reader_of(io.BytesIO(data))
    except ReadFault:
        return
    try:
        count = sum(1 for _ in reader)
        assert count == reader.count
    except (ReadFault, Cut):
        pass
    assert reader.end <= max(len(data), len(HEADER))
    if isinstance(reader, Records):
        size, _ = whole_records(data[len(HEADER) :])
        assert last_whole(io.BytesIO(data), len(data), len(HEADER))[0] in (0, 6, 6 + size)
    elif data[4:6] in (b"\0\1", b"\0\2"):
        salvaged(data)


def salvaged(data: bytes) -> None:
    """What is kept of a damaged journal makes a valid one."""
    with open(os.memfd_create("journal"), "w+b") as file:
        file.write(data)
        file.flush()
        salvage = Salvage(file)
        runs = list(salvage.runs())
        salvage.close()
    kept = b"".join(data[begin:end] for begin, end, _ in runs)
    count = sum(count for _, _, count in runs)
    journal = data[:6] + kept + b"\xff" + count.to_bytes(8, "big")
    assert sum(1 for _ in Entries(io.BytesIO(journal))) == count, runs


def of_packets() -> list[bytes]:
    return [b"".join(LENGTH.pack(len(it)) + it for it in sent) for sent in shaped()]


def datagrams(data: bytes) -> None:
    """Records of one sender, one after another, without the header of their file."""
    state, hint, assembler, at = adapting.Adapting(), Hint(), InstanceAssembler(), 0
    while at + LENGTH.size <= len(data):
        (size,) = LENGTH.unpack_from(data, at)
        datagram, at = data[at + 2 : at + 2 + size], at + 2 + size
        for it in (datagram, *state.take(datagram).datagrams):
            found, refusal = packets.parsed(it), packets.refusal_of(it)
            assert (found is None) == (refusal is not None), it
            assert packets.is_like_flute(it) or not found, it
            hint.look(it)
            list(assembler.take(bytes(it)))
    list(assembler.finish())
    list(state.lines(at))


def of_names() -> list[bytes]:
    """Names of files that others are made of."""
    texts = ("http://h.example/a/b.txt?q#f", "../../x", "//h/%2e%2e/%2F", "a~b.partial", "",
             "http://u@H:80/\u00e9\u202e/" + "long" * 80, "b.from-10.0.0.1", "-a/.b/..", "mailto:x")
    return ["\n".join(texts).encode(), *(text.encode() for text in texts)]


def locations(data: bytes) -> None:
    """Lines are Content-Locations, whose files get paths."""
    texts = data.decode(errors="replace").split("\n")
    claims = []
    for number, text in enumerate(texts):
        path = names.path_of(text)
        key = Key(bytes([number % 2] * 16), 7, 1, number + 1)
        instance, rank = str(number // 3), (number % 4, number)
        session = key.source, key.tsi
        claims.append(names.Claim(key, path, session, instance, rank, number % 3, f"7-{number}"))
    paths = names.assign(claims, lambda path: bytes(16) if len(path) % 3 else None)
    for path in (*paths.by_object.values(), *(claim.path for claim in claims)):
        parts = path.split("/")
        assert not {"", ".", ".."} & {*parts} and not path.startswith(("/", "-")), path
        assert len(parts) <= names.MOST_DEPTH + 1 and "\0" not in path, path
        assert all(len(part.encode()) <= 255 for part in parts), path
    assert len({*paths.by_object.values()}) == len(paths.by_object)


ENCODINGS = "", *content.ENCODINGS


def of_content() -> list[bytes]:
    """Encoded files that others are made of: the first byte is the encoding, the second the MD5."""
    text = b"a text that is encoded, " * 20
    stream = zlib.compressobj(wbits=-15)
    raw = stream.compress(text) + stream.flush()
    forms = (text, *[gzip.compress(text, mtime=0)] * 2, zlib.compress(text), raw)
    found = [bytes([at, right]) + form for at, form in enumerate(forms) for right in range(4)]
    return [*found, bytes([1, 0]) + gzip.compress(text, mtime=0) * 2]


def objects(data: bytes) -> None:
    """The first two bytes say how the others are described."""
    if len(data) < 2:
        return
    encoding, whole = ENCODINGS[data[0] % len(ENCODINGS)], data[2:]
    source, out = os.path.join(WORK.name, "object"), os.path.join(WORK.name, "decoded")
    with open(source, "wb") as file:
        file.write(whole)
    md5 = hashlib.md5(whole).digest() if data[1] & 1 else bytes(16)
    length = len(whole) if data[1] & 2 else None
    described = fdt.File(1, "a", "", encoding, length, None, md5, 0, None, None)
    plain = described._replace(encoding="", md5=None)
    check = content.Check(source, [described, plain], content.DecodingBudget(1 << 20), out)
    _, checked = check.result()
    if checked.verdict is content.Verdict.VERIFIED:
        path = check.place(encoding) if checked.is_decoded else source
        with open(path, "rb") as file:
            digest = hashlib.md5(file.read()).digest()
        assert md5 in (digest, hashlib.md5(whole).digest())
    for name in os.listdir(WORK.name):
        os.remove(os.path.join(WORK.name, name))


XML = (b"<File ", b"<!DOCTYPE a>", b"<FDT-Instance ", b"Expires=", b"TOI=", b"/>", b"xmlns:f=",
       b"Content-MD5=", b"&#0;", b"<![CDATA[", b"]]>", b"<!--", b"<?xml encoding='cp037'?>")


class MadeUpConnection:
    """A connection to a server that sends these bytes: at most so many come at once."""

    def __init__(self, data: bytes, most: int) -> None:
        self.data, self.most = data, most

    def settimeout(self, seconds: float) -> None:
        assert seconds > 0

    def recv(self, size: int) -> bytes:
        piece, self.data = self.data[: min(size, self.most)], self.data[min(size, self.most) :]
        return piece


def answer_of(data: bytes, most: int) -> http.Answer:
    """An answer of a server that sends these bytes, at most so many at once."""
    made_up = MadeUpConnection(data, most)
    connection = http.Connection(made_up, http.Spending(1 << 30, 600))  # type: ignore
    connection.begin(0)
    return http.Answer(connection, origins.url_of("http://h/"))


WHOLE = bytes(range(90))  # a file
ASKED = [(0, 8), (27, 44)]


def answers(data: bytes) -> None:
    """An answer of whatever bytes, that come in pieces of two sizes: the same bytes of the file."""
    found = []
    for most in 7, 1 << 16:
        taken: dict[int, int] = {}
        try:
            for first, piece in ranges.parts(answer_of(data, most), len(WHOLE), ASKED):
                assert 0 <= first and first + len(piece) <= len(WHOLE)
                taken.update(zip(range(first, first + len(piece)), piece))
            found.append(taken)
        except http.AnswerFault:
            found.append({})
    assert found[0] == found[1], found


def of_answers() -> list[bytes]:
    """Answers of servers that others are made of."""
    part = b"\r\n--ab\r\nContent-Range: bytes %d-%d/90\r\n\r\n%s"
    body = b"".join(part % (a, b, WHOLE[a : b + 1]) for a, b in ASKED) + b"\r\n--ab--\r\n"
    kind = b"Content-Type: multipart/byteranges; boundary=ab\r\n"
    chunked = b"Transfer-Encoding: chunked\r\n\r\n3c;a\r\n%s\r\n1e\r\n%s\r\n0\r\nA: b\r\n\r\n"
    return [
        b"HTTP/1.1 206 OK\r\n%sContent-Length: %d\r\n\r\n%s" % (kind, len(body), body),
        b"HTTP/1.1 206 OK\r\nContent-Range: bytes 0-8/90\r\nContent-Length: 9\r\n\r\n" + WHOLE[:9],
        b"HTTP/1.1 200 OK\r\n" + chunked % (WHOLE[:60], WHOLE[60:]),
        b"HTTP/1.0 200 OK\n\n" + WHOLE,
        b"HTTP/1.1 100 C\r\n\r\nHTTP/1.1 416 No\r\nContent-Range: bytes */8\r\n\r\n",
    ]


def symbols(data: bytes) -> None:
    """A container of whatever bytes: symbols of the object alone."""
    kind = b"Content-Type: application/simpleSymbolContainer\r\n"
    head = b"HTTP/1.1 200 OK\r\n%sContent-Length: %d\r\n\r\n" % (kind, len(data))
    partition = Partition(88, 9, 4)
    runs = [*containers.runs([0, 1, 5, 9], partition, 9)]
    try:
        for place, value in containers.symbols_in(answer_of(head + data, 99), partition, runs):
            assert place < 10 and len(value) == (7 if place == 9 else 9)
    except http.AnswerFault:
        pass


def of_symbols() -> list[bytes]:
    """Answers with symbols (3GPP) that others are made of."""
    group = struct.Struct(">HHH")
    short = group.pack(1, 0, 0) + bytes(9) + group.pack(2, 2, 0) + bytes(16)
    return [short, group.pack(2, 0, 0) + bytes(18) + group.pack(2, 2, 0) + bytes(18)]


def urls(data: bytes) -> None:
    """A text of a stranger: whatever may be asked is below the base, and is one line of ASCII."""
    text = data.decode(errors="replace")
    allowed = origins.Origins([origins.url_of("http://h/a/")])
    for place in places.urls_of(text, [text[3:]], ["http://h/a/", text[:9]]):
        for url in origins.first_refusal([place], allowed)[0]:
            target = url.target()
            assert target.startswith("/a/") and url.authority() == "h", target
            assert target.isascii() and target.isprintable() and " " not in target, target
            assert "/../" not in f"{target.partition('?')[0]}/", target


def of_urls() -> list[bytes]:
    return [b"http://h/a/b", b"../a/b?c#d", b"//h:80/a/%2e", "http://u@h/a/\u00e4".encode()]


def of_places() -> list[bytes]:
    """FDT Instances that say where files lie."""
    inner = "<Alternate-Content-Location>b</Alternate-Content-Location>"
    form = f"<Alternate-Content-Location-1>{inner}</Alternate-Content-Location-1>"
    xml = flute_sender.fdt([Sent(1, b"a", "b")]).decode().replace("/>", f">{form}</File>")
    return [xml.replace("</FDT", "<Base-URL-1>http://h/</Base-URL-1></FDT").encode(), *of_fdt()]


def located(data: bytes) -> None:
    """An FDT Instance: what is read is the same with where files lie, and is bounded."""
    try:
        found, of = places.read_from(io.BytesIO(data), 1, "1", fdt.XmlBudget())
    except (fdt.Refused, fdt.Spent):
        return
    assert found == fdt.read_from(io.BytesIO(data), 1, "1", fdt.XmlBudget())
    assert of.of_files.keys() <= found.files.keys()
    for texts in of.bases, *of.of_files.values():
        assert len(texts) <= places.MOST_PLACES and all(len(text) <= 2048 for text in texts)


def of_descriptions() -> list[bytes]:
    """Session descriptions that others are made of."""
    front = b"v=0\no=- 1 1 IN IP4 10.0.0.1\ns=-\nt=0 0\na=flute-ch:2\na=flute-tsi:7\n"
    one = b"c=IN IP4 239.1.1.1/127/2\nm=application 4001 FLUTE/UDP 0\n"
    six = b"m=application 4001/2 FLUTE/UDP 0\nc=IN IP6 FF3E::8000:1/2\n"
    filters = b"a=source-filter: incl IN IP4 * 10.0.0.1\na=source-filter: incl IN * * ::1\n"
    return [front + one + filters, front + six + filters]


def description(data: bytes) -> None:
    """Reads a session description."""
    try:
        found = sdp.described(data)
    except ValueError as fault:
        assert str(fault)
        return
    assert 0 < len(found) <= sdp.MOST_SESSIONS
    for each in found:
        assert 0 < each.port < 65536 and (each.group is None or each.group.is_multicast)
        assert each.sender is None or not each.sender.is_multicast


SDP = (b"\na=source-filter: incl IN IP4 ", b"\nm=", b"\nc=IN IP6 ", b" FLUTE/UDP ", b"/2", b"* ")
PLACES = (b"<Alternate-Content-Location-2>", b"</Alternate-Content-Location-2>", b"<Base-URL-2 ")
FIELDS = (b"\r\n", b"Content-Range: bytes ", b"--ab", b"Content-Length: ", b"\r\n\r\n", b"chunked")

PARSERS = {
    "capture": Parser(of_captures, capture, (b"\x0a\x0d\x0d\x0a", b"\xff\xff\xff\xff", b"\x81\0")),
    "fdt": Parser(of_fdt, instance, XML),
    "files": Parser(of_files, files, (HEADER, JOURNAL, b"\xff" + bytes(8))),
    "packets": Parser(of_packets, datagrams, (b"\x10\xa0\4\0", b"\x40\4", b"\xc0\x20\0\1")),
    "names": Parser(of_names, locations, (b"../", b"%2e", b"%2F", b"//", b"http:", b".from-1")),
    "content": Parser(of_content, objects, (b"\x1f\x8b\x08", b"\x78\x9c")),
    "answers": Parser(of_answers, answers, FIELDS),
    "containers": Parser(of_symbols, symbols, (b"\0\1\0\0\0\0", bytes(9), b"\0\2\0\1")),
    "urls": Parser(of_urls, urls, (b"../", b"%2e", b"//", b"http:", b"@", b"\\", b"#", b":80")),
    "places": Parser(of_places, located, (*XML, *PLACES)),
    "descriptions": Parser(of_descriptions, description, SDP),
}


def corpora() -> Iterator[tuple[str, Parser, list[bytes]]]:
    """Yields each parser with the inputs that others are made of."""
    for name, parser in PARSERS.items():
        yield name, parser, [*parser.corpus()]
