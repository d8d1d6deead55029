"""Asks servers by HTTP/1.1 (RFC 9110, RFC 9112), each of which may be hostile.

Whatever a server sends, the bytes of it and the time that it takes have bounds, and no more of an
answer is read than is asked for. Nothing that a stranger wrote becomes a header field, no proxy is
used, and no name, password or cookie is sent.
"""
from __future__ import annotations

import re
import socket
import ssl
import time
from typing import Dict, Iterator, Mapping, Optional

from flutejoin_tools.repair.origins import Origins, Refused, Server, Url, joined, url_of

IDLE = 20.0  # seconds without a byte
PACE = 1 << 13  # bytes a second that an answer has at least, after these
PIECE = 1 << 16  # bytes that are read at once
MOST_HEAD, MOST_LINE = 1 << 15, 1 << 13  # bytes
MOST_FIELDS = 100  # of a head
MOST_INTERIM = 8  # answers 1xx before the answer
MOST_REDIRECTS = 5  # of one request
REDIRECTS = 301, 302, 303, 307, 308  # statuses that name another URL
AGENT = "flutejoin-repair"
STATUS = re.compile(rb"HTTP/1\.([01]) ([1-9][0-9]{2})(?: .*)?", re.DOTALL)
FIELD = re.compile(rb"([!#$%&'*+.^_`|~0-9A-Za-z-]+):[ \t]*(.*?)[ \t]*", re.DOTALL)
NUMBER = re.compile(r"[0-9]{1,15}")
CHUNK = re.compile(rb"([0-9A-Fa-f]{1,16})[ \t]*(?:;.*)?", re.DOTALL)


class AnswerFault(Exception):
    """Why an answer, and so its file, is not taken."""


class Broken(AnswerFault):
    """The answer ended too early: what came of it is right, and the rest may be asked again."""


class Spent(Exception):
    """The run has received as much, or taken as long, as it may."""


class Spending:
    """What a run may receive, in bytes with all heads of answers, and how long it may take."""

    def __init__(self, most: int, seconds: float) -> None:
        self.most, self.seconds = most, seconds
        self.ends = time.monotonic() + seconds
        self.received = self.requests = 0

    def left(self) -> int:
        """How many bytes may still come. Raises Spent if none."""
        if self.received >= self.most:
            raise Spent(f"{self.most:,} bytes came in all (--most)")
        return self.most - self.received

    def rest(self) -> float:
        """The seconds that are left."""
        rest = self.ends - time.monotonic()
        if rest <= 0:
            raise Spent(f"{self.seconds:g} seconds are over (--seconds)")
        return rest


class Stream:
    """Bytes that come piece by piece, read by lines and by lengths."""

    def __init__(self) -> None:
        self.data = b""  # what came and was not read yet

    def receive(self) -> bytes:
        """The next bytes; none at the end. Raises AnswerFault."""
        raise NotImplementedError

    def line(self) -> bytes:
        """The next line, without its end. Raises AnswerFault."""
        while b"\n" not in self.data:
            if len(self.data) > MOST_LINE:
                raise AnswerFault("the answer has a line that is too long")
            data = self.receive()
            if not data:
                raise Broken("the answer is cut")
            self.data += data
        line, _, self.data = self.data.partition(b"\n")
        if len(line) > MOST_LINE or b"\0" in line:
            raise AnswerFault("the answer has a line that is too long, or a NUL")
        return line[:-1] if line.endswith(b"\r") else line

    def pieces(self, size: Optional[int]) -> Iterator[bytes]:
        """Yields so many bytes, or all up to the end. Raises Broken if there are fewer."""
        while size is None or size:
            data, self.data = self.data, b""
            data = data or self.receive()
            if not data:
                if size is None:
                    return
                raise Broken("the answer is cut")
            if size is not None:
                data, self.data = data[:size], data[size:]
                size -= len(data)
            yield data


class Connection(Stream):
    """A connection to the server of a URL."""

    def __init__(self, stream: socket.socket, spending: Spending) -> None:
        super().__init__()
        self.stream, self.spending = stream, spending
        self.ends, self.may_come = 0.0, 0
        self.is_used = False  # whether an answer came of it

    def begin(self, expected: int) -> None:
        """Begins an answer, which has about so many bytes."""
        self.ends = time.monotonic() + IDLE + expected / PACE
        self.may_come = MOST_HEAD

    def close(self) -> None:
        self.stream.close()

    def wait(self) -> None:
        """Sets how long the next call may take. Raises Broken, and Spent."""
        rest = min(self.spending.rest(), self.ends - time.monotonic(), IDLE)
        if rest <= 0:
            raise Broken("the server is too slow")
        self.stream.settimeout(rest)

    def send(self, data: bytes) -> None:
        """Sends bytes. Raises Broken."""
        try:
            self.wait()
            self.stream.sendall(data)
        except OSError as fault:
            raise Broken(f"cannot be sent: {told_of(fault)}") from None

    def receive(self) -> bytes:
        """The next bytes; none at the end."""
        if self.may_come <= 0:
            raise AnswerFault("the server sends more than it was asked for")
        most = min(PIECE, self.spending.left(), self.may_come)
        self.wait()
        try:
            data = self.stream.recv(most)
        except OSError as fault:
            self.spending.rest()
            raise Broken(f"the answer is cut: {told_of(fault)}") from None
        self.spending.received += len(data)
        self.may_come -= len(data)
        return data


class Answer:
    """The answer to a request: its status and fields, and its body, piece by piece."""

    def __init__(self, connection: Connection, url: Url) -> None:
        """Reads the head. Raises AnswerFault."""
        self.connection, self.url = connection, url
        for _ in range(MOST_INTERIM):
            found = STATUS.fullmatch(connection.line())
            if not found:
                raise AnswerFault("the answer is none of HTTP/1.1")
            self.status, self.fields = int(found[2]), fields_of(connection)
            if self.status >= 200:
                break
        else:
            raise AnswerFault("the server sends no answer, but 1xx")
        self.is_kept = found[1] == b"1" and self.field("connection").lower() != "close"
        self.is_chunked = "transfer-encoding" in self.fields
        if self.is_chunked and self.field("transfer-encoding").lower() != "chunked":
            raise AnswerFault("the answer has a Transfer-Encoding that is not chunked")
        self.length = self.number("content-length")
        self.is_over = False

    def field(self, name: str) -> str:
        """A field of the head of the answer; empty if it has none."""
        return self.fields.get(name, "")

    def number(self, name: str) -> Optional[int]:
        """The number in a field; None if there is no such field, or in chunks."""
        text = self.field(name)
        if self.is_chunked or name not in self.fields:
            return None
        if not NUMBER.fullmatch(text):
            raise AnswerFault(f"{name} is no number")
        return int(text)

    def may_have(self, size: int) -> None:
        """Bounds the body: so many bytes may come of it, with what is around them."""
        already = len(self.connection.data)
        self.connection.may_come = size + size // 64 + MOST_HEAD - already
        self.connection.ends = time.monotonic() + IDLE + size / PACE

    def body(self) -> Iterator[bytes]:
        """Yields the body as it comes. Raises Broken and AnswerFault."""
        if self.is_chunked:
            yield from self.chunks()
        else:
            self.is_kept = self.is_kept and self.length is not None
            yield from self.connection.pieces(self.length)
        self.is_over = True

    def chunks(self) -> Iterator[bytes]:
        """Yields the bytes of a body in chunks (RFC 9112, section 7.1)."""
        while True:
            found = CHUNK.fullmatch(self.connection.line())
            if not found:
                raise AnswerFault("the answer has a chunk without a length")
            size = int(found[1], 16)
            if not size:
                break
            yield from self.connection.pieces(size)
            if self.connection.line():
                raise AnswerFault("the answer has a chunk of another length")
        fields_of(self.connection)

    def can_go_on(self) -> bool:
        """Whether the connection can be used for a further request."""
        return self.is_over and self.is_kept and not self.connection.data


def fields_of(stream: Stream) -> Dict[str, str]:
    """The header fields up to the empty line, by their names in lower case."""
    fields: Dict[str, str] = {}
    for _ in range(MOST_FIELDS):
        line = stream.line()
        if not line:
            return fields
        found = FIELD.fullmatch(line)
        if not found:
            raise AnswerFault("the answer has a line that is no field")
        name, value = found[1].decode("latin-1").lower(), found[2].decode("latin-1")
        if name in fields and fields[name] != value:
            if name in ("content-length", "transfer-encoding", "content-range", "location"):
                raise AnswerFault(f"the answer has two fields {name}")
            value = f"{fields[name]}, {value}"
        fields[name] = value[:MOST_LINE]
    raise AnswerFault(f"the answer has more than {MOST_FIELDS} fields")


def told_of(fault: OSError) -> str:
    """What an error of a socket is, in words."""
    if isinstance(fault, ssl.SSLCertVerificationError):
        return f"its certificate is not valid: {fault.verify_message}"
    if isinstance(fault, (socket.timeout, TimeoutError)):
        return "it takes too long"
    return fault.strerror or type(fault).__name__


class Client:
    """Asks servers, over connections that it keeps: of each server one."""

    def __init__(self, origins: Origins, spending: Spending) -> None:
        self.origins, self.spending = origins, spending
        self.kept: Dict[Server, Connection] = {}
        self.moved: Dict[Url, Url] = {}
        self.context: Optional[ssl.SSLContext] = None

    def close(self) -> None:
        while self.kept:
            self.kept.popitem()[1].close()

    def get(self, url: Url, fields: Mapping[str, str], expected: int) -> Answer:
        """The answer to a GET of a URL or of what that redirects to.

        About so many bytes are expected. Raises AnswerFault, Refused and Spent.
        """
        first, url = url, self.moved.get(url, url)
        for _ in range(MOST_REDIRECTS + 1):
            answer = self.ask(url, fields, expected)
            if answer.status not in REDIRECTS:
                if url != first:
                    self.moved[first] = url
                return answer
            answer.connection.close()
            url = self.redirected(url, answer.field("location"))
        raise AnswerFault(f"more than {MOST_REDIRECTS} redirects")

    def redirected(self, url: Url, location: str) -> Url:
        """Where a server sends the request, if it may be sent there."""
        try:
            other = url_of(joined(str(url), location))
            self.origins.check(other)
        except Refused as fault:
            raise AnswerFault(f"is redirected to {location[:200]!r}, which {fault}") from None
        if (url.scheme, other.scheme) == ("https", "http"):
            raise AnswerFault("is redirected from https to http")
        return other

    def ask(self, url: Url, fields: Mapping[str, str], expected: int) -> Answer:
        """The answer to one request. What a kept connection does not answer a new one is asked."""
        lines = [f"GET {url.target()} HTTP/1.1", f"Host: {url.authority()}", f"User-Agent: {AGENT}"]
        lines += [f"{name}: {value}" for name, value in fields.items()]
        request = "".join(f"{line}\r\n" for line in [*lines, ""]).encode("ascii")
        self.spending.requests += 1
        while True:
            connection = self.connection(url)
            is_again = connection.is_used
            try:
                connection.begin(expected)
                connection.send(request)
                answer = Answer(connection, url)
                connection.is_used = True
                return answer
            except BaseException as fault:
                connection.close()
                if not is_again or not isinstance(fault, Broken):
                    raise

    def done(self, answer: Answer) -> None:
        """Keeps the connection of an answer whose body was read to the end, and else closes it."""
        if answer.can_go_on():
            self.kept[answer.url.server()] = answer.connection
        else:
            answer.connection.close()

    def connection(self, url: Url) -> Connection:
        """A connection that was kept, or a new one."""
        kept = self.kept.pop(url.server(), None)
        return kept or Connection(self.connected(url), self.spending)

    def connected(self, url: Url) -> socket.socket:
        """A new connection to an address that may be connected to, of those of the host."""
        self.spending.left()
        why = "there is no address"
        for family, place in self.origins.places(url, min(IDLE, self.spending.rest())):
            stream = socket.socket(family, socket.SOCK_STREAM)
            try:
                stream.settimeout(min(IDLE, self.spending.rest()))
                stream.connect(place)
                return self.secured(stream, url)
            except (OSError, ValueError) as fault:  # of a name that TLS does not know as one
                stream.close()
                why = told_of(fault) if isinstance(fault, OSError) else str(fault)
                self.spending.rest()
            except BaseException:
                stream.close()
                raise
        raise AnswerFault(f"{url.authority()}: {why}")

    def secured(self, stream: socket.socket, url: Url) -> socket.socket:
        """The connection under TLS, by the certificate of the host's name, if the URL has https."""
        if url.scheme == "http":
            return stream
        self.context = self.context or ssl.create_default_context()
        return self.context.wrap_socket(stream, server_hostname=url.host)
