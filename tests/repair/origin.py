"""Servers of HTTP for tests: one that has files, and answers as it is told to, also wrongly.

It is on the loopback. `asked` has the target and the fields of each request, `sent` counts the
bytes of its answers.
"""
from __future__ import annotations

import contextlib
import gzip
import re
import socket
import ssl
import struct
import threading
import urllib.parse
from typing import BinaryIO, Callable, Dict, List, Optional, Tuple

from tests.support.flute_sender import block_sizes

Fields = Dict[str, str]
BOUNDARY = "00000000000000000017"
TYPE = "application/octet-stream"
CONTAINER = "application/simpleSymbolContainer"


class HttpRequest:
    """A request: its target, and its fields by their names in lower case."""

    def __init__(self, lines: List[str]) -> None:
        self.method, self.target, self.version = lines[0].split(" ")
        pairs = [line.partition(": ")[::2] for line in lines[1:]]
        self.fields = {name.lower(): value for name, value in pairs}
        self.path = self.target.partition("?")[0]

    def ranges(self, length: int) -> List[Tuple[int, int]]:
        """The ranges of bytes that are asked for, of a file of this length."""
        found = re.findall(r"(\d+)-(\d+)", self.fields.get("range", ""))
        return [(int(first), min(int(last), length - 1)) for first, last in found]


def head(status: int, **fields: object) -> bytes:
    """The head of an answer. Underscores in names of fields become hyphens."""
    lines = [f"HTTP/1.1 {status} said"]
    lines += [f"{name.replace('_', '-')}: {value}" for name, value in fields.items()]
    return "".join(f"{line}\r\n" for line in [*lines, ""]).encode("latin-1")


def answer(status: int, body: bytes = b"", **fields: object) -> bytes:
    return head(status, Content_Length=len(body), **fields) + body


def chunked(body: bytes, size: int = 1000) -> bytes:
    """A body in chunks (RFC 9112, section 7.1)."""
    pieces = [body[at : at + size] for at in range(0, len(body), size)]
    chunks = [b"%x;a=b\r\n%s\r\n" % (len(piece), piece) for piece in pieces]
    return b"".join(chunks) + b"0\r\nDone: yes\r\n\r\n"


def multipart(data: bytes, ranges: List[Tuple[int, int]], total: Optional[int] = None) -> bytes:
    """The body of several ranges (RFC 9110, section 14.6), as nginx writes it."""
    total = len(data) if total is None else total
    parts = [
        f"\r\n--{BOUNDARY}\r\nContent-Type: {TYPE}\r\n"
        f"Content-Range: bytes {first}-{last}/{total}\r\n\r\n".encode() + data[first : last + 1]
        for first, last in ranges
    ]
    return b"".join(parts) + f"\r\n--{BOUNDARY}--\r\n".encode()


def always(said: Optional[bytes]) -> Callable[[HttpRequest], Optional[bytes]]:
    """The same answer to each request."""
    return lambda _: said


class Origin:
    """A server. `how` makes the answer to a request; None closes the connection without one."""

    def __init__(self, context: Optional[ssl.SSLContext] = None, host: str = "127.0.0.1") -> None:
        self.files: Dict[str, bytes] = {}
        self.tags: Dict[str, str] = {}
        self.requests: List[HttpRequest] = []
        self.sent = self.connections = 0
        self.how: Callable[[HttpRequest], Optional[bytes]] = self.ranges
        self.context, self.lock = context, threading.Lock()
        family = socket.AF_INET6 if ":" in host else socket.AF_INET
        self.listener = socket.create_server((host, 0), family=family)
        self.port = self.listener.getsockname()[1]
        scheme = "https" if context else "http"
        self.url = f"{scheme}://{f'[{host}]' if ':' in host else host}:{self.port}"
        self.open: List[socket.socket] = []
        threading.Thread(target=self.serve, daemon=True).start()

    def close(self) -> None:
        with contextlib.suppress(OSError):  # it may be closed already
            self.listener.shutdown(socket.SHUT_RDWR)
        self.listener.close()
        with self.lock:
            for stream in self.open:
                stream.close()

    def serve(self) -> None:
        """Takes connections, each in a thread."""
        while True:
            try:
                stream = self.listener.accept()[0]
            except OSError:
                return
            with self.lock:
                self.connections += 1
                self.open.append(stream)
            threading.Thread(target=self.talk, args=[stream], daemon=True).start()

    def talk(self, stream: socket.socket) -> None:
        """Answers the requests of a connection."""
        try:
            if self.context:
                stream = self.context.wrap_socket(stream, server_side=True)
            with stream, stream.makefile("rb") as lines:
                while self.take(stream, lines):
                    pass
        except OSError:
            pass

    def take(self, stream: socket.socket, lines: BinaryIO) -> bool:
        """Answers a request. Returns whether the connection goes on."""
        got = []
        for line in iter(lines.readline, b""):
            if line == b"\r\n":
                break
            got.append(line.decode("latin-1").rstrip("\r\n"))
        if not got:
            return False
        request = HttpRequest(got)
        with self.lock:
            self.requests.append(request)
            said = self.how(request)
        if said is None:
            return False
        self.say(stream, said)
        return b"\r\nConnection: close\r\n" not in said[:500]

    def say(self, stream: socket.socket, said: bytes) -> None:
        """Sends an answer, and counts its bytes."""
        self.sent += len(said)
        stream.sendall(said)

    # How it answers

    def fields(self, path: str) -> Fields:
        tag = self.tags.get(path)
        return {"ETag": tag} if tag else {}

    def ranges(self, request: HttpRequest) -> bytes:
        """As a server that knows ranges."""
        data = self.files.get(request.path)
        if data is None:
            return answer(404, b"none")
        fields = self.fields(request.path)
        ranges = request.ranges(len(data))
        if request.fields.get("if-range", fields.get("ETag")) != fields.get("ETag"):
            ranges = []
        if not ranges:
            return answer(200, data, **fields)
        if any(first >= len(data) for first, _ in ranges):
            return answer(416, Content_Range=f"bytes */{len(data)}")
        if len(ranges) == 1:
            first, last = ranges[0]
            told = f"bytes {first}-{last}/{len(data)}"
            return answer(206, data[first : last + 1], Content_Range=told, **fields)
        kind = f"multipart/byteranges; boundary={BOUNDARY}"
        return answer(206, multipart(data, ranges), Content_Type=kind, **fields)

    def whole(self, request: HttpRequest) -> bytes:
        """As one that knows no ranges."""
        return answer(200, self.files[request.path])

    def in_chunks(self, request: HttpRequest) -> bytes:
        """As `ranges`, in chunks."""
        said = self.ranges(request)
        top, _, body = said.partition(b"\r\n\r\n")
        top = re.sub(rb"Content-Length: \d+", b"Transfer-Encoding: chunked", top)
        return top + b"\r\n\r\n" + chunked(body)

    def one_range(self, request: HttpRequest) -> bytes:
        """As one that knows a single range, and sends the whole file in place of several."""
        if len(request.ranges(1)) < 2:
            return self.ranges(request)
        fields = self.fields(request.path)
        return answer(200, self.files[request.path], Accept_Ranges="bytes", **fields)

    def encoded(self, request: HttpRequest) -> bytes:
        """As one that has files in encoded form."""
        data = self.files[request.path]
        if "gzip" not in request.fields.get("accept-encoding", ""):
            return answer(200, gzip.decompress(data))
        return answer(200, data, Content_Encoding="gzip")


class Containers:
    """How a file repair server of 3GPP answers (TS 26.346, section 9.3)."""

    def __init__(self, origin: Origin, symbol: int, block: int, is_padded: bool = False) -> None:
        self.origin, self.numbers, self.is_padded = origin, (symbol, block), is_padded

    def __call__(self, request: HttpRequest) -> bytes:
        items = request.target.partition("?")[2].split("&")
        named = dict(item.split("=", 1) for item in items if not item.startswith("SBN="))
        place = urllib.parse.unquote(named["fileURI"])
        data = self.origin.files[urllib.parse.urlsplit(place).path]
        symbol, block = self.numbers
        sizes = block_sizes(len(data), symbol, block)
        if self.is_padded:
            data += bytes(-len(data) % symbol)
        body = b""
        for item in items:
            found = re.fullmatch(r"SBN=(\d+);ESI=([\d,-]+)", item)
            if not found:
                continue
            for run in found[2].split(","):
                first, _, last = run.partition("-")
                count = int(last or first) - int(first) + 1
                at = symbol * (sum(sizes[: int(found[1])]) + int(first))
                body += struct.pack(">HHH", count, int(found[1]), int(first))
                body += data[at : at + count * symbol]
        return answer(200, body, Content_Type=CONTAINER)
