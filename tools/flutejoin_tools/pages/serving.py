"""Serves the page of a centre and its files, and nothing else, by Python's own server."""
from __future__ import annotations

import functools
import http.server
import ipaddress
import os
import socket
import threading
import urllib.parse
from typing import Callable, Optional

from flutejoin_tools.common.faults import Fault
from flutejoin_tools.pages.drawn import FOLDER as PICTURES
from flutejoin_tools.pages.drawn import NAME as PICTURE

NAMES = "index.html", "status.json", "metrics.prom"
FILES = "files"


def address_of(text: str) -> tuple[str, int]:
    """The address and the port of a text, as 127.0.0.1:8080 or [::1]:8080. Raises Fault."""
    host, _, port = text.rpartition(":")
    try:
        number = int(port)
        address = ipaddress.ip_address(host.strip("[]"))
        if not 0 <= number < 1 << 16:
            raise ValueError
    except ValueError:
        raise Fault(2, f"listen: {text!r} is no address and port, as 127.0.0.1:8080") from None
    return str(address), number


class Handler(http.server.SimpleHTTPRequestHandler):
    """Answers GET and HEAD. No folder is listed, and no link below the files is followed."""

    directory: str
    timeout = 30
    server_version, sys_version = "flutejoin-centre", ""

    def translate_path(self, path: str) -> str:
        """The path of a file that may be read; one that is not there for all others."""
        words = urllib.parse.unquote(urllib.parse.urlsplit(path).path).split("/")
        parts = [word for word in words if word]
        nothing = os.path.join(self.directory, "nothing", "here")
        if any(part in (".", "..") or "\0" in part for part in parts):
            return nothing
        if not parts or parts[0] in NAMES and len(parts) == 1:
            return os.path.join(self.directory, *(parts or ["index.html"]))
        if parts[0] == PICTURES and len(parts) == 2 and PICTURE.fullmatch(parts[1]):
            return os.path.join(self.directory, *parts)
        if parts[0] != FILES or len(parts) == 1:
            return nothing
        found = os.path.realpath(os.path.join(self.directory, FILES))
        wanted = os.path.join(found, *parts[1:])
        is_plain = os.path.realpath(wanted) == wanted and os.path.isfile(wanted)
        return wanted if is_plain else nothing

    def end_headers(self) -> None:
        """Ends the fields of an answer; those of a sender's file make it safe to open."""
        # A file of a sender is never shown as a page of this server.
        self.send_header("X-Content-Type-Options", "nosniff")
        if urllib.parse.urlsplit(self.path).path.startswith(f"/{FILES}/"):
            self.send_header("Content-Disposition", "attachment")
            self.send_header("Content-Security-Policy", "sandbox")
        super().end_headers()

    def log_message(self, *_: object) -> None:
        pass


class Server(http.server.ThreadingHTTPServer):
    """The HTTP server, with a thread for each connection."""

    daemon_threads = True
    allow_reuse_address = True

    def __init__(self, address: tuple[str, int], handler: Callable[..., Handler]) -> None:
        is_new = ipaddress.ip_address(address[0]).version == 6
        self.address_family = socket.AF_INET6 if is_new else socket.AF_INET
        super().__init__(address, handler)


class Serving:
    """The server, in a thread of its own."""

    def __init__(self, listen: str, folder: str) -> None:
        address = address_of(listen)
        handler = functools.partial(Handler, directory=folder)
        try:
            self.server = Server(address, handler)
        except OSError as fault:
            raise Fault(3, f"listen: {listen}: {fault.strerror}") from None
        self.thread: Optional[threading.Thread] = None

    def start(self) -> str:
        """Begins to serve, and returns where."""
        self.thread = threading.Thread(target=self.server.serve_forever, daemon=True)
        self.thread.start()
        host, port = str(self.server.server_address[0]), self.server.server_address[1]
        shown = f"[{host}]" if ":" in host else host
        return f"{shown}:{port}"

    def stop(self) -> None:
        self.server.shutdown()
        self.server.server_close()
