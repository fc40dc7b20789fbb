"""A connection of a client: its request is read within some time and size, and its answer is written while it is taken."""
from __future__ import annotations

import select
import socket
import time
from dataclasses import dataclass, field
from typing import Mapping


@dataclass(frozen=True)
class Patience:
    """How long a client may be silent, and how long a whole request may take, in seconds."""

    silent: float = 15.0
    request: float = 30.0


MOST_HEAD = 16 << 10
MOST_BODY = 1 << 20


class Refused(Exception):
    """The request is answered with a status and nothing else."""

    def __init__(self, status: int) -> None:
        super().__init__(status)
        self.status = status


class Dropped(Exception):
    """The client is gone, or too slow: it gets no answer."""


@dataclass(frozen=True)
class Request:
    """The head of a request. Names of headers are in small letters."""

    method: str
    path: str
    query: str
    headers: Mapping[str, str] = field(default_factory=dict)


def parse(head: bytes) -> Request:
    """Reads a head strictly: one line for each header, no header twice."""
    try:
        first, *lines = head.decode("ascii").split("\r\n")
        method, target, version = first.split(" ")
    except ValueError:
        raise Refused(400) from None
    if not version.startswith("HTTP/1.") or not target.startswith("/"):
        raise Refused(400)
    headers: dict[str, str] = {}
    for line in lines:
        name, colon, value = line.partition(":")
        name = name.lower()
        if not colon or not name or name != name.strip() or name in headers:
            raise Refused(400)
        headers[name] = value.strip()
    path, _, query = target.partition("?")
    return Request(method, path, query, headers)


class Connection:
    """A socket, with the patience that we have with its other end."""

    def __init__(self, stream: socket.socket, patience: Patience) -> None:
        self._stream = stream
        self._patience = patience
        self._until = time.monotonic() + patience.request
        self._read = b""

    def request(self) -> Request:
        while b"\r\n\r\n" not in self._read:
            if len(self._read) > MOST_HEAD:
                raise Refused(431)
            self._more()
        head, _, self._read = self._read.partition(b"\r\n\r\n")
        if len(head) > MOST_HEAD:
            raise Refused(431)
        return parse(head)

    def body(self, request: Request) -> bytes:
        """The body, whose length has to be told before."""
        length = request.headers.get("content-length", "")
        if "transfer-encoding" in request.headers or not (length.isascii() and length.isdigit()):
            raise Refused(411)
        if len(length) > 9 or int(length) > MOST_BODY:
            raise Refused(413)
        while len(self._read) < int(length):
            self._more()
        if len(self._read) > int(length):
            raise Refused(400)
        return self._read

    def _more(self) -> None:
        left = self._until - time.monotonic()
        if left <= 0:
            raise Dropped
        self._stream.settimeout(min(left, self._patience.silent))
        try:
            read = self._stream.recv(65_536)
        except OSError:
            raise Dropped from None
        if not read:
            raise Dropped
        self._read += read

    def send(self, data: bytes) -> None:
        """Writes all; a client that takes nothing for a while is dropped."""
        rest = memoryview(data)
        self._stream.settimeout(self._patience.silent)
        try:
            while rest:
                rest = rest[self._stream.send(rest[:65_536]):]
        except OSError:
            raise Dropped from None

    def is_closed(self) -> bool:
        """Whether the client has gone away. It has nothing more to say, so anything that it says counts as that too."""
        try:
            return bool(select.select([self._stream], [], [], 0)[0])
        except (OSError, ValueError):
            return True

    def close(self) -> None:
        """Ends the answer. What the client still sends is read for a moment, so that it gets what was written."""
        try:
            self._stream.shutdown(socket.SHUT_WR)
            self._stream.settimeout(0.2)
            until = time.monotonic() + 1.0
            while time.monotonic() < until and self._stream.recv(65_536):
                pass
        except OSError:
            pass
        self._stream.close()
