"""The server's socket, on 127.0.0.1 alone, and its connections, so many at most."""
from __future__ import annotations

import secrets
import socket
from threading import BoundedSemaphore, Thread

from .connection import Connection, Dropped, Patience, Refused
from .guard import HEADERS, Guard
from .site import Reply, Site

MOST_CONNECTIONS = 24
SEND_BUFFER = 128 << 10
REASONS = {
    200: "OK", 400: "Bad Request", 403: "Forbidden", 404: "Not Found", 405: "Method Not Allowed", 411: "Length Required",
    413: "Content Too Large", 422: "Unprocessable Content", 431: "Request Header Fields Too Large",
    500: "Internal Server Error", 503: "Service Unavailable",
}


def head_of(reply: Reply) -> bytes:
    """The head of an answer. It has the same rules for the browser, whatever is answered."""
    headers = {**HEADERS, "Content-Type": reply.kind, "Connection": "close"}
    if reply.file_name:
        headers["Content-Disposition"] = f'attachment; filename="{reply.file_name}"'
    lines = [f"HTTP/1.0 {reply.status} {REASONS[reply.status]}", *(f"{key}: {headers[key]}" for key in headers)]
    return "\r\n".join([*lines, "", ""]).encode("ascii")


class Server:
    """Answers requests until it is told to stop."""

    def __init__(self, site: Site, port: int = 0, patience: Patience = Patience()) -> None:
        self._site = site
        self._patience = patience
        self._seats = BoundedSemaphore(MOST_CONNECTIONS)
        self._listener = socket.create_server(("127.0.0.1", port), backlog=64)
        self.port: int = self._listener.getsockname()[1]
        self.token = secrets.token_urlsafe(24)
        self._guard = Guard(self.port, self.token)

    @property
    def address(self) -> str:
        return f"http://127.0.0.1:{self.port}/{self.token}/"

    def serve(self) -> None:
        while True:
            try:
                stream, _ = self._listener.accept()
            except OSError:
                return
            stream.setsockopt(socket.SOL_SOCKET, socket.SO_SNDBUF, SEND_BUFFER)
            if self._seats.acquire(blocking=False):
                Thread(target=self._answer, args=(stream,), daemon=True).start()
            else:
                _turn_away(stream)

    def stop(self) -> None:
        try:
            self._listener.shutdown(socket.SHUT_RDWR)
        except OSError:
            pass
        self._listener.close()

    def _answer(self, stream: socket.socket) -> None:
        connection = Connection(stream, self._patience)
        try:
            self._reply(connection)
        except Dropped:
            pass
        finally:
            connection.close()
            self._seats.release()

    def _reply(self, connection: Connection) -> None:
        try:
            request = connection.request()
            path = self._guard.path_of(request)
            reply = self._site.reply(path, request, connection)
        except Refused as refused:
            reply = Reply(refused.status)
        try:
            connection.send(head_of(reply))
            for piece in reply.pieces:
                connection.send(piece)
        finally:
            reply.close()


def _turn_away(stream: socket.socket) -> None:
    stream.settimeout(0.2)
    try:
        stream.send(head_of(Reply(503)))
    except OSError:
        pass
    stream.close()
