"""A lab for tests, with programs that stand in, and a client that speaks to it byte for byte."""
from __future__ import annotations

import os
import socket
import tempfile
from dataclasses import dataclass
from pathlib import Path
from threading import Thread
from typing import Mapping

from lab.server.child import Limits
from lab.server.connection import Patience
from lab.server.programs import Programs, in_folder, of_checkout
from lab.server.reports import Reports
from lab.server.runs import Runner
from lab.server.serving import Server
from lab.server.site import Site

ROOT = Path(__file__).resolve().parents[2]
STAND_IN = Path(__file__).resolve().parent / "stand_in.py"


@dataclass(frozen=True)
class Got:
    status: int
    headers: Mapping[str, str]
    body: bytes


def programs_in(folder: Path, names: tuple[str, ...] = ("apsim", "apsview"), program: Path = STAND_IN) -> Path:
    """A folder in which the stand-in has the programs' names."""
    for name in names:
        os.symlink(program, folder / name)
    return folder


class Lab:
    """A lab that serves until it is stopped."""

    def __init__(self, seconds: float = 5.0, seats: int = 4, patience: Patience = Patience(0.6, 1.2),
                 folder: Path | None = None, output: int = 64 << 20, first: Path | None = None,
                 checkout: Path | None = None) -> None:
        """With the programs of a checkout, or of a folder, or else with stand-ins."""
        self.rooms = tempfile.TemporaryDirectory()
        folder = folder or programs_in(Path(self.rooms.name))
        programs = Programs(of_checkout(checkout) if checkout else in_folder(folder))
        limits = Limits(seconds=seconds, output=output)
        self.reports = Reports(programs, Runner(limits, limits, seats))
        self.server = Server(Site(ROOT, programs, self.reports, first), 0, patience)
        self.thread = Thread(target=self.server.serve, daemon=True)
        self.thread.start()

    def stop(self) -> None:
        self.server.stop()
        self.thread.join(5)
        self.rooms.cleanup()

    @property
    def host(self) -> str:
        return f"127.0.0.1:{self.server.port}"

    def connect(self) -> socket.socket:
        return socket.create_connection(("127.0.0.1", self.server.port), timeout=60)

    def head(self, method: str, path: str, headers: Mapping[str, str | None] = {}, token: bool = True) -> bytes:
        """The head of a request that would be served, but for what is given. None leaves a header out."""
        usual: dict[str, str | None] = {"Host": self.host}
        if method == "POST":
            usual |= {"Origin": f"http://{self.host}", "Content-Length": "0"}
        lines = [f"{name}: {value}" for name, value in {**usual, **headers}.items() if value is not None]
        where = f"/{self.server.token}/{path}" if token else path
        return "\r\n".join([f"{method} {where} HTTP/1.1", *lines, "", ""]).encode()

    def ask(self, method: str, path: str, body: bytes = b"", headers: Mapping[str, str | None] = {}, token: bool = True) -> Got:
        if method == "POST":
            headers = {"Content-Length": str(len(body)), **headers}
        with self.connect() as stream:
            stream.sendall(self.head(method, path, headers, token) + body)
            return received(stream)


def received(stream: socket.socket) -> Got:
    """All that the lab answers, until it ends the connection."""
    data = b""
    while read := stream.recv(65_536):
        data += read
    head, _, body = data.partition(b"\r\n\r\n")
    first, *lines = head.decode().split("\r\n")
    headers = dict(line.split(": ", 1) for line in lines)
    return Got(int(first.split(" ")[1]), headers, body)
