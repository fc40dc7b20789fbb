"""Programs that are run on an input, each in a process group of its own, until a time limit."""
import math
import os
import resource
import selectors
import signal
import subprocess
import threading
import time
from typing import IO, NamedTuple

MOST_BYTES = 256 * 1024 * 1024
PIECE = 65_536


class Hung(Exception):
    """A program was killed at its time limit."""


class TooLong(Exception):
    """A program was killed since it wrote more than can be kept."""


class Ended(Exception):
    """No more programs may be started."""


class Output(NamedTuple):
    """What a program left behind; the status is negative after a signal."""

    status: int
    text: bytes
    hint: bytes


class Children:
    """All programs under way, which can be ended together."""

    def __init__(self) -> None:
        self.lock, self.groups, self.is_over = threading.Lock(), set[int](), False

    def run(self, command: list[str], data: bytes, seconds: float, environment: dict[str, str] | None = None) -> Output:
        """Runs a program on an input, to its end or to the limit."""
        if self.is_over:
            raise Ended
        with input_file(data) as source:
            child = self.start(command, source, seconds, environment)
        with child:
            try:
                out, hint = read_all(child, time.monotonic() + seconds)
            finally:
                self.end(child.pid)
        return Output(child.returncode, out, hint)

    def start(self, command: list[str], source: IO[bytes], seconds: float,
              environment: dict[str, str] | None) -> subprocess.Popen[bytes]:
        child = subprocess.Popen(
            command, stdin=source, stdout=subprocess.PIPE, stderr=subprocess.PIPE, start_new_session=True,
            env=None if environment is None else {**os.environ, **environment})
        with self.lock:
            self.groups.add(child.pid)
            is_over = self.is_over
        if is_over:
            self.end(child.pid)
        limit_processor_time(child.pid, seconds)
        return child

    def end(self, group: int) -> None:
        """Kills what is left of a process group."""
        with self.lock:
            self.groups.discard(group)
        kill(group)

    def end_all(self) -> None:
        """Kills all programs, and starts no more."""
        with self.lock:
            self.is_over = True
            groups = list(self.groups)
        for group in groups:
            kill(group)


def kill(group: int) -> None:
    try:
        os.killpg(group, signal.SIGKILL)
    except (ProcessLookupError, PermissionError):
        pass


def input_file(data: bytes) -> IO[bytes]:
    """A file in memory with the bytes, from which a program can read them."""
    source = open(os.memfd_create("scenario"), "w+b", buffering=0)
    source.write(data)
    source.seek(0)
    return source


def limit_processor_time(process: int, seconds: float) -> None:
    """Ends a busy program whose parent was killed, a while after its time limit."""
    most = math.ceil(seconds) + 5
    try:
        resource.prlimit(process, resource.RLIMIT_CPU, (most, most))
    except (ProcessLookupError, PermissionError, ValueError):
        pass


def read_all(child: subprocess.Popen[bytes], deadline: float) -> tuple[bytes, bytes]:
    """Standard output and standard error, once the program has ended."""
    assert child.stdout is not None and child.stderr is not None
    pieces: dict[int, list[bytes]] = {child.stdout.fileno(): [], child.stderr.fileno(): []}
    ending = os.pidfd_open(child.pid)
    try:
        with selectors.DefaultSelector() as selector:
            for source in (*pieces, ending):
                selector.register(source, selectors.EVENT_READ)
            read_into(pieces, selector, deadline)
    finally:
        os.close(ending)
    out, hint = (b"".join(parts) for parts in pieces.values())
    return out, hint


def read_into(pieces: dict[int, list[bytes]], selector: selectors.BaseSelector, deadline: float) -> None:
    """Reads the pipes until nothing is left to wait for."""
    length = 0
    while selector.get_map():
        for source in ready_before(selector, deadline):
            piece = os.read(source, PIECE) if source in pieces else b""
            if piece:
                pieces[source].append(piece)
                length += len(piece)
            else:
                selector.unregister(source)
        if length > MOST_BYTES:
            raise TooLong


def ready_before(selector: selectors.BaseSelector, deadline: float) -> list[int]:
    """The pipes that can be read, or the program that has ended."""
    rest = deadline - time.monotonic()
    ready = selector.select(rest) if rest > 0 else []
    if not ready:
        raise Hung
    return [key.fd for key, _ in ready]
