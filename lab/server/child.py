"""One run of a program, within limits of time, memory and output; its whole process group is killed at the end."""
from __future__ import annotations

import os
import resource
import selectors
import signal
import subprocess
import time
from dataclasses import dataclass, field
from typing import Protocol, Sequence

STEP = 0.025
CHUNK = 65_536


class Gone(Protocol):
    """Whether nobody waits for an answer any more, as an event says it."""

    def is_set(self) -> bool: ...


@dataclass(frozen=True)
class Limits:
    """What a child may take. `memory` in bytes: None leaves memory and files to the program. `warning`: how many seconds
    before its end it is asked to end by itself, so that it ends what it has started in other groups."""

    seconds: float = 20.0
    output: int = 64 << 20
    memory: int | None = 1 << 30
    warning: float = 0.0


@dataclass(frozen=True)
class Ended:
    """How a child ended: `ended` is "" by itself, `late`, `long`, `gone` (nobody waits for it), or `absent`."""

    status: int
    out: bytes
    err: bytes
    ended: str
    seconds: float


@dataclass
class _Streams:
    """What is still to be given to a child, and what it has written."""

    given: memoryview
    written: dict[str, bytearray] = field(default_factory=lambda: {"out": bytearray(), "err": bytearray()})

    def size(self) -> int:
        return sum(map(len, self.written.values()))


def run(command: Sequence[str], given: bytes, limits: Limits, gone: Gone) -> Ended:
    """Runs a command on some input until it ends, or a limit is reached, or nobody waits for it."""
    begun = time.monotonic()
    try:
        child = subprocess.Popen(
            list(command), stdin=subprocess.PIPE, stdout=subprocess.PIPE, stderr=subprocess.PIPE, start_new_session=True)
    except OSError as error:
        return Ended(125, b"", str(error).encode(), "absent", 0.0)
    streams = _Streams(memoryview(given))
    try:
        _restrict(child.pid, limits)
        ended = _talk(child, streams, limits, gone, begun + limits.seconds)
    finally:
        status = _finish(child, limits.warning)
    return Ended(status, bytes(streams.written["out"]), bytes(streams.written["err"]), ended,
                 time.monotonic() - begun)


def _restrict(pid: int, limits: Limits) -> None:
    """Sets the limits of a child that has begun. The programs read all their input first, so it is in time."""
    if limits.memory is None or not hasattr(resource, "prlimit"):
        return
    most = {
        resource.RLIMIT_AS: limits.memory,
        resource.RLIMIT_CPU: int(limits.seconds) + 1,
        resource.RLIMIT_FSIZE: 0,
        resource.RLIMIT_CORE: 0,
    }
    try:
        for kind, value in most.items():
            resource.prlimit(pid, kind, (value, value))
    except ProcessLookupError:
        pass


def _talk(child: subprocess.Popen[bytes], streams: _Streams, limits: Limits, gone: Gone, until: float) -> str:
    """Gives the input and takes the output until the child has ended."""
    with selectors.DefaultSelector() as selector:
        selector.register(child.stdin, selectors.EVENT_WRITE, "in")
        selector.register(child.stdout, selectors.EVENT_READ, "out")
        selector.register(child.stderr, selectors.EVENT_READ, "err")
        for stream in (child.stdin, child.stdout, child.stderr):
            os.set_blocking(stream.fileno(), False)
        while selector.get_map() or not _has_ended(child):
            if stopped := _stopped(streams, limits, gone, until):
                return stopped
            _turn(selector, streams)
    return ""


def _stopped(streams: _Streams, limits: Limits, gone: Gone, until: float) -> str:
    if gone.is_set():
        return "gone"
    if time.monotonic() > until:
        return "late"
    return "long" if streams.size() > limits.output else ""


def _turn(selector: selectors.BaseSelector, streams: _Streams) -> None:
    if not selector.get_map():
        time.sleep(0.001)
        return
    for key, _ in selector.select(STEP):
        if key.data == "in":
            _give(selector, key, streams)
        else:
            _take(selector, key, streams)


def _give(selector: selectors.BaseSelector, key: selectors.SelectorKey, streams: _Streams) -> None:
    try:
        streams.given = streams.given[os.write(key.fd, streams.given[:CHUNK]):]
    except BlockingIOError:
        return
    except BrokenPipeError:
        streams.given = streams.given[:0]
    if not streams.given:
        selector.unregister(key.fileobj)
        key.fileobj.close()


def _take(selector: selectors.BaseSelector, key: selectors.SelectorKey, streams: _Streams) -> None:
    try:
        read = os.read(key.fd, CHUNK)
    except BlockingIOError:
        return
    if read:
        streams.written[key.data] += read
    else:
        selector.unregister(key.fileobj)


def _has_ended(child: subprocess.Popen[bytes]) -> bool:
    """Whether the child has ended. It stays unreaped, so its number can't be another's when its group is killed."""
    return os.waitid(os.P_PID, child.pid, os.WEXITED | os.WNOWAIT | os.WNOHANG) is not None


def _finish(child: subprocess.Popen[bytes], warning: float) -> int:
    if warning and not _has_ended(child):
        _kill(child, signal.SIGTERM)
        until = time.monotonic() + warning
        while time.monotonic() < until and not _has_ended(child):
            time.sleep(STEP)
    _kill(child, signal.SIGKILL)
    for stream in (child.stdin, child.stdout, child.stderr):
        stream.close()
    return child.wait()


def _kill(child: subprocess.Popen[bytes], kind: signal.Signals) -> None:
    try:
        os.killpg(child.pid, kind)
    except (ProcessLookupError, PermissionError):
        pass
