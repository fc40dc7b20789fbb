"""Which programs answer: the proved ones where they are fresh, else the quick run of the launchers."""
from __future__ import annotations

import os
import re
import subprocess
import time
from dataclasses import dataclass
from pathlib import Path
from threading import Event
from typing import Callable

from . import child
from .words import REPORTS, words_of

LOOK_AGAIN = 20.0
REFUSED_WORDS = 1
NO_ANSWER = 125
LAUNCHER_LINE = re.compile(r"^aps(im|view|tasks): ")


@dataclass(frozen=True)
class Program:
    """A program: how to call it, the digest of what it is made from, and whether it is proved, given or quick."""

    name: str
    command: tuple[str, ...]
    digest: str
    how: str

    def is_there(self) -> bool:
        """Whether the file is still the one that was found. A launcher is judged by its sources, when it is looked up."""
        return self.how == "quick" or _signature(Path(self.command[0])) == self.digest

    def hint(self, status: int, said: str) -> str:
        """What the program says to a person; of an answer of the quick run without the launcher's lines about that."""
        if self.how != "quick" or status == NO_ANSWER:
            return said
        return "".join(line for line in said.splitlines(keepends=True) if not LAUNCHER_LINE.match(line))


class Programs:
    """The programs of a checkout, or of a folder that the user names, looked up again every few seconds."""

    def __init__(self, find: Callable[[str], Program | None]) -> None:
        self._find = find
        self._found: dict[str, tuple[float, Program | None]] = {}
        self._known: dict[tuple[str, str], bool] = {}

    def current(self, name: str) -> Program | None:
        """The program as it was found a moment ago; looked up anew where its file is another one."""
        when, program = self._found.get(name, (float("-inf"), None))
        if time.monotonic() - when > LOOK_AGAIN or (program and not program.is_there()):
            return self.look(name)
        return program

    def look(self, name: str) -> Program | None:
        program = self._find(name)
        self._found[name] = (time.monotonic(), program)
        return program

    def knows(self, report: str) -> bool:
        """Whether the program has a report. A program is asked once; the quick run, which takes a minute for any answer,
        only by the first call that it refuses."""
        program = self.current(REPORTS[report].program)
        if program is None:
            return False
        key = (program.digest, report)
        if key not in self._known and program.how != "quick":
            answered = _answers(program, report)
            if answered is None:
                return False
            self._known[key] = answered
        return self._known.get(key, True)

    def refused(self, program: Program, report: str) -> None:
        """Notes that a program refused the words of a report."""
        self._known[program.digest, report] = False

    def reports(self) -> list[str]:
        return [name for name in REPORTS if self.knows(name)]


def _answers(program: Program, report: str) -> bool | None:
    """Refused words end with status 1 before any input is read; other calls with an empty input end otherwise. None where
    the program didn't answer in time, so that it is asked again."""
    needed = {"thread": "a", "at": "0", "worst": "wake"}
    done = child.run([*program.command, *words_of(report, needed)], b"", child.Limits(seconds=10), Event())
    return done.status != REFUSED_WORDS if done.ended == "" and done.status != NO_ANSWER else None


def in_folder(folder: Path) -> Callable[[str], Program | None]:
    """Programs that the user names. Whether they are proved isn't judged."""
    def find(name: str) -> Program | None:
        path = folder / name
        if not os.access(path, os.X_OK) or path.is_dir():
            return None
        return Program(name, (str(path),), _signature(path), "given")
    return find


def of_checkout(root: Path) -> Callable[[str], Program | None]:
    """The fresh proved program of a checkout; where there is none, its launcher, which runs it quickly and builds nothing."""
    def find(name: str) -> Program | None:
        path = _fresh_program(root, name)
        if path:
            return Program(name, (path,), _signature(Path(path)), "proved")
        digest = _fresh_program(root, "--digest", name)
        return Program(name, (str(root / name),), f"quick {digest}", "quick") if digest else None
    return find


def _signature(path: Path) -> str:
    """Which file a program is, as far as the file system says: one that is built anew has another signature."""
    try:
        found = path.stat()
    except OSError:
        return ""
    return f"{path} {found.st_ino} {found.st_size} {found.st_mtime_ns}"


def _fresh_program(root: Path, *words: str) -> str:
    """What the checkout's tool says that judges whether a program is fresh; "" where it says no, or is missing."""
    try:
        done = subprocess.run([str(root / "tools" / "fresh_program"), *words], capture_output=True, text=True, timeout=20,
                              check=False)
    except (OSError, subprocess.TimeoutExpired):
        return ""
    return done.stdout.strip() if done.returncode == 0 else ""
