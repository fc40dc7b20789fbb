"""Runs the kit's gate over a room, shows how far it is, and gathers what went wrong."""
import os
import re
import select
import subprocess
import sys
from collections import deque

import checkout
import progress

PIECE = 1 << 16
LONGEST_TAIL = 60
KEPT = re.compile(r"rt: (\w+) is kept: ")
BLOCK = re.compile(r"== (\w+)")
SETTLED = re.compile(r"rt: (\w+)(: its tests are)? (NOT )?(proved|PROVED)")


class Said:
    """The lines that the kit has printed: which crate is done, and the lines of those that failed."""

    def __init__(self, shown: progress.Progress) -> None:
        self.shown = shown
        self.block: list[str] = []
        self.failed: list[str] = []
        self.tail: deque[str] = deque(maxlen=LONGEST_TAIL)
        self.begun_line = b""

    def read(self, stream: int) -> bool:
        """Takes what the kit prints within a second, and returns whether more may come."""
        if not select.select([stream], [], [], 1)[0]:
            return True
        piece = os.read(stream, PIECE)
        *whole, self.begun_line = (self.begun_line + piece).split(b"\n")
        for line in whole:
            self.take(line.decode(errors="replace"))
        return bool(piece)

    def take(self, line: str) -> None:
        self.tail.append(line)
        if kept := KEPT.match(line):
            self.shown.end(kept[1], is_kept=True)
        elif BLOCK.match(line):
            self.block = []
        elif settled := SETTLED.match(line):
            self.settle(settled[1], is_proof=not settled[2], has_failed=bool(settled[3]), line=line)
        else:
            self.block.append(line)

    def settle(self, name: str, is_proof: bool, has_failed: bool, line: str) -> None:
        if has_failed:
            self.failed += [*self.block[-LONGEST_TAIL:], line]
            self.shown.fail(name)
        elif is_proof:
            self.shown.end(name, is_kept=False)
        self.block = []

    def what_failed(self) -> str:
        return "\n".join(self.failed or self.tail)


class Display:
    """On a terminal one line that changes each second, elsewhere a line for each crate that begins or ends."""

    def __init__(self, shown: progress.Progress) -> None:
        self.shown, self.last = shown, None
        self.is_terminal = sys.stderr.isatty()

    def show(self) -> None:
        state = (len(self.shown.done), tuple(self.shown.at_work))
        if self.is_terminal:
            width = os.get_terminal_size(2).columns - 1
            sys.stderr.write(f"\r\033[K{('prove: ' + self.shown.text())[:width]}")
        elif state != self.last and self.shown.at_work:
            sys.stderr.write(f"prove: {self.shown.text()}\n")
        sys.stderr.flush()
        self.last = state

    def clear(self) -> None:
        if self.is_terminal:
            sys.stderr.write("\r\033[K")
            sys.stderr.flush()


def note_begun(room: str, lines: dict[str, str], shown: progress.Progress) -> None:
    """Notes which crates are at work: a library has its folder then, a program follows when all below it is done."""
    for name in shown.names:
        has_begun = os.path.isdir(f"{room}/crates/{name}/out/rlib")
        if progress.is_program(room, name):
            has_begun = all(other in shown.done for other in checkout.used_by(lines[name]))
        if has_begun:
            shown.begin(name)


def run_gate(rt: str, words: list[str], room: str, shown: progress.Progress) -> tuple[int, str]:
    """Runs `rt ci` in a room, and returns its status and what failed. Where a signal stops this call, it stops the gate."""
    lines = checkout.crate_lines(room)
    said, display = Said(shown), Display(shown)
    how = {"stdin": subprocess.DEVNULL, "stdout": subprocess.PIPE, "stderr": subprocess.STDOUT, "start_new_session": True}
    gate = subprocess.Popen([rt, "ci", *words], cwd=room, **how)
    try:
        while said.read(gate.stdout.fileno()):
            note_begun(room, lines, shown)
            display.show()
        return gate.wait(), said.what_failed()
    finally:
        display.clear()
        gate.terminate()
        gate.wait()
