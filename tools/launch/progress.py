"""How far a proof of several crates is, and about how long the rest takes."""
import os
import time

import checkout
import freshness

# Seconds that a proof takes on one core of a fast machine, by a fit to the times of the gate. Each takes some, each byte of code
# more, and each byte of what lies below is read once more. A program is compiled twice as well.
EACH = 11.0
PER_BYTE_OF_CODE = 0.00133
PER_BYTE_BELOW = 0.0000045
PER_PROGRAM = 30.0
# A crate at work takes at least so much longer.
LEAST_LEFT = 5.0


def usual_seconds(root: str, names: list[str], lines: dict[str, str]) -> dict[str, float]:
    """About how long the proof of each crate takes on one core of a fast machine."""
    code = {name: bytes_in(root, name, ".rt") for name in names}
    texts = {name: bytes_in(root, name, "") for name in names}
    usual = {}
    for name in names:
        below = sum(texts[other] for other in checkout.crates_of((name,), lines) if other != name)
        usual[name] = EACH + PER_BYTE_OF_CODE * code[name] + PER_BYTE_BELOW * below
        usual[name] += PER_PROGRAM * is_program(root, name)
    return usual


def is_program(root: str, name: str) -> bool:
    return os.path.isfile(f"{root}/crates/{name}/src/main.rt")


def bytes_in(root: str, name: str, ending: str) -> int:
    """The size of a crate's files whose names end so."""
    size = 0
    for part in freshness.PARTS:
        for folder, _, files in os.walk(f"{root}/crates/{name}/{part}"):
            size += sum(os.path.getsize(f"{folder}/{file}") for file in files if file.endswith(ending))
    return size


def longest_ahead(names: list[str], lines: dict[str, str], usual: dict[str, float]) -> dict[str, float]:
    """For each crate the usual seconds of the longest chain of crates from it upwards. `names` has each behind those it uses."""
    ahead = dict(usual)
    for name in reversed(names):
        for below in checkout.used_by(lines[name]):
            if below in ahead:
                ahead[below] = max(ahead[below], usual[below] + ahead[name])
    return ahead


class Progress:
    """What is done, what is at work since when, and how fast this machine is."""

    def __init__(self, root: str, names: list[str], lines: dict[str, str], cores: int) -> None:
        self.names, self.cores, self.began = names, cores, time.monotonic()
        self.usual = usual_seconds(root, names, lines)
        self.ahead = longest_ahead(names, lines, self.usual)
        self.done: set[str] = set()
        self.failed: set[str] = set()
        self.at_work: dict[str, float] = {}
        self.usual_done = self.taken = 0.0

    def begin(self, name: str) -> None:
        if name not in self.done | self.failed:
            self.at_work.setdefault(name, time.monotonic())

    def end(self, name: str, is_kept: bool) -> None:
        """Notes that a crate is done. One that the kit had kept says nothing of the machine."""
        began = self.at_work.pop(name, None)
        if name in self.usual and name not in self.done:
            self.done.add(name)
            if began is not None and not is_kept:
                self.usual_done += self.usual[name]
                self.taken += time.monotonic() - began

    def fail(self, name: str) -> None:
        self.at_work.pop(name, None)
        self.failed.add(name)

    def pace(self) -> float:
        """How much longer than usual a crate takes on this machine, once two minutes' worth are done."""
        return self.taken / self.usual_done if self.usual_done >= 120 else 1.0

    def seconds_left(self) -> float:
        """No less than the longest chain that is left, and than all that is left on all cores."""
        rest = chain = 0.0
        now, pace = time.monotonic(), self.pace()
        for name in self.names:
            if name not in self.done:
                spent = now - self.at_work.get(name, now)
                rest += max(self.usual[name] * pace - spent, LEAST_LEFT)
                chain = max(chain, self.ahead[name] * pace - spent)
        return max(rest / self.cores, chain)

    def seconds(self) -> float:
        return time.monotonic() - self.began

    def text(self) -> str:
        at_work = ", ".join(self.at_work) or "nothing"
        spent = in_minutes(self.seconds())
        left = in_minutes(self.seconds_left())
        return f"{len(self.done)} of {len(self.names)} crates proved; at work on {at_work}; {spent}, about {left} to go"


def in_minutes(seconds: float) -> str:
    whole = int(seconds)
    return f"{whole} s" if whole < 60 else f"{whole // 60} min {whole % 60:02d} s"
