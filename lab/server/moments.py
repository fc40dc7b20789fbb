"""Where inside a wait the page asks why. lab/page/numbers.js has the same rule; a test compares both."""
from __future__ import annotations

from dataclasses import dataclass
from typing import Iterator

KINDS = ("wake", "preempted", "cycle")


@dataclass(frozen=True)
class Question:
    """Why a thread runs or doesn't, at a moment."""

    thread: str
    at: int


def roundest(low: int, high: int) -> int:
    """Of the numbers from low to high the multiple of the greatest power of ten, and of these the one nearest the middle."""
    step = 10 ** 13
    while -(-low // step) * step > high:
        step //= 10
    middle = (low + high) // 2
    return max(-(-low // step) * step, min(middle // step * step, high // step * step))


def inside(begin: int, length: int) -> int:
    """A moment in the middle half of a wait: at its begin the reason doesn't show yet."""
    return roundest(begin + length // 4, begin + length * 3 // 4)


def questions_of(latency: str) -> list[Question]:
    """The moments that the page's links ask about: the worst of each kind of each thread, and what is open at the end."""
    found: dict[Question, None] = {}
    thread = ""
    for line in latency.splitlines():
        words = line.split(" ")
        if words[0] == "thread":
            thread = words[2]
        for begin, length in _waits(words):
            found[Question(thread, inside(begin, length))] = None
    return list(found)


def _waits(words: list[str]) -> Iterator[tuple[int, int]]:
    """The waits that a line of `latency` names, by begin and length."""
    if words[0] in (*KINDS, "call") and "worst" in words and words[-1] != "-":
        worst = int(words[words.index("worst") + 1])
        if worst > 0:
            yield int(words[-1]), worst
    elif words[0] == "open" and words[-2] == "at" and words[-3].isdigit() and int(words[-3]) > 0:
        yield int(words[-1]), int(words[-3])
