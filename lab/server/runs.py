"""Runs of programs for requests: from what is kept, else by a child, at most so many at once."""
from __future__ import annotations

from threading import Condition
from typing import Sequence

from . import child
from .child import Gone, Limits
from .kept import Answer, Kept
from .programs import NO_ANSWER, Program

NO_WAIT = Answer(125, "", "", "gone", 0)


class Seats:
    """A number of seats. Who has gone away waits for none."""

    def __init__(self, number: int) -> None:
        self._free = number
        self._change = Condition()

    def take(self, gone: Gone) -> bool:
        with self._change:
            while self._free == 0:
                if gone.is_set():
                    return False
                self._change.wait(child.STEP)
            if gone.is_set():
                return False
            self._free -= 1
            return True

    def give_back(self) -> None:
        with self._change:
            self._free += 1
            self._change.notify()


class Runner:
    """Answers a call of a program."""

    def __init__(self, proved: Limits, quick: Limits, seats: int) -> None:
        self._limits = {"proved": proved, "given": proved, "quick": quick}
        many, one = Seats(seats), Seats(1)
        self._seats = {"proved": many, "given": many, "quick": one}
        self._kept = Kept()

    def answer(self, program: Program, words: Sequence[str], text: bytes, gone: Gone) -> Answer:
        key = Kept.key(program.digest, words, text)
        return self._kept.find(key) or self._run(program, words, text, gone, key)

    def _run(self, program: Program, words: Sequence[str], text: bytes, gone: Gone, key: bytes) -> Answer:
        seats = self._seats[program.how]
        if not seats.take(gone):
            return NO_WAIT
        try:
            done = child.run([*program.command, *words], text, self._limits[program.how], gone)
        finally:
            seats.give_back()
        hint = program.hint(done.status, _words(done.err))
        answer = Answer(done.status, _words(done.out), hint, done.ended, int(done.seconds * 1000))
        if 0 <= done.status < NO_ANSWER:
            self._kept.keep(key, answer)
        return answer


def _words(written: bytes) -> str:
    return written.decode("utf-8", "replace")
