"""Answers that are kept, up to some size in all; what was asked for longest ago goes first."""
from __future__ import annotations

import hashlib
from collections import OrderedDict
from dataclasses import dataclass
from threading import Lock
from typing import Sequence


@dataclass(frozen=True)
class Answer:
    """What a program answered. `ended` is "" where it ended by itself, else why it was stopped."""

    status: int
    text: str
    hint: str
    ended: str
    ms: int

    def size(self) -> int:
        return len(self.text) + len(self.hint) + 200


class Kept:
    """Answers by the digest of program, words and text."""

    def __init__(self, most: int = 64 << 20) -> None:
        self._most = most
        self._size = 0
        self._answers: OrderedDict[bytes, Answer] = OrderedDict()
        self._lock = Lock()

    @staticmethod
    def key(program: str, words: Sequence[str], text: bytes) -> bytes:
        digest = hashlib.sha256()
        for part in (program.encode(), "\0".join(words).encode(), text):
            digest.update(len(part).to_bytes(8, "big") + part)
        return digest.digest()

    def find(self, key: bytes) -> Answer | None:
        with self._lock:
            answer = self._answers.get(key)
            if answer:
                self._answers.move_to_end(key)
            return answer

    def keep(self, key: bytes, answer: Answer) -> None:
        """Keeps an answer that its program ended by itself."""
        if answer.ended or answer.size() > self._most:
            return
        with self._lock:
            old = self._answers.pop(key, None)
            self._size += answer.size() - (old.size() if old else 0)
            self._answers[key] = answer
            while self._size > self._most:
                self._size -= self._answers.popitem(last=False)[1].size()
