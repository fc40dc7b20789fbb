"""The self-contained page: the same front end, with a run's answers inside."""
from __future__ import annotations

import base64
import gzip
import hashlib
import json
import re
import time
from concurrent.futures import ThreadPoolExecutor
from dataclasses import dataclass, field
from pathlib import Path
from typing import Iterable, Mapping, Optional, Tuple

from .child import Gone
from .kept import Answer
from .moments import Question, questions_of
from .programs import NO_ANSWER, Programs
from .reports import RAN, Reports
from .words import PICTURES

TEXTS = ("summary", "findings", "shares", "latency", "cycles", "responses", "lint", "promise")
SCRIPT = re.compile(r'<script src="([a-z]+\.js)"></script>')
Drawn = Tuple[str, Tuple[int, int], Optional[str]]
STYLE = '<link rel="stylesheet" href="lab.css">'


@dataclass(frozen=True)
class Most:
    """How much a saved page may take: time, bytes in all, questions, and the length of its shortest pictures in ticks."""

    seconds: float = 120.0
    size: int = 12 << 20
    questions: int = 400
    shortest: int = 25


@dataclass
class Contents:
    """What a saved page knows. `stopped` says why pictures end at some level."""

    text: str
    reports: dict[str, dict[str, object]] = field(default_factory=dict)
    pictures: dict[str, list[dict[str, object]]] = field(default_factory=lambda: {name: [] for name in PICTURES})
    answers: dict[str, str] = field(default_factory=dict)
    stopped: str = ""


@dataclass(frozen=True)
class Asked:
    """A scenario to be saved, until its time is over or nobody waits for it."""

    options: Mapping[str, str]
    text: bytes
    gone: Gone
    until: float

    def is_set(self) -> bool:
        return self.gone.is_set() or time.monotonic() > self.until


def levels(ticks: int, shortest: int) -> Iterable[list[tuple[int, int]]]:
    """The stretches of each level: the whole, quarters, sixteenths, .., each half over the next."""
    yield [(0, ticks)]
    length = ticks
    while length > shortest:
        length = max(shortest, length // 4)
        half = max(1, length // 2)
        begins = [*range(0, ticks - length, half), ticks - length]
        yield [(begin, begin + length) for begin in begins]


class Saver:
    """Makes saved pages."""

    def __init__(self, page: Path, programs: Programs, reports: Reports, most: Most = Most()) -> None:
        self._page = page
        self._programs = programs
        self._reports = reports
        self._most = most

    def page(self, options: Mapping[str, str], text: bytes, gone: Gone) -> tuple[bytes | None, Answer]:
        """The page, or none where the summary is refused; and the summary."""
        asked = Asked(options, text, gone, time.monotonic() + self._most.seconds)
        summary = self._reports.one("summary", options, text, gone)
        if summary.ended or summary.status not in RAN:
            return None, summary
        contents = Contents(text.decode("utf-8", "replace"))
        with ThreadPoolExecutor(4) as pool:
            left = self._texts(contents, asked, pool)
            left = self._questions(contents, asked, pool, left)
            self._pictures(contents, asked, pool, left, _ticks(summary.text))
        return assemble(self._page, contents), summary

    def _answer(self, asked: Asked, name: str, **more: str) -> Answer:
        return self._reports.one(name, {**asked.options, **more}, asked.text, asked)

    def _texts(self, contents: Contents, asked: Asked, pool: ThreadPoolExecutor) -> int:
        """Texts that there is room for; answers how much room is left."""
        left = self._most.size - len(asked.text)
        names = [name for name in TEXTS if self._programs.knows(name)]
        for name, answer in zip(names, pool.map(lambda name: self._answer(asked, name), names)):
            if answer.ended or len(answer.text) > left:
                contents.reports[name] = {"status": NO_ANSWER, "text": "", "hint": f"{name} was left out of this page"}
            else:
                contents.reports[name] = {"status": answer.status, "text": answer.text, "hint": answer.hint}
                left -= len(answer.text)
        return left

    def _questions(self, contents: Contents, asked: Asked, pool: ThreadPoolExecutor, left: int) -> int:
        """The answers of `explain` that the page's links ask for; answers how much room is left."""
        latency = contents.reports.get("latency", {"text": ""})
        questions = questions_of(str(latency["text"]))[:self._most.questions]
        answers = pool.map(lambda it: self._answer(asked, "explain", thread=it.thread, at=str(it.at)), questions)
        for question, answer in zip(questions, answers):
            if answer.status in RAN and not answer.ended and len(answer.text) <= left:
                contents.answers[f"{question.thread} {question.at}"] = answer.text
                left -= len(answer.text)
        return left

    def _pictures(self, contents: Contents, asked: Asked, pool: ThreadPoolExecutor, left: int, ticks: int) -> None:
        """Pictures level by level. A level that doesn't fit in time or size is left out, with all below it."""
        for level in levels(ticks, self._most.shortest):
            made = self._level(level, asked, pool)
            left -= sum(len(data) for _, _, data in made if data)
            if left < 0 or any(data is None for _, _, data in made):
                contents.stopped = f"{level[0][1] - level[0][0]} ticks: {'size' if left < 0 else 'time'}"
                return
            for name, (begin, end), data in made:
                contents.pictures[name].append({"from": begin, "to": end, "data": data})

    def _level(self, level: list[tuple[int, int]], asked: Asked, pool: ThreadPoolExecutor) -> list[Drawn]:
        def draw(name: str, stretch: tuple[int, int]) -> Drawn:
            more = {} if len(level) == 1 else {"from": str(stretch[0]), "to": str(stretch[1])}
            answer = self._answer(asked, name, **more) if not asked.is_set() else None
            drawn = answer is not None and answer.status in RAN and not answer.ended
            return name, stretch, packed(answer.text) if answer and drawn else None

        return list(pool.map(lambda it: draw(*it), [(name, stretch) for stretch in level for name in PICTURES]))


def packed(text: str) -> str:
    """A text as gzip in base64; equal texts are equal bytes."""
    return base64.b64encode(gzip.compress(text.encode(), 9, mtime=0)).decode()


def _ticks(summary: str) -> int:
    """The ticks of a run by its summary's line `shape`."""
    words = next(line for line in summary.splitlines() if line.startswith("shape ")).split(" ")
    return int(words[words.index("ticks") + 1])


def assemble(page: Path, contents: Contents) -> bytes:
    """One file from the page, its style and scripts. The policy names them by their digests."""
    html = (page / "index.html").read_text()
    style = (page / "lab.css").read_text()
    scripts = [(page / name).read_text() for name in SCRIPT.findall(html)]
    policy = (f"default-src 'none'; script-src {' '.join(map(_digest, scripts))}; style-src {_digest(style)}; "
              "base-uri 'none'; form-action 'none'")
    data = json.dumps(contents.__dict__, sort_keys=True).replace("<", "\\u003c")
    kept = f'<script type="application/json" id="kept">{data}</script>\n'
    rest = iter(scripts)
    html = SCRIPT.sub(lambda _: f"<script>{next(rest)}</script>", html)
    html = html.replace(STYLE, f'<meta http-equiv="Content-Security-Policy" content="{policy}">\n<style>{style}</style>')
    begin, end = html.split("<script>", 1)
    return f"{begin}{kept}<script>{end}".encode()


def _digest(text: str) -> str:
    return f"'sha256-{base64.b64encode(hashlib.sha256(text.encode()).digest()).decode()}'"
