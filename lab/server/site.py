"""What is served below the token: a fixed table of files, the examples, runs, files to keep, and saved pages."""
from __future__ import annotations

import json
from dataclasses import dataclass
from pathlib import Path
from threading import Event, Thread
from time import sleep
from typing import Generator, Iterable, Iterator

from . import child
from .connection import Connection, Refused, Request
from .examples import Example, example_of, examples_of
from .kept import Answer
from .programs import Programs
from .reports import RAN, Reports
from .saved import Saver
from .words import REPORTS, BadQuery, options_of, wanted, words_of

KINDS = {".html": "text/html; charset=utf-8", ".css": "text/css; charset=utf-8", ".js": "text/javascript; charset=utf-8"}
JSON = "application/json"
LINES = "application/x-ndjson"


@dataclass(frozen=True)
class Reply:
    """An answer: its status, and where there is more to say its bytes in pieces."""

    status: int
    kind: str = "text/plain; charset=utf-8"
    pieces: Iterable[bytes] = ()
    file_name: str = ""

    def close(self) -> None:
        """Ends the making of pieces that nobody takes."""
        if isinstance(self.pieces, Generator):
            self.pieces.close()


class Site:
    """Knows what is served below the token. All files are read when it is made."""

    def __init__(self, root: Path, programs: Programs, reports: Reports, first: Path | None) -> None:
        page = root / "lab" / "page"
        self._files = {path.name: (KINDS[path.suffix], path.read_bytes())
                       for path in sorted(page.iterdir()) if path.suffix in KINDS}
        self._files[""] = self._files.pop("index.html")
        self._examples = examples_of(root / "scenarios")
        self._first = example_of(first) if first else None
        self._programs = programs
        self._reports = reports
        self._saver = Saver(page, programs, reports)

    def reply(self, path: str, request: Request, connection: Connection) -> Reply:
        if request.method == "GET":
            return self._give(path)
        made = {"run": self._run, "file": self._file, "save": self._save}.get(path)
        if made is None:
            raise Refused(405 if path in self._files or path in ("examples", "programs") else 404)
        try:
            options = options_of(request.query)
            return made(options, connection.body(request), connection)
        except BadQuery:
            raise Refused(400) from None

    def _give(self, path: str) -> Reply:
        if path in self._files:
            kind, data = self._files[path]
            return Reply(200, kind, [data])
        if path == "examples":
            return _json({"first": _told(self._first), "examples": [_told(it) for it in self._examples]})
        if path == "programs":
            return _json(self._state())
        raise Refused(405 if path in ("run", "file", "save") else 404)

    def _state(self) -> dict[str, object]:
        """Which programs answer, and which reports they know."""
        view, run = (self._programs.look(name) for name in ("apsview", "apsim"))
        how = view.how if view and run and view.how == run.how else "quick" if view and run else "none"
        return {"how": how, "digest": f"{run and run.digest} {view and view.digest}",
                "reports": self._programs.reports()}

    def _run(self, options: dict[str, str], text: bytes, connection: Connection) -> Reply:
        names = wanted(options)
        gone = _watch(connection)
        return Reply(200, LINES, _lines(self._reports.several(names, options, text, gone), gone))

    def _file(self, options: dict[str, str], text: bytes, connection: Connection) -> Reply:
        if "report" not in options:
            raise BadQuery("report is missing")
        name = options["report"]
        words_of(name, options)
        gone = _watch(connection)
        answer = self._reports.one(name, options, text, gone)
        gone.set()
        if answer.ended or answer.status not in RAN:
            return _json(_line(name, answer), 422)
        report = REPORTS[name]
        return Reply(200, report.kind, [answer.text.encode()], f"{name}.{report.suffix}")

    def _save(self, options: dict[str, str], text: bytes, connection: Connection) -> Reply:
        gone = _watch(connection)
        page, answer = self._saver.page(options, text, gone)
        gone.set()
        if page is None:
            return _json(_line("summary", answer), 422)
        return Reply(200, KINDS[".html"], [page], "run.html")


def _told(example: Example | None) -> dict[str, str] | None:
    return example and {"name": example.name, "about": example.about, "text": example.text}


def _line(name: str, answer: Answer) -> dict[str, object]:
    return {"report": name, "status": answer.status, "text": answer.text, "hint": answer.hint, "ms": answer.ms,
            "ended": answer.ended}


def _json(value: object, status: int = 200) -> Reply:
    return Reply(status, JSON, [json.dumps(value).encode()])


def _lines(named: Iterator[tuple[str, Answer]], gone: Event) -> Generator[bytes, None, None]:
    try:
        for name, answer in named:
            yield json.dumps(_line(name, answer)).encode() + b"\n"
    finally:
        gone.set()


def _watch(connection: Connection) -> Event:
    """An event that is set as soon as the client is gone, or the request is answered."""
    gone = Event()

    def watch() -> None:
        while not gone.is_set():
            if connection.is_closed():
                gone.set()
            sleep(child.STEP)

    Thread(target=watch, daemon=True).start()
    return gone
