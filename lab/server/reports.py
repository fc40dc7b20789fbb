"""The reports of one request, each as soon as it is there; the summary first."""
from __future__ import annotations

from concurrent.futures import FIRST_COMPLETED, Future, ThreadPoolExecutor, wait
from dataclasses import replace
from threading import Event
from typing import Iterator, Mapping, Sequence

from . import child
from .kept import Answer
from .programs import NO_ANSWER, REFUSED_WORDS, Programs
from .runs import Runner
from .words import BUNDLED, REPORTS, bundle_words, kept_lines, words_of

# Statuses of a run that was made: to its horizon, to a reboot, to its limit of entries.
RAN = (0, 3, 6)
MISSING = Answer(NO_ANSWER, "", "the program is missing", "absent", 0)
Named = tuple[str, Answer]


class Reports:
    """Makes the reports of a request by the programs that are there."""

    def __init__(self, programs: Programs, runner: Runner) -> None:
        self._programs = programs
        self._runner = runner

    def one(self, name: str, options: Mapping[str, str], text: bytes, gone: child.Gone) -> Answer:
        program = self._programs.current(REPORTS[name].program)
        if program is None:
            return MISSING
        answer = self._runner.answer(program, words_of(name, options), text, gone)
        if answer.status == REFUSED_WORDS:
            self._programs.refused(program, name)
        if name == "cycles" and "only" in options and answer.status in RAN:
            return replace(answer, text=kept_lines(answer.text, options["only"]))
        return answer

    def several(self, names: Sequence[str], options: Mapping[str, str], text: bytes, gone: Event) -> Iterator[Named]:
        """All asked reports that the programs know. Where the summary is refused there is no other one."""
        known = [name for name in names if self._programs.knows(name)]
        calls = self._calls(known, options)
        with ThreadPoolExecutor(max(1, len(calls))) as pool:
            made = [pool.submit(self._call, call, options, text, gone) for call in calls]
            try:
                yield from _summary_first(made, "summary" in known, gone)
            finally:
                gone.set()

    def _calls(self, names: Sequence[str], options: Mapping[str, str]) -> list[tuple[str, ...]]:
        """Which reports are made by one call: texts together where the program has `bundle`, pictures alone."""
        together = tuple(name for name in names if name in BUNDLED)
        if len(together) < 2 or "only" in options or not self._programs.knows("bundle"):
            return [(name,) for name in names]
        return [together, *((name,) for name in names if name not in together)]

    def _call(self, names: tuple[str, ...], options: Mapping[str, str], text: bytes, gone: Event) -> list[Named]:
        if len(names) == 1:
            return [(names[0], self.one(names[0], options, text, gone))]
        program = self._programs.current("apsview")
        if program is None:
            return [(name, MISSING) for name in names]
        whole = self._runner.answer(program, bundle_words(names, options), text, gone)
        if whole.status != REFUSED_WORDS:
            return split(names, whole)
        self._programs.refused(program, "bundle")
        return [(name, self.one(name, options, text, gone)) for name in names]


def split(names: Sequence[str], whole: Answer) -> list[Named]:
    """The answers in that of `bundle`: each stands behind its line. A refused input has none, and is every one's."""
    found: list[Named] = []
    rest = whole.text.encode()
    while rest.startswith(b"--- report "):
        line, _, rest = rest.partition(b"\n")
        _, _, name, status, size = line.decode().split(" ")
        found.append((name, replace(whole, status=int(status), text=rest[:int(size)].decode())))
        rest = rest[int(size):]
    return found or [(name, whole) for name in names]


def _summary_first(made: list[Future[list[Named]]], has_summary: bool, gone: Event) -> Iterator[Named]:
    """Holds answers back until the summary is there, and ends behind one that was refused."""
    waiting, held, open_now = set(made), [], not has_summary
    while waiting and not gone.is_set():
        done, waiting = wait(waiting, timeout=child.STEP, return_when=FIRST_COMPLETED)
        held += [named for future in done for named in future.result()]
        held.sort(key=lambda named: named[0] != "summary")
        if not open_now and held and held[0][0] == "summary":
            open_now = True
            yield held[0]
            if held.pop(0)[1].status not in RAN:
                return
        while open_now and held:
            yield held.pop(0)
