"""The runs of two texts, with all reports that are compared."""
import os
import sys
from concurrent.futures import Future, ThreadPoolExecutor
from typing import NamedTuple

from .children import Children
from .diff_words import Given
from .edits import document_of
from .figures import READERS
from .measures import Call, call_of
from .points import Unanswered, expanded, output_of
from .programs import Programs, programs_of, quick_programs_of
from .refusal import Refusal, WordsRefused
from .texts import text_of

LATER = ("responses",)

Outputs = dict[str, Future[str | None]]


class Run(NamedTuple):
    """A text, and the reports of its run by their names."""

    document: dict[str, object]
    reports: dict[str, str]


def runs_of(given: Given) -> list[Run]:
    """The runs of both texts, made side by side."""
    names = {"apsim", "apsview"} | given.task.names
    programs = quick_programs_of(names) if given.is_quick else programs_of(names)
    texts = [text_of(path) for path in given.files]
    documents = [document_of(text) for text in texts]
    children = Children()
    with ThreadPoolExecutor(1 if given.is_quick else len(os.sched_getaffinity(0))) as threads:
        try:
            begun = [begin(path, text, given, programs, children, threads) for path, text in zip(given.files, texts)]
            return [Run(document, ended(outputs)) for document, outputs in zip(documents, begun, strict=True)]
        finally:
            children.end_all()
            threads.shutdown(cancel_futures=True)


def begin(path: str, text: str, given: Given, programs: Programs, children: Children, threads: ThreadPoolExecutor) -> Outputs:
    """Begins with all reports of a text."""

    def made(report: str) -> str | None:
        call = call_of([report, *given.limit])
        try:
            scenario = expanded(text, given.task, programs, children)
            return output_of(call, scenario, given.task, programs, children).text.decode()
        except Unanswered as reason:
            raise Refusal(f"{path}: {reason.message}") from None
        except WordsRefused:
            if report not in LATER:
                raise
            return None

    return {report: threads.submit(made, report) for report in READERS}


def ended(outputs: Outputs) -> dict[str, str]:
    """The reports that the programs know."""
    texts = {report: future.result() for report, future in outputs.items()}
    return {report: text for report, text in texts.items() if text is not None}


def print_missing(run: Run) -> None:
    """Says which reports are left out."""
    for report in READERS:
        if report not in run.reports:
            print(f"apsdiff: apsview has no report {report} yet; its figures are left out", file=sys.stderr)
