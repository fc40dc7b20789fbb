"""What a request may ask for: a closed grammar of options, and the words that a program is called with."""
from __future__ import annotations

import re
from dataclasses import dataclass
from typing import Callable, Mapping, Sequence

MOST_TICKS = 1_000_000
MOST_NS = 10_000_000_000_000
MOST_ENTRIES = 4_000_000

NAME = re.compile(r"[A-Za-z0-9_-]{1,15}")
NUMBER = re.compile(r"0|[1-9][0-9]{0,13}")
PERIOD = re.compile(r"([1-9][0-9]{0,13})(?:/([1-9][0-9]{0,6}))?")
KINDS = ("wake", "preempted", "cycle", "call", "response")


class BadQuery(Exception):
    """The query isn't one that the grammar has."""


@dataclass(frozen=True)
class Report:
    """A report: the program that writes it, its first words, the options that it takes and those that it needs."""

    program: str
    words: tuple[str, ...]
    takes: tuple[str, ...] = ()
    needs: tuple[str, ...] = ()
    suffix: str = "txt"
    kind: str = "text/plain; charset=utf-8"


STRETCH = ("from", "to")
PLAN = ("thread", "sender", "period", "offset", "burst")
SVG = "image/svg+xml"
CSV = "text/csv; charset=utf-8"

REPORTS: Mapping[str, Report] = {
    "summary": Report("apsim", ("solo",), ("limit",)),
    "windows": Report("apsim", ("solo", "--report=windows"), ("limit",)),
    "journal": Report("apsim", ("solo", "--report=journal"), ("limit",)),
    "findings": Report("apsview", ("findings",), ("limit", "top")),
    "shares": Report("apsview", ("shares",), ("limit",)),
    "latency": Report("apsview", ("latency",), ("limit",)),
    "cycles": Report("apsview", ("cycles",), ("limit",), suffix="csv", kind=CSV),
    "csv": Report("apsview", ("csv",), ("limit", *STRETCH), suffix="csv", kind=CSV),
    "explain": Report("apsview", ("explain",), ("limit", "thread", "at"), ("thread", "at")),
    "story": Report("apsview", ("story",), ("limit", "thread", "worst"), ("thread", "worst")),
    "responses": Report("apsview", ("responses",), ("limit", "deadline", *PLAN)),
    "jobs": Report("apsview", ("jobs",), ("limit", "thread", "sender", "period", "offset"), suffix="csv", kind=CSV),
    "bundle": Report("apsview", ("bundle", "--reports=summary"), ("limit",)),
    "lint": Report("apsview", ("lint",)),
    "promise": Report("apsview", ("promise",)),
    "threads": Report("apsview", ("threads",), ("limit", *STRETCH), suffix="svg", kind=SVG),
    "timeline": Report("apsview", ("timeline",), ("limit", *STRETCH), suffix="svg", kind=SVG),
    "usage": Report("apsview", ("usage",), ("limit", *STRETCH), suffix="svg", kind=SVG),
    "vcd": Report("apsview", ("vcd",), ("limit",), suffix="vcd"),
    "gtkw": Report("apsview", ("gtkw",), ("limit",), suffix="gtkw"),
    "trace": Report("apsview", ("trace",), ("limit",), suffix="json", kind="application/json"),
    "scenario": Report("apstasks", ("scenario",), suffix="toml"),
    "plan": Report("apstasks", ("plan",)),
}

PICTURES = ("threads", "timeline", "usage")
BUNDLED = ("summary", "latency", "shares", "cycles", "responses", "findings", "lint", "promise")


def _number(low: int, high: int) -> Callable[[str], bool]:
    return lambda text: bool(NUMBER.fullmatch(text)) and low <= int(text) <= high


def _is_period(text: str) -> bool:
    found = PERIOD.fullmatch(text)
    return bool(found) and int(found[1]) <= MOST_NS and int(found[2] or 1) <= MOST_TICKS


def _is_want(text: str) -> bool:
    names = text.split(",")
    return len(set(names)) == len(names) and all(name in REPORTS for name in names)


def _is_name(text: str) -> bool:
    return bool(NAME.fullmatch(text))


OPTIONS: Mapping[str, Callable[[str], bool]] = {
    "want": _is_want,
    "report": lambda text: text in REPORTS,
    "from": _number(0, MOST_TICKS),
    "to": _number(0, MOST_TICKS),
    "at": _number(0, MOST_NS),
    "limit": _number(1, MOST_ENTRIES),
    "deadline": _number(1, MOST_NS),
    "top": _number(1, 100),
    "burst": _number(1, 64),
    "offset": _number(0, MOST_NS),
    "period": _is_period,
    "thread": _is_name,
    "sender": _is_name,
    "only": _is_name,
    "worst": lambda text: text in KINDS,
}


def options_of(query: str) -> dict[str, str]:
    """The options of a query, each at most once and of its own grammar. No value needs an escape, so none is read."""
    options: dict[str, str] = {}
    for pair in query.split("&") if query else ():
        key, equals, value = pair.partition("=")
        if not equals or key not in OPTIONS or key in options or not OPTIONS[key](value):
            raise BadQuery(f"not an option: {key[:20]!r}")
        options[key] = value
    if "from" in options and "to" in options and int(options["from"]) >= int(options["to"]):
        raise BadQuery("from isn't below to")
    return options


def words_of(name: str, options: Mapping[str, str]) -> tuple[str, ...]:
    """The words of one report, each option as one word, so that no value is ever read as another option."""
    report = REPORTS[name]
    for need in report.needs:
        if need not in options:
            raise BadQuery(f"{name} needs {need}")
    return report.words + tuple(f"--{key}={options[key]}" for key in report.takes if key in options)


def bundle_words(names: Sequence[str], options: Mapping[str, str]) -> tuple[str, ...]:
    """The words of one call for several reports. An option goes to those that take it."""
    takes = dict.fromkeys(key for name in names for key in REPORTS[name].takes)
    return ("bundle", f"--reports={','.join(names)}", *(f"--{key}={options[key]}" for key in takes if key in options))


def wanted(options: Mapping[str, str]) -> tuple[str, ...]:
    """The reports that `want` names; each has what it needs."""
    if "want" not in options:
        raise BadQuery("want is missing")
    names = tuple(options["want"].split(","))
    for name in names:
        words_of(name, options)
    return names


def kept_lines(text: str, only: str) -> str:
    """Of a table: its head and the lines of one thread."""
    head, *lines = text.split("\n")
    return "\n".join([head, *(line for line in lines if line.startswith(f"{only},")), ""])
