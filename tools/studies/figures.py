"""The figures of a run, read from its reports."""
import csv
import enum
import io
import math
from collections.abc import Callable, Iterator
from typing import NamedTuple

PERCENTILES = (50, 90, 99)


class Worse(enum.Enum):
    """Which change of a figure is for the worse."""

    MORE = "more"
    LESS = "less"
    NEITHER = "neither"


class Figure(NamedTuple):
    """One number of a run: of a partition, a thread, its cycles or its jobs."""

    of: str
    name: str
    what: str
    worse: Worse = Worse.MORE
    is_time: bool = True


Value = int | None
Figures = dict[Figure, Value]
Lines = list[list[str]]


def figures_of(reports: dict[str, str]) -> Figures:
    """All figures of the reports that are there."""
    found: Figures = {}
    for report, text in reports.items():
        found.update(READERS[report](text))
    return found


def lines_of(text: str) -> Lines:
    return [line.split() for line in text.splitlines()]


def number(word: str) -> Value:
    return int(word) if word.isdecimal() else None


def behind(line: list[str], word: str) -> Value:
    """The number behind a word; none where the word isn't there."""
    at = line.index(word) + 1 if word in line[:-1] else 0
    return number(line[at]) if at else None


def end_of(summary: str) -> str:
    """How the run ended: `horizon`, `limit`, `reboot P`."""
    return next((" ".join(line[1:]) for line in lines_of(summary) if line[:1] == ["end"]), "")


def summary_figures(text: str) -> Iterator[tuple[Figure, Value]]:
    for line in lines_of(text):
        if line[0] == "partition":
            for what in ("billed", "critical"):
                yield Figure("partition", line[2], what, Worse.NEITHER), behind(line[3:], what)
        elif line[0] == "thread":
            yield Figure("thread", line[2], "ran", Worse.NEITHER), behind(line[3:], "ran")
        elif line[0] in ("over", "short", "overcritical"):
            yield Figure("run", "-", line[0]), number(line[1])
        elif line[0] == "idle":
            yield Figure("run", "-", "idle", Worse.NEITHER), number(line[1])


def shares_figures(text: str) -> Iterator[tuple[Figure, Value]]:
    name = ""
    for line in lines_of(text):
        if line[0] == "partition":
            name = line[2]
        elif line[0] == "short":
            yield Figure("partition", name, "short"), number(line[1])
        elif line[0] == "overspent":
            yield Figure("partition", name, "overspent", is_time=False), number(line[1])
            yield Figure("partition", name, "overspent worst"), behind(line, "worst") or 0
        elif line[0] == "lacked":
            yield Figure("partition", name, "lacked"), number(line[1])
            yield Figure("partition", name, "lacked worst"), behind(line, "worst")
        elif line[0] in ("free", "beyond"):
            yield Figure("partition", name, line[0], Worse.NEITHER), number(line[1])


def latency_figures(text: str) -> Iterator[tuple[Figure, Value]]:
    """The longest waits for a processor and for each channel's server, those that are open at the end too."""
    longest: Figures = {}
    name, channels = "", dict[str, str]()
    for line in lines_of(text):
        if line[0] == "thread":
            name = line[2]
        elif line[0] in ("wake", "preempted"):
            lengthen(longest, Figure("thread", name, "ready worst"), behind(line, "worst"))
        elif line[:2] == ["open", "ready"]:
            lengthen(longest, Figure("thread", name, "ready worst"), number(line[2]))
        elif line[0] == "call":
            channels[line[1]] = line[2]
            yield Figure("thread", name, f"call {line[2]} count", Worse.LESS, is_time=False), number(line[3])
            lengthen(longest, Figure("thread", name, f"call {line[2]} worst"), behind(line, "worst"))
        elif line[:2] == ["open", "call"]:
            lengthen(longest, Figure("thread", name, f"call {line[3]} worst"), number(line[4]))
        elif line[0] == "queue":
            yield Figure("thread", name, f"queue {channels[line[1]]} worst"), behind(line, "worst")
    yield from longest.items()


def lengthen(longest: Figures, figure: Figure, value: Value) -> None:
    longest[figure] = max(longest.get(figure) or 0, value or 0)


def cycles_figures(text: str) -> Iterator[tuple[Figure, Value]]:
    lengths: dict[str, list[int]] = {}
    for row in csv.DictReader(io.StringIO(text)):
        lengths.setdefault(row["thread"], []).append(int(row["end_ns"]) - int(row["begin_ns"]))
    for name, each in lengths.items():
        each.sort()
        yield Figure("cycle", name, "count", Worse.LESS, is_time=False), len(each)
        yield Figure("cycle", name, "worst"), each[-1]
        for percent in PERCENTILES:
            yield Figure("cycle", name, f"p{percent}"), nearest_rank(each, percent)


def nearest_rank(rising: list[int], percent: int) -> int:
    """The least value that at least this part of all values doesn't exceed."""
    return rising[math.ceil(len(rising) * percent / 100) - 1]


def responses_figures(text: str) -> Iterator[tuple[Figure, Value]]:
    name = ""
    for line in lines_of(text):
        if line[0] == "thread":
            name = line[2]
        elif line[0] == "jobs":
            yield Figure("job", name, "count", Worse.LESS, is_time=False), number(line[1])
        elif line[0] in ("response", "service"):
            yield Figure("job", name, f"{line[0]} worst"), behind(line, "worst")
        elif line[0] == "share":
            for percent in PERCENTILES:
                yield Figure("job", name, f"p{percent}"), behind(line, f"p{percent}")


READERS: dict[str, Callable[[str], Iterator[tuple[Figure, Value]]]] = {
    "summary": summary_figures,
    "shares": shares_figures,
    "latency": latency_figures,
    "cycles": cycles_figures,
    "responses": responses_figures,
}
