"""The program `apsdiff`."""
import sys
from collections.abc import Iterator

from .changed_keys import changes
from .comparison import Difference, Tolerance, differences
from .diff_words import given_of
from .figures import end_of, figures_of
from .refusal import guarded
from .runs import Run, runs_of, print_missing

HORIZON, NOTHING = "horizon", "-"
HEAD = ("verdict", "of", "name", "figure", "before", "after", "difference")

Row = tuple[str, ...]


def main(words: list[str]) -> int:
    """Does what the words ask for, and returns the exit status."""
    return guarded("apsdiff", lambda: compare(words))


def compare(words: list[str]) -> int:
    given = given_of(words)
    before, after = runs_of(given)
    print_missing(before)
    rows = [*key_rows(before, after), *end_rows(before, after), *figure_rows(before, after, given.tolerance)]
    ordered = sorted(rows, key=lambda row: ("changed", "worse").index(row[0]) if row[0] in ("changed", "worse") else 2)
    for row in (HEAD, *ordered):
        sys.stdout.write("\t".join(row) + "\n")
    return 1 if any(row[0] == "worse" for row in rows) else 0


def key_rows(before: Run, after: Run) -> Iterator[Row]:
    """The keys that changed."""
    for owner, key, old, new in changes(before.document, after.document):
        yield "changed", "key", owner, key, old, new, gap(old, new)


def gap(old: str, new: str) -> str:
    """The difference of two whole numbers, with its sign."""
    try:
        return f"{int(new) - int(old):+d}"
    except ValueError:
        return NOTHING


def end_rows(before: Run, after: Run) -> Iterator[Row]:
    """How the runs ended, where that differs."""
    old, new = (end_of(run.reports["summary"]) for run in (before, after))
    if old != new:
        yield "better" if new == HORIZON else "worse", "run", NOTHING, "end", old, new, NOTHING


def figure_rows(before: Run, after: Run, tolerance: Tolerance) -> Iterator[Row]:
    for each in differences(figures_of(before.reports), figures_of(after.reports), tolerance):
        yield row_of(each)


def row_of(each: Difference) -> Row:
    old, new = (NOTHING if value is None else str(value) for value in (each.before, each.after))
    return each.verdict, each.figure.of, each.figure.name, each.figure.what, old, new, gap(old, new)
