"""What is measured of a run, and what is required of it.

A measure is `NAME = REPORT WORDS : LINE [WORD]`. A requirement is `NAME <= NUMBER`.
"""
import operator
import re
from collections.abc import Callable
from typing import NamedTuple

from .refusal import Refusal
from .values import whole_of

NONE = "none"
NO_NUMBER = (NONE, "-")
OF_SOLO = ("summary", "windows")
FORM = re.compile(r"\s*([A-Za-z][A-Za-z0-9_-]*)\s*=\s*(\S.*?)\s+:\s+(\S.*?)\s*")
REQUIREMENT = re.compile(r"\s*([A-Za-z][A-Za-z0-9_-]*)\s*(!=|<=|>=|=|<|>)\s*(\S+)\s*")
COMPARISONS: dict[str, Callable[[int, int], bool]] = {
    "=": operator.eq, "!=": operator.ne, "<": operator.lt,
    "<=": operator.le, ">": operator.gt, ">=": operator.ge,
}

Words = tuple[str, ...]


class Missing(Exception):
    """A report lacks the line or the word of a measure."""


class Call(NamedTuple):
    """A program and the words that it is started with."""

    program: str
    words: Words


class Measure(NamedTuple):
    """A number of a report: in which line, behind which words."""

    name: str
    call: Call
    lines: tuple[Words, ...]

    @property
    def report(self) -> str:
        words = self.call.words
        return words[2] if words[:2] == ("solo", "--report") else words[0]

    @property
    def place(self) -> str:
        return " > ".join(" ".join(line) for line in self.lines)


class Requirement(NamedTuple):
    """What a measure has to be."""

    name: str
    comparison: str
    bound: int

    def is_met(self, value: str) -> bool:
        return value != NONE and COMPARISONS[self.comparison](int(value), self.bound)


def measure_of(text: str) -> Measure:
    found = FORM.fullmatch(text)
    if found is None:
        raise Refusal(f"the measure {text!r} is no NAME = REPORT WORDS : LINE [WORD]")
    lines = tuple(tuple(line.split()) for line in found[3].split(">"))
    if not all(lines):
        raise Refusal(f"the measure {text!r} has an empty LINE")
    return Measure(found[1], call_of(found[2].split()), lines)


def call_of(words: list[str]) -> Call:
    """The program that makes a report, and its words."""
    report, *options = words
    if report in OF_SOLO:
        return Call("apsim", ("solo", "--report", report, *options))
    return Call("apsview", (report, *options))


def requirement_of(text: str, measures: tuple[Measure, ...]) -> Requirement:
    found = REQUIREMENT.fullmatch(text)
    bound = whole_of(found[3]) if found else None
    if found is None or bound is None:
        raise Refusal(f"the requirement {text!r} is no NAME = NUMBER, with one of = != < <= > >=")
    if found[1] not in [measure.name for measure in measures]:
        raise Refusal(f"the requirement {text!r} names no measure")
    return Requirement(found[1], found[2], bound)


def value_of(report: str, measure: Measure) -> str:
    """The measured number as its report has it, or `none`."""
    lines = [line.split() for line in report.splitlines()]
    for outer in measure.lines[:-1]:
        lines = section_of(lines, outer, measure)
    return number_in(lines, measure)


def section_of(lines: list[list[str]], outer: Words, measure: Measure) -> list[list[str]]:
    """The lines behind the outer one, up to the next line with its first word."""
    start = place_of(lines, outer)
    if start is None:
        raise Missing(f"{measure.report} has no line '{' '.join(outer)}'")
    behind = lines[start + 1:]
    end = place_of(behind, outer[:1])
    return behind[:end]


def place_of(lines: list[list[str]], words: Words) -> int | None:
    """The first line that begins with the words."""
    return next((at for at, line in enumerate(lines) if tuple(line[:len(words)]) == words), None)


def number_in(lines: list[list[str]], measure: Measure) -> str:
    """The number behind LINE; where no line begins with all words, the last one is WORD."""
    words = measure.lines[-1]
    at = place_of(lines, words)
    if at is not None:
        return first_number(lines[at][len(words):], measure)
    at = place_of(lines, words[:-1]) if len(words) > 1 else None
    if at is None:
        raise Missing(f"{measure.report} has no line '{measure.place}'")
    return number_behind(lines[at][len(words) - 1:], words[-1], measure)


def number_behind(line: list[str], word: str, measure: Measure) -> str:
    """The first number behind a word. A line that says `none`, or counts 0 and lacks the word, has none."""
    if word in line:
        return first_number(line[line.index(word) + 1:], measure)
    if line[:1] in ([NONE], ["0"]):
        return NONE
    raise Missing(f"{measure.report} has no word '{word}' in the line of '{measure.place}'")


def first_number(words: list[str], measure: Measure) -> str:
    for word in words:
        if word in NO_NUMBER:
            return NONE
        if word.isdecimal():
            return word
    raise Missing(f"{measure.report} has no number behind '{measure.place}'")
