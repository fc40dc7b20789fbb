"""What a quick run of the kit (`rt try`) said: the program's own words and status, or why there is no answer.

The kit prints what the program wrote to standard error, and behind it lines of its own:

    interpreter: ..     where its interpreter has something to say
    checked: ..         how the compiled program ended
    races: ..           where the program has threads
    run=ended status=N .. proved=no
"""
import re
import signal
from typing import NamedTuple

import need

ENDED = re.compile(rb"run=ended status=(\d+) .*proved=no\n?")
# The kit's last lines from the end, each at most once.
CLOSING = (b"run=", b"races:", b"checked:", b"interpreter:")
OF_RT = b"rt: "
PROVE = "./prove builds the program that gives one"


class NoAnswer(Exception):
    """Why there is no answer, and what to do."""


class Outcome(NamedTuple):
    """What the program wrote, and its status."""

    status: int
    output: bytes
    errors: bytes


def outcome_of(code: int, output: bytes, errors: bytes, seconds: int) -> Outcome:
    """What a run of `rt try` that ended with this code came to."""
    lines = errors.splitlines(keepends=True)
    ended = ENDED.fullmatch(lines[-1]) if lines else None
    if ended and int(ended[1]) == code and not is_cut(lines):
        return Outcome(code, output, b"".join(of_program(lines)))
    raise NoAnswer(reason(code, lines, seconds))


def is_cut(lines: list[bytes]) -> bool:
    """Whether the kit gave the program a part of its input alone."""
    return any(line.startswith(b"rt: standard input did not end") for line in lines)


def of_program(lines: list[bytes]) -> list[bytes]:
    """What is left of the lines without the kit's own."""
    first, last = 0, len(lines)
    for word in CLOSING:
        if last > first and lines[last - 1].startswith(word):
            last -= 1
    while first < last and lines[first].startswith(OF_RT):
        first += 1
    return lines[first:last]


def reason(code: int, lines: list[bytes], seconds: int) -> str:
    """Why there is no answer, and what to do."""
    text = b"".join(lines).decode(errors="replace")
    if code < 0:
        return f"no answer: {signal.strsignal(-code)} stopped the quick run. It takes {need.QUICK_MEMORY}; {PROVE}"
    if "wrote more than" in text:
        return f"no answer: a quick run gives none past 1 MiB of output. Ask for a shorter report, or for fewer entries; {PROVE}"
    if "did not end within the time limit" in text:
        return f"no answer: the program had not ended after {seconds} seconds. Ask for fewer entries; {PROVE}, much faster"
    if "checked: fault" in text:
        return f"no answer: the program made a mistake, and was stopped there:\n{text}"
    if code == 1:
        return f"no answer: the kit refuses the sources:\n{text}"
    needs = f"It takes {need.QUICK_MEMORY} and {need.QUICK_DISK_MB} MB among the temporary files"
    return f"no answer: the quick run failed. {needs}; {PROVE}. The kit says:\n{text}"
