"""What ends a program at once, with its exit status and the words for standard error."""
import os
import signal
import sys
from collections.abc import Callable
from types import FrameType

STOPPED = 130
CUT_OFF = 141


class Refusal(Exception):
    """The words, a scenario or an address can't be taken."""

    status = 2


class WordsRefused(Refusal):
    """A program doesn't know the words that it was started with."""


class NotProved(Refusal):
    """There is no fresh proved program."""

    status = 125


def guarded(name: str, body: Callable[[], int]) -> int:
    """The exit status of a whole program. Ctrl-C and a polite kill end it by the same way."""
    for number in (signal.SIGTERM, signal.SIGHUP):
        signal.signal(number, interrupt)
    try:
        return body()
    except Refusal as reason:
        print(f"{name}: {reason}", file=sys.stderr)
        return reason.status
    except KeyboardInterrupt:
        print(f"{name}: stopped", file=sys.stderr)
        return STOPPED
    except BrokenPipeError:
        os.dup2(os.open(os.devnull, os.O_WRONLY), sys.stdout.fileno())
        return CUT_OFF


def interrupt(number: int, frame: FrameType | None) -> None:
    raise KeyboardInterrupt
