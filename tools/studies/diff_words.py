"""The words of `apsdiff`."""
import argparse
from typing import NamedTuple

from .comparison import Tolerance, tolerance_of
from .points import Task
from .try_words import SECONDS, seconds_of

ABOUT = """Compares two scenarios and their runs, and prints a table (TSV): first the keys that changed, then the figures of
the run, its partitions, threads, cycles and jobs that differ. What got worse is first.

  ./apsdiff scenarios/cockpit.toml other.toml --tolerance 5%,100us

The verdict is worse (by more than the tolerance), within (worse by at most that), better, or other (neither)."""
STATUSES = """exit status: 0 nothing got worse by more than the tolerance; 1 something did; 2 the words or a scenario can't be
taken; 125 there is no fresh proved program (./prove builds it); 130 stopped"""


class Given(NamedTuple):
    """What the words ask for."""

    files: tuple[str, str]
    tolerance: Tolerance
    limit: tuple[str, ...]
    task: Task
    is_quick: bool


def given_of(words: list[str]) -> Given:
    """What the words ask for, or a refusal."""
    said = parser().parse_args(words)
    limit = ("--limit", said.limit) if said.limit is not None else ()
    task = Task((), seconds_of(said), said.tasks)
    return Given((said.before, said.after), tolerance_of(said.tolerance), limit, task, said.quick)


def parser() -> argparse.ArgumentParser:
    words = argparse.ArgumentParser(
        "apsdiff", description=ABOUT, epilog=STATUSES, formatter_class=argparse.RawDescriptionHelpFormatter,
        allow_abbrev=False)
    words.add_argument("before", metavar="A.toml")
    words.add_argument("after", metavar="B.toml")
    words.add_argument("--tolerance", default="0%", metavar="T",
                       help="5%% of what it was, 100us, or 5%%,100us for the greater of both (0)")
    words.add_argument("--limit", metavar="N", help="entries after which a run stops")
    words.add_argument("--seconds", type=float, help=f"after which a run is killed ({SECONDS:g})")
    words.add_argument("--quick", action="store_true", help="the kit's quick run: proves nothing, slow, one run at a time")
    words.add_argument("--tasks", action="store_true", help="the files are short forms")
    return words
