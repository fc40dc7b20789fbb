"""The words of `apstry`."""
import argparse
import math
import os
import re
from typing import NamedTuple

from .edits import SCENARIO, SHORT_FORM, Form
from .measures import Measure, Requirement, measure_of, requirement_of
from .refusal import Refusal
from .values import Axis, rising, values_of

SECONDS, QUICK_SECONDS = 120.0, 600.0
ABOUT = """Runs a scenario many times, each time with other values, and prints a table (TSV) of what was measured.

  ./apstry scenarios/cockpit.toml --vary Cluster.budget=12..28:4 --vary window=50,100 \\
      --measure 'frames = latency : thread 4 gauges > cycle' --measure 'idle = summary : idle'

A KEY is NAME.KEY of a partition or thread (partition:NAME.KEY, thread:NAME.KEY where both have the name), or a key of the
top table. VALUES are separated by commas; LOW..HIGH:STEP is a range. Times may have a unit: 5ms.
A measure is the number behind WORD, or the first one behind LINE, in the first line of the report that begins with LINE;
OUTER > LINE looks only between the line OUTER and the next one with its first word. REPORT is summary, windows, or one of
apsview; WORDS are passed on. A requirement is met only by a run that reached its horizon."""
STATUSES = """exit status: 0 the table is whole; 1 a row is an error, or --least found none; 2 the words, the scenario or the
scheduler can't be taken; 125 there is no fresh proved program (./prove builds it); 130 stopped"""
VARY = re.compile(r"([^=]+)=(.+)")
MOST_POINTS = 1_000_000
OWN_COLUMNS = ("meets", "state", "tried", "not_monotone")


class Address(NamedTuple):
    """Where the scheduler listens, and the files for TLS."""

    url: str
    ca_file: str | None = None
    certificate: str | None = None
    key: str | None = None
    is_insecure: bool = False


class Given(NamedTuple):
    """What the words ask for."""

    scenario: str
    form: Form
    axes: tuple[Axis, ...]
    measures: tuple[Measure, ...]
    requirements: tuple[Requirement, ...]
    least: str | None
    heat: str | None
    seconds: float
    jobs: int
    is_quick: bool
    prints_commands: bool
    has_head: bool
    address: Address | None


def parser() -> argparse.ArgumentParser:
    words = argparse.ArgumentParser(
        "apstry", description=ABOUT, epilog=STATUSES, formatter_class=argparse.RawDescriptionHelpFormatter,
        allow_abbrev=False)
    words.add_argument("scenario", metavar="SCENARIO.toml")
    words.add_argument("--vary", metavar="KEY=VALUES", action="append", default=[])
    words.add_argument("--measure", metavar="'NAME = REPORT WORDS : LINE [WORD]'", action="append", required=True)
    words.add_argument("--require", metavar="'NAME = NUMBER'", action="append", default=[],
                       help="one of = != < <= > >=; adds the column meets")
    words.add_argument("--least", metavar="KEY", help="search the least value of a varied key that meets what is required")
    words.add_argument("--heat", metavar="FILE.svg", help="draw the first measure over two varied keys")
    words.add_argument("--seconds", type=float, help=f"after which a run is killed ({SECONDS:g})")
    words.add_argument("--jobs", type=int, help="runs at a time (all processors)")
    words.add_argument("--quick", action="store_true", help="the kit's quick run: proves nothing, slow, one run at a time")
    words.add_argument("--tasks", action="store_true", help="the file is a short form; keys and names are its own")
    words.add_argument("--commands", action="store_true", help="print a command for each point instead")
    words.add_argument("--no-head", action="store_true", help="leave out the first line of the table")
    add_remote(words.add_argument_group("many machines"))
    return words


def add_remote(words: argparse._ArgumentGroup) -> None:
    words.add_argument("--scheduler", metavar="tls://HOST:PORT", help="hand the runs to a Dask scheduler")
    words.add_argument("--tls-ca-file", metavar="FILE")
    words.add_argument("--tls-cert", metavar="FILE")
    words.add_argument("--tls-key", metavar="FILE")
    words.add_argument("--insecure", action="store_true", help="take another machine's address without TLS")


def given_of(words: list[str]) -> Given:
    """What the words ask for, or a refusal."""
    said = parser().parse_args(words)
    measures = tuple(measure_of(text) for text in said.measure)
    given = Given(
        said.scenario, SHORT_FORM if said.tasks else SCENARIO, tuple(axis_of(text) for text in said.vary), measures,
        tuple(requirement_of(text, measures) for text in said.require), said.least, said.heat,
        seconds_of(said), jobs_of(said), said.quick, said.commands, not said.no_head, address_of(said))
    refuse_clashes(given)
    refuse_many(given.axes)
    return given if given.least is None else with_rising(given, given.least)


def axis_of(text: str) -> Axis:
    found = VARY.fullmatch(text)
    if found is None:
        raise Refusal(f"--vary {text!r} is no KEY=VALUES")
    if not text.isprintable():
        raise Refusal(f"--vary {text!r} has a letter that can't be printed")
    return Axis(found[1].strip(), values_of(found[2]))


def seconds_of(said: argparse.Namespace) -> float:
    if said.seconds is None:
        return QUICK_SECONDS if said.quick else SECONDS
    if not 0 < said.seconds <= 1_000_000:
        raise Refusal("--seconds: wanted is a number above 0, at most 1000000")
    return said.seconds


def jobs_of(said: argparse.Namespace) -> int:
    if said.jobs is not None and not 1 <= said.jobs <= 1024:
        raise Refusal("--jobs: wanted is a number from 1 to 1024")
    return 1 if said.quick else said.jobs or len(os.sched_getaffinity(0))


def address_of(said: argparse.Namespace) -> Address | None:
    if said.scheduler is not None:
        return Address(said.scheduler, said.tls_ca_file, said.tls_cert, said.tls_key, said.insecure)
    if said.tls_ca_file or said.tls_cert or said.tls_key or said.insecure:
        raise Refusal("the options --tls-.. and --insecure belong to --scheduler")
    return None


def refuse_clashes(given: Given) -> None:
    """Refuses words that don't fit together."""
    columns = [axis.key for axis in given.axes] + [measure.name for measure in given.measures] + [*OWN_COLUMNS]
    twice = sorted({column for column in columns if columns.count(column) > 1})
    if twice:
        raise Refusal(f"two columns would be called {twice[0]}")
    if given.least is not None and not given.requirements:
        raise Refusal("--least needs --require")
    if given.least is not None and given.least not in columns[:len(given.axes)]:
        raise Refusal(f"--least {given.least}: wanted is a key with its own --vary")
    if given.heat is not None and (len(given.axes) != 2 or given.least is not None):
        raise Refusal("--heat draws exactly two varied keys, without --least")
    if given.prints_commands and (given.least is not None or given.heat is not None or given.address is not None):
        raise Refusal("--commands goes without --least, --heat and --scheduler")
    if given.is_quick and given.address is not None:
        raise Refusal("--quick goes without --scheduler")


def refuse_many(axes: tuple[Axis, ...]) -> None:
    """Refuses more points than anybody can wait for."""
    count = math.prod(len(axis.values) for axis in axes)
    if count > MOST_POINTS:
        raise Refusal(f"these are {count} points; at most {MOST_POINTS} are taken")


def with_rising(given: Given, least: str) -> Given:
    """The same, with the values of the searched key from the least to the greatest."""
    axes = tuple(Axis(axis.key, rising(axis.values, axis.key)) if axis.key == least else axis for axis in given.axes)
    return given._replace(axes=axes)
