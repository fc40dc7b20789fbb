#!/usr/bin/env python3
"""Writes what the crate worked is run on, and what it has to write: crates/worked/stdin and stdout.

    tools/worked.py

Three kinds of calls, each with its end:

- Each scenario NAME.toml of crates/worked/data/ is run with each report whose text NAME.REPORT lies beside it. The status is that of the
  end that the summary names, and the history has as many entries as it says.
- The calls of crates/worked/calls.txt.
- Each text NAME.REPORT of crates/worked/data/views/ is that view of the scenario NAME.toml beside it. Others are those of FURTHER, and the
  pictures of tools/pictures.py. A run that a reboot ended has status 3, a refusal 2.

Where the texts come from is up to whoever writes them down: they are not made by this tool, nor by the program. Those of the views come
from an independent implementation of the reports.
"""
import pathlib

import pictures

DATA = pathlib.Path(__file__).resolve().parent.parent / "crates" / "worked" / "data"
VIEWS = pictures.COPIES
REPORTS = ["journal", "summary", "windows"]
STATUS_OF_END = {"horizon": 0, "reboot": 3, "limit": 6}
VIEW_REPORTS = ["shares", "latency", "cycles", "csv", "vcd", "gtkw", "trace"]
# a text, its scenario, and the words that ask for it
FURTHER = [
    ("pump-usage.svg", "pump", ["usage"]),
    ("modes-usage.svg", "modes", ["usage"]),
    ("modes-threads.svg", "modes", ["threads", "--from", "0", "--to", "80"]),
    ("modes-behind.refused", "modes", ["timeline", "--from", "200"]),
    ("chatter-timeline.svg", "chatter", ["timeline"]),
    ("chatter-threads.svg", "chatter", ["threads"]),
    ("circle-end.explain", "circle", ["explain", "--thread", "cl", "--at", "10000000"]),
    ("circle-behind.explain", "circle", ["explain", "--thread", "bg", "--at", "9000000000"]),
]
# of a view, by its scenario or by its text
STATUS = {"alarm-reboot": 3, "modes-behind.refused": 2}


def end(name):
    """How the run of a scenario ends."""
    lines = (DATA / f"{name}.summary").read_text().splitlines()
    status, entries = STATUS_OF_END[lines[1].split()[1]], lines[3].split()[1]
    return f"status {status}, {entries} entries"


def reports():
    """The calls that write a report of a scenario, each with its end."""
    for scenario in sorted(DATA.glob("*.toml")):
        name = scenario.stem
        for report in REPORTS:
            if (DATA / f"{name}.{report}").exists():
                yield f"solo --report {report} < {name}.toml = {name}.{report}", end(name)


def calls():
    """The other calls, each with its end."""
    for line in (DATA.parent / "calls.txt").read_text().splitlines():
        call, told = line.rsplit(": ", 1)
        yield call, told


def texts_of_views():
    """Each text of a view with its scenario and the words that ask for it."""
    for scenario in sorted(VIEWS.glob("*.toml")):
        for report in VIEW_REPORTS:
            if (VIEWS / f"{scenario.stem}.{report}").exists():
                yield f"{scenario.stem}.{report}", scenario.stem, [report]
    for name, scenario, words in pictures.PICTURES:
        yield f"{name}.svg", scenario, words
    yield from FURTHER


def views():
    """The calls that make a view, each with its end."""
    folder = VIEWS.relative_to(DATA)
    for text, scenario, words in sorted(texts_of_views()):
        status = STATUS.get(text, STATUS.get(scenario, 0))
        yield f"view {' '.join(words)} < {folder}/{scenario}.toml = {folder}/{text}", f"status {status}, no history"


def main():
    asked, told = [], []
    for call, ended in [*reports(), *calls(), *views()]:
        asked.append(f"{call}\n")
        text = ", as worked out" if " = " in call else ""
        told.append(f"{call}: {ended}{text}\n")
    (DATA.parent / "stdin").write_text("".join(asked))
    (DATA.parent / "stdout").write_text("".join(told))


main()
