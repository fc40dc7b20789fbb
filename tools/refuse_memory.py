#!/usr/bin/env python3
"""Runs a program with its first, second, .. allocation refused, until a run has none that could be refused.

    tools/refuse_memory.py APSIM [APSVIEW] [--most N]

Each run has to end with its usual status and text, or with status 7 and a prefix of the usual text. A line for each
command says how many allocations were refused, one in each run. The exit status is 1 where a run ended otherwise.
It is no part of the gate. APSIM and APSVIEW are the built programs, as out/apsim; `cc` builds a small library
that refuses one call of malloc or realloc.
"""
import argparse
import os
import subprocess
import sys
import tempfile
import tomllib
from pathlib import Path
from typing import Iterator, NamedTuple

ROOT = Path(__file__).resolve().parent.parent
NO_MEMORY = 7
MOST_SECONDS = 120
SEPARATOR = b"--- journal\n"

LIBRARY = r"""
#define _GNU_SOURCE
#include <dlfcn.h>
#include <stdatomic.h>
#include <stdlib.h>
#include <unistd.h>

static atomic_long calls;
static long refused;

/* REFUSED says which call fails, counted from 1; where it came, a byte goes to the file descriptor TOLD. */
static int is_refused(void) {
    if (refused == 0) {
        const char *word = getenv("REFUSED");
        refused = word ? atol(word) : -1;
    }
    if (atomic_fetch_add(&calls, 1) + 1 != refused) return 0;
    const char *told = getenv("TOLD");
    if (told && write(atoi(told), "r", 1) < 0) return 1;
    return 1;
}

void *malloc(size_t size) {
    static void *(*real)(size_t);
    if (!real) real = dlsym(RTLD_NEXT, "malloc");
    return is_refused() ? NULL : real(size);
}

void *realloc(void *old, size_t size) {
    static void *(*real)(void *, size_t);
    if (!real) real = dlsym(RTLD_NEXT, "realloc");
    return is_refused() ? NULL : real(old, size);
}
"""


class Command(NamedTuple):
    """A program with its words and its input."""

    program: str
    words: list[str]
    data: bytes

    def name(self) -> str:
        return " ".join([os.path.basename(self.program), *self.words])


class Ending(NamedTuple):
    """How a run ended: its status, its text, and whether an allocation was refused."""

    status: int
    text: bytes
    was_refused: bool


def worked(name: str) -> bytes:
    return (ROOT / "crates" / "worked" / "data" / name).read_bytes()


def with_journal(apsim: str, scenario: bytes) -> bytes:
    """The scenario with the journal of its run behind it."""
    made = subprocess.run([apsim, "solo", "--report", "journal"], input=scenario, stdout=subprocess.PIPE, check=True)
    return scenario + SEPARATOR + made.stdout


def commands_of_apsim(apsim: str) -> Iterator[Command]:
    tree = worked("tree_commands.toml")
    for report in ("summary", "windows", "journal"):
        yield Command(apsim, ["solo", "--report", report], tree)
    yield Command(apsim, ["run", "--order", "fixed", "--report", "journal"], worked("two_processors.toml"))
    yield Command(apsim, ["gen", "--seed", "7", "--cpus", "2", "--partitions", "3", "--ticks", "5"], b"")
    yield Command(apsim, ["upgrade"], tree)
    yield Command(apsim, ["check", "--order", "fixed"], with_journal(apsim, tree))
    yield Command(apsim, ["admit"], (ROOT / "scenarios" / "demands" / "two-needs.toml").read_bytes())


def commands_of_apsview(apsim: str, apsview: str) -> Iterator[Command]:
    """Each report of a scenario with a server, and two of a journal."""
    server = (ROOT / "scenarios" / "shared-server.toml").read_bytes()
    reports = ["shares", "latency", "csv", "cycles", "timeline", "threads", "usage", "vcd", "gtkw", "trace"]
    for report in reports:
        yield Command(apsview, [report], server)
    yield Command(apsview, ["explain", "--thread", thread_of(server), "--at", "1500000"], server)
    for report in ("shares", "latency"):
        yield Command(apsview, [report], with_journal(apsim, server))


def thread_of(scenario: bytes) -> str:
    """The name of the scenario's first thread."""
    return tomllib.loads(scenario.decode())["thread"][0]["name"]


def run(command: Command, refused: int, library: str) -> Ending:
    told, tells = os.pipe()
    environment = {"LD_PRELOAD": library, "REFUSED": str(refused), "TOLD": str(tells)}
    ended = subprocess.run(
        [command.program, *command.words],
        input=command.data,
        stdout=subprocess.PIPE,
        stderr=subprocess.DEVNULL,
        env=environment,
        pass_fds=[tells],
        timeout=MOST_SECONDS,
    )
    os.close(tells)
    was_refused = os.read(told, 1) == b"r"
    os.close(told)
    return Ending(ended.returncode, ended.stdout, was_refused)


def is_right(got: Ending, usual: Ending) -> bool:
    if got[:2] == usual[:2]:
        return True
    return got.status == NO_MEMORY and usual.text.startswith(got.text)


def try_command(command: Command, most: int, library: str) -> tuple[int, int]:
    """How many allocations were refused, one in each run, and how many runs ended wrongly."""
    usual = run(command, -1, library)
    refused = without = wrong = 0
    for n in range(1, most + 1):
        got = run(command, n, library)
        if not got.was_refused:
            break
        refused += 1
        without += got.status != NO_MEMORY
        if not is_right(got, usual):
            wrong += 1
            print(f"{command.name()}: allocation {n} refused: status {got.status}, {len(got.text)} bytes")
    print(f"{command.name()}: status {usual.status}; {refused} refused in turn, {without} with the usual answer", flush=True)
    return refused, wrong


def build_library(folder: str) -> str:
    source, library = os.path.join(folder, "refuse.c"), os.path.join(folder, "refuse.so")
    Path(source).write_text(LIBRARY, encoding="utf-8")
    subprocess.run(["cc", "-O2", "-shared", "-fPIC", "-o", library, source, "-ldl"], check=True)
    return library


def main() -> int:
    words = argparse.ArgumentParser(description=__doc__, formatter_class=argparse.RawDescriptionHelpFormatter)
    words.add_argument("apsim", type=os.path.abspath)
    words.add_argument("apsview", nargs="?", type=os.path.abspath)
    words.add_argument("--most", type=int, default=10**9, help="how many allocations of each command at most")
    given = words.parse_args()
    commands = list(commands_of_apsim(given.apsim))
    if given.apsview:
        commands += commands_of_apsview(given.apsim, given.apsview)
    with tempfile.TemporaryDirectory() as folder:
        library = build_library(folder)
        ended = [try_command(command, given.most, library) for command in commands]
    wrong = sum(faults for _, faults in ended)
    print(f"{sum(refused for refused, _ in ended)} refused, {wrong} wrong")
    return 1 if wrong else 0


if __name__ == "__main__":
    sys.exit(main())
