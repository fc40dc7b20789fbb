#!/usr/bin/env python3
"""Tries threads beside other work on all cores: whether each run ends, and a test that has threads meet passes each time.

    tools/thread_trials.py runs PROGRAM [--count N] [--seconds N] [--busy N] [--jobs N] [--first SEED]
    tools/thread_trials.py repeat COMMAND [--count N] [--seconds N] [--busy N]

`runs` makes N random scenarios (20,000) of 2 to 16 processors, and PROGRAM, a command as one argument, runs each in fixed
or free order, turn about. A run has to end within so many seconds (20). In fixed order it has to write what `solo` writes,
in free order a journal that PROGRAM's `check` finds legal. `repeat` makes the command N times (500), and each time it has to
end with status 0 within so many seconds (60). For the test in which two threads meet, `rt test` in crates/test_calls builds
the program of the tests; COMMAND is then "KIT/bin/rattle-test --seconds 60 --filter two_threads_meet PROGRAM", where KIT
is the toolchain's folder and PROGRAM crates/test_calls/out/test_calls_tests.
Beside all this so many loops are busy (as many as the machine has cores; for `repeat` eight). A line tells of each fault,
with the seed of its scenario, and the last one how many there were and how long the slowest took. The exit status is 1 where there
was a fault. It is no part of the gate.
"""
import argparse
import concurrent.futures
import contextlib
import os
import pathlib
import shlex
import subprocess
import sys
import time
from collections.abc import Iterator
from dataclasses import dataclass

sys.path.insert(0, str(pathlib.Path(__file__).parent))
from random_scenarios import scenario  # noqa: E402

SEPARATOR = b"--- journal\n"
JOURNAL = ["--report", "journal", "--limit", "20000"]
BUSY_LOOP = [sys.executable, "-c", "while True: pass"]


@dataclass
class Trial:
    """What came of one trial: what was wrong, if anything was, and how long its slowest call took."""

    fault: str | None
    seconds: float


@contextlib.contextmanager
def busy_loops(count: int) -> Iterator[list[subprocess.Popen[bytes]]]:
    """So many loops that are busy for as long as this goes on."""
    loops = [subprocess.Popen(BUSY_LOOP) for _ in range(count)]
    try:
        yield loops
    finally:
        for loop in loops:
            loop.kill()
            loop.wait()


def call(command: str, words: list[str], data: bytes, seconds: float) -> tuple[int, bytes]:
    """The status and the text of a call."""
    run = subprocess.run(
        shlex.split(command) + words,
        input=data,
        stdout=subprocess.PIPE,
        stderr=subprocess.DEVNULL,
        timeout=seconds,
        check=False,
    )
    return run.returncode, run.stdout


def fault_of_run(program: str, seed: int, seconds: float) -> Trial:
    """Runs the scenario of this seed on threads, and compares with what one thread says of it."""
    text = scenario(seed).encode()
    order = "fixed" if seed % 2 == 0 else "free"
    begin = time.monotonic()
    try:
        found = call(program, ["run", "--order", order, *JOURNAL], text, seconds)
    except subprocess.TimeoutExpired:
        return Trial(f"seed {seed} {order}: no end after {seconds} s", seconds)
    took = time.monotonic() - begin
    return Trial(fault_of_text(program, seed, order, text, found), took)


def fault_of_text(program: str, seed: int, order: str, text: bytes, found: tuple[int, bytes]) -> str | None:
    """What is wrong with what a run on threads gave, if anything is."""
    if found[0] not in (0, 3, 6):
        return f"seed {seed} {order}: status {found[0]}"
    if order == "fixed":
        same = call(program, ["solo", *JOURNAL], text, 600) == found
        return None if same else f"seed {seed}: not what solo gives"
    journal = text + SEPARATOR + found[1]
    status, verdict = call(program, ["check", "--order", "free", "--limit", "20000"], journal, 600)
    return None if status == 0 else f"seed {seed}: {verdict.decode().strip()}"


def fault_of_command(command: str, turn: int, seconds: float) -> Trial:
    """Makes the command once more."""
    begin = time.monotonic()
    try:
        status, _ = call(command, [], b"", seconds)
    except subprocess.TimeoutExpired:
        return Trial(f"turn {turn}: no end after {seconds} s", seconds)
    fault = None if status == 0 else f"turn {turn}: status {status}"
    return Trial(fault, time.monotonic() - begin)


def tell(trials: Iterator[Trial]) -> int:
    """Tells each fault as it comes, and how many there were."""
    count = faults = 0
    slowest = 0.0
    for trial in trials:
        count += 1
        slowest = max(slowest, trial.seconds)
        if trial.fault is not None:
            faults += 1
            print(trial.fault, flush=True)
    print(f"{count} trials, {faults} faults, the slowest took {slowest:.1f} s")
    return faults if count else 1


def try_runs(given: argparse.Namespace) -> int:
    """How many faults there were in runs of random scenarios."""
    seeds = range(given.first, given.first + (given.count or 20_000))
    seconds = given.seconds or 20
    with concurrent.futures.ThreadPoolExecutor(given.jobs) as pool:
        return tell(pool.map(lambda seed: fault_of_run(given.command, seed, seconds), seeds))


def try_again(given: argparse.Namespace) -> int:
    """How many faults there were where a command was made again and again."""
    turns = range(given.count or 500)
    seconds = given.seconds or 60
    return tell(fault_of_command(given.command, turn, seconds) for turn in turns)


def main() -> None:
    arguments = argparse.ArgumentParser(description=__doc__, formatter_class=argparse.RawDescriptionHelpFormatter)
    arguments.add_argument("kind", choices=["runs", "repeat"])
    arguments.add_argument("command")
    arguments.add_argument("--count", type=int)
    arguments.add_argument("--seconds", type=float)
    arguments.add_argument("--busy", type=int)
    arguments.add_argument("--jobs", type=int, default=2)
    arguments.add_argument("--first", type=int, default=0)
    given = arguments.parse_args()
    usual = {"runs": os.cpu_count() or 4, "repeat": 8}
    busy = usual[given.kind] if given.busy is None else given.busy
    with busy_loops(busy):
        faults = try_runs(given) if given.kind == "runs" else try_again(given)
    sys.exit(faults > 0)


if __name__ == "__main__":
    main()
