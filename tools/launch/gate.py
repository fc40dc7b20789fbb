"""The gate, as .ci/run calls it: the kit's own gate `rt ci`, the records of its programs, and the checks of tools/checks.txt.

A check that needs a proved program uses the one that `rt ci` built just now. Where there is none, it is skipped, and a line says
so. Nothing is built and nothing runs quickly here. The status is that of the first failure. The last line counts all, as that of
`rt ci` does.
"""
import os
import re
import subprocess
import sys
from typing import NamedTuple

import checkout
import freshness
import kit
from signals import Signalled, raise_signals

COUNTS = re.compile(r"(\d+) passed, (\d+) failed")
REFUSED = 125


class Check(NamedTuple):
    """A line of tools/checks.txt: a command, and the proved programs that it needs."""

    command: str
    programs: tuple[str, ...]


class Result(NamedTuple):
    """What `rt ci` came to."""

    status: int
    passed: int
    failed: int


def main(_words: list[str]) -> int:
    root = checkout.ROOT
    rt = kit.command()
    if rt is None:
        print("gate: the Rattle kit's command rt isn't on the PATH")
        print("0 passed, 1 failed")
        return REFUSED
    raise_signals()
    try:
        return run_all(rt, root)
    except Signalled as signalled:
        return signalled.status


def run_all(rt: str, root: str) -> int:
    sources = {program: freshness.digest_of_sources(root, program) for program in checkout.PROGRAMS}
    result = run_kit(rt, root)
    if result.status == 0:
        record(root, sources)
    return run_checks(root, result)


def run_kit(rt: str, root: str) -> Result:
    """Runs `rt ci`, prints what it prints, and reads the counts of its last line."""
    passed, failed = 0, 1
    ran = subprocess.Popen([rt, "ci"], cwd=root, stdout=subprocess.PIPE, text=True, errors="replace")
    try:
        for line in ran.stdout:
            print(line, end="", flush=True)
            if counts := COUNTS.match(line):
                passed, failed = int(counts[1]), int(counts[2])
        return Result(ran.wait(), passed, failed)
    finally:
        ran.terminate()
        ran.wait()


def record(root: str, sources: dict[str, str]) -> None:
    """Takes over the programs that a passed `rt ci` built, with a record of what they were built from."""
    for program, before in sources.items():
        is_built = os.path.isfile(f"{root}/crates/{program}/out/{program}")
        if is_built and freshness.digest_of_sources(root, program) == before:
            freshness.take_over(root, root, program, before)
        else:
            print(f"gate: {program} isn't recorded: it wasn't built, or its sources changed meanwhile")


def checks(root: str) -> list[Check]:
    """The lines of tools/checks.txt, each `COMMAND : PROGRAM ..`."""
    found = []
    with open(f"{root}/tools/checks.txt", encoding="utf-8") as file:
        for line in file:
            command, _, programs = line.partition("#")[0].rpartition(":")
            if command.strip():
                found.append(Check(command.strip(), tuple(programs.split())))
    return found


def run_checks(root: str, result: Result) -> int:
    """Runs the checks behind `rt ci`, and returns the status of the first failure."""
    status, passed, failed, skipped = result.status, 0, [], []
    for check in checks(root):
        lacking = [program for program in check.programs if freshness.why_stale(root, program)]
        if lacking:
            skipped.append(f"{check.command} (no proved {' and no proved '.join(lacking)})")
            continue
        print(f"== {check.command}", flush=True)
        ended = subprocess.run(["sh", "-c", f"exec {check.command}"], cwd=root, stderr=subprocess.STDOUT).returncode
        passed += ended == 0
        failed += [check.command] * (ended != 0)
        status = status or ended
    if skipped:
        print(f"gate: skipped: {'; '.join(skipped)}")
    if failed:
        print(f"gate: failed: {'; '.join(failed)}")
    print(f"gate: behind rt ci {passed} checks passed, {len(failed)} failed, {len(skipped)} were skipped")
    print(f"{result.passed + passed} passed, {result.failed + len(failed)} failed")
    return status
