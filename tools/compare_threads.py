#!/usr/bin/env python3
"""Tries `run` on scenarios: that it ends, that its journals are legal, and that fixed order gives what `solo` gives.

    tools/compare_threads.py PROGRAM OTHER FOLDER [--runs N] [--limit N] [--seconds N] [--jobs N]

PROGRAM and OTHER are commands, each as one argument, with the same command line; FOLDER holds scenarios, *.toml. Each is
run N times (1) in either order, with the report `journal`. In fixed order standard output and status must be those of
PROGRAM's `solo`; in free order OTHER's `check` must find the journal legal, and the status must be that of the end which
it names. A run that takes longer than so many seconds (60) counts as one that hangs. Each fault is printed with its file, and the exit status is 1 where there was one. It is no
part of the gate.
"""
import argparse
import concurrent.futures
import pathlib
import shlex
import subprocess
import sys

SEPARATOR = b"--- journal\n"
STATUS_OF_END = {b"horizon": 0, b"reboot": 3, b"limit": 6}


def answer(command, words, data, seconds):
    run = subprocess.run(
        shlex.split(command) + words, input=data, stdout=subprocess.PIPE, stderr=subprocess.DEVNULL, timeout=seconds
    )
    return run.returncode, run.stdout


def faults_of(given, path):
    """What was wrong with the runs of one scenario, and how many there were."""
    text = path.read_bytes()
    words = ["--report", "journal", "--limit", given.limit]
    alone = answer(given.program, ["solo", *words], text, given.seconds)
    faults = []
    for turn in range(given.runs):
        for order in ("fixed", "free"):
            try:
                found = answer(given.program, ["run", "--order", order, *words], text, given.seconds)
            except subprocess.TimeoutExpired:
                faults.append(f"{path} {order} {turn}: no end after {given.seconds} s")
                continue
            if order == "fixed" and found != alone:
                faults.append(f"{path} {order} {turn}: not what solo gives")
            if order == "free":
                check = ["check", "--order", "free", "--limit", given.limit]
                verdict = answer(given.other, check, text + SEPARATOR + found[1], None)
                told = verdict[1].split()
                if told[:2] != [b"check", b"legal"] or STATUS_OF_END.get(told[2]) != found[0]:
                    faults.append(f"{path} {order} {turn}: status {found[0]}, {verdict}")
    return faults, 2 * given.runs


def main():
    arguments = argparse.ArgumentParser(description=__doc__, formatter_class=argparse.RawDescriptionHelpFormatter)
    arguments.add_argument("program")
    arguments.add_argument("other")
    arguments.add_argument("folder", type=pathlib.Path)
    arguments.add_argument("--runs", type=int, default=1)
    arguments.add_argument("--limit", default="20000")
    arguments.add_argument("--seconds", type=int, default=60)
    arguments.add_argument("--jobs", type=int, default=2)
    given = arguments.parse_args()
    wrong = count = 0
    with concurrent.futures.ThreadPoolExecutor(given.jobs) as pool:
        for faults, runs in pool.map(lambda path: faults_of(given, path), sorted(given.folder.glob("*.toml"))):
            wrong += len(faults)
            count += runs
            for line in faults:
                print(line, flush=True)
    print(f"{count} runs, {wrong} faults")
    sys.exit(wrong > 0 or count == 0)


main()
