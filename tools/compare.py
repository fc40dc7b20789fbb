#!/usr/bin/env python3
"""Compares the program with another implementation of the same rules, input by input.

    tools/compare.py PROGRAM OTHER FOLDER [--refused] [--command C] [--limit N]

PROGRAM and OTHER are commands, each as one argument ("python3 other.py"), with the same command line; FOLDER holds
the inputs, *.toml. Each input is run with all three reports, and standard output and exit status must be the same; with
--refused it is run once, since only the refusal counts; with --command another command than solo is tried, as admit. Each difference is printed with its file, and the exit status
is 1 where there was one. It is no part of the gate.
"""
import argparse
import pathlib
import shlex
import subprocess
import sys


def answer(command, words, data):
    run = subprocess.run(shlex.split(command) + words, input=data, stdout=subprocess.PIPE, stderr=subprocess.DEVNULL)
    return run.returncode, run.stdout


def first_difference(ours, theirs):
    """The number of the first line that differs, with both lines."""
    a, b = ours.splitlines(), theirs.splitlines()
    for at in range(max(len(a), len(b))):
        if a[at:at + 1] != b[at:at + 1]:
            return at + 1, a[at:at + 1], b[at:at + 1]
    return 0, [], []


def main():
    arguments = argparse.ArgumentParser(description=__doc__, formatter_class=argparse.RawDescriptionHelpFormatter)
    arguments.add_argument("program")
    arguments.add_argument("other")
    arguments.add_argument("folder", type=pathlib.Path)
    arguments.add_argument("--refused", action="store_true")
    arguments.add_argument("--command")
    arguments.add_argument("--limit", default="1500")
    given = arguments.parse_args()
    reports = ["summary"] if given.refused or given.command else ["journal", "summary", "windows"]
    files = sorted(given.folder.glob("*.toml"))
    differences = 0
    for file in files:
        data = file.read_bytes()
        for report in reports:
            words = [given.command] if given.command else ["solo", "--report", report, "--limit", given.limit]
            ours, theirs = answer(given.program, words, data), answer(given.other, words, data)
            if ours != theirs:
                differences += 1
                line, a, b = first_difference(ours[1], theirs[1])
                print(f"{file} {report}: status {ours[0]} for {theirs[0]}, line {line}: {a} for {b}")
    print(f"{len(files)} files, {differences} differences")
    return 1 if differences or not files else 0


sys.exit(main())
