#!/usr/bin/env python3
"""Spoils journals, and compares the program's verdicts with those of another implementation.

    tools/spoil_journals.py PROGRAM OTHER FOLDER [--each N] [--limit N] [--jobs N]

PROGRAM and OTHER are commands, each as one argument, with the same command line; FOLDER holds scenarios, *.toml. The
program's journal of each is checked as it is and spoiled in N ways (8), in both orders: standard output and status must
be the same. Each difference is printed with its file and its seed, and the exit status is 1 where there was one. It is no
part of the gate.
"""
import argparse
import concurrent.futures
import pathlib
import random
import shlex
import subprocess
import sys

SEPARATOR = b"--- journal\n"


def answer(command, words, data):
    run = subprocess.run(shlex.split(command) + words, input=data, stdout=subprocess.PIPE, stderr=subprocess.DEVNULL)
    return run.returncode, run.stdout


def other_field(field, chance):
    """Another word that may stand there."""
    if field == "-":
        return chance.choice(["0", "1", "c", "2"])
    if field.isdigit():
        return chance.choice([str(int(field) + 1), str(max(int(field) - 1, 0)), "-", "0"])
    return chance.choice(["-", "run", "yield", "0"])


def spoiled(journal, chance):
    """The journal with one thing wrong, or perhaps none."""
    lines = journal.splitlines(keepends=True)
    if not lines:
        return b"0 0 0 - - - - - - -\n"
    way = chance.randrange(8)
    at = chance.randrange(len(lines))
    if way <= 2:
        fields = lines[at].decode().rstrip("\n").split(" ")
        place = chance.randrange(len(fields))
        fields[place] = other_field(fields[place], chance)
        lines[at] = (" ".join(fields) + "\n").encode()
    elif way == 3 and len(lines) > 1:
        other = chance.randrange(len(lines))
        lines[at], lines[other] = lines[other], lines[at]
    elif way == 4:
        del lines[at]
    elif way == 5:
        lines.insert(at, lines[at])
    elif way == 6:
        return journal[: chance.randrange(len(journal))]
    else:
        spot = chance.randrange(len(journal))
        return journal[:spot] + bytes([chance.choice(b"0 9-cx\r\n")]) + journal[spot + 1 :]
    return b"".join(lines)


def tried(given, path):
    """The differences over one scenario, and how many inputs were tried."""
    text = path.read_bytes()
    _, journal = answer(given.program, ["solo", "--report", "journal", "--limit", given.limit], text)
    apart, count = [], 0
    for seed in range(given.each + 1):
        chance = random.Random(f"{path.name} {seed}")
        data = text + SEPARATOR + (spoiled(journal, chance) if seed else journal)
        for order in ("fixed", "free"):
            words = ["check", "--order", order, "--limit", given.limit]
            ours, theirs = answer(given.program, words, data), answer(given.other, words, data)
            count += 1
            if ours != theirs:
                apart.append(f"{path} seed {seed} {order}: {ours} for {theirs}")
    return apart, count


def main():
    arguments = argparse.ArgumentParser(description=__doc__, formatter_class=argparse.RawDescriptionHelpFormatter)
    arguments.add_argument("program")
    arguments.add_argument("other")
    arguments.add_argument("folder", type=pathlib.Path)
    arguments.add_argument("--each", type=int, default=8)
    arguments.add_argument("--limit", default="400")
    arguments.add_argument("--jobs", type=int, default=4)
    given = arguments.parse_args()
    apart = count = 0
    with concurrent.futures.ThreadPoolExecutor(given.jobs) as pool:
        for found, tries in pool.map(lambda path: tried(given, path), sorted(given.folder.glob("*.toml"))):
            apart += len(found)
            count += tries
            for line in found:
                print(line)
    print(f"{count} verdicts, {apart} differences")
    sys.exit(apart > 0)


main()
