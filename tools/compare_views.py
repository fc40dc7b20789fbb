#!/usr/bin/env python3
"""Compares the reports of `apsview` with another implementation's, byte for byte.

    tools/compare_views.py APSVIEW OTHER.py SOLO FOLDER REPORT.. [--limit N]

OTHER.py has `main(words)`, which gives the text of a report from the words of its own command line: the report, its options, the
scenario's file and its journal's. SOLO is a command that writes a scenario's journal (`out/apsim solo --report
journal`). FOLDER holds scenarios, *.toml. Of `explain` two moments of a thread are asked, chosen by the file's name. Each
difference is printed with its file, and the exit status is 1 where there was one. It is no part of the gate.
"""
import argparse
import importlib.util
import pathlib
import random
import shlex
import subprocess
import sys
import tempfile
import tomllib


def module_of(path):
    spec = importlib.util.spec_from_file_location("other", path)
    module = importlib.util.module_from_spec(spec)
    spec.loader.exec_module(module)
    return module


def answer(command, data):
    run = subprocess.run(command, input=data, stdout=subprocess.PIPE, stderr=subprocess.DEVNULL)
    return run.stdout


def words_of(report, path):
    """The words that ask for a report, one list for each time that it is asked for."""
    if report != "explain":
        return [[report]]
    table = tomllib.loads(path.read_text())
    names = [thread["name"] for thread in table.get("thread", [])]
    chosen = random.Random(path.name)
    end = table["ticks"] * table.get("tick", 1_000_000)
    return [[report, "--thread", chosen.choice(names), "--at", str(chosen.randrange(end))] for _ in range(2) if names]


def main():
    arguments = argparse.ArgumentParser(description=__doc__, formatter_class=argparse.RawDescriptionHelpFormatter)
    arguments.add_argument("program")
    arguments.add_argument("other")
    arguments.add_argument("solo")
    arguments.add_argument("folder", type=pathlib.Path)
    arguments.add_argument("report", nargs="+")
    arguments.add_argument("--limit", default="20000")
    given = arguments.parse_args()
    other, limit = module_of(given.other), ["--limit", given.limit]
    compared = different = failed = 0
    with tempfile.NamedTemporaryFile("wb", suffix=".journal") as journal:
        for path in sorted(given.folder.glob("*.toml")):
            data = path.read_bytes()
            pathlib.Path(journal.name).write_bytes(answer(shlex.split(given.solo) + limit, data))
            for words in [words for report in given.report for words in words_of(report, path)]:
                try:
                    wanted = other.main(words + [str(path), journal.name]).encode()
                except Exception as why:
                    failed += 1
                    print(f"{path} {' '.join(words)}: the other failed: {why!r}"[:200])
                    continue
                compared += 1
                if answer(shlex.split(given.program) + words + limit, data) != wanted:
                    different += 1
                    print(f"{path} {' '.join(words)}: DIFFERENT")
    print(f"{compared} compared, {different} differences, {failed} not compared")
    return 1 if different else 0


sys.exit(main())
