#!/usr/bin/env python3
"""Runs the commands of docs/GUIDE.md and compares what they print with what stands there.

    tools/guide.py [FILE.md]

A command is a line behind `$ ` in a block. It goes on in the next line where it ends with a backslash. The lines below it
have to come in this order and, but where `..` is, one behind the other. .ci/run runs it behind rt ci, in the checkout's top
folder, with ./apsim and ./apsview.
"""
import os
import subprocess
import sys

ROOT = os.path.dirname(os.path.dirname(os.path.abspath(__file__)))


def commands(text):
    """Each command with the lines below it."""
    found, inside = [], False
    for line in text.split("\n"):
        if line.startswith("```"):
            inside = not inside
        elif inside and line.startswith("$ "):
            found.append((line[2:], []))
        elif inside and found and found[-1][0].endswith("\\") and not found[-1][1]:
            found[-1] = (found[-1][0] + "\n" + line, [])
        elif inside and found:
            found[-1][1].append(line)
    return found


def difference(wanted, got):
    """The first wanted line that isn't there, or None."""
    at, skips = 0, False
    for line in wanted:
        if line == "..":
            skips = True
            continue
        place = next((i for i in range(at, len(got)) if got[i] == line), None) if skips else (at if got[at:at + 1] == [line] else None)
        if place is None:
            return line
        at, skips = place + 1, False
    return None if skips or at == len(got) else "the end"


def main():
    path = sys.argv[1] if len(sys.argv) > 1 else os.path.join(ROOT, "docs", "GUIDE.md")
    with open(path, encoding="utf-8") as file:
        found = commands(file.read())
    failed = 0
    for command, wanted in found:
        got = subprocess.run(command, shell=True, cwd=ROOT, stdout=subprocess.PIPE).stdout.decode().split("\n")[:-1]
        missing = difference(wanted, got)
        if missing is not None:
            failed += 1
            print(f"{command}\n    lacks: {missing}")
    print(f"{len(found)} commands, {failed} failed")
    return 1 if failed else 0


sys.exit(main())
