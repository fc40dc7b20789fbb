"""Where the proved programs are, and what their digests are.

`tools/fresh_program NAME` finds them. For tests the environment variable APS_STUDY_PROGRAMS names a folder of stand-ins:
a program for each name, and beside it a file NAME.digest.
"""
import os
import subprocess
import sys
from typing import NamedTuple

from .refusal import NotProved

ROOT = os.path.dirname(os.path.dirname(os.path.dirname(os.path.realpath(__file__))))
FINDER = os.path.join(ROOT, "tools", "fresh_program")
STAND_INS = "APS_STUDY_PROGRAMS"
QUICK = {"apsim": "APSIM_QUICK", "apsview": "APSVIEW_QUICK", "apstasks": "APSTASKS_QUICK"}


class Program(NamedTuple):
    """A program that can be started, with the digest of its sources and kit."""

    path: str
    digest: str
    environment: tuple[tuple[str, str], ...] = ()


Programs = dict[str, Program]


def programs_of(names: set[str]) -> Programs:
    """The fresh proved programs of these names."""
    folder = os.environ.get(STAND_INS)
    if folder:
        print(f"{STAND_INS} names stand-ins in {folder}: nothing of this answer is proved", file=sys.stderr)
        return {name: stand_in(folder, name) for name in sorted(names)}
    return {name: fresh(name) for name in sorted(names)}


def quick_programs_of(names: set[str]) -> Programs:
    """The launchers, which answer by the kit's quick run."""
    if os.environ.get(STAND_INS):
        return programs_of(names)
    return {name: Program(os.path.join(ROOT, name), "quick", ((QUICK[name], "1"),)) for name in sorted(names)}


def stand_in(folder: str, name: str) -> Program:
    path = os.path.join(folder, name)
    if not os.access(path, os.X_OK):
        raise NotProved(no_program(name))
    if not os.path.exists(path + ".digest"):
        return Program(path, "stand-in")
    with open(path + ".digest", encoding="utf-8") as file:
        return Program(path, file.read().strip())


def fresh(name: str) -> Program:
    """The fresh proved program of this checkout."""
    path = line_of_finder(name)
    digest = line_of_finder("--digest", name) if path else ""
    if not path or not digest:
        raise NotProved(no_program(name))
    return Program(path, digest)


def line_of_finder(*words: str) -> str:
    """The line that the finder prints; nothing where there is no fresh program."""
    if not os.access(FINDER, os.X_OK):
        return ""
    found = subprocess.run([FINDER, *words], stdin=subprocess.DEVNULL, stdout=subprocess.PIPE, stderr=subprocess.DEVNULL)
    return found.stdout.decode().strip() if found.returncode == 0 else ""


def no_program(name: str) -> str:
    return f"there is no fresh proved {name}; ./prove {name} builds it. For single points there is --quick"
