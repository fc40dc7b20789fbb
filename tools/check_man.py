#!/usr/bin/env python3
"""Checks the man pages of docs/man: `man --warnings` says nothing, and no word of docs/FORMATS.md is missing.

    tools/check_man.py

The page of apsim has to name each command, option and exit status of the tables there, and that of apsview each report
and option. The page of every other program has to name each option that the program's own --help names. Where `man` is
missing its part is skipped and the output says so.
"""
import glob
import os
import re
import shutil
import subprocess
import sys
from typing import Optional

sys.dont_write_bytecode = True
sys.path.insert(0, os.path.dirname(os.path.abspath(__file__)))
import formats

FOLDER = os.path.join(formats.ROOT, "docs", "man")
MOST_SECONDS = 60


def pages() -> list[str]:
    return sorted(glob.glob(os.path.join(FOLDER, "*.1")))


def warnings_of(man: str, page: str) -> list[str]:
    """What man says against a page."""
    answer = subprocess.run([man, "--warnings", "-E", "UTF-8", "-l", "-Tutf8", "-Z", page], stdout=subprocess.DEVNULL,
                            stderr=subprocess.PIPE, timeout=MOST_SECONDS, check=False)
    lines = answer.stderr.decode(errors="replace").split("\n")[:-1]
    return lines or ([f"{page}: man ends with status {answer.returncode}"] if answer.returncode else [])


def words_of(page: str) -> set[str]:
    """What stands in bold in a page, by the macros .B, .BI, .BR and .RB, without what separates words."""
    with open(os.path.join(FOLDER, page), encoding="utf-8") as file:
        bold = [line for line in file if re.match(r"\.(B|BI|BR|RB) ", line)]
    return set(re.findall(r"[a-z0-9-]+", " ".join(bold).replace("\\-", "-")))


def statuses(text: str) -> list[str]:
    """The exit statuses of the table in FORMATS."""
    return [row[0] for row in formats.rows_of(text, "Exit status", "status")]


def due_words(text: str) -> dict[str, set[str]]:
    """The words that each page has to name."""
    commands, reports = formats.commands(text), formats.reports(text)
    return {
        "apsim.1": set(commands) | {option for some in commands.values() for option in some} | set(statuses(text)),
        "apsview.1": set(reports) | {option for some in reports.values() for option in some},
    } | {f"{program}.1": set(formats.options_of(program)) for program in formats.other_programs()}


def missing_words(text: str) -> list[str]:
    """A line for each page that is missing, or lacks words."""
    due = due_words(text)
    absent = [page for page in due if not os.path.isfile(os.path.join(FOLDER, page))]
    lacks = {page: sorted(words - words_of(page)) for page, words in due.items() if page not in absent}
    return ([f"docs/man/{page} is missing" for page in absent]
            + [f"docs/man/{page} lacks {', '.join(some)}" for page, some in lacks.items() if some])


def main() -> int:
    wrong = missing_words(formats.text_of_formats())
    man: Optional[str] = shutil.which("man")
    if man is None:
        print("skipped: man is missing, so the pages weren't formatted")
    else:
        wrong += [line for page in pages() for line in warnings_of(man, page)]
    print("\n".join(wrong + [f"{len(pages())} man pages, {len(wrong)} errors"]))
    return 1 if wrong else 0


if __name__ == "__main__":
    sys.exit(main())
