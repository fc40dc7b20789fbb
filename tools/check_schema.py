#!/usr/bin/python3
"""Compares docs/scenario.schema.json with the scenarios of the repository and with what apsim accepts.

    tools/check_schema.py [PROGRAM] [--spoiled N]

Every scenario of the repository has to be valid by the schema. Of N spoiled ones (1,000), each one a TOML document,
apsim has to refuse those that the schema refuses. PROGRAM is a built apsim; without it the fresh proved one is taken.
Where there is none, or the package python3-jsonschema is missing, that part is skipped and the output says so.
"""
import argparse
import glob
import json
import os
import subprocess
import sys
import tomllib
from concurrent.futures import ThreadPoolExecutor
from typing import Any, Iterator, Optional

sys.dont_write_bytecode = True
TOOLS = os.path.dirname(os.path.abspath(__file__))
ROOT = os.path.dirname(TOOLS)
SCHEMA = os.path.join(ROOT, "docs", "scenario.schema.json")
FOLDERS = ("scenarios", "crates/worked/data", "crates/worked/data/views")
STATUS_OF_A_REFUSAL = 2
MOST_SECONDS = 20


def scenario_paths() -> list[str]:
    """Every scenario of the repository. Demands lie in folders below these."""
    return sorted(path for folder in FOLDERS for path in glob.glob(os.path.join(ROOT, folder, "*.toml")))


def document_of(text: bytes) -> Optional[dict[str, Any]]:
    """What the text says as TOML, or None where it is none."""
    try:
        return tomllib.loads(text.decode())
    except (tomllib.TOMLDecodeError, UnicodeDecodeError, ValueError, RecursionError):
        return None


def validator() -> Optional[Any]:
    """A validator by the schema, which itself has to be one of draft 7. None where the package is missing."""
    try:
        import jsonschema
    except ImportError:
        return None
    with open(SCHEMA, encoding="utf-8") as file:
        schema = json.load(file)
    jsonschema.Draft7Validator.check_schema(schema)
    return jsonschema.Draft7Validator(schema)


def spoiled_texts(count: int) -> Iterator[tuple[int, bytes, dict[str, Any]]]:
    """The first spoiled texts that are TOML documents: the number, the text, the document."""
    import spoil_texts
    originals = [read(path) for path in scenario_paths()]
    number = found = 0
    while found < count:
        text = spoil_texts.spoiled(originals, number)
        document = document_of(text)
        if document is not None:
            found += 1
            yield number, text, document
        number += 1


def read(path: str) -> bytes:
    with open(path, "rb") as file:
        return file.read()


def fresh_program() -> Optional[str]:
    """The path of the fresh proved apsim, or None."""
    finder = os.path.join(TOOLS, "fresh_program")
    if not os.access(finder, os.X_OK):
        return None
    answer = subprocess.run([finder, "apsim"], stdout=subprocess.PIPE, stderr=subprocess.DEVNULL, check=False)
    path = answer.stdout.decode().strip()
    return path if answer.returncode == 0 and path else None


def status_of(program: str, text: bytes) -> int:
    return subprocess.run([program, "solo", "--limit", "1"], input=text, stdout=subprocess.DEVNULL,
                          stderr=subprocess.DEVNULL, timeout=MOST_SECONDS, check=False).returncode


def invalid_files(schema: Any) -> list[str]:
    """A line for each scenario of the repository that the schema refuses."""
    lines = []
    for path in scenario_paths():
        document = document_of(read(path))
        errors = ["no TOML document"] if document is None else [e.message for e in schema.iter_errors(document)]
        lines += [f"{os.path.relpath(path, ROOT)}: {error}" for error in errors]
    return lines


def wrongly_refused(schema: Any, program: str, count: int) -> tuple[list[str], int]:
    """A line for each spoiled text that the schema alone refuses, and how many the schema refuses."""
    refused = [(number, text) for number, text, document in spoiled_texts(count) if not schema.is_valid(document)]
    with ThreadPoolExecutor(os.cpu_count()) as pool:
        statuses = list(pool.map(lambda pair: status_of(program, pair[1]), refused))
    lines = [f"spoiled text {number}: the schema refuses it, and apsim answers with status {status}"
             for (number, _), status in zip(refused, statuses) if status != STATUS_OF_A_REFUSAL]
    return lines, len(refused)


def arguments() -> argparse.Namespace:
    parser = argparse.ArgumentParser(description=__doc__, formatter_class=argparse.RawDescriptionHelpFormatter)
    parser.add_argument("program", nargs="?", help="a built apsim")
    parser.add_argument("--spoiled", type=int, default=1000, metavar="N", help="how many spoiled texts are tried")
    return parser.parse_args()


def main() -> int:
    asked = arguments()
    schema = validator()
    if schema is None:
        print("skipped: the package python3-jsonschema is missing")
        return 0
    wrong = invalid_files(schema)
    print(f"{len(scenario_paths())} scenarios, {len(wrong)} errors")
    program = asked.program or fresh_program()
    if program is None:
        print("skipped: spoiled scenarios, since there is no fresh proved apsim")
    else:
        lines, refused = wrongly_refused(schema, program, asked.spoiled)
        print(f"{asked.spoiled} spoiled scenarios, {refused} refused by the schema, {len(lines)} of these accepted")
        wrong += lines
    print("\n".join(wrong), end="\n" if wrong else "")
    return 1 if wrong else 0


if __name__ == "__main__":
    sys.exit(main())
