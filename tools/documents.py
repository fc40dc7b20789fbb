"""The documents of the repository, and which of their lines are code. For the checks of words and of links."""
import os
import re
from collections.abc import Iterator
from typing import NamedTuple

ROOT = os.path.dirname(os.path.dirname(os.path.abspath(__file__)))
OTHER_FOLDERS = {".git", "out", ".start", "must-fail"}
FENCE = re.compile(r"\s*(```|~~~)")
INLINE_CODE = re.compile(r"(`+)(?!`).+?(?<!`)\1(?!`)")


class Line(NamedTuple):
    """A line of a document: its number, from 1, its text, and whether it is one of a block of code."""

    number: int
    text: str
    is_code: bool


def document_paths(root: str = ROOT) -> list[str]:
    """Every file *.md below the root."""
    found = []
    for folder, names, files in os.walk(root):
        names[:] = [name for name in names if name not in OTHER_FOLDERS]
        found += [os.path.join(folder, file) for file in files if file.endswith(".md")]
    return sorted(found)


def read(path: str) -> str:
    with open(path, encoding="utf-8") as file:
        return file.read()


def lines_of(text: str) -> Iterator[Line]:
    """The lines of a document. A block of code stands between fences, or indented behind an empty line."""
    in_fence, before_is_empty, in_indent = False, True, False
    for number, line in enumerate(text.split("\n"), 1):
        is_fence = FENCE.match(line) is not None
        in_indent = line.startswith("    ") and (before_is_empty or in_indent)
        yield Line(number, line, in_fence or is_fence or in_indent)
        in_fence ^= is_fence
        before_is_empty = not line.strip()


def without_code(line: str) -> str:
    """A line with blanks in place of what stands in it as code."""
    return INLINE_CODE.sub(lambda found: " " * len(found.group()), line)
