#!/usr/bin/env python3
"""Refuses long lines in documents, and words for which there are plainer ones.

    tools/plain_words.py [FILE.md ..]

Without a file it reads every *.md of the repository. A line has at most 100 columns, but for rows of tables, blocks of
code and addresses. The words are refused outside of code, in any case, and across the end of a line.
"""
import os
import re
import sys

sys.dont_write_bytecode = True
sys.path.insert(0, os.path.dirname(os.path.abspath(__file__)))
from documents import ROOT, Line, document_paths, lines_of, read, without_code

MOST_COLUMNS = 100
REFUSED_WORDS = ("whoever", "is to be had", "else it were", "goes by")
ADDRESS = re.compile(r"https?://\S+|\]\([^)]*\)")


def is_too_long(line: Line) -> bool:
    """Whether a line of text has too many columns, addresses aside."""
    if line.is_code or line.text.lstrip().startswith("|"):
        return False
    return len(ADDRESS.sub("", line.text)) > MOST_COLUMNS


def words_pattern(words: str) -> re.Pattern[str]:
    """Finds words that may have other blanks or a line's end between them."""
    return re.compile(r"\b" + r"[\s>]+".join(map(re.escape, words.split())) + r"\b", re.I)


def refused_words(lines: list[Line]) -> list[tuple[int, str]]:
    """The number of the line where refused words begin, and the words."""
    text = "\n".join("" if line.is_code else without_code(line.text) for line in lines)
    found = [(text.count("\n", 0, place.start()) + 1, words)
             for words in REFUSED_WORDS for place in words_pattern(words).finditer(text)]
    return sorted(found)


def complaints(name: str, text: str) -> list[str]:
    """A line for each thing that is wrong in a document."""
    lines = list(lines_of(text))
    found = [(line.number, f"{len(line.text)} columns") for line in lines if is_too_long(line)]
    found += [(number, f'the words "{words}"') for number, words in refused_words(lines)]
    return [f"{name}:{number}: {wrong}" for number, wrong in sorted(found)]


def main() -> int:
    paths = sys.argv[1:] or document_paths()
    wrong = [line for path in paths for line in complaints(os.path.relpath(path, ROOT), read(path))]
    print("\n".join(wrong + [f"{len(paths)} documents, {len(wrong)} complaints"]))
    return 1 if wrong else 0


if __name__ == "__main__":
    sys.exit(main())
