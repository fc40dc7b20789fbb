#!/usr/bin/env python3
"""Checks the links of every document: the file is there, and so is the heading.

    tools/check_links.py [FILE.md ..]

A link to another site isn't followed.
"""
import os
import re
import sys

sys.dont_write_bytecode = True
sys.path.insert(0, os.path.dirname(os.path.abspath(__file__)))
from documents import ROOT, document_paths, lines_of, read, without_code

LINK = re.compile(r"\]\(([^)\s]+)(?:\s+\"[^\"]*\")?\)")
HEADING = re.compile(r"#{1,6} +(.*?)\s*#*$")
ELSEWHERE = re.compile(r"[a-z][a-z0-9+.-]*:")


def links_of(text: str) -> list[tuple[int, str]]:
    """The number of the line and the target of each link outside of code."""
    return [(line.number, target) for line in lines_of(text) if not line.is_code
            for target in LINK.findall(without_code(line.text))]


def anchor_of(heading: str) -> str:
    """The name by which a link reaches a heading: small letters, hyphens for blanks, no other signs."""
    plain = re.sub(r"\[([^\]]*)\]\([^)]*\)", r"\1", heading).replace("`", "")
    return re.sub(r"[^\w\- ]", "", plain.lower()).replace(" ", "-")


def anchors_of(text: str) -> set[str]:
    """The names of all headings. A heading that comes again has a number behind its name."""
    found: set[str] = set()
    for line in lines_of(text):
        heading = None if line.is_code else HEADING.match(line.text)
        if heading:
            name = anchor_of(heading[1])
            count = sum(1 for other in found if other == name or re.fullmatch(re.escape(name) + r"-\d+", other))
            found.add(f"{name}-{count}" if count else name)
    return found


def complaint(path: str, target: str) -> str:
    """What is wrong with a link of this document, or nothing."""
    if ELSEWHERE.match(target):
        return ""
    file, _, anchor = target.partition("#")
    other = os.path.join(os.path.dirname(path), file) if file else path
    if not os.path.exists(other):
        return "no such file"
    if anchor and (not other.endswith(".md") or anchor not in anchors_of(read(other))):
        return "no such heading"
    return ""


def main() -> int:
    paths = sys.argv[1:] or document_paths()
    links = [(path, number, target) for path in paths for number, target in links_of(read(path))]
    wrong = [f"{os.path.relpath(path, ROOT)}:{number}: {target}: {why}"
             for path, number, target in links if (why := complaint(path, target))]
    print("\n".join(wrong + [f"{len(links)} links, {len(wrong)} wrong"]))
    return 1 if wrong else 0


if __name__ == "__main__":
    sys.exit(main())
