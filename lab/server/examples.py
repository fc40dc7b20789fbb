"""Scenarios that the page offers. They are read once, at the start."""
from __future__ import annotations

from dataclasses import dataclass
from pathlib import Path

MOST_EXAMPLES = 100
MOST_TEXT = 1 << 20


@dataclass(frozen=True)
class Example:
    """A scenario, with what its first lines say of it."""

    name: str
    about: str
    text: str


def example_of(path: Path) -> Example:
    text = path.read_bytes()[:MOST_TEXT + 1].decode("utf-8", "replace")
    return Example(path.stem, _about(text), text)


def examples_of(folder: Path) -> list[Example]:
    """The cockpit first, since it shows most; then the others by name."""
    paths = sorted(folder.glob("*.toml"), key=lambda path: (path.stem != "cockpit", path.stem))
    return [example_of(path) for path in paths[:MOST_EXAMPLES]]


def _about(text: str) -> str:
    """The first sentence of the comment at the head."""
    lines = []
    for line in text.splitlines():
        if not line.startswith("#"):
            break
        lines.append(line.lstrip("# "))
    return " ".join(lines).split(". ")[0].rstrip(".")
