"""Where each value of a TOML text lies, and where a table takes one more key.

Only places are found here. What a text means, and whether it is TOML at all, `tomllib` has to say first.
"""
import re
import tomllib
from typing import NamedTuple

from .refusal import Refusal

Path = tuple[str | int, ...]

BARE_KEY = re.compile(r"[A-Za-z0-9_-]+")
BLANKS = re.compile(r"[ \t]*")
BLANKS_AND_LINES = re.compile(r"(?:[ \t\r\n]|#[^\n]*)*")
REST_OF_LINE = re.compile(r"[^\r\n]*")
SCALAR = re.compile(r"[^,\]}#\r\n]*")
QUOTED = (
    re.compile(r'"""(?:\\.|[^\\])*?"{3,5}', re.DOTALL),
    re.compile(r"'''.*?'{3,5}", re.DOTALL),
    re.compile(r'"(?:\\.|[^"\\])*"'),
    re.compile(r"'[^']*'"),
)


class Span(NamedTuple):
    """A piece of the text."""

    start: int
    end: int


class Gap(NamedTuple):
    """Where a table takes one more key, and what goes before it and behind it."""

    at: int
    before: str
    after: str


class Places(NamedTuple):
    """The places of a whole text."""

    values: dict[Path, Span]
    gaps: dict[Path, Gap]


def places_of(text: str) -> Places:
    """The places of a text that `tomllib` takes."""
    try:
        return _Scanner(text).document()
    except RecursionError:
        raise Refusal("the lists of the text are nested too deeply") from None


class _Scanner:
    """Goes through a text once, from its beginning to its end."""

    def __init__(self, text: str) -> None:
        self.text, self.at, self.places = text, 0, Places({}, {})
        self.lengths: dict[Path, int] = {}
        self.newline = "\r\n" if "\r\n" in text else "\n"

    def document(self) -> Places:
        table: Path = ()
        self.places.gaps[()] = Gap(0, "", self.newline)
        self.skip(BLANKS_AND_LINES)
        while self.at < len(self.text):
            if self.text[self.at] == "[":
                table = self.header()
            else:
                self.pair(table)
            self.places.gaps[table] = self.gap_behind_line()
            self.skip(BLANKS_AND_LINES)
        return self.places

    def skip(self, pattern: re.Pattern[str]) -> str:
        """Goes on behind what the pattern takes here."""
        found = pattern.match(self.text, self.at)
        assert found is not None
        self.at = found.end()
        return found.group()

    def take(self, mark: str) -> bool:
        """Goes on behind the mark, where it is the next one."""
        if not self.text.startswith(mark, self.at):
            return False
        self.at += len(mark)
        return True

    def gap_behind_line(self) -> Gap:
        self.skip(REST_OF_LINE)
        return Gap(self.at, self.newline, "")

    def header(self) -> Path:
        """The table that a header begins."""
        is_array = self.text.startswith("[[", self.at)
        self.at += 2 if is_array else 1
        parts = self.key()
        self.skip(BLANKS)
        self.at += 2 if is_array else 1
        path: Path = ()
        for part in parts[:-1]:
            path = self.last_element((*path, part))
        path = (*path, parts[-1])
        if is_array:
            self.lengths[path] = self.lengths.get(path, 0) + 1
        return self.last_element(path)

    def last_element(self, path: Path) -> Path:
        """The last table of an array of tables; any other path is returned as it is."""
        return (*path, self.lengths[path] - 1) if path in self.lengths else path

    def key(self) -> list[str]:
        """The parts of a key, which dots separate."""
        parts = []
        while True:
            self.skip(BLANKS)
            parts.append(self.key_part())
            self.skip(BLANKS)
            if not self.take("."):
                return parts

    def key_part(self) -> str:
        if self.text[self.at] in "\"'":
            return unquoted(self.quoted())
        return self.skip(BARE_KEY)

    def quoted(self) -> str:
        """A text in quotes, the quotes included."""
        pattern = next(pattern for pattern in QUOTED if pattern.match(self.text, self.at))
        return self.skip(pattern)

    def pair(self, table: Path) -> None:
        path = (*table, *self.key())
        self.take("=")
        self.value(path)

    def value(self, path: Path) -> None:
        self.skip(BLANKS)
        start, first = self.at, self.text[self.at]
        if first in "\"'":
            self.quoted()
        elif first == "[":
            self.array(path)
        elif first == "{":
            self.inline_table(path)
        else:
            self.at += len(self.scalar())
        self.places.values[path] = Span(start, self.at)

    def scalar(self) -> str:
        """A number, a moment or a truth value, without the blanks behind it."""
        found = SCALAR.match(self.text, self.at)
        assert found is not None
        return found.group().rstrip(" \t")

    def array(self, path: Path) -> None:
        self.take("[")
        index = 0
        self.skip(BLANKS_AND_LINES)
        while not self.take("]"):
            self.value((*path, index))
            index += 1
            self.skip(BLANKS_AND_LINES)
            self.take(",")
            self.skip(BLANKS_AND_LINES)

    def inline_table(self, path: Path) -> None:
        self.take("{")
        self.places.gaps[path] = Gap(self.at, "", "")
        self.skip(BLANKS)
        while not self.take("}"):
            self.pair(path)
            self.places.gaps[path] = Gap(self.at, ", ", "")
            self.skip(BLANKS)
            self.take(",")
            self.skip(BLANKS)


def unquoted(text: str) -> str:
    """What a key in quotes says."""
    return next(iter(tomllib.loads(text + " = 0")))
