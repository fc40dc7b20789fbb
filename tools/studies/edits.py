"""Keys of a scenario by name, and texts in which they have other values.

A text is changed at its places, so comments and order stay.
"""
import tomllib
from typing import NamedTuple

from .refusal import Refusal
from .toml_places import Path, places_of
from .values import literal_of, quoted


class Form(NamedTuple):
    """What a text is: which arrays have tables with a name, and whether its times are texts."""

    what: str
    kinds: tuple[str, ...]
    times_are_text: bool


SCENARIO = Form("scenario", ("partition", "thread"), times_are_text=False)
SHORT_FORM = Form("short form", ("partition", "server", "lock", "task", "source"), times_are_text=True)


def document_of(text: str) -> dict[str, object]:
    """What a TOML text says."""
    try:
        return tomllib.loads(text)
    except (tomllib.TOMLDecodeError, RecursionError) as error:
        raise Refusal(f"the text is not TOML 1.0: {error}") from None


def path_of(key: str, document: dict[str, object], form: Form) -> Path:
    """Where a key lies: `window`, `Ctl.budget`, `partition:Ctl.budget`."""
    owner, dot, name = key.rpartition(".")
    if not name or (dot and not owner):
        raise Refusal(f"{key!r} names no key; wanted is KEY, NAME.KEY or KIND:NAME.KEY")
    return (*table_of(owner, document, form), name) if dot else (name,)


def table_of(owner: str, document: dict[str, object], form: Form) -> Path:
    """Where the table of a name lies."""
    kind, colon, name = owner.rpartition(":")
    if colon and kind not in form.kinds:
        raise Refusal(f"{kind}: is no kind of a {form.what}; wanted is one of {', '.join(form.kinds)}")
    found = [path for each in form.kinds if not colon or each == kind for path in named(document, each, name)]
    if not found:
        raise Refusal(f"nothing in the {form.what} has the name {name}; looked for in {kind or ', '.join(form.kinds)}")
    if len(found) > 1:
        ways = " or ".join(f"{path[0]}:{name}" for path in found)
        raise Refusal(f"{name} is the name of several; wanted is {ways}")
    return found[0]


def named(document: dict[str, object], kind: str, name: str) -> list[Path]:
    """The tables of an array that have the name."""
    array = document.get(kind)
    rows = enumerate(array) if isinstance(array, list) else ()
    return [(kind, index) for index, row in rows if isinstance(row, dict) and row.get("name") == name]


def value_at(document: object, path: Path) -> object:
    """The value at a path; none where there is none."""
    for part in path:
        if isinstance(document, dict):
            document = document.get(part)
        elif isinstance(document, list) and isinstance(part, int) and part < len(document):
            document = document[part]
        else:
            return None
    return document


def replaced(text: str, path: Path, literal: str) -> str:
    """The text with another value at the path, or with one more key."""
    places = places_of(text)
    span = places.values.get(path)
    if span is not None:
        return text[:span.start] + literal + text[span.end:]
    gap = places.gaps.get(path[:-1])
    if gap is None:
        raise Refusal(f"no place for the key {shown(path)} in the text")
    key = path[-1]
    pair = f"{key if is_bare(str(key)) else quoted(str(key))} = {literal}"
    return text[:gap.at] + gap.before + pair + gap.after + text[gap.at:]


def is_bare(key: str) -> bool:
    return key.isascii() and all(letter.isalnum() or letter in "_-" for letter in key)


def shown(path: Path) -> str:
    """A path as text: `partition[2].budget`."""
    parts = "".join(f"[{part}]" if isinstance(part, int) else f".{part}" for part in path)
    return parts.removeprefix(".")


class Template:
    """A text in which some keys take other values, as often as wanted."""

    def __init__(self, text: str, keys: tuple[str, ...], form: Form) -> None:
        self.form, self.document = form, document_of(text)
        self.paths = tuple(path_of(key, self.document, form) for key in keys)
        self.refuse_equal(keys)
        self.present = tuple(value_at(self.document, path) for path in self.paths)
        self.refuse_lists(keys)
        self.pieces, self.order = self.cut(text)
        self.checked: set[tuple[int, str]] = set()

    def refuse_equal(self, keys: tuple[str, ...]) -> None:
        for index, path in enumerate(self.paths):
            if path in self.paths[:index]:
                raise Refusal(f"the key {keys[index]} is varied twice")

    def refuse_lists(self, keys: tuple[str, ...]) -> None:
        for key, present in zip(keys, self.present, strict=True):
            if isinstance(present, (list, dict)):
                raise Refusal(f"{key} is a list or a table; only single values can be varied")

    def cut(self, text: str) -> tuple[list[str], list[int]]:
        """The pieces between the values, and which key's value follows each piece."""
        marks = marks_for(text, len(self.paths))
        for path, mark in zip(self.paths, marks, strict=True):
            text = replaced(text, path, mark)
        order = sorted(range(len(marks)), key=lambda index: text.index(marks[index]))
        pieces = []
        for index in order:
            piece, _, text = text.partition(marks[index])
            pieces.append(piece)
        return [*pieces, text], order

    def filled(self, values: tuple[str, ...]) -> str:
        """The text with these values, one for each key."""
        literals = [literal_of(value, present, self.form.times_are_text)
                    for value, present in zip(values, self.present, strict=True)]
        parts = [piece + literals[index] for piece, index in zip(self.pieces, self.order)]
        text = "".join([*parts, self.pieces[-1]])
        fresh = set(enumerate(values)) - self.checked
        if fresh:
            self.check(text, literals)
            self.checked |= fresh
        return text

    def check(self, text: str, literals: list[str]) -> None:
        """Refuses a text that differs from the first one in anything but these values."""
        got = document_of(text)
        for path, present, literal in zip(self.paths, self.present, literals, strict=True):
            table = value_at(got, path[:-1])
            if value_at(got, path) != tomllib.loads(f"value = {literal}")["value"]:
                raise Refusal(f"{shown(path)} could not be set to {literal}")
            put_back(table, path[-1], present)
        if got != self.document:
            raise Refusal("a change of the text would have changed another key too")


def put_back(table: object, key: str | int, present: object) -> None:
    """Gives a key the value that it had, or takes it away where it had none."""
    assert isinstance(table, dict)
    if present is None:
        del table[key]
    else:
        table[key] = present


def marks_for(text: str, count: int) -> list[str]:
    """Numbers of equal length that the text has nowhere."""
    start = 10**30
    while any(str(start + index) in text for index in range(count)):
        start += count
    return [str(start + index) for index in range(count)]
