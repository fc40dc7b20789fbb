"""Which keys of two TOML texts differ. Tables with a name are compared by it."""
from collections.abc import Iterator

ABSENT = "-"

Flat = dict[tuple[str, str], object]
Change = tuple[str, str, str, str]


def changes(before: dict[str, object], after: dict[str, object]) -> list[Change]:
    """Owner, key, and the two values of each key that differs, in the order of the texts."""
    old, new = dict(flat(before)), dict(flat(after))
    found = []
    for place in dict.fromkeys([*old, *new]):
        texts = text_of(old, place), text_of(new, place)
        if texts[0] != texts[1]:
            found.append((*place, *texts))
    return found


def text_of(values: Flat, place: tuple[str, str]) -> str:
    """A value as TOML would have it."""
    if place not in values:
        return ABSENT
    value = values[place]
    if isinstance(value, bool):
        return str(value).lower()
    return " ".join(value.split()) if isinstance(value, str) else str(value)


def flat(document: dict[str, object]) -> Iterator[tuple[tuple[str, str], object]]:
    """Each single value with its owner and its key; `-` is the owner of the keys of the top table."""
    for key, value in document.items():
        if is_tables(value):
            for index, row in enumerate(value):
                yield from row_values(f"{key}:{row.get('name', index)}", row)
        else:
            yield from inner("-", key, value)


def row_values(owner: str, row: dict[str, object]) -> Iterator[tuple[tuple[str, str], object]]:
    for key, value in row.items():
        yield from inner(owner, key, value)


def inner(owner: str, key: str, value: object) -> Iterator[tuple[tuple[str, str], object]]:
    """The values of a list one by one, other values as they are."""
    if isinstance(value, list):
        for index, each in enumerate(value):
            yield from inner(owner, f"{key}[{index}]", each)
    elif isinstance(value, dict):
        for name, each in value.items():
            yield from inner(owner, f"{key}.{name}", each)
    else:
        yield (owner, key), value


def is_tables(value: object) -> bool:
    return isinstance(value, list) and bool(value) and all(isinstance(each, dict) for each in value)
