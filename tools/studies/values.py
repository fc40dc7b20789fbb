"""The values that a key takes in a study: `10,20,50`, `20..40:5`, `1ms..5ms:500us`."""
import re
from decimal import Decimal
from typing import NamedTuple

from .refusal import Refusal

MOST_VALUES = 1_000_000
NANOSECONDS = {"ns": 1, "us": 1_000, "ms": 1_000_000, "s": 1_000_000_000}
AMOUNT = re.compile(r"(-?\d+(?:\.\d+)?)([A-Za-z%]*)")
TRUTHS = {"true": True, "false": False}


class Amount(NamedTuple):
    """A number and its unit: a time in ns, or a number with another unit or none."""

    size: Decimal
    unit: str


class Axis(NamedTuple):
    """A varied key and its values."""

    key: str
    values: tuple[str, ...]


def amount_of(text: str) -> Amount | None:
    """The amount that a text says; none for a word."""
    found = AMOUNT.fullmatch(text)
    if found is None:
        return None
    size, unit = Decimal(found[1]), found[2]
    return Amount(size * NANOSECONDS[unit], "ns") if unit in NANOSECONDS else Amount(size, unit)


def whole_of(text: str) -> int | None:
    """The whole number that a text says, times in ns; none for any other text."""
    amount = amount_of(text)
    if amount is None or amount.unit not in ("", "ns") or amount.size != amount.size.to_integral_value():
        return None
    return int(amount.size)


def values_of(text: str) -> tuple[str, ...]:
    """All values of a list, in its order."""
    values = tuple(value for piece in text.split(",") for value in piece_values(piece.strip(), text))
    if len(set(values)) != len(values):
        raise Refusal(f"a value is twice in {text}")
    return values


def piece_values(piece: str, whole: str) -> tuple[str, ...]:
    """The values of one piece of a list: a single one, or a range."""
    if not piece:
        raise Refusal(f"an empty value in {whole!r}")
    if ".." not in piece:
        return (piece,)
    bounds, colon, step = piece.partition(":")
    low, _, high = bounds.partition("..")
    if not colon:
        raise Refusal(f"the range {piece} has no step; wanted is {piece}:STEP")
    return range_values(low, high, step, piece)


def range_values(low: str, high: str, step: str, piece: str) -> tuple[str, ...]:
    """From low to at most high, step by step, each in the unit of low."""
    amounts = [amount_of(text) for text in (low, high, step)]
    if None in amounts:
        raise Refusal(f"the range {piece} is no LOW..HIGH:STEP of numbers")
    first, last, by = (amount for amount in amounts if amount is not None)
    if not first.unit == last.unit == by.unit:
        raise Refusal(f"the range {piece} has different units")
    if by.size <= 0 or first.size > last.size:
        raise Refusal(f"the range {piece} has no values")
    count = int((last.size - first.size) // by.size) + 1
    if count > MOST_VALUES:
        raise Refusal(f"the range {piece} has {count} values, more than {MOST_VALUES}")
    return tuple(shown(first.size + index * by.size, unit_of(low)) for index in range(count))


def unit_of(text: str) -> str:
    found = AMOUNT.fullmatch(text)
    return found[2] if found else ""


def shown(size: Decimal, unit: str) -> str:
    """An amount as text in a unit, without needless zeros."""
    number = size / NANOSECONDS[unit] if unit in NANOSECONDS else size
    text = format(number, "f")
    return (text.rstrip("0").rstrip(".") if "." in text else text) + unit


def rising(values: tuple[str, ...], key: str) -> tuple[str, ...]:
    """The values from the least to the greatest."""
    amounts = {value: amount_of(value) for value in values}
    units = {amount.unit if amount else None for amount in amounts.values()}
    if None in units or len(units) != 1:
        raise Refusal(f"the values of {key} are no numbers of one unit, so there is no least one")
    return tuple(sorted(values, key=lambda value: amounts[value].size))


def literal_of(value: str, present: object, times_are_text: bool) -> str:
    """A value as TOML, of the kind of the value that is there; `present` is None where there is none."""
    if isinstance(present, str):
        return quoted(value)
    if value in TRUTHS:
        return value
    if re.fullmatch(r"-?(0|[1-9]\d*)", value):
        return value
    whole = None if times_are_text else whole_of(value)
    return quoted(value) if whole is None else str(whole)


def quoted(text: str) -> str:
    """A text as a basic string of TOML."""
    return '"' + "".join(escaped(letter) for letter in text) + '"'


def escaped(letter: str) -> str:
    if letter in "\"\\":
        return "\\" + letter
    return letter if letter.isprintable() else f"\\U{ord(letter):08x}"
