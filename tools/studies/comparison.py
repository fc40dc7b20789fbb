"""What got worse between two runs, and by how much."""
from collections.abc import Iterable
from decimal import Decimal
from typing import NamedTuple

from .figures import Figure, Figures, Value, Worse
from .refusal import Refusal
from .values import amount_of

VERDICTS = ("worse", "within", "better", "other")
GROUPS = ("run", "partition", "thread", "cycle", "job")


class Tolerance(NamedTuple):
    """How much worse a figure may get: a part of what it was, and a length for times."""

    percent: Decimal = Decimal(0)
    nanoseconds: int = 0

    def of(self, figure: Figure, before: int) -> Decimal:
        part = before * self.percent / 100
        return max(part, Decimal(self.nanoseconds)) if figure.is_time else part


class Difference(NamedTuple):
    """A figure that isn't the same in both runs."""

    verdict: str
    figure: Figure
    before: Value
    after: Value


def tolerance_of(text: str) -> Tolerance:
    """A tolerance such as `5%`, `100us`, or `5%,100us`, the greater of both."""
    percent, nanoseconds = Decimal(0), 0
    for piece in text.split(","):
        amount = amount_of(piece.strip())
        if amount is None or amount.size < 0 or amount.unit not in ("%", "ns"):
            raise Refusal(f"--tolerance {text!r}: wanted is 5%, 100us, or 5%,100us")
        if amount.unit == "%":
            percent = amount.size
        else:
            nanoseconds = int(amount.size)
    return Tolerance(percent, nanoseconds)


def differences(before: Figures, after: Figures, tolerance: Tolerance) -> list[Difference]:
    """All figures that differ: what got worse first, then by group and owner."""
    owners = common_owners(before, after)
    found = [difference(figure, before.get(figure, missing(figure)), after.get(figure, missing(figure)), tolerance)
             for figure in dict.fromkeys([*before, *after]) if owner_of(figure) in owners]
    different = [each for each in found if each.before != each.after]
    return sorted(different, key=lambda each: place_of(each, owners))


def place_of(each: Difference, owners: dict[tuple[str, str], int]) -> tuple[int, int, int]:
    return VERDICTS.index(each.verdict), GROUPS.index(each.figure.of), owners[owner_of(each.figure)]


def common_owners(before: Iterable[Figure], after: Iterable[Figure]) -> dict[tuple[str, str], int]:
    """The partitions and threads that both runs have, numbered in order."""
    old, new = (dict.fromkeys(owner_of(figure) for figure in figures) for figures in (before, after))
    return {owner: number for number, owner in enumerate(owner for owner in old if owner in new)}


def owner_of(figure: Figure) -> tuple[str, str]:
    """Whose figure it is: cycles and jobs are a thread's."""
    return "thread" if figure.of in ("cycle", "job") else figure.of, figure.name


def missing(figure: Figure) -> Value:
    """What a figure is where its report hasn't its line: there were none to count."""
    return 0 if figure.what.endswith("count") else None


def difference(figure: Figure, before: Value, after: Value, tolerance: Tolerance) -> Difference:
    return Difference(verdict(figure, before, after, tolerance), figure, before, after)


def verdict(figure: Figure, before: Value, after: Value, tolerance: Tolerance) -> str:
    """`worse`, `within` the tolerance, `better`, or `other` where it is neither."""
    if before is None or after is None or figure.worse is Worse.NEITHER:
        return "other"
    growth = after - before if figure.worse is Worse.MORE else before - after
    if growth <= 0:
        return "better"
    return "worse" if growth > tolerance.of(figure, before) else "within"
