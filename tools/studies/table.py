"""The table on standard output, row by row."""
import sys
from typing import NamedTuple

from .measures import NONE
from .points import NOTHING, Answer
from .progress import Progress
from .study import Plan, Row, Values


class Field(NamedTuple):
    """One point of the picture."""

    value: str
    state: str
    is_met: bool | None

    @property
    def number(self) -> int | None:
        return None if self.value in (NONE, NOTHING) else int(self.value)


class Table:
    """Writes rows, and keeps what the exit status and the picture need."""

    def __init__(self, plan: Plan, progress: Progress, keeps_fields: bool) -> None:
        self.plan, self.progress, self.keeps_fields = plan, progress, keeps_fields
        self.fields: list[Field] = []
        self.errors = 0

    def write(self, row: Row) -> None:
        self.progress.clear()
        sys.stdout.write("\t".join(row) + "\n")
        sys.stdout.flush()

    def add(self, values: Values, answer: Answer) -> None:
        self.errors += answer.is_error
        is_met = self.plan.meets(answer) if self.plan.requirements else None
        if self.keeps_fields:
            self.fields.append(Field(answer.values[0], answer.state, is_met))
        self.write(self.plan.row(values, answer))

    def add_least(self, row: Row, is_answered: bool) -> None:
        self.errors += not is_answered
        self.write(row)
