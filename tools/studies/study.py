"""A study: all points of a table, or a search for the least value in each of its rows."""
import itertools
import math
from collections import deque
from collections.abc import Callable, Iterator
from typing import NamedTuple

from .edits import Template
from .least import Search
from .measures import NONE, Measure, Requirement
from .points import NOTHING, Answer
from .pools import Pool
from .values import Axis

Row = tuple[str, ...]
Values = tuple[str, ...]


class Plan(NamedTuple):
    """What is varied, measured and required."""

    template: Template
    axes: tuple[Axis, ...]
    measures: tuple[Measure, ...]
    requirements: tuple[Requirement, ...]

    @property
    def total(self) -> int:
        return math.prod(len(axis.values) for axis in self.axes)

    def points(self) -> Iterator[Values]:
        """All combinations; the last key changes fastest."""
        return itertools.product(*(axis.values for axis in self.axes))

    def meets(self, answer: Answer) -> bool:
        """Whether a run reached its horizon and all that is required of it."""
        values = dict(zip((measure.name for measure in self.measures), answer.values, strict=True))
        return answer.is_done and all(each.is_met(values[each.name]) for each in self.requirements)

    def head(self) -> Row:
        names = (*(axis.key for axis in self.axes), *(measure.name for measure in self.measures))
        return (*names, *(["meets"] if self.requirements else []), "state")

    def row(self, values: Values, answer: Answer) -> Row:
        meets = ["yes" if self.meets(answer) else "no"] if self.requirements else []
        return (*values, *answer.values, *meets, answer.state)


def run_table(plan: Plan, pool: Pool, add: Callable[[Values, Answer], None], step: Callable[[], None]) -> None:
    """Answers all points, and adds them to the table in their order."""
    points, values = enumerate(plan.points()), dict[int, Values]()
    answers: dict[int, Answer] = {}
    for due in range(plan.total):
        while due not in answers:
            for number, point in itertools.islice(points, pool.most - (len(values) - len(answers))):
                values[number] = point
                pool.submit(number, plan.template.filled(point))
            number, answer = pool.next()
            answers[number] = answer
            step()
        add(values.pop(due), answers.pop(due))


class Hunt:
    """The search in one row of the table."""

    def __init__(self, others: Values, search: Search) -> None:
        self.others, self.search = others, search
        self.answers: dict[int, Answer] = {}
        self.pending = 0

    @property
    def is_answered(self) -> bool:
        """Whether a value was found, and all that were tried have an answer."""
        return self.search.found is not None and not any(answer.is_error for answer in self.answers.values())


class Least:
    """Searches the least value of one key, for all combinations of the others."""

    def __init__(self, plan: Plan, key: str) -> None:
        self.plan = plan
        self.at = next(at for at, axis in enumerate(plan.axes) if axis.key == key)
        self.values = plan.axes[self.at].values
        self.others = tuple(axis for axis in plan.axes if axis.key != key)
        combinations = itertools.product(*(axis.values for axis in self.others))
        self.hunts = [Hunt(others, Search(len(self.values))) for others in combinations]

    def head(self) -> Row:
        names = (*(axis.key for axis in self.others), self.plan.axes[self.at].key)
        return (*names, *(measure.name for measure in self.plan.measures), "tried", "not_monotone", "state")

    def run(self, pool: Pool, add: Callable[[Row, bool], None], step: Callable[[], None]) -> None:
        """Makes all searches side by side, and adds their rows in order."""
        waiting = deque((hunt, index) for hunt in self.hunts for index in self.begun(hunt))
        numbers, under_way = itertools.count(), dict[int, tuple[Hunt, int]]()
        added = 0
        while waiting or under_way:
            while waiting and len(under_way) < pool.most:
                number = next(numbers)
                under_way[number] = hunt, index = waiting.popleft()
                pool.submit(number, self.text(hunt, index))
            number, answer = pool.next()
            hunt, index = under_way.pop(number)
            waiting.extendleft((hunt, each) for each in self.learnt(hunt, index, answer))
            step()
            while added < len(self.hunts) and not self.hunts[added].pending:
                add(self.row(self.hunts[added]), self.hunts[added].is_answered)
                added += 1

    def begun(self, hunt: Hunt) -> tuple[int, ...]:
        """The values that a search wants tried now."""
        wanted = hunt.search.wanted()
        hunt.pending = len(wanted)
        return wanted

    def learnt(self, hunt: Hunt, index: int, answer: Answer) -> tuple[int, ...]:
        """What the search wants next, once all that it wanted before is answered."""
        hunt.answers[index] = answer
        hunt.search.learn(index, self.plan.meets(answer))
        hunt.pending -= 1
        return () if hunt.pending else self.begun(hunt)

    def text(self, hunt: Hunt, index: int) -> str:
        values = [*hunt.others]
        values.insert(self.at, self.values[index])
        return self.plan.template.filled(tuple(values))

    def row(self, hunt: Hunt) -> Row:
        found = hunt.search.found
        value = NONE if found is None else self.values[found]
        measured = (NOTHING,) * len(self.plan.measures) if found is None else hunt.answers[found].values
        states = [hunt.answers[index].state for index in sorted(hunt.answers)]
        state = next((state for state in states if state != "done"), "done")
        return (*hunt.others, value, *measured, self.tried(hunt), self.falls(hunt), state)

    def tried(self, hunt: Hunt) -> str:
        """The tried values and whether they do: `20:no 30:yes`."""
        return " ".join(f"{self.values[index]}:{self.mark(hunt, index)}" for index in sorted(hunt.answers))

    def mark(self, hunt: Hunt, index: int) -> str:
        answer = hunt.answers[index]
        if answer.values and answer.values[0] == NOTHING:
            return answer.state.partition(" ")[0]
        return "yes" if hunt.search.met[index] else "no"

    def falls(self, hunt: Hunt) -> str:
        """Where a value does and a greater one doesn't: `30>35`."""
        falls = [f"{self.values[low]}>{self.values[high]}" for low, high in hunt.search.falls()]
        return " ".join(falls) or NOTHING
