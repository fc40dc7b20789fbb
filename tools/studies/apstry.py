"""The program `apstry`."""
import sys

from .edits import SHORT_FORM, Template
from .points import Task
from .pools import LocalPool, Pool, most_under_way
from .programs import programs_of, quick_programs_of
from .progress import Progress
from .refusal import guarded
from .study import Least, Plan, run_table
from .table import Table
from .texts import text_of, write_text
from .try_words import Given, given_of

MOST_REMOTE = 512


def main(words: list[str]) -> int:
    """Does what the words ask for, and returns the exit status."""
    return guarded("apstry", lambda: study(given_of(words), words))


def study(given: Given, words: list[str]) -> int:
    text = text_of(given.scenario)
    template = Template(text, tuple(axis.key for axis in given.axes), given.form)
    plan = Plan(template, given.axes, given.measures, given.requirements)
    if given.prints_commands:
        print_commands(plan, words, given.has_head)
        return 0
    pool = pool_of(given, text)
    progress = Progress(plan.total if given.least is None else None)
    try:
        return run(given, plan, pool, progress)
    finally:
        progress.clear()
        pool.close()


def pool_of(given: Given, text: str) -> Pool:
    task = Task(given.measures, given.seconds, given.form is SHORT_FORM)
    programs = quick_programs_of(task.names) if given.is_quick else programs_of(task.names)
    if given.address is None:
        return LocalPool(task, programs, given.jobs)
    from .remote import RemotePool

    return RemotePool(given.address, task, programs, most_under_way(text, MOST_REMOTE))


def run(given: Given, plan: Plan, pool: Pool, progress: Progress) -> int:
    table = Table(plan, progress, given.heat is not None)
    least = None if given.least is None else Least(plan, given.least)
    if given.has_head:
        table.write(least.head() if least else plan.head())
    if least:
        least.run(pool, table.add_least, progress.step)
    else:
        run_table(plan, pool, table.add, progress.step)
    if given.heat is not None:
        draw(given.heat, plan, table)
    return 1 if table.errors else 0


def draw(path: str, plan: Plan, table: Table) -> None:
    from .heat import picture

    down, across = plan.axes
    text = picture(plan.measures[0].name, down, across, table.fields)
    write_text(path, text)


def print_commands(plan: Plan, words: list[str], has_head: bool) -> None:
    """A command for each point. Together they print the table, in this order."""
    import shlex

    kept = without_vary(words)
    for number, values in enumerate(plan.points()):
        fixed = [word for axis, value in zip(plan.axes, values, strict=True) for word in ("--vary", f"{axis.key}={value}")]
        head = [] if has_head and number == 0 else ["--no-head"]
        print(shlex.join([sys.argv[0], *kept, *fixed, *head]))


def without_vary(words: list[str]) -> list[str]:
    """The words that all points share."""
    kept, rest = [], iter(words)
    for word in rest:
        if word == "--vary":
            next(rest)
        elif word not in ("--commands", "--no-head") and not word.startswith("--vary="):
            kept.append(word)
    return kept
