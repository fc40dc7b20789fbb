"""One point of a study: a scenario is run, and its reports are measured."""
from typing import NamedTuple

from .children import Children, Hung, Output, TooLong
from .measures import Call, Measure, Missing, value_of
from .programs import Program, Programs
from .refusal import Refusal, WordsRefused

DONE, REFUSED, WORDS_REFUSED = 0, 2, 1
STATES = {DONE: "done", 3: "reboot", 6: "limit"}
NOTHING = "-"
EXPAND = Call("apstasks", ())


class Task(NamedTuple):
    """What is done at every point."""

    measures: tuple[Measure, ...]
    seconds: float
    is_short_form: bool = False

    @property
    def names(self) -> set[str]:
        """The programs that are needed."""
        return {measure.call.program for measure in self.measures} | ({EXPAND.program} if self.is_short_form else set())


class Answer(NamedTuple):
    """How the runs of a point ended, and the measured values: `done`, `reboot`, `limit`, `refused ..`, `error ..`."""

    state: str
    values: tuple[str, ...]

    @property
    def is_done(self) -> bool:
        return self.state == STATES[DONE]

    @property
    def is_error(self) -> bool:
        return self.state.startswith("error ")


class Unanswered(Exception):
    """A point has no values; the text is its state. The hint is what the program wrote for a person."""

    def __init__(self, state: str, hint: bytes = b"") -> None:
        super().__init__(state)
        self.hint = hint.decode(errors="replace").strip()

    @property
    def message(self) -> str:
        return f"{self}\n{self.hint}" if self.hint else str(self)


def answer(text: str, task: Task, programs: Programs, children: Children) -> Answer:
    """The answer of one point."""
    try:
        scenario = expanded(text, task, programs, children)
        return measured(outputs_of(scenario, task, programs, children), task)
    except Unanswered as reason:
        return Answer(str(reason), (NOTHING,) * len(task.measures))


def expanded(text: str, task: Task, programs: Programs, children: Children) -> bytes:
    """The scenario of a short form; a scenario is returned as it is."""
    data = text.encode()
    return output_of(EXPAND, data, task, programs, children).text if task.is_short_form else data


def outputs_of(scenario: bytes, task: Task, programs: Programs, children: Children) -> dict[Call, Output]:
    """The output of each call, once for all measures that need it."""
    calls = dict.fromkeys(measure.call for measure in task.measures)
    return {call: output_of(call, scenario, task, programs, children) for call in calls}


def output_of(call: Call, data: bytes, task: Task, programs: Programs, children: Children) -> Output:
    """The output of a call that has made a report."""
    program = programs[call.program]
    output = run(program, call, data, task.seconds, children)
    if output.status == WORDS_REFUSED:
        raise words_refused(call, output)
    if output.status == REFUSED:
        raise Unanswered("refused " + first_line(output.text).rpartition("refused: ")[2], output.hint)
    if output.status not in STATES:
        raise Unanswered(f"error {call.program} ended with {ending(output.status)}: {first_line(output.text or output.hint)}")
    return output


def run(program: Program, call: Call, data: bytes, seconds: float, children: Children) -> Output:
    try:
        return children.run([program.path, *call.words], data, seconds, dict(program.environment) or None)
    except Hung:
        raise Unanswered(f"error {call.program} was killed after {seconds:g} s") from None
    except TooLong:
        raise Unanswered(f"error {call.program} was killed: its report is too long") from None
    except OSError as error:
        raise Refusal(f"{program.path} can't be started: {error.strerror}") from None


def words_refused(call: Call, output: Output) -> WordsRefused:
    hint = output.hint.decode(errors="replace").strip()
    return WordsRefused(f"{call.program} refuses the words {' '.join(call.words)!r}" + (f"\n{hint}" if hint else ""))


def ending(status: int) -> str:
    return f"status {status}" if status >= 0 else f"signal {-status}"


def first_line(text: bytes) -> str:
    """The first line, as one field of a table."""
    return " ".join(text.decode(errors="replace").partition("\n")[0].split())


def measured(outputs: dict[Call, Output], task: Task) -> Answer:
    """The values of all measures; the state names the first that its report lacks."""
    texts = {call: output.text.decode(errors="replace") for call, output in outputs.items()}
    values, state = [], state_of(outputs)
    for measure in task.measures:
        try:
            values.append(value_of(texts[measure.call], measure))
        except Missing as reason:
            values.append(NOTHING)
            state = state if state.startswith("error ") else f"error {reason}"
    return Answer(state, tuple(values))


def state_of(outputs: dict[Call, Output]) -> str:
    """How the runs ended: the first state that isn't `done`."""
    return next((STATES[output.status] for output in outputs.values() if output.status != DONE), STATES[DONE])
