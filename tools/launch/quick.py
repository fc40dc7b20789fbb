"""The quick run: the kit compiles a program without any proof, runs it once and keeps nothing.

The kit's own words stay away from the user. Where the program ended, what it wrote and its status are handed on whole. In every
other case nothing is written to standard output, the status is 125, and standard error says why and what to do.
"""
import contextlib
import os
import select
import signal
import subprocess
import sys
import tempfile
from typing import BinaryIO

import checkout
import kit
import need
import room
from said import NoAnswer, Outcome, outcome_of
from signals import Signalled, raise_signals

NO_ANSWER = 125
# The kit's own limit is 60 seconds. Many scenarios that are worth a wait take longer.
SECONDS = 600
# The kit hands no more to a program.
INPUT_LIMIT = 64 << 20
PIECE = 1 << 20
SILENT_SECONDS = 2


def answer(root: str, program: str, words: list[str], stale: str) -> int:
    """Answers by the quick run, and returns the exit status."""
    tell(program, f"nothing of this answer is proved, as {stale}; a quick run gives it, in {need.QUICK}")
    tell(program, f"./prove builds the proved programs: {need.PROVING}; {need.PROVING_DISK_MB / 1000:.0f} GB of disk")
    signal.signal(signal.SIGPIPE, signal.SIG_DFL)
    raise_signals()
    try:
        outcome = run(root, program, words)
        write_whole(1, outcome.output)
        write_whole(2, outcome.errors)
        return outcome.status
    except NoAnswer as why:
        tell(program, str(why))
        return NO_ANSWER
    except OSError as error:
        tell(program, f"no answer: {error}")
        return NO_ANSWER
    except Signalled as signalled:
        return signalled.status


def tell(program: str, text: str) -> None:
    print(f"{program}: {text}", file=sys.stderr, flush=True)


def write_whole(file: int, text: bytes) -> None:
    while text:
        text = text[os.write(file, text):]


def run(root: str, program: str, words: list[str]) -> Outcome:
    rt = kit.command()
    if rt is None:
        raise NoAnswer("no answer: a quick run needs the Rattle kit, and its command rt isn't on the PATH")
    with given_input(program) as given, contextlib.ExitStack() as stack:
        folder = stack.enter_context(sources(root, program))
        return try_program(rt, f"{folder}/crates/{program}", words, given)


@contextlib.contextmanager
def sources(root: str, program: str):
    """A room with the sources alone: a quick run reads no specs and no proofs."""
    names = checkout.crates_of((program,), checkout.crate_lines(root))
    with contextlib.ExitStack() as stack:
        try:
            folder = stack.enter_context(room.room_of(root, names, ("src",)))
        except OSError as error:
            why = f"a quick run takes {need.QUICK_DISK_MB} MB among the temporary files, and there {error}"
            raise NoAnswer(f"no answer: {why}. TMPDIR names another place") from None
        yield folder


def given_input(program: str) -> BinaryIO:
    """All of standard input as a file. The kit would take a pipe that is silent for two seconds for one that has ended."""
    given = os.fdopen(os.memfd_create("input"), "w+b")
    if os.isatty(0):
        tell(program, "standard input is a terminal, so the program reads nothing")
        return given
    if not select.select([0], [], [], SILENT_SECONDS)[0]:
        tell(program, "waiting for standard input to end")
    size = 0
    while piece := os.read(0, PIECE):
        size += len(piece)
        if size >= INPUT_LIMIT:
            raise NoAnswer("no answer: a quick run takes less than 64 MiB of input; ./prove builds the program that takes more")
        given.write(piece)
    given.seek(0)
    return given


def try_program(rt: str, crate: str, words: list[str], given: BinaryIO) -> Outcome:
    """Has the kit try the program. In a session of its own, so that a signal reaches the kit through this launcher alone."""
    command = [rt, "try", "--seconds", str(SECONDS), "--", *words]
    how = {"stdin": given, "stdout": subprocess.PIPE, "stderr": subprocess.PIPE, "start_new_session": True}
    tried = subprocess.Popen(command, cwd=crate, **how)
    try:
        output, errors = tried.communicate()
    finally:
        if tried.poll() is None:
            tried.terminate()
            tried.wait()
    return outcome_of(tried.returncode, output, errors, SECONDS)
