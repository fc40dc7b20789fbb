"""Behind the launchers at the top: runs the proved program where it is fresh, else the kit's quick run.

    tools/launch/python start PROGRAM WORDS..

Words, standard input, standard output and the exit status are the program's own. No launcher builds anything. Status 125 means
that there is no answer; standard error then says why, and what to do.
"""
import _signal
import os
import sys

import checkout
import freshness

NO_ANSWER = 125


def main(words: list[str]) -> int:
    program, given = words[0], words[1:]
    take_input_back()
    try:
        stale = freshness.why_stale(checkout.ROOT, program)
    except (OSError, ValueError) as error:
        print(f"{program}: this checkout can't be read: {error}", file=sys.stderr)
        return NO_ANSWER
    if stale is None:
        return become(checkout.program_path(checkout.ROOT, program), given)
    import quick

    return quick.answer(checkout.ROOT, program, given, stale)


def take_input_back() -> None:
    """Makes file 3 standard input again, where tools/launch/python had to put that aside."""
    if os.environ.pop("LAUNCH_INPUT", "") == "3":
        os.dup2(3, 0)
        os.close(3)


def become(path: str, words: list[str]) -> int:
    """Runs a program in place of this one. It returns only where that fails."""
    # Python ignores these signals, and the program would inherit that. (To import signal takes longer than all else here.)
    for number in (_signal.SIGPIPE, _signal.SIGXFSZ):
        _signal.signal(number, _signal.SIG_DFL)
    try:
        os.execv(path, [path, *words])
    except OSError as error:
        print(f"{os.path.basename(path)}: the proved program doesn't start: {error}", file=sys.stderr)
        return NO_ANSWER
