"""A stand-in for the kit's command rt. The environment's STANDIN says how it behaves, and STANDIN_LOG names a file for its calls.

What it prints is what the kit prints in such a case.
"""
import os
import signal
import sys
import time

LONG = 60


def main(words: list[str]) -> int:
    with open(os.environ["STANDIN_LOG"], "a") as log:
        log.write(f"{' '.join(words)} in {os.getcwd()}\n")
    if words[0] == "version":
        print("another kit")
        return 0
    behaviour = os.environ.get("STANDIN", "")
    return tried(words, behaviour) if words[0] == "try" else gate(behaviour)


def wait_for_signal() -> None:
    """Waits as a long run does. A signal ends it, and is noted."""
    def note(number: int, _frame: object) -> None:
        with open(os.environ["STANDIN_LOG"], "a") as log:
            log.write(f"signal {number}\n")
        sys.exit(128 + number)

    signal.signal(signal.SIGTERM, note)
    with open(os.environ["STANDIN_LOG"], "a") as log:
        log.write("waits\n")
    time.sleep(LONG)


def tried(words: list[str], behaviour: str) -> int:
    given = sys.stdin.buffer.read()
    if behaviour == "waits":
        wait_for_signal()
    if behaviour == "killed":
        os.kill(os.getpid(), signal.SIGKILL)
    if behaviour in NO_ANSWERS:
        sys.stderr.write(NO_ANSWERS[behaviour][1])
        return NO_ANSWERS[behaviour][0]
    status = int(behaviour) if behaviour.isdigit() else 0
    print(f"quick {' '.join(words[words.index('--') + 1:])} {len(given)} bytes")
    sys.stderr.write("rt: a check will refuse this: a word\n" if behaviour == "noted" else "")
    sys.stderr.write("a hint: look at line 3\nchecked: a word of the program's own\n")
    sys.stderr.write("rt: standard input did not end, so ..\n" if behaviour == "cut" else "")
    sys.stderr.write(f"checked: ended status={status}\nraces: not looked for\n")
    sys.stderr.write(f"run=ended status={status} runners=1 races=unchecked proved=no\n")
    return status


NO_ANSWERS = {
    "too much": (6, "the end of the program's standard output:\n| 012\nchecked: no-answer: the program wrote more than 1048576 bytes to standard output or to standard error, the limit on each\nrun=no-answer proved=no\n"),
    "too long": (6, "checked: no-answer: the program did not end within the time limit\nrun=no-answer proved=no\n"),
    "fault": (4, "checked: fault kind=overflow in=apsim::main: the result of an operation does not fit its type\nrun=fault proved=no\n"),
    "refused": (1, "src/main.rt:3:1: error: a word is unknown\nrun=none proved=no\n"),
    "failed": (2, "run=none proved=no\n"),
}

PROGRAM = """#!/bin/sh
[ "$1" != ignored ] || exec grep SigIgn /proc/self/status
echo "proved $0 $*" | sed 's|proved .*/|proved |'
exit 3
"""


def gate(behaviour: str) -> int:
    with open("crates.txt") as file:
        names = [line.partition(":")[0] for line in file]
    for name in names:
        os.makedirs(f"crates/{name}/out/rlib", exist_ok=True)
        if behaviour == "waits":
            wait_for_signal()
        if behaviour == "slow":
            time.sleep(0.3)
        if behaviour == "not proved" and name == "upper":
            print("== upper\nsrc/lib.rt:1:1: error: it isn't so\nrt: upper NOT PROVED\nFAILED: upper\n4 passed, 1 failed")
            return 1
        print(f"== {name}\nlogic=proved\nrt: {name} proved", flush=True)
        if os.path.isfile(f"crates/{name}/src/main.rt"):
            with open(f"crates/{name}/out/{name}", "w") as file:
                file.write(PROGRAM)
    print(f"rt: ok\n{len(names)} passed, 0 failed", flush=True)
    return 0


if __name__ == "__main__":
    sys.exit(main(sys.argv[1:]))
