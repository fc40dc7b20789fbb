#!/usr/bin/env python3
"""Checks the completions of tools/completion in bash and in zsh.

    tools/check_completion.py

Both files have to be read without an error. Behind `apsim` and `apsview`, behind each of their commands and reports, and
behind each option with fixed values both shells have to offer what the tables of docs/FORMATS.md have. Of every other
program they have to offer the options that its own --help names. Where a shell is missing its part is skipped and the
output says so.
"""
import os
import shutil
import subprocess
import sys
from collections.abc import Callable
from typing import Optional

sys.dont_write_bytecode = True
sys.path.insert(0, os.path.dirname(os.path.abspath(__file__)))
import formats

FOLDER = os.path.join(os.path.dirname(os.path.abspath(__file__)), "completion")
MOST_SECONDS = 60

# Each reads words from standard input, one line of words for each case, and prints the offers for the last one in one line.
BASH = r"""
source "$1/aps.bash"
while IFS=' ' read -r -a COMP_WORDS; do
    [ "${COMP_WORDS[-1]}" = @ ] && COMP_WORDS[-1]=""
    COMP_CWORD=$((${#COMP_WORDS[@]} - 1))
    COMPREPLY=()
    "_${COMP_WORDS[0]}" "${COMP_WORDS[0]}" "${COMP_WORDS[COMP_CWORD]}" "${COMP_WORDS[COMP_CWORD - 1]}"
    echo "${COMPREPLY[*]}"
done
"""
ZSH = r"""
autoload -Uz compinit && compinit -u -D
source "$1/aps.zsh"
# As the real one, it keeps what begins with the word at the cursor.
compadd() { shift ${argv[(i)-]}; print -rn -- "${(M)@:#${words[CURRENT]}*} " }
while read -r line; do
    words=(${(s: :)line})
    [[ $words[-1] = @ ]] && words[-1]=""
    CURRENT=$#words
    _bash_complete -F "_$words[1]"
    print
done
"""


def cases() -> dict[tuple[str, ...], list[str]]:
    """Words with the offers that are due for the last one. `@` is the word that isn't begun yet."""
    text = formats.text_of_formats()
    commands, reports = formats.commands(text), formats.reports(text)
    due: dict[tuple[str, ...], list[str]] = {
        ("apsim", "@"): list(commands), ("apsview", "@"): list(reports),
        ("apsim", "so"): ["solo"], ("apsview", "time"): ["timeline"], ("apsim", "solo", "--re"): ["--report"],
    }
    due |= {("apsim", command, "@"): options for command, options in commands.items()}
    due |= {("apsview", report, "@"): options for report, options in reports.items()}
    due |= {("apsim", "run", option, "@"): words for option, words in formats.values(text).items()}
    due |= {(program, "--"): list(formats.options_of(program)) for program in formats.other_programs()}
    return due


def parses(shell: str, names: tuple[str, ...]) -> list[str]:
    """What a shell says against its files."""
    answers = [subprocess.run([shell, "-n", os.path.join(FOLDER, name)], stderr=subprocess.PIPE, check=False) for name in names]
    return [answer.stderr.decode().strip() for answer in answers if answer.returncode or answer.stderr]


def offers(command: list[str], asked: list[tuple[str, ...]]) -> list[list[str]]:
    """What a shell offers for each list of words."""
    lines = "".join(" ".join(words) + "\n" for words in asked)
    answer = subprocess.run(command, input=lines.encode(), stdout=subprocess.PIPE, timeout=MOST_SECONDS, check=True)
    return [line.split() for line in answer.stdout.decode().split("\n")[:-1]]


def wrong_offers(shell: str, command: list[str]) -> list[str]:
    """A line for each list of words with other offers than those that are due."""
    due = cases()
    got = offers(command, list(due))
    if len(got) != len(due):
        return [f"{shell}: {len(got)} answers to {len(due)} questions"]
    return [f"{shell}: {' '.join(words)}: offers {sorted(some)}, due are {sorted(wanted)}"
            for (words, wanted), some in zip(due.items(), got) if sorted(some) != sorted(wanted)]


def checked(shell: str, names: tuple[str, ...], command: Callable[[str], list[str]]) -> Optional[list[str]]:
    """What is wrong in a shell, or None where it is missing."""
    path = shutil.which(shell)
    if path is None:
        print(f"skipped: {shell} is missing")
        return None
    wrong = parses(path, names)
    return wrong or wrong_offers(shell, command(path))


def main() -> int:
    wrong: list[str] = []
    shells = (
        ("bash", ("aps.bash",), lambda path: [path, "--norc", "-c", BASH, "bash", FOLDER]),
        ("zsh", ("aps.bash", "aps.zsh"), lambda path: [path, "-f", "-c", ZSH, "zsh", FOLDER]),
    )
    for shell, names, command in shells:
        found = checked(shell, names, command)
        if found is not None:
            print(f"{shell}: {len(cases())} completions, {len(found)} wrong")
            wrong += found
    print("\n".join(wrong), end="\n" if wrong else "")
    return 1 if wrong else 0


if __name__ == "__main__":
    sys.exit(main())
