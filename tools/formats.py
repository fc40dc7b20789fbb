"""The words of the programs, as the tables of docs/FORMATS.md have them, or the programs' own usage. For the checks of
man pages and completions."""
import functools
import os
import re
import subprocess

ROOT = os.path.dirname(os.path.dirname(os.path.abspath(__file__)))
FORMATS = os.path.join(ROOT, "docs", "FORMATS.md")
CODE = re.compile(r"`([^`]+)`")
OPTION = re.compile(r"(?<![\w-])--[a-z][a-z-]*[a-z]")
IN_FORMATS = ("apsim", "apsview")
MOST_SECONDS = 60


def text_of_formats() -> str:
    with open(FORMATS, encoding="utf-8") as file:
        return file.read()


def rows_of(text: str, section: str, head: str) -> list[list[str]]:
    """The rows of a section's table that begins with this head, each a list of its cells."""
    part = re.split(rf"^## {re.escape(section)}$", text, flags=re.M)[1]
    part = re.split(r"^## ", part, flags=re.M)[0]
    lines = part.split("\n")
    begin = lines.index(next(line for line in lines if line.startswith(f"| {head} |")))
    rows = []
    for line in lines[begin + 2:]:
        if not line.startswith("|"):
            break
        rows.append([cell.strip() for cell in line.strip("|").split("|")])
    return rows


def codes(cell: str) -> list[str]:
    """What stands in code in a cell."""
    return CODE.findall(cell)


def option_of(code: str) -> str:
    """`--report` of `--report R`."""
    return code.split()[0]


def commands(text: str) -> dict[str, list[str]]:
    """The commands of apsim, each with its options."""
    options: dict[str, list[str]] = {codes(row[0])[0]: [] for row in rows_of(text, "Command line", "words")}
    for row in rows_of(text, "Command line", "option"):
        for command in codes(row[1]):
            options[command].append(option_of(codes(row[0])[0]))
    return options


def values(text: str) -> dict[str, list[str]]:
    """The options of apsim whose values are words, each with these words."""
    rows = rows_of(text, "Command line", "option")
    return {option_of(codes(row[0])[0]): codes(row[2]) for row in rows if row[2].startswith("`")}


def reports(text: str) -> dict[str, list[str]]:
    """The reports of apsview, each with its options. --limit may stand with each."""
    return {name: [option_of(code) for code in codes(row[2]) if code.startswith("--")] + ["--limit"]
            for row in rows_of(text, "Views", "report") for name in codes(row[0])}


def programs() -> list[str]:
    """The programs at the top of the repository."""
    names = sorted(os.listdir(ROOT))
    return [name for name in names if os.path.isfile(os.path.join(ROOT, name)) and os.access(os.path.join(ROOT, name), os.X_OK)]


def other_programs() -> list[str]:
    """The programs whose words no table of FORMATS has."""
    return [name for name in programs() if name not in IN_FORMATS]


@functools.cache
def options_of(program: str) -> tuple[str, ...]:
    """The options that one of the other programs names when it is asked for help, and --help."""
    answer = subprocess.run([os.path.join(ROOT, program), "--help"], stdout=subprocess.PIPE, stderr=subprocess.DEVNULL,
                            timeout=MOST_SECONDS, check=True)
    return tuple(sorted({*OPTION.findall(answer.stdout.decode()), "--help"}))
