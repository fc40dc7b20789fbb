"""The checkout: its programs, its crates, and where a proved program lies."""
import os

ROOT = os.path.dirname(os.path.dirname(os.path.dirname(os.path.abspath(__file__))))

# The programs that have a launcher at the top. A further one is a crate of crates.txt, a launcher, and a word here.
PROGRAMS = ("apsim", "apsview")


def program_path(root: str, program: str) -> str:
    """Where the proved program lies. The gate empties the crates' own folders out/, so it is none of these."""
    return f"{root}/out/{program}"


def crate_lines(root: str) -> dict[str, str]:
    """Each crate's line of crates.txt, by its name."""
    lines = {}
    with open(f"{root}/crates.txt", encoding="utf-8") as file:
        for line in file:
            text = line.partition("#")[0].strip()
            if text:
                lines[text.partition(":")[0].split()[0]] = text
    return lines


def used_by(line: str) -> list[str]:
    """The crates and the kit's libraries that a line of crates.txt names behind its colon."""
    return line.partition(":")[2].replace(",", " ").split()


def crates_of(programs: tuple[str, ...], lines: dict[str, str]) -> list[str]:
    """The crates that these programs are made of, each behind those that it uses."""
    found: dict[str, None] = {}

    def add(name: str) -> None:
        if name not in found and name in lines:
            for used in used_by(lines[name]):
                add(used)
            found[name] = None

    for program in programs:
        if program not in lines:
            raise ValueError(f"crates.txt names no crate {program}")
        add(program)
    return list(found)
