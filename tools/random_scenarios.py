"""Random scenarios for trials of threads: every operation, all policies, commands, on so many processors.

They are texts only: what a run of one gives is up to whoever runs it. The same seed gives the same text.
"""
from random import Random

PRIORITIES = [8, 10, 12, 15, 20, 30]
SHORT = [1, 400, 100_000, 400_000, 1_000_000, 2_500_000]
CRITICAL_BUDGETS = [0, 0, 0, 500_000, 2_000_000, 8_000_000]


def inline_table(values: dict[str, object]) -> str:
    """A table of TOML in one line."""
    return "{" + ", ".join(f"{key} = {value}" for key, value in values.items()) + "}"


def quoted(word: str) -> str:
    """A text of TOML. The words here need no escapes."""
    return f'"{word}"'


def array(key: str, rows: list[str]) -> str:
    """An array of TOML with a line for each of its rows."""
    return f"{key} = [\n" + "".join(f"  {row},\n" for row in rows) + "]\n"


def partition_rows(chance: Random) -> list[str]:
    """Some partitions below System, which keeps a part of the time."""
    left = 100
    rows = []
    for number in range(1, chance.randint(0, 6) + 1):
        budget = chance.randint(0, left // 2)
        left -= budget
        row = {"name": quoted(f"P{number}"), "budget": budget}
        critical = chance.choice(CRITICAL_BUDGETS)
        if critical:
            row["critical"] = critical
        rows.append(inline_table(row))
    return rows


def operation(chance: Random, channels: int, partitions: int) -> str:
    """An operation that may have others behind it."""
    kinds = ["run", "run", "sleep", "yield", "join", "priority", "critical"]
    if channels:
        kinds += ["send", "receive", "reply", "reply"]
    kind = chance.choice(kinds)
    if kind in ("run", "sleep"):
        return f"{kind} {chance.choice(SHORT)}"
    if kind == "join":
        return f"join P{chance.randint(1, partitions)}" if partitions else "join System"
    if kind == "priority":
        return f"priority {chance.choice(PRIORITIES)}"
    if kind == "critical":
        return chance.choice(["critical on", "critical off"])
    return f"{kind} c{chance.randrange(channels)}" if kind in ("send", "receive") else kind


def program(chance: Random, channels: int, partitions: int) -> str:
    """A program of up to seven operations."""
    operations = [operation(chance, channels, partitions) for _ in range(chance.randint(0, 6))]
    operations.append(chance.choice(["run forever", "repeat", "repeat", "exit"]))
    return "[" + ", ".join(quoted(text) for text in operations) + "]"


def thread_rows(chance: Random, cpus: int, channels: int, partitions: int) -> list[str]:
    """Up to three threads a processor."""
    rows = []
    for number in range(chance.randint(1, 3 * cpus)):
        row: dict[str, object] = {"name": quoted(f"t{number}")}
        if partitions and chance.random() < 0.7:
            row["partition"] = quoted(f"P{chance.randint(1, partitions)}")
        row["priority"] = chance.choice(PRIORITIES)
        row["policy"] = quoted(chance.choice(["fifo", "rr"]))
        if chance.random() < 0.2:
            row["critical"] = "true"
        row["program"] = program(chance, channels, partitions)
        rows.append(inline_table(row))
    return rows


def command_rows(chance: Random, ticks: int, threads: int, partitions: int) -> list[str]:
    """Some timed commands."""
    rows = []
    for _ in range(chance.choice([0, 0, 1, 3])):
        row: dict[str, object] = {"tick": chance.randrange(ticks)}
        kind = chance.choice(["mark_critical", "clear_critical", "modify", "set_parameters"])
        if kind == "modify" and partitions:
            row |= {"do": quoted(kind), "partition": quoted(f"P{chance.randint(1, partitions)}")}
            row["budget"] = chance.randint(0, 60)
        elif kind in ("mark_critical", "clear_critical"):
            row |= {"do": quoted(kind), "thread": quoted(f"t{chance.randrange(threads)}")}
        else:
            row |= {"do": quoted("set_parameters"), "window": chance.randint(8, 30)}
        rows.append(inline_table(row))
    return rows


def scenario(seed: int) -> str:
    """A scenario of 2 to 16 processors and up to 60 ticks."""
    chance = Random(seed)
    cpus, ticks = chance.randint(2, 16), chance.randint(5, 60)
    partitions = partition_rows(chance)
    channels = chance.randint(0, 3)
    threads = thread_rows(chance, cpus, channels, len(partitions))
    commands = command_rows(chance, ticks, len(threads), len(partitions))
    head = {
        "version": 1,
        "cpus": cpus,
        "window": chance.randint(8, 40),
        "ticks": ticks,
        "free": quoted(chance.choice(["priority", "ratio"])),
        "limit": chance.choice(["false", "true"]),
        "bankruptcy": quoted(chance.choice(["basic", "cancel", "reboot"])),
    }
    return (
        "".join(f"{key} = {value}\n" for key, value in head.items())
        + array("partition", partitions)
        + array("channel", [inline_table({"name": quoted(f"c{number}")}) for number in range(channels)])
        + array("thread", threads)
        + array("command", commands)
    )
