#!/usr/bin/python3 -SE
"""A stand-in for the programs, which makes up reports of a text. The key `stand_in` asks for what goes wrong.

With B the budget of the partition Ctl and W the window: `late` is 30 - B, at least 0; `idle` is W.
"""
import os
import sys
import time

KNOWN = ("solo", "latency", "shares", "cycles", "responses")
STATUSES = {"reboot": 3, "limit": 6, "no_memory": 7}


def value_of(text: str, key: str, default: str) -> str:
    """The value of a key, as far as this stand-in has to know."""
    _, found, behind = text.partition(f"{key} = ")
    return behind.split("\n")[0].split("}")[0].split(" ")[0].split(",")[0].strip('"') if found else default


def budget_of(text: str) -> int:
    return int(value_of(text, "budget", "0"))


def window_of(text: str) -> int:
    return int(value_of(text, "window", "100"))


def summary(text: str) -> list[str]:
    budget = budget_of(text)
    return [
        "aps summary 1", f"end {'limit' if value_of(text, 'stand_in', '') == 'limit' else 'horizon'}",
        f"partition 0 System budget {100 - budget} billed 0 critical 0",
        f"partition 1 Ctl budget {budget} billed {100 * budget} critical 0",
        f"idle {window_of(text)}", "thread 0 t ran 5", f"thread 1 ctl ran {budget}", "over none", "short none",
        "overcritical none"]


def latency(text: str) -> list[str]:
    budget = budget_of(text)
    return [
        "aps latency 1", "thread 0 t", "wake 1 total 5 worst 5 at 0", "call 0 db 2 total 9 worst 7 at 3",
        "thread 1 ctl", f"wake 2 total 8 worst {1000 - budget} at 0", "preempted 0 total 0 worst 0 at -",
        f"call 0 db {budget} total 90 worst 70 at 3", "thread 2 idle", "open call 0 db 44 at 3"]


def shares(text: str) -> list[str]:
    budget = budget_of(text)
    spent = f"overspent {budget} first 3 worst 9 at 4" if budget > 30 else "overspent 0"
    return ["aps shares 1", "partition 0 System", "short none", "overspent 0", "partition 1 Ctl", "short 7 others 9", spent]


def cycles(text: str) -> list[str]:
    ends = (1000 + budget_of(text), 3000)
    return ["thread,begin_ns,end_ns,running_ns,ready_ns,calling_ns,receiving_ns"] + [f"ctl,0,{end},1,1,1,1" for end in ends]


def responses(text: str) -> list[str]:
    late = max(0, 30 - budget_of(text))
    return [
        "aps responses 1", "thread 1 ctl", "jobs 100 open 0", "response none", "share p50 10 p90 20 p99 30",
        f"late {late} of 100" + (f" worst {1000 * late} first 5" if late else "")]


def misbehave(what: str) -> None:
    if what == "hang":
        os.system("sleep 61")
    elif what == "flood":
        while True:
            sys.stdout.write("flood\n" * 10_000)
    elif what == "crash":
        os.abort()
    elif what == "refuse":
        print("aps: scenario refused: budget-over partition[0].budget")
        print("partition[0].budget: 200 is out of range", file=sys.stderr)
        sys.exit(2)


def main(words: list[str]) -> int:
    if "STAND_IN_LOG" in os.environ:
        with open(os.environ["STAND_IN_LOG"], "a") as log:
            log.write(f"{os.getpid()} {' '.join(words)}\n")
    source = sys.stdin.read()
    if os.path.basename(sys.argv[0]) == "apstasks":
        print(source.replace('"5ms"', "5").replace('"6ms"', "6"))
        return 0
    report = words[2] if words[:2] == ["solo", "--report"] else words[0]
    if words[0] not in KNOWN or report == os.environ.get("STAND_IN_LACKS") or "--wrong" in words:
        print("aps: words refused")
        print("usage: REPORT", file=sys.stderr)
        return 1
    what = value_of(source, "stand_in", "")
    misbehave(what)
    time.sleep(max(0, 100 - window_of(source)) / 1000)
    print("\n".join(globals()[report](source)))
    return STATUSES.get(what, 0)


sys.exit(main(sys.argv[1:]))
