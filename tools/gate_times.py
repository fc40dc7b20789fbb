#!/usr/bin/env python3
"""Runs the gate and says at the end how long each crate took.

    tools/gate_times.py              runs `rt ci`, passes its output on, and prints a table behind it
    tools/gate_times.py --watch PID  the same table of a run that is under way, once the process PID has ended

The table has, for each crate, the processor time (minutes and seconds) of its proof, of its tests' proof, of the proof
that its must-fail edits begin with and the check behind them (base), and of the edits, with their number. Below it stand the
dearest edits. It is taken from the system's count of each process that the gate starts, looked at every second, so that up to
a second of each may be missing. The exit status is that of the gate.
"""
import os
import subprocess
import sys
import threading
import time

TICKS_A_SECOND = os.sysconf("SC_CLK_TCK")
KINDS = ["proof", "tests", "base", "edits"]
DEAREST = 20


def read(path):
    try:
        with open(path, "rb") as file:
            return file.read()
    except OSError:
        return b""


def stat_of(pid):
    """The parent of a process, and its processor time in seconds."""
    fields = read(f"/proc/{pid}/stat").rpartition(b")")[2].split()
    if len(fields) < 13:
        return None
    return int(fields[1]), (int(fields[11]) + int(fields[12])) / TICKS_A_SECOND


def kind_of(words):
    """What a process of the checker works for, and an edit's number among those of its crate."""
    if "--incremental" in words:
        over = os.path.basename(words[words.index("--incremental") + 1])
        return ("edits", int(over)) if over.isdigit() else ("base", None)
    return ("tests" if "--test" in words else "proof"), None


def task_of(words):
    """The crate that a process of the checker works on, and what for."""
    if not words or not words[0].endswith("/rattle") or "--crate-name" not in words:
        return None
    if os.path.basename(words[0]) != "rattle" or words[1] not in ("check", "build"):
        return None
    return words[words.index("--crate-name") + 1], *kind_of(words)


def is_below(pid, top, parents):
    while pid in parents and pid != top:
        pid = parents[pid]
    return pid == top


def look(top, spent):
    """Notes the processor time of each process of the checker below this one."""
    parents, times = {}, {}
    for name in os.listdir("/proc"):
        found = stat_of(name) if name.isdigit() else None
        if found:
            parents[int(name)], times[int(name)] = found
    for pid, seconds in times.items():
        if not is_below(pid, top, parents):
            continue
        task = task_of(read(f"/proc/{pid}/cmdline").decode(errors="replace").split("\0"))
        if task:
            spent[pid, task] = max(seconds, spent.get((pid, task), 0))


def show(seconds):
    return f"{int(seconds) // 60}:{int(seconds) % 60:02}"


def line_of(name, row, edits):
    cells = "".join(f"{show(row[kind]):>8}" for kind in KINDS)
    return f"{name:<20}{cells}{show(sum(row.values())):>8}{edits:>8}"


def edit_named(name, number):
    """The file of an edit, as the gate numbers those of a crate."""
    folder = f"crates/{name}/must-fail"
    return sorted(it for it in os.listdir(folder) if it.endswith(".edit"))[number]


def table_of(spent, wall):
    sums, edits = {}, {}
    for (_, (name, kind, number)), seconds in spent.items():
        row = sums.setdefault(name, dict.fromkeys(KINDS, 0))
        row[kind] += seconds
        if number is not None:
            edits[name, number] = edits.get((name, number), 0) + seconds
    count = lambda name: sum(it == name for it, _ in edits)
    lines = ["crate                  proof   tests    base   edits     all  number"]
    for name, row in sorted(sums.items(), key=lambda it: -sum(it[1].values())):
        lines.append(line_of(name, row, count(name)))
    whole = {kind: sum(row[kind] for row in sums.values()) for kind in KINDS}
    lines.append(line_of("all", whole, len(edits)))
    lines.append(f"wall time {show(wall)}, processors {os.cpu_count()}")
    lines.append("the dearest edits")
    for (name, number), seconds in sorted(edits.items(), key=lambda it: -it[1])[:DEAREST]:
        lines.append(f"{show(seconds):>8}  {name}/{edit_named(name, number)}")
    return "\n".join(lines)


def is_there(pid):
    found = read(f"/proc/{pid}/stat").rpartition(b")")[2].split()
    return bool(found) and found[0] != b"Z"


def watch(pid, spent):
    while is_there(pid):
        look(pid, spent)
        time.sleep(1)


def main(words):
    begun, spent = time.time(), {}
    if words[:1] == ["--watch"]:
        watch(int(words[1]), spent)
        status = 0
    else:
        gate = subprocess.Popen(["rt", "ci"], stdin=subprocess.DEVNULL)
        watcher = threading.Thread(target=watch, args=(gate.pid, spent), daemon=True)
        watcher.start()
        status = gate.wait()
        watcher.join(2)
    print(table_of(spent, time.time() - begun), flush=True)
    return status


sys.exit(main(sys.argv[1:]))
