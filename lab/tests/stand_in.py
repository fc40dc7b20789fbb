#!/usr/bin/env -S python3 -SE
"""Stands in the programs' place: answers every report in a few words, and misbehaves where the input asks for it.

Called as `apsim` or `apsview`. A first line of the input such as `#! sleep` says what to do.
"""
import os
import resource
import subprocess
import sys
import time

SUMMARY = """aps summary 1
end horizon
shape cpus 1 tick 1000000 window 10 ticks 40
entries 101
partition 0 System budget 50 billed 50000000 critical 0
partition 1 A budget 50 billed 50000000 critical 0
idle 0
thread 0 s ran 50000000
thread 1 a ran 50000000
loaded 0
over 0 partition 0 window 0
short 0 partition 0 window 0
overcritical 0 partition 0 window 0
"""
LATENCY = """aps latency 1
thread 0 s
billed 0 50000000
wake 1 total 0 worst 0 at 0
preempted 2 total 3000000 worst 2000000 at 10000000
cycle 0 total 0 worst 0 at -
thread 1 a
billed 1 50000000
wake 1 total 1000000 worst 1000000 at 0
preempted 0 total 0 worst 0 at -
cycle 0 total 0 worst 0 at -
open ready 4000000 at 96000000
"""
SHARES = """aps shares 1
windows 91 unchanged 91 steady 91 tick_of_all 1000000
partition 0 System
demand 91 had 91
partition 1 A
demand 91 had 91
"""
CYCLES = "thread,begin_ns,end_ns,running_ns,ready_ns,calling_ns,receiving_ns\ns,0,1,1,0,0,0\na,0,2,2,0,0,0\n"
RESPONSES = """aps responses 1
end horizon
thread 0 s
jobs 3 open 0
response best 1000000 worst 6000000 at 10000000
service best 1000000 worst 6000000 at 10000000
share p50 1000000 p90 6000000 p99 6000000
late 1 of 3 worst 6000000 first 10000000
off 2 worst 1000000
expected 4 released 3 skipped 1
"""
EXPANSION = "# expanded\nversion = 1\ncpus = 1\nticks = 40\n"
PLAN = "s responses --thread s --sender s --period 50000000/3 --offset 0 --deadline 5000000\n"
# Reports that a program knows if there is a file `later` beside it.
LATER = {
    "findings": """aps findings 1
end limit
overspent 1 A 2 first 26000000 has 3000000 needs 3902001
lacked 1 A 5000000 worst 4000000 at 7000000
held 1 a by 0 s 2000000 worst 1000000 at 9000000
waited 1 a 6000000 worst 4000000 at 8000000 why 8100000 spent 1 A
open 0 s replying since 39000000 server 1 a runs cpu 0
never 1 a
something new 7
""",
    "story": """aps story 1
thread 0 s
over 10000000 12000000 preempted
10000000 11500000 spent 1 A
11500000 12000000 not_yet
total 1500000 spent 1 A
total 500000 not_yet
""",
    "lint": "lint server-spent 0 s by 1 a\n",
    "promise": "aps promise 1\nstretch 0 40 window 10 whole 10000000\npartition 0 System budget 50 allowance 5000000\nshare none threads\n"
               "partition 1 A budget 50 allowance 5000000\nshare 4000000 within 16000000\nat_once none\n",
}
# A picture that carries what it shows: who did what from when to when, in ns.
CARRIED = """<svg xmlns="http://www.w3.org/2000/svg" width="1400" height="200" viewBox="0 0 14000 2000" data-report="threads"
 data-from-ns="0" data-to-ns="100000000" data-left="1400" data-right="13400" data-end="horizon">
<g data-legend="A"><rect x="200" y="100" width="260" height="150" fill="#77aadd"/><text x="540" y="225" font-size="120">A</text></g>
<g id="thread0" data-lane="thread" data-thread="s" data-top="990" data-bottom="1160">
<text x="1340" y="1150" font-size="110" text-anchor="end">s</text>
<rect x="1400" y="1040" width="6600" height="50" fill="#777777" data-from="0" data-to="55000001" data-state="ready"/>
<rect x="8000" y="990" width="600" height="150" fill="#77aadd" data-from="55000001" data-to="60000000" data-state="running"
 data-cpu="0" data-billed="A" data-critical="no"/>
</g>
<g id="thread1" data-lane="thread" data-thread="a" data-top="1290" data-bottom="1460">
<text x="1340" y="1400" font-size="110" text-anchor="end">a</text></g>
</svg>
"""
PICTURE = '<svg xmlns="http://www.w3.org/2000/svg" width="1400" height="50" viewBox="0 0 14000 500"><title>{}</title></svg>\n'
ANSWERS = {
    "scenario": EXPANSION, "plan": PLAN, "solo": SUMMARY, "latency": LATENCY, "shares": SHARES, "cycles": CYCLES,
    "responses": RESPONSES, "explain": "",
    **{name: PICTURE.format(name) for name in ("timeline", "usage")}, "threads": CARRIED, "trace": "{}\n",
}


def sleep(_: str) -> int:
    time.sleep(30)
    return 0


def flood(_: str) -> int:
    while True:
        sys.stdout.write("x" * 65_536)


def file(path: str) -> int:
    try:
        with open(path, "w", encoding="ascii") as made:
            made.write("written")
        print("written")
    except OSError:
        print("refused")
    return 0


def memory(_: str) -> int:
    try:
        print(len(bytearray(3 << 30)))
    except MemoryError:
        print("refused")
    return 0


def core(_: str) -> int:
    print(resource.getrlimit(resource.RLIMIT_CORE)[0])
    return 0


def group(_: str) -> int:
    """Leaves a process behind in its group, and names it."""
    left = subprocess.Popen(["sleep", "300"], stdin=subprocess.DEVNULL, stdout=subprocess.DEVNULL, stderr=subprocess.DEVNULL)
    print(left.pid)
    return 0


def refuse(_: str) -> int:
    print("aps: scenario refused: out-of-range window")
    print("window: 7 is out of range; wanted is a number of ticks from 8 to 400", file=sys.stderr)
    return 2


def none(_: str) -> int:
    """As a launcher whose quick run has no answer."""
    print("apsim: no answer: a quick run gives none past 1 MiB of output; ./prove builds the program that gives one", file=sys.stderr)
    return 125


def explain(words: list[str]) -> str:
    asked = dict(word[2:].split("=", 1) for word in words[1:])
    return f"aps explain 1\nat {asked['at']}\nthread 0 {asked['thread']} state ready since 0\nbecause outranked by 1 running and 0 ready\n"


def main() -> int:
    program, words = os.path.basename(sys.argv[0]), sys.argv[1:]
    if words and words[0] in LATER and os.path.exists(os.path.join(os.path.dirname(sys.argv[0]), "later")):
        sys.stdin.read()
        sys.stdout.write(LATER[words[0]])
        return 0
    owner = {"solo": "apsim", "scenario": "apstasks", "plan": "apstasks"}
    if not words or words[0] not in ANSWERS or owner.get(words[0], "apsview") != program:
        print("aps: words refused")
        return 1
    first = sys.stdin.readline()
    rest_of_input = sys.stdin.read()
    if program == "apsim" and "duration" in first + rest_of_input:
        return refuse("")
    if first.startswith("#! "):
        name, _, rest = first[3:].strip().partition(" ")
        if name == "slow-pictures" and program == "apsview" and words[0] in ("threads", "timeline", "usage"):
            return sleep(rest)
        if name == "slow-texts" and words[0] in ("latency", "shares"):
            return sleep(rest)
        doing = {it.__name__: it for it in (sleep, flood, file, memory, core, group, refuse, none)}.get(name)
        if doing:
            return doing(rest)
    sys.stdout.write(explain(words) if words[0] == "explain" else ANSWERS[words[0]])
    return 0


if __name__ == "__main__":
    sys.exit(main())
