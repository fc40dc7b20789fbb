#!/usr/bin/env python3
"""Says what is wrong with files of trace events, as `apsview trace` writes them.

    tools/traces.py FILE..        a file `-` is standard input

Each must be JSON; have the values that the trace event format wants of an event of each kind; name each process and thread that an
event stands on, and no number twice; have slices of a track that last, one behind the other; and arrows with a begin and an end, in
this order, each inside a slice of its track. Status 1 where something is wrong.
"""
import bisect
import json
import sys
from decimal import Decimal

KEYS = {
    "M": ("name", "pid", "tid", "args"),
    "X": ("name", "cat", "pid", "tid", "ts", "dur", "args"),
    "s": ("name", "cat", "id", "pid", "tid", "ts"),
    "f": ("name", "cat", "id", "pid", "tid", "ts", "bp"),
    "C": ("name", "pid", "ts", "args"),
    "i": ("name", "s", "pid", "tid", "ts", "args"),
}


def nanoseconds(value):
    """A time in microseconds as whole ns; None where it isn't one."""
    if isinstance(value, bool) or not isinstance(value, (int, Decimal)):
        return None
    ns = Decimal(value) * 1000
    return int(ns) if ns == ns.to_integral_value() and ns >= 0 else None


def wrong_keys(event):
    """What is wrong with an event by itself."""
    if not isinstance(event, dict) or event.get("ph") not in KEYS:
        return "is no event of a known kind"
    for key in KEYS[event["ph"]]:
        if key not in event:
            return f"has no {key}"
    for key in ("pid", "tid", "id"):
        if key in event and type(event[key]) is not int:
            return f"has a {key} that is no number"
    for key in ("ts", "dur"):
        if key in event and nanoseconds(event[key]) is None:
            return f"has a {key} that is no whole number of ns"
    return None


def wrong_names(events):
    """Tracks that are named twice or not at all."""
    processes, threads = {}, {}
    for event in events:
        if event["ph"] == "M" and event["name"] in ("process_name", "thread_name"):
            named, key = (processes, event["pid"]) if event["name"] == "process_name" else (threads, (event["pid"], event["tid"]))
            if key in named:
                yield f"track {key} has two names"
            named[key] = event["args"].get("name")
    numbers = [tid for _, tid in threads]
    if len(set(numbers)) != len(numbers) or set(numbers) & set(processes):
        yield "a number stands for two processes or threads"
    for track in {(event["pid"], event.get("tid", 0)) for event in events}:
        if track[0] not in processes:
            yield f"process {track[0]} has no name"
        if track[1] != 0 and track not in threads:
            yield f"thread {track} has no name"


def slices_of(events):
    """By track, where its slices begin and end, in ns."""
    tracks = {}
    for event in events:
        if event["ph"] == "X":
            start = nanoseconds(event["ts"])
            tracks.setdefault((event["pid"], event["tid"]), []).append((start, start + nanoseconds(event["dur"])))
    return tracks


def wrong_slices(tracks):
    for track, slices in tracks.items():
        end = 0
        for start, stop in slices:
            if start >= stop:
                yield f"track {track}: a slice at {start} ns takes no time"
            if start < end:
                yield f"track {track}: a slice at {start} ns begins before the one before it ends"
            end = stop


def is_inside(tracks, event):
    """A slice of the event's track begins at its moment or before it, and ends there or later."""
    slices, moment = tracks.get((event["pid"], event["tid"]), []), nanoseconds(event["ts"])
    before = bisect.bisect_right(slices, (moment, float("inf")))
    return before > 0 and slices[before - 1][1] >= moment


def wrong_arrows(events, tracks):
    begun, ended = {}, set()
    for event in events:
        if event["ph"] not in ("s", "f"):
            continue
        number = event["id"]
        if event["ph"] == "s":
            if number in begun:
                yield f"arrow {number} begins twice"
            begun[number] = event
        elif number not in begun or number in ended:
            yield f"arrow {number} ends, but it didn't begin, or has ended"
        else:
            ended.add(number)
            start = begun[number]
            if start["name"] != event["name"] or nanoseconds(start["ts"]) >= nanoseconds(event["ts"]):
                yield f"arrow {number} ends under another name, or not behind its begin"
        if not is_inside(tracks, event):
            yield f"arrow {number}: its {'begin' if event['ph'] == 's' else 'end'} lies in no slice"
    for number in begun:
        if number not in ended:
            yield f"arrow {number} has no end"


def wrong_in(text):
    """What is wrong with the text of a trace."""
    try:
        whole = json.loads(text, parse_float=Decimal)
    except ValueError as error:
        return [f"is no JSON: {error}"]
    events = whole.get("traceEvents") if isinstance(whole, dict) else None
    if not isinstance(events, list):
        return ["has no list traceEvents"]
    wrong = [f"event {i} {what}" for i, what in enumerate(map(wrong_keys, events)) if what]
    if wrong:
        return wrong
    tracks = slices_of(events)
    return [*wrong_names(events), *wrong_slices(tracks), *wrong_arrows(events, tracks)]


def main(files):
    if not files:
        sys.exit(__doc__)
    bad = 0
    for name in files:
        data = sys.stdin.buffer.read() if name == "-" else open(name, "rb").read()
        wrong = wrong_in(data)
        bad += bool(wrong)
        for what in wrong[:20]:
            print(f"{name}: {what}")
    print(f"{len(files)} traces, {bad} wrong")
    return 1 if bad else 0


if __name__ == "__main__":
    sys.exit(main(sys.argv[1:]))
