#!/usr/bin/env python3
"""Tries inputs that mean harm: each of about a million bytes, and each to be refused or run within a second and 100 MB.

    tools/hostile.py PROGRAM            tries all, prints a line for each, fails where one takes more
    tools/hostile.py PROGRAM --keep DIR leaves the inputs in DIR

It is no part of the gate. PROGRAM is the built program, as out/apsim.
"""
import os
import resource
import subprocess
import sys
import tempfile
import time

MOST_BYTES = 1_048_576
MOST_SECONDS = 1.0
MOST_MEGABYTES = 100

HEAD = "version = 1\ncpus = 1\nticks = 10\n"
THREAD = '[[thread]]\nname = "t"\npartition = "System"\npriority = 10\nprogram = [%s]\n'


def filled(head, piece, tail=""):
    """As many pieces as fit between head and tail."""
    room = MOST_BYTES - len(head) - len(tail)
    return head + piece * (room // len(piece)) + tail


def numbered(head, form, tail=""):
    """As many numbered pieces as fit."""
    parts, room, n = [head], MOST_BYTES - len(head) - len(tail), 0
    while True:
        piece = form % n if form.count("%") == 1 else form % (n, n)
        if len(piece) > room:
            break
        parts.append(piece)
        room -= len(piece)
        n += 1
    return "".join(parts) + tail


def inputs():
    """Each input's name, its bytes."""
    texts = {
        "comments": filled("", "#"),
        "spaces": filled("", " "),
        "newlines": filled("", "\n"),
        "open_brackets": filled("a = ", "["),
        "closed_brackets": "a = " + "[" * 500_000 + "]" * 500_000,
        "open_braces": filled("a = ", "{a="),
        "open_quotes": filled("a = ", '"'),
        "one_long_string": filled('name = "', "x", '"'),
        "one_long_key": filled("", "k", " = 1"),
        "dotted_key": filled("a", ".a", " = 1"),
        "underscores": filled("version = 1", "_1"),
        "long_number": filled("version = ", "9"),
        "escapes": filled('a = "', "\\u0041", '"'),
        "same_key_again": filled("", "version = 1\n"),
        "many_keys": numbered("", "k%d = 1\n"),
        "many_tables": numbered("", "[t%d]\n"),
        "deep_tables": filled("[a", ".a", "]\n"),
        "many_threads": numbered(HEAD, '[[thread]]\nname="t%d"\n'),
        "many_partitions": numbered(HEAD, '[[partition]]\nname="p%d"\nbudget=0\n'),
        "many_channels": numbered(HEAD + "channel = [", '"c%d",', "]\n"),
        "many_operations": HEAD + THREAD % filled("", '"run 1",')[: MOST_BYTES - 200].rpartition(",")[0],
        "many_commands": numbered(HEAD, '[[command]]\ntick = 1\ndo = "lookup"\npartition = "p%d"\n'),
    }
    for name, text in texts.items():
        yield name, text.encode()
    yield "nul_bytes", b"\0" * MOST_BYTES
    yield "no_utf8", b"\xff\xfe" * (MOST_BYTES // 2)


def tried(program, data):
    """Status, output, seconds, megabytes of one run."""
    with tempfile.TemporaryFile() as source:
        source.write(data)
        source.seek(0)
        begun = time.monotonic()
        child = subprocess.Popen([program, "solo"], stdin=source, stdout=subprocess.PIPE, stderr=subprocess.DEVNULL)
        output = child.stdout.read(300)
        child.stdout.close()
        _, status, usage = os.wait4(child.pid, 0)
        child.returncode = os.waitstatus_to_exitcode(status)
    return child.returncode, output, time.monotonic() - begun, usage.ru_maxrss / 1024


def main():
    if len(sys.argv) not in (2, 4):
        sys.exit(__doc__)
    keep = sys.argv[3] if len(sys.argv) == 4 else None
    worst_seconds = worst_megabytes = 0
    failed = count = 0
    for name, data in inputs():
        if keep:
            os.makedirs(keep, exist_ok=True)
            with open(os.path.join(keep, name + ".toml"), "wb") as file:
                file.write(data)
        status, output, seconds, megabytes = tried(sys.argv[1], data)
        fine = status in (0, 2, 8) and seconds <= MOST_SECONDS and megabytes <= MOST_MEGABYTES
        count += 1
        failed += not fine
        worst_seconds = max(worst_seconds, seconds)
        worst_megabytes = max(worst_megabytes, megabytes)
        line = output.split(b"\n")[0].decode(errors="replace")
        print(f"{'' if fine else 'FAILED '}{name}: status {status}, {seconds:.3f} s, {megabytes:.0f} MB, {line}")
    print(f"{count - failed} passed, {failed} failed; at most {worst_seconds:.3f} s and {worst_megabytes:.0f} MB")
    sys.exit(failed > 0)


if __name__ == "__main__":
    resource.setrlimit(resource.RLIMIT_CORE, (0, 0))
    main()
