#!/usr/bin/env python3
"""Runs the program on spoiled scenarios, and looks for a crash, a hang, or an answer that no table of statuses has.

    tools/spoil_texts.py PROGRAM FROM TO [--jobs N] [--other MODULE.py] [--keep FOLDER]

The inputs FROM to TO - 1 are made from the files in scenarios/ and crates/worked/data/, each spoiled once to four times by byte
(turned, left out, put in, doubled, cut) or by key (a line left out, doubled, moved; a number, a word or a key changed).
An input depends on its number alone. --other names another implementation, a Python file with a function
`answer(words, read)` that gives the status and the pieces of the text: both have to be the same. Where the other refuses a text as
no TOML that only a later edition of TOML takes (lines and a last comma in an inline table, the escape \\e), it is asked again with the
same text as the earlier edition has it, and counted apart. It is no part of the gate.
"""
import glob
import importlib.util
import io
import multiprocessing
import os
import random
import re
import signal
import sys
import tempfile

WORDS = ["solo", "--limit", "50"]
STATUSES = {0, 2, 3, 4, 6, 8}
MOST_SECONDS = 10
NO_TOML = (2, b"aps: scenario refused: not-toml -\n")
NUMBERS = ["0", "1", "-1", "7", "8", "32", "33", "100", "101", "255", "256", "400", "401", "1000", "4294967296",
           "9223372036854775807", "9223372036854775808", "18446744073709551616", "1.5", "0x10", "1_000", "+3", "true", '""', "[]"]
TOKENS = [b"[", b"]", b"{", b"}", b'"', b"'", b"=", b",", b"#", b".", b"\n", b"\r\n", b"\t", b"\\u0041", b"\x00", b"\xff", b"\xc3\xa9",
          b"[[", b"]]", b'"""', b" = ", b"inf", b"1979-05-27", b"forever", b"run ", b"sleep ", b"send ", b"exit"]


def by_byte(data, rng):
    at = rng.randrange(len(data) + 1)
    kind = rng.randrange(6)
    if kind == 0 and at < len(data):
        return data[:at] + bytes([data[at] ^ (1 << rng.randrange(8))]) + data[at + 1:]
    if kind == 1:
        return data[:at] + data[at + rng.choice((1, 1, 2, 5)):]
    if kind == 2:
        return data[:at] + rng.choice(TOKENS) + data[at:]
    if kind == 3:
        end = min(len(data), at + rng.randrange(1, 40))
        return data[:end] + data[at:end] + data[end:]
    if kind == 4:
        return data[:at]
    return data[:at] + bytes([rng.randrange(256)]) + data[at:]


def by_key(data, rng):
    lines = data.split(b"\n")
    i = rng.randrange(len(lines))
    kind = rng.randrange(6)
    if kind == 0:
        del lines[i]
    elif kind == 1:
        lines.insert(rng.randrange(len(lines) + 1), lines[i])
    elif kind == 2:
        lines.insert(rng.randrange(len(lines)), lines.pop(i))
    else:
        pattern = (rb"-?\d[\d_]*", rb'"[^"]*"', rb"[A-Za-z_]+")[kind - 3]
        places = list(re.finditer(pattern, data))
        if not places:
            return data
        place = rng.choice(places)
        other = rng.choice(places).group() if rng.random() < 0.5 else rng.choice(NUMBERS).encode()
        return data[:place.start()] + other + data[place.end():]
    return b"\n".join(lines)


def spoiled(texts, number):
    rng = random.Random(number)
    data = rng.choice(texts)
    for _ in range(rng.choice((1, 1, 2, 3, 4))):
        data = (by_byte if rng.random() < 0.5 else by_key)(data, rng)
    return data


def run(program, data, folder):
    """The status, or minus a signal, and the text."""
    source, sink = os.path.join(folder, "in"), os.path.join(folder, "out")
    with open(source, "wb") as file:
        file.write(data)
    actions = [(os.POSIX_SPAWN_OPEN, 0, source, os.O_RDONLY, 0),
               (os.POSIX_SPAWN_OPEN, 1, sink, os.O_WRONLY | os.O_CREAT | os.O_TRUNC, 0o600),
               (os.POSIX_SPAWN_OPEN, 2, os.devnull, os.O_WRONLY, 0)]
    child = os.posix_spawn(program, [program] + WORDS, {}, file_actions=actions)
    signal.alarm(MOST_SECONDS)
    try:
        status = os.waitstatus_to_exitcode(os.waitpid(child, 0)[1])
    except TimeoutError:
        os.kill(child, signal.SIGKILL)
        os.waitpid(child, 0)
        status = "hangs"
    signal.alarm(0)
    with open(sink, "rb") as file:
        return status, file.read()


def too_long(_signal, _frame):
    raise TimeoutError


def load(path):
    sys.dont_write_bytecode = True
    os.environ.setdefault("APS_BIGINT", "1")
    sys.path.insert(0, os.path.dirname(path))
    spec = importlib.util.spec_from_file_location("other", path)
    module = importlib.util.module_from_spec(spec)
    spec.loader.exec_module(module)
    return module


STRING = re.compile(rb'"""(?:\\.|[^\\])*?"""|' + rb"'''.*?'''" + rb'|"(?:\\.|[^"\\\n])*"|' + rb"'[^'\n]*'", re.S)


def piece_at(data, at):
    """The string or the comment that begins there, or else one byte."""
    string = STRING.match(data, at)
    if string:
        return string.group()
    if data[at:at + 1] == b"#":
        return data[at:].split(b"\n", 1)[0]
    return data[at:at + 1]


def of_the_earlier_edition(data):
    """The text with no line, no comment and no last comma in an inline table, and without the escape \\e."""
    out, open_ones, at = [], [], 0
    while at < len(data):
        piece = piece_at(data, at)
        at += len(piece)
        if piece in (b"{", b"["):
            open_ones.append(piece)
        elif piece in (b"}", b"]") and open_ones:
            open_ones.pop()
        is_inline = b"{" in open_ones
        if is_inline and (piece in (b"\n", b"\r") or piece[:1] == b"#"):
            piece = b" "
        elif piece[:1] == b'"':
            piece = re.sub(rb"(?<!\\)((?:\\\\)*)\\e", rb"\1\\u001b", piece)
        out.append(piece)
    return re.sub(rb",(\s*\})", rb"\1", b"".join(out))


def answer_of(other, data):
    """The other's status and text, or nothing where it gives none."""
    try:
        status, pieces, _ = other.answer(WORDS, io.BytesIO(data).read)
    except Exception:
        return None
    return status, "".join(pieces).encode()


def work(arguments):
    program, texts, low, high, path, keep = arguments
    signal.signal(signal.SIGALRM, too_long)
    other = load(path) if path else None
    wrong, counts, editions = [], {}, 0
    with tempfile.TemporaryDirectory() as folder:
        for number in range(low, high):
            data = spoiled(texts, number)
            got = run(program, data, folder)
            counts[got[0]] = counts.get(got[0], 0) + 1
            wanted = answer_of(other, data) if other else None
            if wanted == NO_TOML and wanted != got:
                wanted = answer_of(other, of_the_earlier_edition(data))
                editions += wanted == got
            if got[0] not in STATUSES or (wanted and wanted != got):
                wrong.append(f"input {number}: status {got[0]}" + (f" for {wanted[0]}, {got[1][:90]} for {wanted[1][:90]}" if wanted else ""))
                if keep:
                    with open(os.path.join(keep, f"{number}.toml"), "wb") as file:
                        file.write(data)
    return wrong, counts, editions


def option(name, default):
    return sys.argv[sys.argv.index(name) + 1] if name in sys.argv else default


def main():
    program, low, high = os.path.abspath(sys.argv[1]), int(sys.argv[2]), int(sys.argv[3])
    jobs, path, keep = int(option("--jobs", "1")), option("--other", None), option("--keep", None)
    root = os.path.dirname(os.path.dirname(os.path.abspath(__file__)))
    names = sorted(glob.glob(os.path.join(root, "scenarios", "*.toml")) + glob.glob(os.path.join(root, "crates", "worked", "data", "*.toml")))
    texts = [open(name, "rb").read() for name in names]
    if keep:
        os.makedirs(keep, exist_ok=True)
    pieces = [(program, texts, first, min(high, first + 2000), path, keep) for first in range(low, high, 2000)]
    counts, wrong, editions = {}, 0, 0
    with multiprocessing.Pool(jobs) as pool:
        for lines, some, later in pool.imap_unordered(work, pieces):
            wrong += len(lines)
            editions += later
            print("\n".join(lines), end="\n" if lines else "", flush=True)
            for status, count in some.items():
                counts[status] = counts.get(status, 0) + count
    told = ", ".join(f"status {status}: {count}" for status, count in sorted(counts.items(), key=str))
    print(f"{high - low} inputs, {wrong} wrong, {editions} of a later edition of TOML; {told}")
    return 1 if wrong else 0


if __name__ == "__main__":
    sys.exit(main())
