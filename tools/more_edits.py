#!/usr/bin/env python3
"""Tries the wrong bodies that the gate leaves out: `tools/more_edits/NAME/*.edit`, of the form of `crates/NAME/must-fail`.

    tools/more_edits.py          says of each edit of the repository, the gate's too, whether it can still be applied, and
                                 which of those that docs/CONTRIBUTING.md names the gate lacks (a second)
    tools/more_edits.py NAME..   has the prover try those of these crates that the gate leaves out; `all` stands for every crate

They are tried in a copy of the checkout, which begins with what checks of this machine kept. The exit status is 0 where every
edit can be applied and no named one is missing, or all were refused, and 1 where not.
"""
import os
import re
import shutil
import subprocess
import sys
import tempfile

ROOT = os.path.dirname(os.path.dirname(os.path.abspath(__file__)))
MORE = os.path.join(ROOT, "tools", "more_edits")


def edits_in(folder):
    names = sorted(os.listdir(folder)) if os.path.isdir(folder) else []
    return [os.path.join(folder, name) for name in names if name.endswith(".edit")]


def crates():
    return sorted(os.listdir(os.path.join(ROOT, "crates")))


def fault_of(edit, crate):
    """Why an edit can't be applied: its file is missing, or an old text doesn't stand there exactly once."""
    path, pairs = None, 0
    with open(edit, encoding="utf-8") as lines:
        for line in lines.read().split("\n"):
            if line.startswith("file: "):
                path = os.path.join(ROOT, "crates", crate, line.removeprefix("file: ").strip())
                if not os.path.isfile(path):
                    return f"there is no {os.path.relpath(path, ROOT)}"
            elif line.startswith("old: "):
                with open(path, encoding="utf-8") as source:
                    found = source.read().count(line.removeprefix("old: "))
                if found != 1:
                    return f"a text stands {found} times: {line}"
                pairs += 1
    return None if pairs else "it changes nothing"


def named_edits():
    """The edits that docs/CONTRIBUTING.md names as always in the gate."""
    with open(os.path.join(ROOT, "docs", "CONTRIBUTING.md"), encoding="utf-8") as text:
        part = text.read().partition("## Wrong bodies that are always in the gate")[2].partition("\n## ")[0]
    rows = [line for line in part.split("\n") if line.startswith("| ")]
    names = [name for row in rows for name in re.findall(r"`(\w+/\w+)`", row)]
    return [os.path.join(ROOT, "crates", crate, "must-fail", f"{edit}.edit") for crate, edit in (name.split("/") for name in names)]


def look():
    edits = [
        (edit, crate)
        for crate in crates()
        for folder in (os.path.join(ROOT, "crates", crate, "must-fail"), os.path.join(MORE, crate))
        for edit in edits_in(folder)
    ]
    faults = [(edit, why) for edit, crate in edits if (why := fault_of(edit, crate))]
    faults += [(edit, "docs/CONTRIBUTING.md names it, and the gate lacks it") for edit in named_edits() if not os.path.isfile(edit)]
    for edit, why in faults:
        print(f"{os.path.relpath(edit, ROOT)}: {why}")
    outside = sum(edit.startswith(MORE) for edit, _ in edits)
    print(f"{len(edits)} edits, {outside} of them outside the gate; {len(faults)} can't be applied")
    return 1 if faults else 0


def copy_to(room, names):
    """A copy of the checkout whose must-fail folders hold these crates' further edits alone."""
    left_out = shutil.ignore_patterns("out", ".git", "must-fail")
    shutil.copytree(ROOT, room, ignore=left_out, dirs_exist_ok=True)
    for name in names:
        shutil.copytree(os.path.join(MORE, name), os.path.join(room, "crates", name, "must-fail"))


def try_them(names):
    with tempfile.TemporaryDirectory(prefix="more-edits-") as room:
        copy_to(room, names)
        return subprocess.run(["rt", "must-fail", *names], cwd=room).returncode


def main(words):
    if not words:
        return look()
    having = [name for name in crates() if edits_in(os.path.join(MORE, name))]
    names = having if words == ["all"] else words
    for name in names:
        if name not in having:
            print(f"{name} has no edits but the gate's", file=sys.stderr)
            return 2
    return 1 if try_them(names) else 0


if __name__ == "__main__":
    sys.exit(main(sys.argv[1:]))
