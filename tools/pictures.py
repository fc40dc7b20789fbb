#!/usr/bin/env python3
"""The pictures of docs/pictures/, each a report of ./apsview on a scenario of scenarios/.

    tools/pictures.py            fails where ./apsview draws another picture than stands there
    tools/pictures.py --write    draws them anew, there and among the texts of crates/worked

The gate makes them too: crates/worked compares them with its copies. Whoever changes how pictures are drawn looks at them, for example with
`rsvg-convert docs/pictures/NAME.svg -o NAME.png` of the Debian package librsvg2-bin: nothing may overlap or be cut.
"""
import pathlib
import subprocess
import sys

ROOT = pathlib.Path(__file__).resolve().parent.parent
FOLDER = ROOT / "docs" / "pictures"
COPIES = ROOT / "crates" / "worked" / "data" / "views"
PICTURES = [
    ("cockpit-timeline", "cockpit", ["timeline", "--from", "0", "--to", "40"]),
    ("cockpit-usage", "cockpit", ["usage"]),
    ("cockpit-threads", "cockpit", ["threads", "--from", "120", "--to", "160"]),
    ("file-server-threads", "file-server", ["threads", "--from", "160", "--to", "180"]),
    ("alarm-usage", "alarm", ["usage"]),
    ("alarm-timeline", "alarm", ["timeline", "--from", "0", "--to", "60"]),
    ("alarm-cancel-usage", "alarm-cancel", ["usage"]),
    ("alarm-reboot-timeline", "alarm-reboot", ["timeline"]),
    ("mode-change-usage", "mode-change", ["usage"]),
]


def drawn(scenario, words):
    text = (ROOT / "scenarios" / f"{scenario}.toml").read_bytes()
    ran = subprocess.run([ROOT / "apsview", *words], input=text, stdout=subprocess.PIPE)
    # a run that a reboot ended has status 3
    if ran.returncode not in (0, 3):
        sys.exit(f"apsview {' '.join(words)} on {scenario} ended with status {ran.returncode}")
    return ran.stdout


def main():
    writes = sys.argv[1:] == ["--write"]
    FOLDER.mkdir(exist_ok=True)
    others = []
    for name, scenario, words in PICTURES:
        path, picture = FOLDER / f"{name}.svg", drawn(scenario, words)
        if writes:
            path.write_bytes(picture)
            (COPIES / path.name).write_bytes(picture)
        elif any(not it.exists() or it.read_bytes() != picture for it in (path, COPIES / path.name)):
            others.append(name)
    print(f"{len(PICTURES)} pictures, {len(others)} differ{': ' if others else ''}{', '.join(others)}")
    return 1 if others else 0


if __name__ == "__main__":
    sys.exit(main())
