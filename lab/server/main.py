"""The lab's command line: `./apslab [FILE.toml] [options]`."""
from __future__ import annotations

import argparse
import sys
from pathlib import Path
from threading import Event
from typing import Callable

from .child import Limits
from .programs import Programs, in_folder, of_checkout
from .reports import Reports
from .runs import Runner
from .saved import Saver
from .serving import Server
from .site import Site
from .words import MOST_TICKS

MOST_INPUT = 1 << 20


def _whole(low: int, high: int) -> Callable[[str], int]:
    def read(text: str) -> int:
        if not text.isascii() or not text.isdigit() or not low <= int(text) <= high:
            raise argparse.ArgumentTypeError(f"{text} is no number from {low} to {high}")
        return int(text)
    return read


def options_of(words: list[str]) -> argparse.Namespace:
    parser = argparse.ArgumentParser(
        prog="apslab", description="Prints the address of a page in the browser: a scenario to edit, and what its run shows.")
    parser.add_argument("file", nargs="?", type=Path, metavar="FILE.toml", help="the scenario that the page begins with")
    parser.add_argument("--port", type=_whole(0, 65_535), default=0, help="the port (default: any free one)")
    parser.add_argument("--runs", type=_whole(1, 64), default=4, help="how many programs may run at once (4)")
    parser.add_argument("--seconds", type=_whole(1, MOST_TICKS), default=20, help="how long a report may take (20)")
    parser.add_argument("--memory", type=_whole(64, 1 << 20), default=1024, metavar="MIB",
                        help="how much memory a report may take, in MiB (1024)")
    parser.add_argument("--programs", type=Path, metavar="FOLDER",
                        help="take apsim and apsview from this folder; whether they are proved isn't judged")
    parser.add_argument("--save", type=Path, metavar="OUT.html",
                        help="write a page that needs no server, of the scenario on standard input, and end")
    return parser.parse_args(words)


def main(root: Path, words: list[str]) -> int:
    options = options_of(words)
    programs = Programs(in_folder(options.programs) if options.programs else of_checkout(root))
    proved = Limits(seconds=options.seconds, memory=options.memory << 20)
    quick = Limits(seconds=300, memory=None, warning=3.0)
    reports = Reports(programs, Runner(proved, quick, options.runs))
    if options.save:
        return _save(root, programs, reports, options.save)
    return _serve(root, programs, reports, options)


def _serve(root: Path, programs: Programs, reports: Reports, options: argparse.Namespace) -> int:
    if options.file and not options.file.is_file():
        print(f"apslab: {options.file} is no file", file=sys.stderr)
        return 2
    try:
        server = Server(Site(root, programs, reports, options.file), options.port)
    except OSError as error:
        print(f"apslab: port {options.port} can't be used: {error.strerror}", file=sys.stderr)
        return 2
    print(server.address, flush=True)
    print("apslab: open this address in a browser; Ctrl-C ends the lab", file=sys.stderr)
    try:
        server.serve()
    except KeyboardInterrupt:
        server.stop()
    return 0


def _save(root: Path, programs: Programs, reports: Reports, out: Path) -> int:
    text = sys.stdin.buffer.read(MOST_INPUT + 1)
    page, summary = Saver(root / "lab" / "page", programs, reports).page({}, text, Event())
    if page is None:
        print(summary.text or f"apslab: {summary.ended}", end="" if summary.text else "\n", file=sys.stderr)
        print(summary.hint, end="", file=sys.stderr)
        return summary.status or 125
    try:
        out.write_bytes(page)
    except OSError as error:
        print(f"apslab: {out} can't be written: {error.strerror}", file=sys.stderr)
        return 5
    return 0
