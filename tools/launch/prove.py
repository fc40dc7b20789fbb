"""Proves and builds the programs whose sources changed, or which aren't there yet.

    ./prove [--anew] [PROGRAM ..]   all programs, or these
    ./prove --tidy                  removes what only later proofs need, and says how much that was; programs stay

The kit proves each crate that the programs are made of, several side by side, and builds and tries the programs. They come to
out/NAME. It keeps the crates that it proved, so the next ./prove, `rt ci` too, proves only what changed, or what an interrupted
one left. --anew has it prove all of them again. One ./prove works in a checkout at a time; a second one waits. Meanwhile the
programs can be run: by the old program where the sources are still its own, else by a quick run.

Status: 0 where each program is proved, 1 where one isn't, 2 for wrong words, 125 where nothing could be tried (standard error
says why), 128 and the signal's number where a signal ended it.
"""
import contextlib
import fcntl
import os
import shutil
import sys
import tempfile
from collections.abc import Iterator

import checkout
import follow
import freshness
import kit
import need
import progress
import room
import tidy
from signals import Signalled, raise_signals

REFUSED = 125
# What a proof, a build and a trial of a program read of a crate.
PARTS = (*freshness.PARTS, "data", "args", "status", "stdin", "stdout")


class Refused(Exception):
    """Why nothing can be tried, and what to do."""


def main(words: list[str]) -> int:
    options = [word for word in words if word.startswith("-")]
    programs = tuple(word for word in words if not word.startswith("-")) or checkout.PROGRAMS
    if options == ["--help"]:
        print(f"{__doc__}\n{cost()}")
        return 0
    if options == ["--tidy"] and programs == checkout.PROGRAMS:
        return tidy.main(checkout.ROOT)
    if options not in ([], ["--anew"]) or not set(programs) <= set(checkout.PROGRAMS):
        print(f"{__doc__}\nPROGRAM is one of {', '.join(checkout.PROGRAMS)}.", file=sys.stderr)
        return 2
    raise_signals()
    try:
        return prove(checkout.ROOT, programs, options)
    except (Refused, OSError, ValueError) as why:
        tell(str(why))
        return REFUSED
    except Signalled as signalled:
        tell("stopped; the next ./prove goes on with the crates that aren't proved yet")
        return signalled.status


def tell(text: str) -> None:
    print(f"prove: {text}", file=sys.stderr, flush=True)


def cost() -> str:
    return f"All programs from nothing take {need.PROVING}, and {need.PROVING_DISK_MB / 1000:.0f} GB of disk."


def prove(root: str, programs: tuple[str, ...], options: list[str]) -> int:
    rt = kit.command()
    if rt is None:
        raise Refused("the Rattle kit proves and builds the programs, and its command rt isn't on the PATH")
    with alone(root):
        stale = {program: freshness.why_stale(root, program) for program in programs}
        wanted = tuple(program for program in programs if stale[program] or options)
        for program in wanted:
            tell(f"{program}: {stale[program] or 'to be proved anew'}")
        status = build(root, rt, wanted, options) if wanted else 0
        for program in programs if status == 0 else ():
            tell(f"{program} is proved: {os.path.relpath(checkout.program_path(root, program), root)}")
        return status


@contextlib.contextmanager
def alone(root: str) -> Iterator[None]:
    """Waits until no other ./prove works in this checkout."""
    try:
        os.makedirs(f"{root}/out", exist_ok=True)
        lock = open(f"{root}/out/prove.lock", "w")
    except OSError as error:
        raise Refused(f"the programs come to {root}/out, and that can't be written: {error.strerror}") from None
    with lock:
        try:
            fcntl.flock(lock, fcntl.LOCK_EX | fcntl.LOCK_NB)
        except BlockingIOError:
            tell("another ./prove is at work in this checkout; waiting for it")
            fcntl.flock(lock, fcntl.LOCK_EX)
        yield


def build(root: str, rt: str, programs: tuple[str, ...], options: list[str]) -> int:
    """Proves and builds these programs from a copy of their sources as they are now."""
    names = checkout.crates_of(programs, checkout.crate_lines(root))
    refuse_full_disk()
    tell(f"{len(names)} crates; from nothing {need.PROVING}; {need.PROVING_DISK_MB / 1000:.0f} GB of disk")
    warn_of_loss(kit.kept_folder(rt))
    with room.room_of(root, names, PARTS) as copy:
        sources = {program: freshness.digest_of_sources(copy, program) for program in programs}
        shown = progress.Progress(copy, names, checkout.crate_lines(copy), len(os.sched_getaffinity(0)))
        status, failed = follow.run_gate(rt, options, copy, shown)
        if status != 0:
            print(failed, file=sys.stderr)
            tell("not proved: the lines above say what failed")
            return 1
        for program in programs:
            freshness.take_over(root, copy, program, sources[program])
        tell(f"proved and built in {progress.in_minutes(shown.seconds())}")
        return 0


def free_disk(place: str) -> int:
    """How many MB can still be written in a place."""
    return shutil.disk_usage(place).free // 1_000_000


def refuse_full_disk() -> None:
    """Refuses where the disk would be full before the end."""
    place = tempfile.gettempdir()
    free = free_disk(place)
    if free < need.PROVING_DISK_MB:
        more = "./prove --tidy removes what later proofs alone need; TMPDIR names another place"
        raise Refused(f"this takes {need.PROVING_DISK_MB:,} MB of disk, and {place} has {free:,} left. {more}")


def warn_of_loss(kept: str) -> None:
    """Says so where the kit can't keep what it proves. It doesn't where too little disk would be left."""
    place = kept if os.path.exists(kept) else os.path.dirname(kept)
    is_full = free_disk(place) < need.PROVING_DISK_MB + need.KEPT_LEAVES_MB
    if is_full or not os.access(place, os.W_OK):
        why = "the disk is too full" if is_full else "that can't be written"
        tell(f"the kit doesn't keep proofs in {kept}, as {why}: an interrupted ./prove begins anew")
