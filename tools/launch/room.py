"""A room: a copy of some crates, among the temporary files, for one run of the kit.

The kit takes a folder for a repository where crates.txt and .git lie in it. A room holds only what one run reads, so the checkout
may be read-only, or change meanwhile.
"""
import contextlib
import os
import re
import shutil
import tempfile
import time
from collections.abc import Iterator

import checkout

PREFIX = "apsim-room-"
MOST_TRIES = 10
BETWEEN_TRIES = 0.2


@contextlib.contextmanager
def room_of(root: str, names: list[str], wanted: tuple[str, ...]) -> Iterator[str]:
    """A room with these crates, and of each crate the files and folders of these names. It is removed at the end."""
    remove_left_rooms()
    room = tempfile.mkdtemp(prefix=f"{PREFIX}{os.getpid()}-")
    try:
        fill(root, room, names, wanted)
        yield room
    finally:
        remove(room)


def fill(root: str, room: str, names: list[str], wanted: tuple[str, ...]) -> None:
    lines = checkout.crate_lines(root)
    os.mkdir(f"{room}/.git")
    shutil.copyfile(f"{root}/HANDLES", f"{room}/HANDLES")
    with open(f"{room}/crates.txt", "w", encoding="utf-8") as file:
        file.writelines(f"{lines[name]}\n" for name in names)
    for name in names:
        for part in wanted:
            copy(f"{root}/crates/{name}/{part}", f"{room}/crates/{name}/{part}")


def copy(path: str, to: str) -> None:
    """Copies a file or a folder, where it is there."""
    if os.path.isdir(path):
        shutil.copytree(path, to, copy_function=shutil.copyfile, symlinks=True)
    elif os.path.isfile(path):
        os.makedirs(os.path.dirname(to), exist_ok=True)
        shutil.copyfile(path, to)


def remove(room: str) -> None:
    """Removes a room. A run that was stopped may write there for a moment yet."""
    for _ in range(MOST_TRIES):
        shutil.rmtree(room, ignore_errors=True)
        if not os.path.exists(room):
            break
        time.sleep(BETWEEN_TRIES)


def remove_left_rooms() -> None:
    """Removes the rooms of runs that were killed."""
    top = tempfile.gettempdir()
    for name in os.listdir(top):
        owner = re.match(rf"{PREFIX}(\d+)-", name)
        if owner and not os.path.exists(f"/proc/{owner[1]}"):
            shutil.rmtree(f"{top}/{name}", ignore_errors=True)
