"""Removes what only later proofs need: what the kit's checks kept in the folders out/ of this checkout's crates."""
import os
import shutil
import sys

import checkout
import kit
import room

# What a check keeps in a crate's folder out/.
KEPT = ("incremental", "rlib")
# What st_blocks counts in.
BLOCK = 512


def main(root: str) -> int:
    room.remove_left_rooms()
    freed = 0
    for name in sorted(os.listdir(f"{root}/crates")):
        for part in KEPT:
            path = f"{root}/crates/{name}/out/{part}"
            if os.path.isdir(path):
                freed += size_of(path)
                shutil.rmtree(path)
    tell(f"{freed // 1_000_000:,} MB removed from the folders crates/*/out")
    tell_of_kit()
    tell_of_programs(root)
    return 0


def tell(text: str) -> None:
    print(f"prove: {text}", file=sys.stderr)


def size_of(path: str) -> int:
    """What a folder takes on the disk. A file that has another name elsewhere stays there, so it doesn't count."""
    size = 0
    for folder, _, files in os.walk(path):
        found = [os.lstat(f"{folder}/{file}") for file in files]
        size += sum(one.st_blocks * BLOCK for one in found if one.st_nlink == 1)
    return size


def tell_of_kit() -> None:
    """Says what the kit keeps for every checkout of this machine, which is no part of this one."""
    rt = kit.command()
    kept = kit.kept_folder(rt) if rt else ""
    if os.path.isdir(kept):
        blocks = sum(os.lstat(f"{folder}/{file}").st_blocks for folder, _, files in os.walk(kept) for file in files)
        size = blocks * BLOCK // 1_000_000
        tell(f"the kit keeps {size:,} MB of proofs for all checkouts, at most 10 GB; rm -rf {kept} removes them")


def tell_of_programs(root: str) -> None:
    for program in checkout.PROGRAMS:
        if os.path.isfile(checkout.program_path(root, program)):
            tell(f"{program} stays: out/{program}")
