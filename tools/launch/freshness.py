"""Whether a proved program is that of these sources. Contents decide, and never the time of a file.

Beside a proved program out/NAME lies out/NAME.record, three lines of text:

    sources HEX     the digest of all that the program was proved and built from
    kit LINE        what `rt version` printed of the kit that proved it
    program HEX     the digest of the program itself
"""
import hashlib
import io
import os

import checkout
import kit

# The folders of a crate that a proof or a build reads.
PARTS = ("src", "specs", "proofs")


def digest_of_sources(root: str, program: str) -> str:
    """The digest of HANDLES, of the program's crates' lines of crates.txt, and of their sources, specs and proofs."""
    lines = checkout.crate_lines(root)
    digest = hashlib.blake2b(digest_size=20)
    add(digest, "HANDLES", contents_or_nothing(f"{root}/HANDLES"))
    for name in sorted(checkout.crates_of((program,), lines)):
        add(digest, "crates.txt", lines[name].encode())
        for part in PARTS:
            add_folder(digest, f"{root}/crates/{name}/{part}", f"{name}/{part}")
    return digest.hexdigest()


def add(digest: "hashlib._Hash", name: str, text: bytes) -> None:
    """Adds a text with its name and its length, so that no two lists of texts are added alike."""
    digest.update(f"{name}\0{len(text)}\0".encode(errors="surrogateescape"))
    digest.update(text)


def add_folder(digest: "hashlib._Hash", path: str, name: str) -> None:
    """Adds each file below a folder, in the order of the names. A folder that isn't there adds nothing."""
    try:
        entries = sorted(os.scandir(path), key=lambda entry: entry.name)
    except FileNotFoundError:
        return
    for entry in entries:
        inside = f"{name}/{entry.name}"
        if entry.is_dir(follow_symlinks=False):
            add_folder(digest, entry.path, inside)
        else:
            add(digest, inside, contents_or_nothing(entry.path))


def contents(path: str) -> bytes:
    """What a file holds."""
    with io.FileIO(path) as file:
        return file.readall()


def contents_or_nothing(path: str) -> bytes:
    """What a file holds, and nothing where it can't be read."""
    try:
        return contents(path)
    except OSError:
        return b""


def digest_of_file(path: str) -> str:
    return hashlib.blake2b(contents(path), digest_size=20).hexdigest()


def take_over(root: str, built_in: str, program: str, sources: str) -> None:
    """Takes over a program that was proved and built in this checkout or in a copy of it, from the sources of this digest."""
    path = checkout.program_path(root, program)
    os.makedirs(os.path.dirname(path), exist_ok=True)
    with open(f"{path}.new", "wb") as file:
        file.write(contents(f"{built_in}/crates/{program}/out/{program}"))
    os.chmod(f"{path}.new", 0o755)
    os.replace(f"{path}.new", path)
    write_record(root, program, sources)


def record_path(root: str, program: str) -> str:
    return f"{checkout.program_path(root, program)}.record"


def write_record(root: str, program: str, sources: str) -> None:
    """Writes that the program out/NAME was proved and built from the sources of this digest, by the kit at hand."""
    path = record_path(root, program)
    built = digest_of_file(checkout.program_path(root, program))
    with open(f"{path}.new", "w", encoding="utf-8") as file:
        file.write(f"sources {sources}\nkit {kit.identity()}\nprogram {built}\n")
    os.replace(f"{path}.new", path)


def recorded(root: str, program: str) -> dict[str, str]:
    """The lines of the record by their first words. It is empty where there is no record."""
    try:
        with open(record_path(root, program), encoding="utf-8") as file:
            return dict(line.rstrip("\n").partition(" ")[::2] for line in file)
    except (OSError, UnicodeDecodeError):
        return {}


def why_stale(root: str, program: str) -> str | None:
    """Why the proved program may not answer for these sources, or None where it is fresh.

    Where no kit is at hand, the sources alone decide.
    """
    path = checkout.program_path(root, program)
    said = recorded(root, program)
    if not said or not os.access(path, os.X_OK):
        return "the proved program isn't built yet"
    if said.get("program") != digest_of_file(path):
        return "the file of the proved program was replaced"
    at_hand = kit.identity()
    if at_hand is not None and said.get("kit") != at_hand:
        return "the proved program was made by another kit"
    if said.get("sources") != digest_of_sources(root, program):
        return "the sources changed since the program was proved"
    return None
