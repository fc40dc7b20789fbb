"""The Rattle kit on this machine."""
import os


def command() -> str | None:
    """The path of the kit's command rt, or None where it isn't on the PATH."""
    for folder in os.environ.get("PATH", "").split(os.pathsep):
        path = os.path.join(folder, "rt")
        if os.path.isfile(path) and os.access(path, os.X_OK):
            return path
    return None


def home(rt: str) -> str:
    """The kit's folder, which holds bin/rt."""
    return os.path.dirname(os.path.dirname(os.path.realpath(rt)))


def kept_folder(rt: str) -> str:
    """Where the kit keeps what `rt ci` proved, for every checkout of this machine."""
    return f"{os.path.dirname(home(rt))}/rattle-kept"


def identity() -> str | None:
    """The line that `rt version` prints, or None where there is no kit. The file that it prints is read, which is faster."""
    rt = command()
    if rt is None:
        return None
    try:
        with open(f"{home(rt)}/KIT-ID", encoding="utf-8") as file:
            return file.read().strip()
    except OSError:
        return asked(rt)


def asked(rt: str) -> str | None:
    """What `rt version` prints, or None where it fails."""
    import subprocess

    ran = subprocess.run([rt, "version"], stdin=subprocess.DEVNULL, stdout=subprocess.PIPE, text=True)
    return ran.stdout.strip() if ran.returncode == 0 and ran.stdout.strip() else None
