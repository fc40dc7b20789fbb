"""What the tests share: a folder with stand-ins, and calls of both programs."""
import contextlib
import io
import os
import subprocess
import sys
import tempfile
import unittest
from pathlib import Path
from unittest import mock

from .. import apsdiff, apstry

ROOT = Path(__file__).resolve().parents[3]
STAND_IN = Path(__file__).with_name("stand_in.py")
MAINS = {"apstry": apstry.main, "apsdiff": apsdiff.main}
NAMES = ("apsim", "apsview", "apstasks")
DIGEST = "digest-of-this-checkout"
SCENARIO = """# A scenario for the stand-in
version = 1
cpus = 2
window = 100    # ticks
partition = [
  {name = "Ctl", budget = 25},  # the one that is varied
]
thread = [{name = "t"}, {name = "ctl", priority = 30}]
"""


class StudyTest(unittest.TestCase):
    """A test in a folder of its own, with a scenario and stand-ins."""

    def setUp(self) -> None:
        folder = tempfile.TemporaryDirectory()
        self.addCleanup(folder.cleanup)
        self.folder = Path(folder.name)
        self.scenario = self.written("s.toml", SCENARIO)
        self.programs = stand_ins_in(self.folder / "programs", DIGEST)
        self.environment = {**os.environ, "APS_STUDY_PROGRAMS": str(self.programs)}

    def written(self, name: str, text: str) -> str:
        path = self.folder / name
        path.write_text(text)
        return str(path)

    def start(self, launcher: str, *words: str) -> subprocess.Popen[str]:
        return subprocess.Popen(
            [sys.executable, str(ROOT / launcher), *words], env=self.environment, text=True,
            stdout=subprocess.PIPE, stderr=subprocess.PIPE)

    def ended(self, program: str, *words: str) -> tuple[int, str, str]:
        """The exit status, standard output and standard error of a call inside this process."""
        out, err = io.StringIO(), io.StringIO()
        with (mock.patch.dict(os.environ, self.environment), contextlib.redirect_stdout(out),
              contextlib.redirect_stderr(err)):
            try:
                status = MAINS[program](list(words))
            except SystemExit as ended:
                status = ended.code
        return status, out.getvalue(), without_note(err.getvalue())

    def table(self, *words: str, status: int = 0) -> list[list[str]]:
        """The rows that apstry prints for the scenario, the head included."""
        got, out, err = self.ended("apstry", self.scenario, *words)
        self.assertEqual(got, status, err)
        return [line.split("\t") for line in out.splitlines()]

    def refused(self, *words: str, status: int = 2) -> str:
        """What apstry writes on standard error where it takes nothing."""
        got, out, err = self.ended("apstry", self.scenario, *words)
        self.assertEqual((got, out), (status, ""), err)
        return err


def without_note(text: str) -> str:
    """Standard error without the line that says what stand-ins are."""
    note, _, rest = text.partition("\n")
    return rest if note.startswith("APS_STUDY_PROGRAMS names stand-ins") else text


def stand_ins_in(folder: Path, digest: str) -> Path:
    folder.mkdir()
    for name in NAMES:
        (folder / name).symlink_to(STAND_IN)
        (folder / f"{name}.digest").write_text(digest + "\n")
    return folder
