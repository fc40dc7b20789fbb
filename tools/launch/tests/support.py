"""A small checkout with the launchers of this one, and a stand-in for the kit."""
import os
import shutil
import subprocess
import sys
import tempfile
import time
import unittest

HERE = os.path.dirname(os.path.abspath(__file__))
TOP = os.path.dirname(os.path.dirname(os.path.dirname(HERE)))
sys.path.insert(0, os.path.dirname(HERE))

CRATES = {
    "lower": "lower:",
    "upper": "upper: lower io",
    "other": "other: lower",
    "apsim": "apsim: upper",
    "apsview": "apsview: upper lower",
}
LONGEST_WAIT = 60


def write(path: str, text: str) -> None:
    os.makedirs(os.path.dirname(path), exist_ok=True)
    with open(path, "w", encoding="utf-8") as file:
        file.write(text)


def read(path: str) -> str:
    with open(path, encoding="utf-8") as file:
        return file.read()


class Case(unittest.TestCase):
    """Each test has a checkout of its own, self.root, and a kit of its own, self.kit."""

    def setUp(self) -> None:
        self.top = tempfile.mkdtemp(prefix="launch-test-")
        self.addCleanup(shutil.rmtree, self.top, ignore_errors=True)
        os.chmod(self.top, 0o755)
        self.root, self.kit, self.log = f"{self.top}/checkout", f"{self.top}/kit", f"{self.top}/log"
        self.rooms = f"{self.top}/tmp"
        os.mkdir(self.rooms)
        os.chmod(self.rooms, 0o777)
        self.make_checkout()
        self.make_kit()

    def make_checkout(self) -> None:
        left_out = shutil.ignore_patterns("tests", "__pycache__")
        shutil.copytree(f"{TOP}/tools/launch", f"{self.root}/tools/launch", ignore=left_out)
        for name in ("apsim", "apsview", "prove", "tools/fresh_program", ".ci/run"):
            os.makedirs(os.path.dirname(f"{self.root}/{name}"), exist_ok=True)
            shutil.copy(f"{TOP}/{name}", f"{self.root}/{name}")
        write(f"{self.root}/tools/checks.txt", "# none\n")
        write(f"{self.root}/HANDLES", "Handles allowed: none.\n")
        write(f"{self.root}/crates.txt", "".join(f"{line}\n" for line in CRATES.values()))
        for name in CRATES:
            kind = "main" if name.startswith("aps") else "lib"
            write(f"{self.root}/crates/{name}/src/{kind}.rt", f"//! The crate {name}.\n")
        write(f"{self.root}/crates/upper/specs/A.antt", "a\n")
        write(f"{self.root}/crates/upper/must-fail/wrong.edit", "file: src/lib.rt\n")

    def make_kit(self) -> None:
        write(f"{self.kit}/KIT-ID", "the kit of the tests\n")
        write(f"{self.kit}/bin/rt", f"#!/bin/sh\nexec {sys.executable} -ISB {HERE}/stand_in_rt.py \"$@\"\n")
        os.chmod(f"{self.kit}/bin/rt", 0o755)
        write(self.log, "")
        os.chmod(self.log, 0o666)

    def environment(self, behaviour: str = "", has_kit: bool = True) -> dict[str, str]:
        kit = f"{self.kit}/bin:" if has_kit else ""
        return {"PATH": f"{kit}/usr/bin:/bin", "TMPDIR": self.rooms, "STANDIN": behaviour, "STANDIN_LOG": self.log}

    def start(self, *words: str, behaviour: str = "", has_kit: bool = True, **how) -> subprocess.Popen:
        """Starts a command of the checkout, from another folder."""
        how = {"stdin": subprocess.PIPE, "stdout": subprocess.PIPE, "stderr": subprocess.PIPE, **how}
        path = f"{self.root}/{words[0]}"
        return subprocess.Popen([path, *words[1:]], cwd=self.top, env=self.environment(behaviour, has_kit), **how)

    def call(self, *words: str, given: bytes = b"", **how) -> tuple[int, str, str]:
        """The status of such a command, and what it wrote to standard output and to standard error."""
        started = self.start(*words, **how)
        output, errors = started.communicate(given, timeout=LONGEST_WAIT)
        return started.returncode, output.decode(), errors.decode()

    def calls(self, verb: str) -> int:
        """How often the kit was asked for this."""
        return sum(line.split()[0] == verb for line in read(self.log).splitlines())

    def wait_until(self, is_so) -> None:
        """Waits until something is so, and fails where that takes too long."""
        end = time.monotonic() + LONGEST_WAIT
        while not is_so():
            self.assertLess(time.monotonic(), end)
            time.sleep(0.05)

    def build(self) -> None:
        self.assertEqual(self.call("prove")[0], 0)
        write(self.log, "")

    def assert_proved(self, program: str = "apsim") -> None:
        """The launcher runs the proved program, and says nothing itself."""
        self.assertEqual(self.call(program, "solo"), (3, f"proved {program} solo\n", ""))

    def assert_quick(self, why: str, program: str = "apsim") -> None:
        """The launcher answers by the quick run, and says why."""
        status, output, errors = self.call(program, "solo", given=b"12345")
        self.assertEqual((status, output), (0, "quick solo 5 bytes\n"))
        self.assertIn(why, errors.splitlines()[0])
