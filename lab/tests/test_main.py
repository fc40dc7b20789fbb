"""The command line, with programs that stand in."""
from __future__ import annotations

import re
import signal
import subprocess
import tempfile
import unittest
import urllib.request
from pathlib import Path

from lab.tests.client import ROOT, programs_in


class CommandLine(unittest.TestCase):
    def setUp(self) -> None:
        room = tempfile.TemporaryDirectory()
        self.addCleanup(room.cleanup)
        self.folder = programs_in(Path(room.name))
        self.out = self.folder / "out.html"

    def start(self, *words: str) -> "subprocess.Popen[str]":
        return subprocess.Popen([str(ROOT / "apslab"), "--programs", str(self.folder), *words], stdin=subprocess.PIPE,
                                stdout=subprocess.PIPE, stderr=subprocess.PIPE, text=True)

    def ends(self, *words: str, text: str = "") -> tuple[int, str, str]:
        lab = self.start(*words)
        out, err = lab.communicate(text, timeout=60)
        return lab.returncode, out, err

    def test_address(self) -> None:
        """It prints one address, serves the page there with the named scenario first, and ends with Ctrl-C."""
        lab = self.start(str(ROOT / "scenarios" / "alarm.toml"))
        try:
            address = lab.stdout.readline().strip()
            self.assertRegex(address, r"^http://127\.0\.0\.1:\d+/[A-Za-z0-9_-]{32}/$")
            with urllib.request.urlopen(address, timeout=30) as page:
                self.assertIn(b"apsim lab", page.read())
            with urllib.request.urlopen(f"{address}examples", timeout=30) as examples:
                self.assertTrue(re.match(rb'\{"first": \{"name": "alarm"', examples.read()))
        finally:
            lab.send_signal(signal.SIGINT)
            out, _ = lab.communicate(timeout=30)
        self.assertEqual((lab.returncode, out), (0, ""))

    def test_wrong_words(self) -> None:
        for words in (["--port", "65536"], ["--port", "x"], ["--runs", "0"], ["--seconds", "-1"], ["--fly"], ["a", "b"]):
            status, out, err = self.ends(*words)
            self.assertEqual((status, out), (2, ""), words)
            self.assertIn("usage: apslab", err)

    def test_no_file(self) -> None:
        self.assertEqual(self.ends("nothing.toml"), (2, "", "apslab: nothing.toml is no file\n"))

    def test_save(self) -> None:
        self.assertEqual(self.ends("--save", str(self.out), text="version = 1\n"), (0, "", ""))
        self.assertIn(b'id="kept"', self.out.read_bytes())

    def test_save_refused(self) -> None:
        """The program's own status, its refusal and its hint; and no page."""
        status, out, err = self.ends("--save", str(self.out), text="#! refuse\n")
        self.assertEqual((status, out), (2, ""))
        self.assertIn("aps: scenario refused: out-of-range window\nwindow: 7 is out of range", err)
        self.assertFalse(self.out.exists())

    def test_save_nowhere(self) -> None:
        status, _, err = self.ends("--save", str(self.folder / "no" / "out.html"), text="version = 1\n")
        self.assertEqual(status, 5)
        self.assertIn("can't be written", err)


if __name__ == "__main__":
    unittest.main()
