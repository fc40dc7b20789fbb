"""How the proved programs are found."""
import os
import tempfile
import unittest
from pathlib import Path
from unittest import mock

from .. import programs
from ..programs import Program, programs_of, quick_programs_of
from ..refusal import NotProved

FINDER = """#!/bin/sh
case "$*" in
"apsim") echo /fresh/apsim ;;
"--digest apsim") echo 12ab kit-13 ;;
"--digest apsview") echo 34cd kit-13 ;;
*) echo "not built" >&2; exit 1 ;;
esac
"""


class Finder(unittest.TestCase):
    def setUp(self) -> None:
        folder = tempfile.TemporaryDirectory()
        self.addCleanup(folder.cleanup)
        self.finder = Path(folder.name) / "fresh_program"
        for patch in (mock.patch.dict(os.environ), mock.patch.object(programs, "FINDER", str(self.finder))):
            patch.start()
            self.addCleanup(patch.stop)
        os.environ.pop(programs.STAND_INS, None)

    def put_finder(self) -> None:
        self.finder.write_text(FINDER)
        self.finder.chmod(0o755)

    def test_path_and_digest(self) -> None:
        self.put_finder()
        self.assertEqual(programs_of({"apsim"}), {"apsim": Program("/fresh/apsim", "12ab kit-13")})

    def test_a_program_that_is_not_fresh(self) -> None:
        self.put_finder()
        with self.assertRaisesRegex(NotProved, "no fresh proved apsview; ./prove apsview builds it"):
            programs_of({"apsim", "apsview"})

    def test_no_finder(self) -> None:
        with self.assertRaises(NotProved):
            programs_of({"apsim"})

    def test_the_quick_run_is_the_launcher_s(self) -> None:
        program = quick_programs_of({"apsview"})["apsview"]
        self.assertEqual((program.path, program.environment), (os.path.join(programs.ROOT, "apsview"), (("APSVIEW_QUICK", "1"),)))
