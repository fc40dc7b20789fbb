"""Which program is run: what makes a proved program stale, and what doesn't."""
import os
import shutil
import subprocess
import unittest

import support
from support import LONGEST_WAIT, read, write


class Freshness(support.Case):
    def test_nothing_is_built(self):
        self.assert_quick("isn't built yet")

    def test_built_and_fresh(self):
        self.build()
        self.assert_proved()
        self.assert_proved("apsview")
        self.assertEqual(self.calls("try"), 0)

    def test_through_a_link_and_from_elsewhere(self):
        self.build()
        os.symlink(f"{self.root}/apsim", f"{self.top}/link")
        ran = subprocess.run([f"{self.top}/link", "a b"], env=self.environment(), stdout=subprocess.PIPE)
        self.assertEqual((ran.returncode, ran.stdout), (3, b"proved apsim a b\n"))

    def test_a_changed_source_and_back(self):
        self.build()
        path = f"{self.root}/crates/lower/src/lib.rt"
        was = read(path)
        write(path, was + "// more\n")
        self.assert_quick("the sources changed")
        write(path, was)
        self.assert_proved()

    def test_touched_files(self):
        self.build()
        for folder, _, files in os.walk(f"{self.root}/crates"):
            for file in files:
                os.utime(f"{folder}/{file}")
        os.utime(f"{self.root}/crates.txt")
        self.assert_proved()

    def test_a_copied_checkout(self):
        self.build()
        shutil.copytree(self.root, f"{self.top}/copy", copy_function=shutil.copy)
        shutil.rmtree(self.root)
        self.root = f"{self.top}/copy"
        self.assert_proved()

    def test_files_added_moved_and_removed(self):
        for change in ("add", "move", "remove"):
            with self.subTest(change):
                self.build()
                path = f"{self.root}/crates/upper/specs/A.antt"
                if change == "add":
                    write(f"{self.root}/crates/upper/proofs/B.antt", "")
                elif change == "move":
                    os.rename(path, f"{self.root}/crates/upper/specs/B.antt")
                else:
                    os.remove(f"{self.root}/crates/upper/specs/B.antt")
                self.assert_quick("the sources changed")

    def test_a_byte_moved_between_files(self):
        write(f"{self.root}/crates/upper/specs/B.antt", "b\n")
        self.build()
        write(f"{self.root}/crates/upper/specs/A.antt", "a\nb")
        write(f"{self.root}/crates/upper/specs/B.antt", "\n")
        self.assert_quick("the sources changed")

    def test_lines_of_crates_txt(self):
        self.build()
        lines = list(support.CRATES.values())
        write(f"{self.root}/crates.txt", "\n".join([*reversed(lines), "further: lower  # a comment", ""]))
        self.assert_proved()
        write(f"{self.root}/crates.txt", "\n".join(lines).replace("upper: lower io", "upper: lower"))
        self.assert_quick("the sources changed")

    def test_what_a_program_does_not_stand_on(self):
        self.build()
        write(f"{self.root}/crates/other/src/lib.rt", "other\n")
        write(f"{self.root}/crates/upper/must-fail/wrong.edit", "another\n")
        write(f"{self.root}/crates/apsview/src/main.rt", "another\n")
        self.assert_proved()
        self.assert_quick("the sources changed", "apsview")

    def test_allowed_handles(self):
        self.build()
        write(f"{self.root}/HANDLES", "Handles allowed: Threads.\n")
        self.assert_quick("the sources changed")

    def test_another_kit(self):
        self.build()
        write(f"{self.kit}/KIT-ID", "another kit\n")
        self.assert_quick("by another kit")

    def test_a_kit_that_is_asked(self):
        os.remove(f"{self.kit}/KIT-ID")
        self.build()
        self.assertIn("kit another kit\n", read(f"{self.root}/out/apsim.record"))
        self.assert_proved()

    def test_no_kit(self):
        self.build()
        self.assertEqual(self.call("apsim", "solo", has_kit=False)[:2], (3, "proved apsim solo\n"))

    def test_a_replaced_program(self):
        self.build()
        write(f"{self.root}/out/apsim", read(f"{self.root}/out/apsim") + "# more\n")
        self.assert_quick("was replaced")

    def test_a_spoiled_record(self):
        self.build()
        write(f"{self.root}/out/apsim.record", "sources\n")
        self.assert_quick("was replaced")

    def test_a_proved_program_ignores_no_signal(self):
        self.build()
        _, output, _ = self.call("apsim", "ignored")
        self.assertEqual(int(output.split()[1], 16), 0)

    def test_input_that_is_a_directory(self):
        self.build()
        folder = os.open(self.top, os.O_RDONLY)
        self.addCleanup(os.close, folder)
        started = self.start("apsim", "solo", stdin=folder)
        output, errors = started.communicate(timeout=LONGEST_WAIT)
        self.assertEqual((started.returncode, output, errors), (3, b"proved apsim solo\n", b""))

    def test_no_crates(self):
        os.remove(f"{self.root}/crates.txt")
        status, output, errors = self.call("apsim", "solo")
        self.assertEqual((status, output), (125, ""))


class FreshProgram(support.Case):
    def test_path_only_where_it_is_fresh(self):
        self.assertEqual(self.call("tools/fresh_program", "apsim")[:2], (1, ""))
        self.build()
        self.assertEqual(self.call("tools/fresh_program", "apsim")[:2], (0, f"{self.root}/out/apsim\n"))
        write(f"{self.root}/crates/apsim/src/main.rt", "changed\n")
        self.assertEqual(self.call("tools/fresh_program", "apsim")[:2], (1, ""))

    def test_digest(self):
        first = self.call("tools/fresh_program", "--digest", "apsim")
        self.assertRegex(first[1], r"^[0-9a-f]{40} the kit of the tests\n$")
        write(f"{self.root}/crates/other/src/lib.rt", "changed\n")
        self.assertEqual(self.call("tools/fresh_program", "--digest", "apsim"), first)
        write(f"{self.root}/crates/lower/src/lib.rt", "changed\n")
        self.assertNotEqual(self.call("tools/fresh_program", "--digest", "apsim"), first)

    def test_wrong_words(self):
        for words in ((), ("other",), ("apsim", "apsview"), ("--digest",)):
            self.assertEqual(self.call("tools/fresh_program", *words)[:2], (2, ""))


if __name__ == "__main__":
    unittest.main()
