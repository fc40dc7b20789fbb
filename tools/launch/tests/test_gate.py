"""The gate behind .ci/run: records, checks, the last line and the status."""
import unittest

import support
from support import write


class Gate(support.Case):
    def set_checks(self, *lines: str) -> None:
        write(f"{self.root}/tools/checks.txt", "# a comment\n" + "".join(f"{line}\n" for line in lines))

    def gate(self, **how) -> tuple[int, list[str]]:
        status, output, _ = self.call(".ci/run", **how)
        return status, output.splitlines()

    def test_passes_and_records(self):
        self.set_checks("true :", "./apsim solo | grep -q 'proved apsim solo' : apsim")
        status, lines = self.gate()
        self.assertEqual((status, lines[-1]), (0, "7 passed, 0 failed"))
        self.assertIn("rt: lower proved", lines)
        self.assert_proved()
        self.assertEqual((self.calls("ci"), self.calls("try")), (1, 0))

    def test_a_failed_check(self):
        self.set_checks("true :", "sh -c 'exit 4' :", "sh -c 'exit 5' : apsim")
        status, lines = self.gate()
        self.assertEqual((status, lines[-1]), (4, "6 passed, 2 failed"))
        self.assertIn("gate: failed: sh -c 'exit 4'; sh -c 'exit 5'", lines)

    def test_a_failed_rt_ci(self):
        self.set_checks("true :", "false : apsim")
        status, lines = self.gate(behaviour="not proved")
        self.assertEqual((status, lines[-1]), (1, "5 passed, 1 failed"))
        self.assertIn("skipped: false (no proved apsim)", "\n".join(lines))
        self.assert_quick("isn't built yet")

    def test_programs_of_other_sources(self):
        self.build()
        self.set_checks("false : apsim apsview")
        write(f"{self.root}/crates/apsview/src/main.rt", "changed\n")
        status, lines = self.gate(behaviour="not proved")
        self.assertEqual((status, lines[-1]), (1, "4 passed, 1 failed"))
        self.assertIn("skipped: false (no proved apsview)", "\n".join(lines))
        self.assertEqual((self.calls("ci"), self.calls("try")), (1, 0))

    def test_sources_that_change_meanwhile(self):
        started = self.start(".ci/run", behaviour="slow")
        self.wait_until(lambda: self.calls("ci") == 1)
        write(f"{self.root}/crates/apsview/src/main.rt", "changed\n")
        output, _ = started.communicate(timeout=support.LONGEST_WAIT)
        self.assertIn(b"apsview isn't recorded", output)
        self.assert_proved()
        self.assert_quick("isn't built yet", "apsview")

    def test_no_kit(self):
        status, lines = self.gate(has_kit=False)
        self.assertEqual((status, lines[-1]), (125, "0 passed, 1 failed"))


if __name__ == "__main__":
    unittest.main()
