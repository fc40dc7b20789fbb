"""What is said of how far a proof is."""
import unittest
from unittest import mock

import support

import checkout
import follow
import progress


class Shown(support.Case):
    def setUp(self) -> None:
        super().setUp()
        self.lines = checkout.crate_lines(self.root)
        self.names = checkout.crates_of(("apsim", "apsview"), self.lines)
        self.now = 1000.0
        clock = mock.patch.object(progress.time, "monotonic", lambda: self.now)
        clock.start()
        self.addCleanup(clock.stop)
        self.shown = progress.Progress(self.root, self.names, self.lines, 4)
        self.shown.usual = {"lower": 100.0, "upper": 60.0, "apsim": 40.0, "apsview": 30.0}
        self.shown.ahead = progress.longest_ahead(self.names, self.lines, self.shown.usual)

    def test_each_behind_those_it_uses(self):
        self.assertEqual(self.names, ["lower", "upper", "apsim", "apsview"])

    def test_longest_chains(self):
        self.assertEqual(self.shown.ahead, {"lower": 200.0, "upper": 100.0, "apsim": 40.0, "apsview": 30.0})

    def test_time_left_is_that_of_the_longest_chain(self):
        self.assertEqual(self.shown.seconds_left(), 200.0)
        self.shown.begin("lower")
        self.now += 25
        self.assertEqual(self.shown.seconds_left(), 175.0)

    def test_a_slow_machine(self):
        for name in ("lower", "upper"):
            self.shown.begin(name)
            self.now += 2 * self.shown.usual[name]
            self.shown.end(name, is_kept=False)
        self.assertEqual(self.shown.seconds_left(), 80.0)
        self.assertIn("2 of 4 crates proved; at work on nothing; 5 min 20 s, about 1 min 20 s to go", self.shown.text())

    def test_what_was_kept_says_nothing_of_the_machine(self):
        self.shown.begin("lower")
        self.now += 1
        self.shown.end("lower", is_kept=True)
        self.assertEqual((self.shown.pace(), self.shown.seconds_left()), (1.0, 100.0))

    def test_a_failed_crate_is_at_work_no_more(self):
        self.shown.begin("lower")
        self.shown.fail("lower")
        self.shown.begin("lower")
        self.assertIn("0 of 4 crates proved; at work on nothing", self.shown.text())

    def test_lines_of_the_kit(self):
        said = follow.Said(self.shown)
        for line in ("rt: lower is kept: an earlier run ..", "== upper", "logic=proved", "rt: upper proved", "== apsim: its tests",
                     "error: a test", "rt: apsim: its tests are NOT PROVED", "== apsview", "error: so", "rt: apsview NOT PROVED"):
            said.take(line)
        self.assertEqual(self.shown.done, {"lower", "upper"})
        self.assertEqual(said.what_failed().splitlines(), ["error: a test", "rt: apsim: its tests are NOT PROVED", "error: so", "rt: apsview NOT PROVED"])


if __name__ == "__main__":
    unittest.main()
