"""Trials of threads, and the random scenarios that they are made with."""
import contextlib
import io
import os
import sys
import tomllib
import unittest

sys.path.insert(0, os.path.dirname(os.path.dirname(os.path.abspath(__file__))))
from random_scenarios import scenario
from thread_trials import busy_loops, fault_of_command, fault_of_run, tell

SLEEPER = f"{sys.executable} -c 'import time; time.sleep(60)'"

# It answers `run` with a journal line more than `solo`.
LONGER = f"""{sys.executable} -c 'import sys; print("x" * (1 + (sys.argv[1] == "run")))'"""

# It answers each call alike.
SAME = f"{sys.executable} -c 'print(1)'"

# It finds each journal illegal.
JUDGE = f"""{sys.executable} -c 'import sys; print("no"); sys.exit(9 * (sys.argv[1] == "check"))'"""


class RandomScenarios(unittest.TestCase):
    def test_a_seed_gives_one_text(self) -> None:
        self.assertEqual(scenario(5), scenario(5))
        self.assertNotEqual(scenario(5), scenario(6))

    def test_texts_are_toml_of_2_to_16_processors(self) -> None:
        cpus = {tomllib.loads(scenario(seed))["cpus"] for seed in range(300)}
        self.assertEqual(cpus, set(range(2, 17)))

    def test_each_operation_comes(self) -> None:
        rows = [row for seed in range(50) for row in tomllib.loads(scenario(seed))["thread"]]
        words = {text.split()[0] for row in rows for text in row["program"]}
        named = "run sleep yield send receive reply join priority critical repeat exit"
        self.assertEqual(words, set(named.split()))

    def test_only_the_last_operation_ends_a_program(self) -> None:
        ends = {"run forever", "repeat", "exit"}
        for seed in range(50):
            for row in tomllib.loads(scenario(seed))["thread"]:
                self.assertIn(row["program"][-1], ends)
                self.assertFalse(ends & set(row["program"][:-1]))


class ThreadTrials(unittest.TestCase):
    def test_a_run_without_an_end_is_told(self) -> None:
        self.assertIn("no end", fault_of_run(SLEEPER, 0, 0.2).fault or "")

    def test_fixed_order_is_compared_with_solo(self) -> None:
        self.assertIn("solo", fault_of_run(LONGER, 0, 60).fault or "")
        self.assertIsNone(fault_of_run(SAME, 0, 60).fault)

    def test_free_order_is_judged(self) -> None:
        self.assertEqual(fault_of_run(JUDGE, 1, 60).fault, "seed 1: no")
        self.assertIsNone(fault_of_run(SAME, 1, 60).fault)

    def test_a_status_that_no_run_has_is_told(self) -> None:
        self.assertIn("status 1", fault_of_run("false", 0, 60).fault or "")

    def test_a_command_made_again_has_to_pass(self) -> None:
        self.assertIsNone(fault_of_command("true", 0, 60).fault)
        self.assertEqual(fault_of_command("false", 3, 60).fault, "turn 3: status 1")
        self.assertIn("no end", fault_of_command(SLEEPER, 0, 0.2).fault or "")

    def test_faults_are_counted_and_no_trial_is_one(self) -> None:
        told = io.StringIO()
        with contextlib.redirect_stdout(told):
            self.assertEqual(tell(fault_of_command(word, 0, 60) for word in ["true", "false"]), 1)
            self.assertEqual(tell(iter([])), 1)
        self.assertIn("2 trials, 1 faults", told.getvalue())

    def test_busy_loops_end(self) -> None:
        with busy_loops(2) as loops:
            self.assertEqual([loop.poll() for loop in loops], [None, None])
        self.assertTrue(all(loop.poll() is not None for loop in loops))


if __name__ == "__main__":
    unittest.main()
