"""Whole calls of apsdiff, with stand-ins for the programs, and its verdicts."""
import unittest

from ..changed_keys import changes
from ..comparison import Tolerance, tolerance_of, verdict
from ..figures import Figure, Worse, figures_of, nearest_rank
from ..refusal import Refusal
from .base import SCENARIO, StudyTest

HEAD = "verdict\tof\tname\tfigure\tbefore\tafter\tdifference"


class Keys(unittest.TestCase):
    def test_tables_are_compared_by_name(self) -> None:
        before = {"window": 100, "limit": True, "thread": [{"name": "a", "program": ["x", "y"]}, {"name": "b", "priority": 1}]}
        after = {"window": 50, "limit": True, "thread": [{"name": "b", "priority": 2}, {"name": "a", "program": ["x"]}]}
        self.assertEqual(changes(before, after), [
            ("-", "window", "100", "50"), ("thread:a", "program[1]", "y", "-"), ("thread:b", "priority", "1", "2")])

    def test_tables_without_a_name_are_compared_by_place(self) -> None:
        self.assertEqual(changes({"command": [{"tick": 1}]}, {"command": [{"tick": 1}, {"tick": 2}]}),
                         [("command:1", "tick", "-", "2")])


class Figures(unittest.TestCase):
    def test_the_longest_wait_counts_the_open_one(self) -> None:
        text = "aps latency 1\nthread 0 t\nwake 1 total 5 worst 5 at 0\npreempted 2 total 9 worst 8 at 1\nopen ready 11 at 9\n"
        self.assertEqual(figures_of({"latency": text}), {Figure("thread", "t", "ready worst"): 11})

    def test_percentiles_are_of_the_nearest_rank(self) -> None:
        self.assertEqual([nearest_rank(list(range(1, 11)), percent) for percent in (50, 90, 99)], [5, 9, 10])

    def test_shares(self) -> None:
        text = "aps shares 1\npartition 1 A\nshort 7 others 9 window 3\noverspent 2 first 3 worst 9 at 4\nlacked 5 worst 4 at 1\n"
        self.assertEqual({figure.what: value for figure, value in figures_of({"shares": text}).items()},
                         {"short": 7, "overspent": 2, "overspent worst": 9, "lacked": 5, "lacked worst": 4})


class Verdicts(unittest.TestCase):
    def test_a_time(self) -> None:
        time = Figure("thread", "t", "ready worst")
        for after, expected in ((90, "better"), (105, "within"), (106, "worse")):
            self.assertEqual(verdict(time, 100, after, Tolerance(nanoseconds=5)), expected)

    def test_a_part(self) -> None:
        count = Figure("cycle", "t", "count", Worse.LESS, is_time=False)
        for after, expected in ((201, "better"), (190, "within"), (189, "worse")):
            self.assertEqual(verdict(count, 200, after, tolerance_of("5%,1s")), expected)

    def test_neither(self) -> None:
        self.assertEqual(verdict(Figure("run", "-", "idle", Worse.NEITHER), 1, 2, Tolerance()), "other")
        self.assertEqual(verdict(Figure("run", "-", "over"), None, 2, Tolerance()), "other")

    def test_refused_tolerances(self) -> None:
        for text in ("5", "x", "-5%", "5%,", "3Hz"):
            with self.subTest(text), self.assertRaises(Refusal):
                tolerance_of(text)


class Calls(StudyTest):
    def compared(self, after: str, *words: str) -> tuple[int, list[str], str]:
        status, out, err = self.ended("apsdiff", self.scenario, self.written("b.toml", after), *words)
        return status, out.splitlines(), err

    def test_what_got_worse_is_first_behind_the_keys(self) -> None:
        status, rows, err = self.compared(SCENARIO.replace("25", "20"))
        self.assertEqual((status, err), (1, ""))
        self.assertEqual(rows, [
            HEAD,
            "changed\tkey\tpartition:Ctl\tbudget\t25\t20\t-5",
            "worse\tthread\tctl\tcall db count\t25\t20\t-5",
            "worse\tthread\tctl\tready worst\t975\t980\t+5",
            "better\tcycle\tctl\tp50\t1025\t1020\t-5",
            "other\tpartition\tCtl\tbilled\t2500\t2000\t-500",
            "other\tthread\tctl\tran\t25\t20\t-5"])

    def test_within_the_tolerance_the_status_is_0(self) -> None:
        status, rows, _ = self.compared(SCENARIO.replace("25", "24"), "--tolerance", "4%,5ns")
        self.assertEqual((status, [row.split("\t")[0] for row in rows[2:4]]), (0, ["within", "within"]))
        status, _, _ = self.compared(SCENARIO.replace("25", "24"), "--tolerance", "5ns")
        self.assertEqual(status, 1)

    def test_the_same_text_has_no_differences(self) -> None:
        self.assertEqual(self.compared(SCENARIO), (0, [HEAD], ""))

    def test_overspending_is_a_regression(self) -> None:
        self.assertIn("worse\tpartition\tCtl\toverspent\t0\t40\t+40", self.compared(SCENARIO.replace("25", "40"))[1])

    def test_a_run_that_ends_early_is_a_regression(self) -> None:
        status, rows, _ = self.compared(SCENARIO + 'stand_in = "limit"\n')
        self.assertEqual((status, rows[2:]), (1, ["worse\trun\t-\tend\thorizon\tlimit\t-"]))

    def test_a_report_that_is_not_there_yet_is_left_out_and_said_once(self) -> None:
        self.environment["STAND_IN_LACKS"] = "responses"
        status, rows, err = self.compared(SCENARIO)
        self.assertEqual((status, rows), (0, [HEAD]))
        self.assertEqual(err, "apsdiff: apsview has no report responses yet; its figures are left out\n")

    def test_another_report_that_is_not_there_is_refused(self) -> None:
        self.environment["STAND_IN_LACKS"] = "latency"
        status, rows, err = self.compared(SCENARIO)
        self.assertEqual((status, rows), (2, []))
        self.assertIn("refuses the words 'latency'", err)

    def test_a_refused_scenario_is_named_with_its_hint(self) -> None:
        status, rows, err = self.compared(SCENARIO + 'stand_in = "refuse"\n')
        self.assertEqual((status, rows), (2, []))
        self.assertIn("b.toml: refused budget-over partition[0].budget\npartition[0].budget: 200 is out of range", err)

    def test_short_forms_are_compared_by_their_own_keys(self) -> None:
        task = 'task = [{name = "a", period = "%s"}]\n'
        self.scenario = self.written("a.toml", SCENARIO + task % "5ms")
        status, rows, _ = self.compared(SCENARIO + task % "6ms", "--tasks")
        self.assertEqual((status, rows), (0, [HEAD, "changed\tkey\ttask:a\tperiod\t5ms\t6ms\t-"]))

    def test_a_run_that_hangs_is_killed(self) -> None:
        status, _, err = self.compared(SCENARIO + 'stand_in = "hang"\n', "--seconds", "3")
        self.assertEqual(status, 2)
        self.assertIn("b.toml: error", err)
        self.assertIn("killed after 3 s", err)

    def test_without_a_program_there_is_status_125(self) -> None:
        (self.programs / "apsim").unlink()
        status, _, err = self.compared(SCENARIO)
        self.assertEqual(status, 125)
        self.assertIn("./prove apsim", err)
