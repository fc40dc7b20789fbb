"""Numbers of reports, and what is required of them."""
import unittest

from ..measures import Missing, measure_of, requirement_of, value_of
from ..refusal import Refusal

REPORT = """aps latency 1
thread 0 t
billed 0 17
wake 3 total 60 worst 50 at 0
thread 1 ctl
billed 2 18
wake 0 total 0 worst 0 at -
late 0 of 40
response none
share p50 10 p99 30
thread 2 late
queue 0 9
"""


def value(place: str) -> str:
    return value_of(REPORT, measure_of(f"m = latency : {place}"))


class Measures(unittest.TestCase):
    def test_the_first_number_behind_the_line(self) -> None:
        self.assertEqual(value("wake"), "3")
        self.assertEqual(value("billed 2"), "18")
        self.assertEqual(value("late"), "0")

    def test_the_number_behind_a_word(self) -> None:
        self.assertEqual(value("wake worst"), "50")
        self.assertEqual(value("share p99"), "30")

    def test_a_line_between_two_others(self) -> None:
        self.assertEqual(value("thread 1 > wake worst"), "0")
        self.assertEqual(value("thread 1 ctl > billed 2"), "18")

    def test_none(self) -> None:
        self.assertEqual(value("thread 1 > wake at"), "none")
        self.assertEqual(value("response"), "none")
        self.assertEqual(value("response worst"), "none")
        self.assertEqual(value("late worst"), "none")

    def test_missing(self) -> None:
        for place, reason in (
                ("wait", "latency has no line 'wait'"), ("thread 7 > wake", "no line 'thread 7'"),
                ("thread 1 > queue", "no line 'thread 1 > queue'"), ("wake median", "no word 'median'"),
                ("thread 0 t", "no number behind"), ("wak", "no line 'wak'")):
            with self.subTest(place), self.assertRaisesRegex(Missing, reason):
                value(place)

    def test_words_go_to_their_program(self) -> None:
        self.assertEqual(measure_of("m = summary --limit 7 : idle").call.words, ("solo", "--report", "summary", "--limit", "7"))
        self.assertEqual(measure_of("m=latency : wake").call.program, "apsview")
        self.assertEqual(measure_of("m = explain --thread=-a --at 7 : x y").call.words, ("explain", "--thread=-a", "--at", "7"))

    def test_refused(self) -> None:
        for text in ("late", "late = responses", "late = responses :", "= a : b", "late = a : b > ", "1st = a : b"):
            with self.subTest(text), self.assertRaises(Refusal):
                measure_of(text)


class Requirements(unittest.TestCase):
    def test_each_comparison(self) -> None:
        measures = (measure_of("m = a : b"),)
        for text, below, equal, above in (
                ("m = 5", False, True, False), ("m != 5", True, False, True), ("m < 5", True, False, False),
                ("m <= 5", True, True, False), ("m > 5", False, False, True), ("m>=5", False, True, True)):
            required = requirement_of(text, measures)
            self.assertEqual([required.is_met(value) for value in ("4", "5", "6")], [below, equal, above], text)
            self.assertFalse(required.is_met("none"), text)

    def test_a_time(self) -> None:
        required = requirement_of("m <= 5ms", (measure_of("m = a : b"),))
        self.assertTrue(required.is_met("5000000"))
        self.assertFalse(required.is_met("5000001"))

    def test_refused(self) -> None:
        for text in ("n = 5", "m ~ 5", "m = x", "m = 5%"):
            with self.subTest(text), self.assertRaises(Refusal):
                requirement_of(text, (measure_of("m = a : b"),))
