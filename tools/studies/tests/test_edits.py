"""Texts with other values, at their places."""
import tomllib
import unittest
from pathlib import Path

from ..edits import SCENARIO, SHORT_FORM, Template, document_of, path_of, replaced, value_at
from ..refusal import Refusal
from ..toml_places import places_of
from .base import ROOT

MIXED = '''# head
version = 1 # one
title = """a "quoted" # text
[[partition]]"""
partition = [
  {name = "A", budget = 3}, # first

  {name = "B", 'budget' = 4, "odd key" = [1, [2, 3]]},
  {},
]
[[thread]] # a thread
name = "B"
priority = 7   # seven
program = ["run 5", 'sleep # 6']
[thread.inner]
deep = 1979-05-27 07:32:00 # a moment
[[thread]]
name = "t"'''


def filled(text: str, keys: tuple[str, ...], values: tuple[str, ...]) -> str:
    return Template(text, keys, SCENARIO).filled(values)


def refused_or_changed(text: str) -> bool:
    """Whether a text is refused, or only its key `a` has another value."""
    try:
        return filled(text, ("a",), ("2",)) == text.replace("a = 1", "a = 2")
    except Refusal as reason:
        return "nested" in str(reason) or "recursion" in str(reason)


class Places(unittest.TestCase):
    def test_each_value_lies_where_its_text_is(self) -> None:
        places = places_of(MIXED).values
        pieces = {path: MIXED[span.start:span.end] for path, span in places.items()}
        self.assertEqual(pieces[("version",)], "1")
        self.assertEqual(pieces[("partition", 1, "budget")], "4")
        self.assertEqual(pieces[("partition", 1, "odd key", 1, 0)], "2")
        self.assertEqual(pieces[("thread", 0, "program", 1)], "'sleep # 6'")
        self.assertEqual(pieces[("thread", 0, "inner", "deep")], "1979-05-27 07:32:00")
        self.assertEqual(pieces[("thread", 1, "name")], '"t"')

    def test_all_values_of_all_example_files_are_found(self) -> None:
        files = sorted((ROOT / "scenarios").glob("*.toml"))
        self.assertGreater(len(files), 10)
        for file in files:
            self.check_values(file)

    def check_values(self, file: Path) -> None:
        text = file.read_text()
        document = tomllib.loads(text)
        for path, span in places_of(text).values.items():
            piece = tomllib.loads("value = " + text[span.start:span.end])["value"]
            self.assertEqual(piece, value_at(document, path), (file.name, path))


class Edits(unittest.TestCase):
    def test_a_value_of_a_list_changes_and_nothing_else(self) -> None:
        self.assertEqual(filled(MIXED, ("A.budget",), ("9",)), MIXED.replace("budget = 3", "budget = 9"))

    def test_a_value_below_a_header_changes(self) -> None:
        self.assertEqual(filled(MIXED, ("thread:B.priority",), ("8",)), MIXED.replace("= 7   #", "= 8   #"))

    def test_a_top_key_changes(self) -> None:
        self.assertEqual(filled(MIXED, ("version",), ("2",)), MIXED.replace("version = 1 ", "version = 2 "))

    def test_an_absent_top_key_is_added_behind_the_others(self) -> None:
        self.assertEqual(filled(MIXED, ("window",), ("20",)), MIXED.replace("]\n[[thread]] #", "]\nwindow = 20\n[[thread]] #"))

    def test_an_absent_key_of_an_inline_table_is_added_at_its_end(self) -> None:
        self.assertEqual(filled(MIXED, ("A.max",), ("50",)), MIXED.replace("budget = 3}", "budget = 3, max = 50}"))

    def test_an_absent_key_of_a_header_is_added_below_its_others(self) -> None:
        expected = MIXED.replace("'sleep # 6']\n", "'sleep # 6']\npolicy = \"rr\"\n")
        self.assertEqual(filled(MIXED, ("thread:B.policy",), ("rr",)), expected)

    def test_an_absent_key_of_the_last_table_is_added_at_the_end(self) -> None:
        self.assertEqual(filled(MIXED, ("t.priority",), ("8",)), MIXED + "\npriority = 8")

    def test_two_absent_keys_of_one_table(self) -> None:
        expected = MIXED.replace("budget = 3}", "budget = 3, max = 50, critical = 7}")
        self.assertEqual(filled(MIXED, ("A.max", "A.critical"), ("50", "7")), expected)

    def test_a_key_goes_into_an_empty_table(self) -> None:
        self.assertEqual(replaced("a = [{ }]", ("a", 0, "x"), "1"), "a = [{x = 1 }]")

    def test_a_key_goes_before_the_first_header_of_a_text_without_top_keys(self) -> None:
        self.assertEqual(filled('[[thread]]\nname = "t"\n', ("cpus",), ("2",)), 'cpus = 2\n[[thread]]\nname = "t"\n')

    def test_ends_of_lines_stay_those_of_the_text(self) -> None:
        text = "version = 1\r\ncpus = 2\r\n"
        self.assertEqual(filled(text, ("window",), ("9",)), "version = 1\r\ncpus = 2\r\nwindow = 9\r\n")

    def test_times_are_whole_numbers_in_a_scenario(self) -> None:
        self.assertEqual(filled(MIXED, ("A.critical",), ("1.5ms",)), MIXED.replace("budget = 3}", "budget = 3, critical = 1500000}"))

    def test_times_are_texts_in_a_short_form(self) -> None:
        text = 'task = [{name = "a", period = "5ms"}]'
        got = Template(text, ("a.period", "a.offset"), SHORT_FORM).filled(("6ms", "1ms"))
        self.assertEqual(got, 'task = [{name = "a", period = "6ms", offset = "1ms"}]')

    def test_a_truth_value_and_a_text(self) -> None:
        text = 'limit = false\nfree = "priority"\n'
        self.assertEqual(filled(text, ("limit", "free"), ("true", "true")), 'limit = true\nfree = "true"\n')


class Names(unittest.TestCase):
    def refusal(self, key: str) -> str:
        with self.assertRaises(Refusal) as caught:
            path_of(key, document_of(MIXED), SCENARIO)
        return str(caught.exception)

    def test_a_name_of_two_tables_is_refused_with_both_ways(self) -> None:
        self.assertIn("partition:B or thread:B", self.refusal("B.budget"))

    def test_an_unknown_name_is_refused(self) -> None:
        self.assertIn("has the name X", self.refusal("X.budget"))

    def test_an_unknown_kind_is_refused(self) -> None:
        self.assertIn("server: is no kind of a scenario", self.refusal("server:A.budget"))

    def test_an_empty_key_is_refused(self) -> None:
        self.assertIn("names no key", self.refusal("A."))

    def test_a_list_is_refused(self) -> None:
        with self.assertRaisesRegex(Refusal, "only single values"):
            Template(MIXED, ("thread:B.program",), SCENARIO)

    def test_one_key_named_twice_is_refused(self) -> None:
        with self.assertRaisesRegex(Refusal, "varied twice"):
            Template(MIXED, ("A.budget", "partition:A.budget"), SCENARIO)

    def test_a_text_that_is_nested_too_deeply_is_refused(self) -> None:
        for depth in (200, 300, 400, 500, 100_000):
            with self.subTest(depth):
                text = f"a = 1\nb = {'[' * depth}{']' * depth}\n"
                self.assertTrue(refused_or_changed(text))

    def test_what_is_no_toml_is_refused(self) -> None:
        with self.assertRaisesRegex(Refusal, "not TOML 1.0"):
            Template("a = ", (), SCENARIO)
