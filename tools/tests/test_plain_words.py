"""What plain_words refuses in a document, and what it lets pass."""
import os
import sys
import unittest

sys.path.insert(0, os.path.dirname(os.path.dirname(os.path.abspath(__file__))))
from plain_words import complaints

LONG = "x" * 60 + " " + "y" * 40
FITS = "x" * 60 + " " + "y" * 39


class LongLines(unittest.TestCase):
    def test_101_columns_are_too_many(self) -> None:
        self.assertEqual(complaints("d.md", LONG), ["d.md:1: 101 columns"])

    def test_100_columns_pass(self) -> None:
        self.assertEqual(complaints("d.md", FITS), [])

    def test_columns_are_characters_and_not_bytes(self) -> None:
        self.assertEqual(complaints("d.md", "ä" * 100), [])

    def test_a_row_of_a_table_passes(self) -> None:
        self.assertEqual(complaints("d.md", f"| a |\n|---|\n| {LONG} |"), [])

    def test_a_fenced_block_passes_and_what_follows_does_not(self) -> None:
        self.assertEqual(complaints("d.md", f"```\n{LONG}\n```\n{LONG}"), ["d.md:4: 101 columns"])

    def test_an_indented_block_passes(self) -> None:
        self.assertEqual(complaints("d.md", f"text\n\n    {LONG}\n"), [])

    def test_an_indented_line_of_a_paragraph_does_not(self) -> None:
        self.assertEqual(complaints("d.md", f"text\n    {LONG}"), ["d.md:2: 105 columns"])

    def test_addresses_do_not_count(self) -> None:
        self.assertEqual(complaints("d.md", "see https://example.org/" + "a" * 100), [])
        self.assertEqual(complaints("d.md", "[see](" + "a" * 100 + ".md)"), [])


class Words(unittest.TestCase):
    def test_each_of_them(self) -> None:
        for words in ("whoever", "is to be had", "else it were", "goes by"):
            with self.subTest(words=words):
                self.assertEqual(complaints("d.md", f"one\ntwo {words} three"), [f'd.md:2: the words "{words}"'])

    def test_at_the_beginning_of_a_sentence(self) -> None:
        self.assertEqual(complaints("d.md", "Whoever waits"), ['d.md:1: the words "whoever"'])

    def test_across_the_end_of_a_line(self) -> None:
        self.assertEqual(complaints("d.md", "it goes\n  by priority"), ['d.md:1: the words "goes by"'])

    def test_in_a_table_and_in_a_quotation(self) -> None:
        self.assertEqual(complaints("d.md", "| goes by |"), ['d.md:1: the words "goes by"'])
        self.assertEqual(complaints("d.md", "> it goes\n> by"), ['d.md:1: the words "goes by"'])

    def test_not_in_code(self) -> None:
        for text in ("`whoever`", "```\nwhoever\n```", "text\n\n    whoever\n"):
            with self.subTest(text=text):
                self.assertEqual(complaints("d.md", text), [])

    def test_not_in_other_words(self) -> None:
        self.assertEqual(complaints("d.md", "it undergoes bypassing"), [])


if __name__ == "__main__":
    unittest.main()
