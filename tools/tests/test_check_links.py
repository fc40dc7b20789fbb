"""Which links of a document are wrong."""
import os
import sys
import tempfile
import unittest

sys.path.insert(0, os.path.dirname(os.path.dirname(os.path.abspath(__file__))))
from check_links import anchors_of, complaint, links_of


class Links(unittest.TestCase):
    def test_they_are_found_with_their_lines(self) -> None:
        self.assertEqual(links_of("a [b](c.md)\n![d](e.svg) [f](g.md#h)"), [(1, "c.md"), (2, "e.svg"), (2, "g.md#h")])

    def test_code_has_none(self) -> None:
        self.assertEqual(links_of("`[b](c.md)`\n```\n[b](c.md)\n```"), [])


class Anchors(unittest.TestCase):
    def test_small_letters_hyphens_and_no_other_signs(self) -> None:
        self.assertEqual(anchors_of("## The first window, in `code`"), {"the-first-window-in-code"})

    def test_the_second_of_a_name_has_a_number(self) -> None:
        self.assertEqual(anchors_of("# Times\n# Times\n# Times"), {"times", "times-1", "times-2"})

    def test_a_comment_of_a_block_of_code_is_no_heading(self) -> None:
        self.assertEqual(anchors_of("```\n# no heading\n```"), set())


class Complaints(unittest.TestCase):
    def setUp(self) -> None:
        folder = tempfile.TemporaryDirectory()
        self.addCleanup(folder.cleanup)
        self.path = os.path.join(folder.name, "a.md")
        for name in ("a.md", "b.md"):
            with open(os.path.join(folder.name, name), "w", encoding="utf-8") as file:
                file.write("# Here\n")

    def test_right_ones(self) -> None:
        for target in ("b.md", "#here", "b.md#here", "https://example.org/x"):
            with self.subTest(target=target):
                self.assertEqual(complaint(self.path, target), "")

    def test_wrong_ones(self) -> None:
        for target, why in (("c.md", "no such file"), ("#there", "no such heading"), ("b.md#there", "no such heading")):
            with self.subTest(target=target):
                self.assertEqual(complaint(self.path, target), why)


if __name__ == "__main__":
    unittest.main()
