"""Lists and ranges of values."""
import tomllib
import unittest

from ..refusal import Refusal
from ..values import quoted, rising, values_of, whole_of


class Values(unittest.TestCase):
    def test_lists_and_ranges(self) -> None:
        self.assertEqual(values_of("10,20,50"), ("10", "20", "50"))
        self.assertEqual(values_of("20..40:5"), ("20", "25", "30", "35", "40"))
        self.assertEqual(values_of("7,20..31:10"), ("7", "20", "30"))
        self.assertEqual(values_of("1ms..2ms:250us"), ("1ms", "1.25ms", "1.5ms", "1.75ms", "2ms"))
        self.assertEqual(values_of("0.5%..1.5%:0.5%"), ("0.5%", "1%", "1.5%"))
        self.assertEqual(values_of("priority,ratio"), ("priority", "ratio"))

    def test_refused(self) -> None:
        for text, reason in (
                ("20..40", "no step"), ("20..40:0", "no values"), ("40..20:5", "no values"), ("1,,2", "empty value"),
                ("1ms..5%:1ms", "different units"), ("a..b:c", "no LOW..HIGH:STEP"), ("1,2,1", "is twice"),
                ("0..100000000:1", "more than 1000000")):
            with self.subTest(text), self.assertRaisesRegex(Refusal, reason):
                values_of(text)

    def test_times_are_ns(self) -> None:
        self.assertEqual(whole_of("16.7ms"), 16_700_000)
        self.assertEqual(whole_of("3s"), 3_000_000_000)
        self.assertIsNone(whole_of("0.5ns"))
        self.assertIsNone(whole_of("5%"))

    def test_a_quoted_text_says_the_same(self) -> None:
        for text in ('a "b" \\ c', "tab\tdel\x7f", "ü✓"):
            self.assertEqual(tomllib.loads(f"v = {quoted(text)}")["v"], text)

    def test_rising_by_size(self) -> None:
        self.assertEqual(rising(("2ms", "100us", "10us"), "k"), ("10us", "100us", "2ms"))
        with self.assertRaisesRegex(Refusal, "no numbers of one unit"):
            rising(("priority", "ratio"), "free")
