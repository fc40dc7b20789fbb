"""The grammar of options, and the words that programs are called with."""
from __future__ import annotations

import unittest

from lab.server.words import REPORTS, BadQuery, bundle_words, kept_lines, options_of, wanted, words_of


class Words(unittest.TestCase):
    def test_accepted(self) -> None:
        self.assertEqual(options_of(""), {})
        self.assertEqual(options_of("want=summary,threads&from=0&to=40"), {"want": "summary,threads", "from": "0", "to": "40"})
        self.assertEqual(options_of("thread=-a_9&at=10000000000000"), {"thread": "-a_9", "at": "10000000000000"})
        self.assertEqual(options_of("period=50000000/3"), {"period": "50000000/3"})

    def test_refused(self) -> None:
        for query in (
                "want", "want=", "want=fly", "want=summary,summary", "want=summary,", "x=1", "from=1&from=2", "from=-1", "from=01",
                "from=1000001", "to=1e3", "from=5&to=5", "from=6&to=5", "at=10000000000001", "thread=", "thread=a.b", "thread=%61",
                "thread=a b", "thread=a/b", "thread=sixteen-letters-", "thread=\u00e9", "only=a\n", "limit=0", "limit=4000001",
                "worst=all", "top=101", "period=1/0", "deadline=0", "&", "want=summary&", "=", "want=bundle/../x", "--to=4"):
            with self.assertRaises(BadQuery, msg=query):
                options_of(query)

    def test_words(self) -> None:
        """Each option is one word, so a value that begins with a hyphen is no option."""
        self.assertEqual(words_of("threads", {"from": "1", "to": "2"}), ("threads", "--from=1", "--to=2"))
        self.assertEqual(words_of("explain", {"thread": "--at", "at": "7"}), ("explain", "--thread=--at", "--at=7"))
        self.assertEqual(words_of("summary", {"from": "1", "limit": "9"}), ("solo", "--limit=9"))

    def test_needs(self) -> None:
        for options in ({}, {"thread": "a"}, {"at": "7"}):
            with self.assertRaises(BadQuery):
                words_of("explain", options)
        with self.assertRaises(BadQuery):
            wanted({"want": "summary,explain", "thread": "a"})
        with self.assertRaises(BadQuery):
            wanted({})

    def test_bundle(self) -> None:
        self.assertEqual(bundle_words(("summary", "shares"), {"limit": "5", "from": "1"}),
                         ("bundle", "--reports=summary,shares", "--limit=5"))

    def test_kept_lines(self) -> None:
        self.assertEqual(kept_lines("head\na,1\nab,2\na,3\n", "a"), "head\na,1\na,3\n")

    def test_table(self) -> None:
        """Every option that a report takes has a grammar."""
        from lab.server.words import OPTIONS
        for name, report in REPORTS.items():
            self.assertLessEqual(set(report.takes), set(OPTIONS), name)
            self.assertLessEqual(set(report.needs), set(report.takes), name)


if __name__ == "__main__":
    unittest.main()
