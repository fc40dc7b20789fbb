"""How the tables of FORMATS are read."""
import os
import sys
import unittest

sys.path.insert(0, os.path.dirname(os.path.dirname(os.path.abspath(__file__))))
import formats

TEXT = """## Command line

| words | does |
|---|---|
| `go` | runs |
| `see` | looks |

| option | of | value | default |
|---|---|---|---|
| `--way W` | `go`, `see` | `near`, `far` | `near` |
| `--most N` | `go` | 1 to 32, `System` counted | 7 |

## Views

| report | is | options |
|---|---|---|
| `a`, `b` | pictures | `--from TICK`, both required |
| `c` | a table | |
"""


class Tables(unittest.TestCase):
    def test_commands_with_their_options(self) -> None:
        self.assertEqual(formats.commands(TEXT), {"go": ["--way", "--most"], "see": ["--way"]})

    def test_values_that_are_words(self) -> None:
        self.assertEqual(formats.values(TEXT), {"--way": ["near", "far"]})

    def test_reports_with_their_options(self) -> None:
        self.assertEqual(formats.reports(TEXT), {"a": ["--from", "--limit"], "b": ["--from", "--limit"], "c": ["--limit"]})

    def test_a_missing_table_is_an_error(self) -> None:
        with self.assertRaises(StopIteration):
            formats.rows_of(TEXT, "Views", "command")


if __name__ == "__main__":
    unittest.main()
