"""The schema of scenarios takes the limits of docs/FORMATS.md, and nothing beyond them."""
import copy
import os
import stat
import sys
import tempfile
import unittest
from typing import Any

sys.path.insert(0, os.path.dirname(os.path.dirname(os.path.abspath(__file__))))
import check_schema

SMALL = {
    "version": 2, "cpus": 1, "ticks": 10,
    "partition": [{"name": "A", "budget": 0}],
    "channel": [{"name": "c"}],
    "thread": [{"name": "t", "program": ["run forever"]}],
    "command": [{"tick": 0, "do": "query_parameters"}],
}

# The place of a value, and pairs of a value and whether it is one.
VALUES = {
    ("version",): [(1, True), (2, True), (0, False), (3, False), ("1", False), (True, False)],
    ("cpus",): [(1, True), (16, True), (0, False), (17, False)],
    ("tick",): [(100_000, True), (10_000_000, True), (99_000, False), (10_001_000, False), (100_001, False)],
    ("window",): [(8, True), (400, True), (7, False), (401, False), (8.5, False)],
    ("ticks",): [(1, True), (1_000_000, True), (0, False), (1_000_001, False)],
    ("call_ns",): [(1, True), (100_000, True), (0, False), (100_001, False)],
    ("free",): [("priority", True), ("ratio", True), ("fair", False), (1, False)],
    ("limit",): [(True, True), (False, True), (1, False), ("true", False)],
    ("bankruptcy",): [("basic", True), ("cancel", True), ("reboot", True), ("none", False)],
    ("colour",): [(2, False)],
    ("partition",): [([], True), ({}, False), ([1], False)],
    ("partition", 0, "name"): [("a-_9", True), ("a" * 15, True), ("a" * 16, False), ("", False), ("a.b", False),
                               ("System", False)],
    ("partition", 0, "budget"): [(1000, True), (1001, False), (-1, False)],
    ("partition", 0, "max"): [(1000, True), (1001, False)],
    ("partition", 0, "critical"): [(64_000_000_000, True), (64_000_000_001, False), (True, False)],
    ("partition", 0, "parent"): [("System", True), (0, False)],
    ("partition", 0, "need"): [(1, False)],
    ("channel", 0, "name"): [("d", True), ("d d", False)],
    ("thread", 0, "priority"): [(1, True), (255, True), (0, False), (256, False)],
    ("thread", 0, "policy"): [("fifo", True), ("rr", True), ("sporadic", False)],
    ("thread", 0, "critical"): [(True, True), (5, False)],
    ("thread", 0, "program"): [([], False), (["run 1"], False), (["run 1", "repeat"], True),
                               (["yield"] * 255 + ["exit"], True), (["yield"] * 256 + ["exit"], False)],
    ("command", 0): [({"do": "query_parameters"}, False), ({"tick": 1}, False), ({"tick": 1, "do": "delete"}, False),
                     ({"tick": -1, "do": "query_parameters"}, False),
                     ({"tick": 999_999, "do": "query_parameters"}, True),
                     ({"tick": 1, "do": "query_parameters", "thread": "t"}, False),
                     ({"tick": 1, "do": "create", "name": "B", "budget": 1, "max": 0}, True),
                     ({"tick": 1, "do": "create", "name": "B"}, False),
                     ({"tick": 1, "do": "modify", "partition": "A"}, False),
                     ({"tick": 1, "do": "modify", "partition": "A", "max": 3}, True),
                     ({"tick": 1, "do": "lookup", "partition": "A"}, True),
                     ({"tick": 1, "do": "lookup", "thread": "t"}, False),
                     ({"tick": 1, "do": "query_thread", "thread": "t"}, True),
                     ({"tick": 1, "do": "mark_critical", "partition": "A"}, False),
                     ({"tick": 1, "do": "set_parameters"}, False),
                     ({"tick": 1, "do": "set_parameters", "window": 7}, False),
                     ({"tick": 1, "do": "set_parameters", "limit": True}, True)],
}

OPERATIONS = ["run 1", "run 10000000000000", "sleep 9999999999999", "yield", "send c", "receive c", "reply", "join A",
              "priority 1", "priority 255", "critical on", "critical off"]
NO_OPERATIONS = ["run 0", "run 01", "run 10000000000001", "run  1", "run", "run +1", "sleep forever", "Yield", "yield ",
                 " reply", "send", "send a.b", "priority 0", "priority 256", "critical", "stop", ""]


def changed(place: tuple[Any, ...], value: Any) -> dict[str, Any]:
    """The small scenario with another value at this place."""
    document: Any = copy.deepcopy(SMALL)
    inner = document
    for step in place[:-1]:
        inner = inner[step]
    inner[place[-1]] = value
    return document


class Documents(unittest.TestCase):
    def setUp(self) -> None:
        self.schema = check_schema.validator()
        if self.schema is None:
            self.skipTest("the package python3-jsonschema is missing")

    def test_the_small_scenario_is_one(self) -> None:
        self.assertTrue(self.schema.is_valid(SMALL))

    def test_values(self) -> None:
        for place, values in VALUES.items():
            for value, is_one in values:
                with self.subTest(place=place, value=value):
                    self.assertEqual(self.schema.is_valid(changed(place, value)), is_one)

    def test_required_keys(self) -> None:
        for key in ("version", "cpus", "ticks"):
            without = {k: v for k, v in SMALL.items() if k != key}
            with self.subTest(key=key):
                self.assertFalse(self.schema.is_valid(without))

    def test_operations(self) -> None:
        for texts, are_ones in ((OPERATIONS, True), (NO_OPERATIONS, False)):
            for text in texts:
                with self.subTest(text=text):
                    document = changed(("thread", 0, "program"), [text, "repeat"])
                    self.assertEqual(self.schema.is_valid(document), are_ones)

    def test_budgets_in_parts_per_hundred(self) -> None:
        for budget, is_one in ((100, True), (101, False)):
            document = changed(("partition", 0, "budget"), budget)
            document["version"] = 1
            self.assertEqual(self.schema.is_valid(document), is_one)


class Programs(unittest.TestCase):
    def program(self, status: int) -> str:
        """A program that reads its input and ends with this status."""
        folder = tempfile.TemporaryDirectory()
        self.addCleanup(folder.cleanup)
        path = os.path.join(folder.name, "apsim")
        with open(path, "w", encoding="ascii") as file:
            file.write(f"#!/bin/sh\ncat > /dev/null\nexit {status}\n")
        os.chmod(path, os.stat(path).st_mode | stat.S_IXUSR)
        return path

    def setUp(self) -> None:
        self.schema = check_schema.validator()
        if self.schema is None:
            self.skipTest("the package python3-jsonschema is missing")

    def test_a_program_that_accepts_all_is_found(self) -> None:
        lines, refused = check_schema.wrongly_refused(self.schema, self.program(0), 20)
        self.assertGreater(refused, 0)
        self.assertEqual(len(lines), refused)

    def test_a_program_that_refuses_all_passes(self) -> None:
        lines, refused = check_schema.wrongly_refused(self.schema, self.program(2), 20)
        self.assertGreater(refused, 0)
        self.assertEqual(lines, [])


if __name__ == "__main__":
    unittest.main()
