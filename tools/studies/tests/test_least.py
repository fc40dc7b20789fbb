"""The search by halves."""
import unittest
from collections.abc import Callable

from ..least import Search


def search(count: int, does: Callable[[int], bool]) -> Search:
    found = Search(count)
    while wanted := found.wanted():
        for index in wanted:
            found.learn(index, does(index))
    return found


class Least(unittest.TestCase):
    def test_the_least_of_each_rising_row(self) -> None:
        for count in range(1, 70):
            for least in range(count):
                found = search(count, lambda index, least=least: index >= least)
                self.assertEqual((found.found, found.falls()), (least, []))

    def test_few_are_tried(self) -> None:
        self.assertLessEqual(len(search(1000, lambda index: index >= 617).met), 16)

    def test_the_neighbours_are_tried(self) -> None:
        self.assertLessEqual({615, 616, 617, 618, 619}, set(search(1000, lambda index: index >= 617).met))

    def test_none(self) -> None:
        found = search(100, lambda index: False)
        self.assertIsNone(found.found)
        self.assertLessEqual({0, 99, 49}, set(found.met))

    def test_one_value(self) -> None:
        self.assertEqual(search(1, lambda index: True).found, 0)
        self.assertIsNone(search(1, lambda index: False).found)

    def test_a_row_that_falls_again(self) -> None:
        found = search(20, lambda index: index >= 5 and index != 6)
        self.assertEqual((found.found, found.falls()), (5, [(5, 6)]))

    def test_a_lower_neighbour_that_does(self) -> None:
        found = search(41, lambda index: index in (18, 20) or index > 20)
        self.assertEqual((found.found, found.falls()), (18, [(18, 19)]))

    def test_a_row_whose_end_fails(self) -> None:
        found = search(41, lambda index: 12 <= index < 35)
        self.assertEqual(found.found, 12)
        self.assertEqual(len(found.falls()), 1)
