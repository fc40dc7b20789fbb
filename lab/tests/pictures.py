#!/usr/bin/python3
"""Makes the pictures of the lab in docs/pictures: lab/tests/pictures.py. Look at them before you commit them."""
from __future__ import annotations

import sys
from pathlib import Path

sys.dont_write_bytecode = True
sys.path.insert(0, str(Path(__file__).resolve().parents[2]))

from lab.tests.browser import ROOT, Paged, missing_browser, size  # noqa: E402

PICTURES = ROOT / "docs" / "pictures"


class Shots(Paged):
    """What is done with the page for each picture."""

    checkout = ROOT

    def shot(self, name: str) -> None:
        """A picture without the measured time, which is another one each time."""
        self.js("document.activeElement.blur(); document.querySelector('#ended small')?.remove()")
        self.driver.save_screenshot(str(PICTURES / f"{name}.png"))

    def page(self) -> None:
        size(self.driver, 1280, 900)
        self.shown()
        self.shot("lab-1280")

    def why(self) -> None:
        size(self.driver, 1920, 1080)
        self.js("Why.ask('browser', 300000000, {zoom: true})")
        self.until("document.getElementById('why-text') && Picture.current() && Picture.current().marks.stretch.to < 400000000")
        self.until("document.querySelector('.cross')")
        self.shot("lab-1920")

    def runTest(self) -> None:
        self.page()
        self.why()


def main() -> int:
    if missing_browser():
        print(missing_browser(), file=sys.stderr)
        return 1
    from unittest import TestSuite, TextTestRunner
    done = TextTestRunner().run(TestSuite([Shots()]))
    return 0 if done.wasSuccessful() else 1


if __name__ == "__main__":
    sys.exit(main())
