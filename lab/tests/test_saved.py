"""Saved pages: what is in them, and when they stop."""
from __future__ import annotations

import base64
import gzip
import hashlib
import json
import re
import tempfile
import time
import unittest
from pathlib import Path
from threading import Event, Thread

from lab.server.child import Limits
from lab.server.moments import Question, inside, questions_of, roundest
from lab.server.programs import Programs, in_folder
from lab.server.reports import Reports
from lab.server.runs import Runner
from lab.server.saved import Most, Saver, levels
from lab.tests.client import ROOT, Lab, programs_in
from lab.tests.stand_in import LATENCY
from lab.tests.test_runs import asked_once, children_of_lab, within


class Moments(unittest.TestCase):
    def test_roundest(self) -> None:
        for low, high, found in ((49_750_938, 49_849_000, 49_800_000), (0, 5, 0), (7, 7, 7), (12, 19, 15), (95, 105, 100),
                                 (1, 999, 500), (10_000_000_000_000, 10_000_000_000_000, 10_000_000_000_000)):
            self.assertEqual(roundest(low, high), found)

    def test_inside(self) -> None:
        """In the middle half of the wait."""
        for begin, length in ((155_000_000, 204_781_000), (0, 1), (3, 2), (168_502_000, 9_901_000)):
            self.assertTrue(begin + length // 4 <= inside(begin, length) <= begin + length * 3 // 4)

    def test_questions(self) -> None:
        self.assertEqual(questions_of(LATENCY), [Question("s", 11_000_000), Question("a", 500_000), Question("a", 98_000_000)])


class Levels(unittest.TestCase):
    def test_levels(self) -> None:
        found = list(levels(400, 25))
        self.assertEqual(found[0], [(0, 400)])
        self.assertEqual(found[1], [(0, 100), (50, 150), (100, 200), (150, 250), (200, 300), (250, 350), (300, 400)])
        self.assertEqual({end - begin for begin, end in found[2]}, {25})
        self.assertEqual((found[2][0][0], found[2][-1][1]), (0, 400))
        self.assertEqual(list(levels(20, 25)), [[(0, 20)]])


class Saved(unittest.TestCase):
    def setUp(self) -> None:
        self.room = tempfile.TemporaryDirectory()
        self.programs = Programs(in_folder(programs_in(Path(self.room.name))))

    def tearDown(self) -> None:
        self.room.cleanup()

    def page(self, text: str, most: Most = Most(shortest=20), gone: Event | None = None) -> str:
        limits = Limits(seconds=20)
        reports = Reports(self.programs, Runner(limits, limits, 4))
        page, _ = Saver(ROOT / "lab" / "page", self.programs, reports, most).page({}, text.encode(), gone or Event())
        return page.decode() if page else ""

    def kept(self, page: str) -> dict:
        return json.loads(re.search(r'<script type="application/json" id="kept">(.*?)</script>', page)[1])

    def test_page(self) -> None:
        """Script and style are inside and named by their digests; the scenario can't end its place."""
        text = "# </script><script>alert(1)</script> \u00e9 <!-- \u2028\nversion = 1\n"
        page = self.page(text)
        policy = re.search(r'http-equiv="Content-Security-Policy" content="([^"]*)"', page)[1]
        scripts = re.findall(r"<script>(.*?)</script>", page, re.S)
        style = re.search(r"<style>(.*?)</style>", page, re.S)[1]
        for inner in (*scripts, style):
            self.assertIn(f"'sha256-{base64.b64encode(hashlib.sha256(inner.encode()).digest()).decode()}'", policy)
        self.assertEqual(policy.count("sha256"), len(scripts) + 1)
        self.assertTrue(policy.startswith("default-src 'none'; "))
        self.assertNotRegex(page, r'src="|href="|alert\(1\)</script>')
        contents = self.kept(page)
        self.assertEqual(contents["text"], text)
        self.assertEqual(sorted(contents["pictures"]), ["threads", "timeline", "usage"])
        drawn = contents["pictures"]["threads"][0]
        self.assertIn('data-report="threads"', gzip.decompress(base64.b64decode(drawn["data"])).decode())
        self.assertIn("s 11000000", contents["answers"])

    def test_same_bytes(self) -> None:
        self.assertEqual(self.page("version = 1\n"), self.page("version = 1\n"))

    def test_time(self) -> None:
        """The level that isn't done in time is left out, and the page says so."""
        begun = time.monotonic()
        contents = self.kept(self.page("version = 1\n", Most(seconds=0.0)))
        self.assertLess(time.monotonic() - begun, 15)
        self.assertEqual(contents["pictures"]["threads"], [])
        self.assertEqual(contents["stopped"], "40 ticks: time")

    def test_slow_pictures(self) -> None:
        """A picture that takes longer than the page's time is ended then."""
        begun = time.monotonic()
        contents = self.kept(self.page("#! slow-pictures\n", Most(seconds=4.0)))
        self.assertLess(time.monotonic() - begun, 12)
        self.assertEqual(contents["stopped"], "40 ticks: time")
        self.assertEqual(contents["reports"]["summary"]["status"], 0)

    def test_size(self) -> None:
        whole = self.kept(self.page("version = 1\n"))
        first = sum(len(whole["pictures"][name][0]["data"]) for name in whole["pictures"])
        texts = sum(len(it["text"]) for it in whole["reports"].values()) + sum(map(len, whole["answers"].values()))
        room = first + texts + len("version = 1\n")
        contents = self.kept(self.page("version = 1\n", Most(size=room, shortest=20)))
        self.assertEqual([len(it) for it in contents["pictures"].values()], [1, 1, 1])
        self.assertEqual(contents["stopped"], "20 ticks: size")
        self.assertEqual(whole["stopped"], "")
        few = self.kept(self.page("version = 1\n", Most(size=len("version = 1\n") + 600, shortest=20)))
        self.assertEqual(few["reports"]["summary"]["status"], 0)
        self.assertEqual(few["reports"]["latency"], {"status": 125, "text": "", "hint": "latency was left out of this page"})

    def test_refused(self) -> None:
        self.assertEqual(self.page("#! refuse\n"), "")

    def test_gone(self) -> None:
        """Its children end with the connection."""
        gone = Event()
        Thread(target=lambda: (time.sleep(0.4), gone.set())).start()
        begun = time.monotonic()
        self.page("#! slow-pictures\n", gone=gone)
        self.assertLess(time.monotonic() - begun, 15)
        self.assertTrue(within(10, lambda: not children_of_lab()))

    def test_connection(self) -> None:
        lab = asked_once(Lab(seconds=20))
        try:
            with lab.connect() as stream:
                text = b"#! slow-pictures\n"
                stream.sendall(lab.head("POST", "save", {"Content-Length": str(len(text))}) + text)
                self.assertTrue(within(20, lambda: len(children_of_lab()) > 2))
            self.assertTrue(within(10, lambda: not children_of_lab()))
        finally:
            lab.stop()

    def test_no_token(self) -> None:
        lab = Lab()
        try:
            got = lab.ask("POST", "save", b"version = 1\n")
            self.assertEqual(got.status, 200)
            self.assertNotIn(lab.server.token.encode(), got.body)
            self.assertNotIn(str(lab.server.port).encode(), re.sub(rb'"data": "[^"]*"', b"", got.body))
        finally:
            lab.stop()


if __name__ == "__main__":
    unittest.main()
