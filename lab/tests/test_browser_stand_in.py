"""The page in a real browser, with programs that stand in: hostile ones, slow ones, quick runs, and a lab that is gone."""
from __future__ import annotations

import tempfile
import time
import unittest
from dataclasses import replace
from pathlib import Path
from unittest.mock import patch

from lab.server import programs
from lab.server.programs import Program
from lab.tests.browser import Keys, Paged
from lab.tests.client import STAND_IN, Lab, programs_in

HOSTILE = Path(__file__).resolve().parent / "hostile.py"
KNOWN = ["svg", "title", "defs", "pattern", "path", "rect", "text", "g", "circle"]


class StandIn(Paged):
    """The page with a program that stands in."""

    program_file = STAND_IN
    names = ("apsim", "apsview")

    @classmethod
    def setUpClass(cls) -> None:
        room = tempfile.TemporaryDirectory()
        cls.addClassCleanup(room.cleanup)
        cls.folder = programs_in(Path(room.name), cls.names, cls.program_file)
        super().setUpClass()


class Hostile(StandIn):
    """Texts enter the page as text, pictures as what the programs draw with, and nothing else of them."""

    program_file = HOSTILE

    def tearDown(self) -> None:
        """The parsed picture runs nothing; the browser notes all the same, at its reading, what the policy forbids."""
        errors = [it["message"] for it in self.driver.get_log("browser") if it["level"] in ("SEVERE", "WARNING")]
        self.assertEqual([it for it in errors if "/svg.js" not in it or "has been blocked" not in it], [])

    def setUp(self) -> None:
        super().setUp()
        self.js("Why.ask('a', 7, {})")
        self.until("document.getElementById('why-text')")

    def clean(self) -> None:
        self.assertFalse(self.js("return 'taken' in window"))
        self.assertEqual(self.all("img, image, iframe, foreignObject, animate, set, use, a, style, main script"), [])
        self.assertEqual(self.js("return document.querySelectorAll('script:not([src])').length"), 0)
        bad = self.js("return Array.from(document.querySelectorAll('*'), (it) => Array.from(it.attributes, (a) => a.name))"
                      ".flat().filter((it) => it.startsWith('on') || it.includes(':'))")
        self.assertEqual(bad, [])

    def test_hostile_text(self) -> None:
        self.assertIn("<img", self.text_of("#cards h3"))
        self.assertIn("<script>", self.text_of("#threads tbody th"))
        self.assertIn("onerror", self.text_of("#why .sentence"))
        self.clean()
        self.write("<img src=x onerror=window.taken=1>")
        self.shown()
        self.press("p")
        self.write("<img src=x onerror=window.taken=2>")
        self.shown()
        self.until("document.querySelector('.changed-line')")
        self.clean()

    def test_hostile_refusal(self) -> None:
        self.write("refuse")
        self.until("!document.getElementById('refusal').hidden")
        self.assertIn("<img", self.text_of("#refusal"))
        self.clean()

    def test_hostile_picture(self) -> None:
        """Only the nine elements and their attributes are left; ids can't be those of the page; paints are paints."""
        names = self.js("return Array.from(new Set(Array.from(document.querySelectorAll('#picture .layer > svg, #picture .layer > svg *'), (it) => it.localName)))")
        self.assertLessEqual(set(names), set(KNOWN))
        self.assertEqual(len(self.all("#why")), 1)
        self.assertEqual(self.js("return document.getElementById('why').localName"), "aside")
        paints = self.js("return Array.from(document.querySelectorAll('#picture .layer > svg *'), (it) => it.getAttribute('fill') || '')")
        self.assertEqual([it for it in paints if "127" in it or "javascript" in it], [])
        self.assertEqual(self.all("#picture .layer > svg [class], #picture .layer > svg [style], #picture .layer > svg [filter]"), [])
        self.assertEqual(self.js("return document.querySelector('#picture .layer > svg [data-x]').getAttribute('data-x')"), "1")
        self.clean()


class Carried(StandIn):
    """A picture that carries what it shows is read by its data."""

    def test_bars(self) -> None:
        marks = self.js("const m = Picture.current().marks;"
                        "return [m.stretch, m.legend, m.lanes.map((it) => [it.name, it.bars()])]")
        self.assertEqual(marks[0], {"from": 0, "to": 100_000_000, "left": 1400, "right": 13400})
        self.assertEqual(marks[1], [{"name": "A", "paint": "#77aadd"}])
        bars = [(it["from"], it["to"], it["state"]) for it in marks[2][0][1]]
        self.assertEqual(bars, [(0, 55_000_001, "ready"), (55_000_001, 60_000_000, "running")])
        self.assertEqual([name for name, _ in marks[2]], ["s", "a"])
        self.assertEqual(self.js("return document.querySelector('#cards article:nth-child(2) .swatch rect').getAttribute('fill')"), "#77aadd")

    def test_exact_ends(self) -> None:
        """At the seam of two bars the moment lies in the one that was clicked, to the ns."""
        for x, low, high in ((7999, 0, 55_000_001), (8001, 55_000_001, 60_000_000)):
            moment = self.js("const lane = Picture.current().marks.lanes[0];"
                             "return Pointer.momentIn({x: arguments[0], y: 1075, pixel: 12}, lane)", x)
            self.assertTrue(low <= moment < high, (x, moment))

    def test_asking(self) -> None:
        self.js("document.getElementById('picture').focus()")
        self.press(Keys.ARROW_RIGHT)
        self.press(Keys.ENTER)
        self.until("document.getElementById('why-text')")
        self.assertIn("s is outranked by 1 running and 0 ready threads.", self.text_of(".sentence"))
        self.assertTrue(self.js("return document.getElementById('why').contains(document.activeElement)"))
        self.press(Keys.ESCAPE)
        self.assertEqual(self.js("return document.activeElement.id"), "picture")


class Later(StandIn):
    """Reports that come later are shown as soon as the program knows them."""

    @classmethod
    def setUpClass(cls) -> None:
        with patch("lab.tests.browser.Lab", side_effect=lambda **words: cls.with_later(words)):
            super().setUpClass()

    @staticmethod
    def with_later(words: dict) -> Lab:
        (words["folder"] / "later").touch()
        return Lab(**words)

    def setUp(self) -> None:
        super().setUp()
        self.until("['findings', 'lint', 'promise'].every((it) => Runs.newest().answers.has(it))")

    def test_findings(self) -> None:
        """A sentence for each line, in the program's order, with its numbers; what isn't known is shown as printed."""
        said = self.js("return Array.from(document.querySelectorAll('#findings li'), (it) => it.lastChild.textContent)")
        self.assertEqual(said, [
            "The run ended by its limit of entries.",
            "A overspent its critical budget 2 times, first at 26 ms: it has 3 ms, and needs 3.902001 ms.",
            "A was in budget with a thread ready, and had no processor: 5 ms in all, 4 ms at worst.",
            "a was held by s, a server without budget: 2 ms in all, 1 ms at worst.",
            "a waited 4 ms at worst, 6 ms in all: spent 1 A.",
            "s still waits for a server at the end, since 39 ms: server 1 a runs cpu 0.",
            "a never ran.",
            "something new 7",
        ])
        self.js("document.querySelectorAll('#findings .link')[3].click()")
        self.until("document.getElementById('why-text')")
        self.assertIn("at 8100000\nthread 0 a ", self.text_of("#why-text"))

    def test_story(self) -> None:
        """The longest wait of a kind comes with its causes."""
        self.js("document.querySelector('#threads tbody tr td:nth-child(6) .link').click()")
        self.until("document.querySelector('#story tbody')")
        self.assertEqual(self.js("return Array.from(document.querySelectorAll('#story tbody td'), (it) => it.textContent)"),
                         ["1.5 ms", "spent 1 A", "0.5 ms", "not_yet"])

    def test_before_the_run(self) -> None:
        self.assertEqual(self.text_of("#lint"), "lint server-spent 0 s by 1 a")
        self.assertEqual(self.text_of("#cards article:nth-child(1) .promise"), "")
        self.assertEqual(self.text_of("#cards article:nth-child(2) .promise"),
                         "promised in every run: 4 ms within 16 ms, while it has work")


class Tasks(StandIn):
    """A short form is expanded, its expansion is run, and each task of its plan has its jobs."""

    names = ("apsim", "apsview", "apstasks")

    def test_tasks(self) -> None:
        self.write('version = 1\nduration = "40ms"\n')
        self.until("!document.getElementById('tasks').hidden && document.querySelector('#tasks tbody .link')")
        self.assertEqual(self.js("return Array.from(document.querySelectorAll('#tasks tbody td'), (it) => it.textContent)"),
                         ["s", "5 ms", "3", "6 ms", "1", "1", "2"])
        self.assertIn("ticks = 40", self.js("return Runs.shown().text"))
        self.assertIn("duration", self.js("return Runs.shown().source"))
        self.js("document.querySelector('#tasks tbody .link').click()")
        self.until("document.getElementById('why-text')")
        self.assertIn("thread 0 s ", self.text_of("#why-text"))
        self.write("version = 1\n")
        self.shown()
        self.assertTrue(self.js("return document.getElementById('tasks').hidden"))

    def test_refused(self) -> None:
        """What the short form's own program refuses is marked in the short form."""
        self.write('#! refuse\nwindow = 7\nduration = "40ms"\n')
        self.until("!document.getElementById('refusal').hidden")
        self.assertEqual(self.text_of("#mark"), "2")
        self.assertIn("7 is out of range", self.text_of("#refusal"))


class Slow(StandIn):
    """What takes too long is stopped and said; nothing of the run before stays in its place."""

    seconds = 2.5

    def test_late_picture(self) -> None:
        self.assertEqual(len(self.all("#picture .layer > svg")), 1)
        self.write("#! slow-pictures\n# 1")
        self.until("document.getElementById('picture').textContent.includes('Still drawing')")
        self.until("document.getElementById('picture').textContent.includes('took too long')")
        self.assertEqual(self.all("#picture .layer > svg"), [])
        self.assertEqual(self.text_of("#picture .link"), "Draw the first window alone")
        self.find("#picture .link").click()
        self.assertEqual(self.js("return [Stretch.now().from, Stretch.now().to]"), [0, 10])

    def test_late_texts(self) -> None:
        """Findings, cards and table say that they have nothing of this run, and show nothing of the one before."""
        self.write("#! slow-texts\n# 1")
        self.until("document.getElementById('findings').textContent.includes('latency and shares took too long')")
        self.until("document.querySelectorAll('.old').length === 0")
        self.assertIn("shares took too long", self.text_of("#cards"))
        self.assertIn("took too long", self.text_of("#threads"))
        self.assertEqual(self.all("#threads tbody tr"), [])

    def test_stop(self) -> None:
        """After a second the bar says that it runs, and offers to stop; the page answers all the while."""
        self.write("#! sleep\n# 2")
        self.until("!document.getElementById('stop').hidden")
        self.assertIn("still running", self.text_of("#ended"))
        self.assertGreater(len(self.all(".old")), 0)
        self.find("#stop").click()
        self.assertTrue(self.js("return document.getElementById('stop').hidden"))

    def test_newer_edit(self) -> None:
        """A newer edit ends the run of the older one."""
        self.write("#! sleep\n# 3")
        time.sleep(0.5)
        self.write("version = 1\n# newer")
        self.shown()

    def test_late_summary(self) -> None:
        self.write("#! sleep\n# 4")
        self.until("document.getElementById('ended').textContent.includes('took too long')")


class QuickRun(StandIn):
    """Without a proved program nothing runs by itself; a button makes the report in sight."""

    @classmethod
    def setUpClass(cls) -> None:
        found = programs.in_folder
        as_quick = patch("lab.tests.client.in_folder", lambda folder: lambda name: cls.quick(found(folder)(name)))
        with as_quick:
            super().setUpClass()

    how = "quick"

    @classmethod
    def quick(cls, program: Program | None) -> Program | None:
        return program and replace(program, how=cls.how)

    def setUp(self) -> None:
        QuickRun.how = "quick"
        self.driver.get("about:blank")
        self.driver.get_log("browser")
        self.driver.get(self.lab.server.address)
        self.until("typeof Runs === 'object' && Runs.isQuick() && document.getElementById('run').textContent === 'Run: summary'")

    def test_button(self) -> None:
        self.assertIn("unproved, about a minute a report", self.text_of("#programs"))
        self.assertTrue(self.js("return document.getElementById('save').disabled"))
        self.assertIn("Nothing has run yet", self.text_of("#ended"))
        time.sleep(0.5)
        self.assertIsNone(self.js("return Runs.newest()"))
        self.find("#run").click()
        self.until("document.getElementById('ended').textContent.includes('101 entries')")
        self.assertEqual(self.js("return Array.from(Runs.newest().answers.keys())"), ["summary"])
        self.until("document.getElementById('run').textContent === 'Run: shares'")
        self.find("#run").click()
        self.until("document.querySelector('.verdict .good')")
        self.js("document.getElementById('pictures').scrollIntoView()")
        self.until("document.getElementById('run').textContent === 'Run: threads'")
        self.js("document.getElementById('run').click()")
        self.until("document.querySelector('#picture .layer > svg')")
        self.write("version = 1\n# edited")
        self.until("document.querySelectorAll('.old').length > 2")
        self.assertNotEqual(self.js("return Runs.newest().text"), self.js("return Editor.text()"))


    def test_no_answer(self) -> None:
        """What a quick run can't do is told, with what to do."""
        self.write("#! none\n")
        self.find("#run").click()
        self.until("document.getElementById('ended').textContent.includes('none past 1 MiB of output; ./prove')")

    def test_proved_meanwhile(self) -> None:
        """As soon as the programs are others nothing of the quick run is shown as theirs: the text runs anew."""
        self.find("#run").click()
        self.until("Runs.shown() && Runs.shown().summary")
        QuickRun.how = "proved"
        before = self.js("window.before = Runs.shown(); return Runs.isQuick()")
        self.js("Runs.lookAtPrograms()")
        self.until("!Runs.isQuick() && Runs.shown() !== window.before && Runs.shown().answers.has('latency')")
        self.assertTrue(before)
        self.assertTrue(self.js("return document.getElementById('programs').hidden && document.getElementById('run').hidden"))


class Foreign(StandIn):
    """A page from elsewhere gets nothing of the lab, and starts nothing."""

    def tearDown(self) -> None:
        self.driver.get_log("browser")

    def test_requests(self) -> None:
        address = self.lab.server.address
        self.driver.get("data:text/html,elsewhere")
        with patch.object(self.lab.reports, "several", wraps=self.lab.reports.several) as made:
            for mode in ("cors", "no-cors"):
                for path, method in (("", "GET"), ("examples", "GET"), ("run?want=summary", "POST"), ("save", "POST")):
                    said = self.driver.execute_async_script(
                        "const [address, mode, method, done] = arguments;"
                        "fetch(address, {mode, method, body: method === 'POST' ? 'version = 1' : undefined})"
                        ".then(async (it) => done(await it.text()), () => done('refused'))", address + path, mode, method)
                    self.assertIn(said, ("refused", ""), (mode, path))
            self.assertEqual(made.call_count, 0)

    def test_frame(self) -> None:
        """It can't be shown inside another page."""
        self.driver.get("data:text/html,<iframe id=f></iframe>")
        self.driver.get_log("browser")
        self.js("document.getElementById('f').src = arguments[0]", self.lab.server.address)
        self.until("true")
        time.sleep(1)
        self.driver.switch_to.frame("f")
        self.assertFalse(self.js("return typeof Runs === 'object'"))
        self.driver.switch_to.default_content()


class Gone(StandIn):
    """A lab that has ended: the page says so, and keeps what it has."""

    def test_gone(self) -> None:
        self.lab.server.stop()
        self.write("version = 1\n# gone")
        self.until("document.getElementById('ended').textContent.includes(\"the lab doesn't answer\")")
        self.assertGreater(len(self.all("#cards article")), 0)
        self.driver.get_log("browser")


# The classes that others stand on have no tests of their own.
del StandIn, Paged

if __name__ == "__main__":
    unittest.main()
