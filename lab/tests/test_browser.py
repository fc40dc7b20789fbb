"""The page in a real browser, with the programs themselves behind it."""
from __future__ import annotations

import re
import tempfile
import time
import tomllib
import unittest
from pathlib import Path

from lab.server.moments import inside
from lab.tests.browser import ActionChains, Keys, Paged, ROOT

COCKPIT = (ROOT / "scenarios" / "cockpit.toml").read_text()


def leaves(value: object, path: str = "") -> dict[str, object]:
    """All plain values of a TOML document, by their paths."""
    if isinstance(value, dict):
        inner = [leaves(it, f"{path}.{key}" if path else key) for key, it in value.items()]
    elif isinstance(value, list):
        inner = [leaves(it, f"{path}[{i}]") for i, it in enumerate(value)]
    else:
        return {path: value}
    return {key: it for found in inner for key, it in found.items()}


class Editing(Paged):
    def test_edit(self) -> None:
        """The page shows the run of the text, as the program prints it."""
        self.edit('name = "Cluster", budget = 20', 'name = "Cluster", budget = 24')
        self.shown()
        summary = self.program("apsim", "solo")
        entries = int(re.search(r"^entries (\d+)", summary, re.M)[1])
        self.assertIn(f"{entries:,} entries", self.text_of("#ended"))
        self.js("document.querySelector('#raw details').open = true")
        self.until("document.querySelector('#raw-texts pre')")
        self.assertEqual(self.text_of("#raw-texts pre"), summary)
        self.assertIn("24 %", self.text_of("#cards article:nth-child(2)"))

    def test_refusals_at_their_lines(self) -> None:
        """Six kinds of refusals: the line is marked, and the program's hint stands below."""
        cases = (
            ("window = 100", "window = 7", "out-of-range", "window = 7"),
            ('"send gfx", "sleep 8000000"', '"send gfc", "sleep 8000000"', "unknown-name", "gfc"),
            ("ticks = 400", "ticks = 400\nticks2 = 1", "unknown-key", "ticks2"),
            ('{name = "map1",', '{name = "map0",', "duplicate", '{name = "map0", partition = "Infotain", priority = 22, program = ["run'),
            ('name = "Adas", budget = 35', 'name = "Adas", budget = 95', "budget-over", "budget = 95"),
            ('"run 300000", "sleep 9000000"', '"rum 300000", "sleep 9000000"', "bad-operation", '"rum'),
            ("cpus = 6", 'cpus = "6"', "wrong-kind", 'cpus = "6"'),
            ("version = 1", "version = = 1", "not-toml", "version = ="),
        )
        for old, new, kind, at in cases:
            text = self.edit(old, new)
            self.until("!document.getElementById('refusal').hidden && Runs.newest().text === Editor.text()")
            place = text.rindex(at) if kind == "duplicate" else text.index(at)
            line = text.count("\n", 0, place) + 1
            self.assertEqual(self.text_of("#mark"), str(line), kind)
            self.assertIn(f"Line {line}", self.text_of("#refusal"))
            refusal = self.program("apsim", "solo")
            self.assertIn(kind, refusal)
            self.assertIn(refusal.strip().split(" ")[-1], self.text_of("#refusal code"))
            self.assertGreater(len(self.all("#cards-part.old, #picture.old")), 0)
            self.assertIn("refused", self.text_of("#ended"))
            self.write(COCKPIT)
            self.shown()
            self.assertTrue(self.js("return document.getElementById('refusal').hidden && document.getElementById('mark').hidden"))

    def test_places(self) -> None:
        """The page's own reader finds each value of each scenario where a TOML reader has it."""
        for path in sorted(ROOT.glob("scenarios/*.toml")):
            text = path.read_text()
            found = self.js("const it = Toml.read(arguments[0]);"
                            "return [it.broken ?? null, Array.from(it.places, ([path, place]) => [path, place.value])]", text)
            self.assertIsNone(found[0], path)
            places = {key: value for key, value in found[1] if value is not None}
            self.assertEqual(places, leaves(tomllib.loads(text)), path)

    def test_undo(self) -> None:
        """Ctrl+Z in the scenario takes back what a slider wrote."""
        slider = self.find("#cards article:nth-child(2) input")
        slider.send_keys(Keys.ARROW_RIGHT)
        self.assertIn('"Cluster", budget = 21', self.js("return Editor.text()"))
        self.find("#text").send_keys(Keys.CONTROL, "z")
        self.assertEqual(self.js("return Editor.text()"), COCKPIT)
        self.shown()

    def test_large_text(self) -> None:
        """1 MiB of text is edited like any other; a byte more is told as the program tells it."""
        self.write(COCKPIT + "#" * (1_048_576 - len(COCKPIT.encode())))
        self.shown()
        self.write(COCKPIT + "#" * (1_048_577 - len(COCKPIT.encode())))
        self.until("document.getElementById('ended').textContent.includes('413')")
        self.write(COCKPIT)
        self.shown()
        self.driver.get_log("browser")


class Asking(Paged):
    def lane(self, name: str) -> dict:
        return self.js("const m = Picture.current().marks; const lane = m.lanes.find((it) => it.name === arguments[0]);"
                       "return {top: lane.top, bottom: lane.bottom, bars: lane.bars()}", name)

    def at(self, x: float, y: float) -> ActionChains:
        """The mouse over a point of the picture, in the picture's units."""
        self.js("document.getElementById('picture').scrollIntoView({block: 'start'})")
        box = self.js("const b = Picture.current().svg.getBoundingClientRect(); return [b.left, b.top, b.width]")
        scale = box[2] / 14000
        actions = ActionChains(self.driver, duration=20)
        actions.w3c_actions.pointer_action.move_to_location(int(box[0] + x * scale), int(box[1] + y * scale))
        return actions

    def click(self, name: str, x: float) -> None:
        lane = self.lane(name)
        self.at(x, (lane["top"] + lane["bottom"]) / 2).click().perform()
        self.until("document.getElementById('why-text')")

    def asked(self) -> tuple[str, str]:
        """The thread and the moment of the question that is shown."""
        text = self.text_of("#why-text")
        return re.search(r"^thread \d+ (\S+)", text, re.M)[1], re.search(r"^at (\d+)", text, re.M)[1]

    def test_click_gives_the_programs_words(self) -> None:
        """A click on a grey bar shows what `explain` answers for that thread, at a moment in that bar."""
        bars = [it for it in self.lane("browser")["bars"] if it["state"] == "ready"]
        widest = max(bars, key=lambda it: it["right"] - it["left"])
        self.click("browser", (widest["left"] + widest["right"]) / 2)
        thread, moment = self.asked()
        self.assertEqual(thread, "browser")
        self.assertTrue(widest["from"] <= int(moment) < widest["to"])
        self.assertEqual(moment, str(int(moment) // 100_000 * 100_000), "a round moment")
        self.assertEqual(self.text_of("#why-text"), self.program("apsview", "explain", "--thread", thread, "--at", moment))
        self.assertIn("browser is outranked", self.text_of(".sentence"))

    def test_names_in_an_answer(self) -> None:
        """A name asks about that thread at the same moment; Back returns, Esc closes."""
        self.js("Why.ask('browser', 200000000, {})")
        self.until("document.querySelector('.cpus .link')").click()
        self.until("document.getElementById('why-back') && document.getElementById('why-text')")
        thread, moment = self.asked()
        self.assertEqual((thread, moment), ("irq", "200000000"))
        self.find("#why-back").click()
        self.until("!document.getElementById('why-back') && document.getElementById('why-text')")
        self.assertEqual(self.asked()[0], "browser")
        self.press(Keys.ESCAPE)
        self.assertTrue(self.js("return document.getElementById('why').hidden"))

    def test_bars_against_explain(self) -> None:
        """What bars say is what `explain` says in their middles."""
        words = {"running": ("running",), "ready": ("ready",), "waits for a server": ("sending", "replying")}
        for name in ("gauges", "media", "log"):
            bars = sorted(self.lane(name)["bars"], key=lambda it: it["left"] - it["right"])[:3]
            for bar in bars:
                middle = str((bar["from"] + bar["to"]) // 2)
                text = self.program("apsview", "explain", "--thread", name, "--at", middle)
                state = re.search(rf"^thread \d+ {name} state (\S+)", text, re.M)[1]
                self.assertIn(state, words.get(bar["state"], (bar["state"],)), (name, bar))

    def test_processors(self) -> None:
        """A bar of a processor asks about the thread that it runs."""
        self.press("2")
        self.until("Picture.current() && Picture.current().marks.lanes.some((it) => it.kind === 'cpu')")
        bar = max(self.lane("cpu 3")["bars"], key=lambda it: it["right"] - it["left"])
        self.click("cpu 3", (bar["left"] + bar["right"]) / 2)
        thread, moment = self.asked()
        self.assertEqual(thread, bar["thread"])
        self.assertTrue(bar["from"] <= int(moment) < bar["to"])
        self.assertIn("runs on cpu 3", self.text_of(".sentence"))

    def test_drag(self) -> None:
        """A drag zooms to the whole ticks that it touches; Back returns."""
        lane = self.lane("log")
        self.at(1400 + 128.4 * 30, lane["top"]).click_and_hold().perform()
        self.at(1400 + 159.2 * 30, lane["top"]).perform()
        self.at(1400 + 159.2 * 30, lane["top"]).release().perform()
        self.until("Picture.current() && Picture.current().marks.stretch.to < 400000000")
        low, high = self.js("return [Stretch.now().from, Stretch.now().to]")
        self.assertLessEqual(abs(low - 128), 1)
        self.assertLessEqual(abs(high - 160), 1)
        self.assertEqual(self.js("return Picture.current().marks.stretch.from"), low * 1_000_000)
        self.assertEqual(self.js("return document.getElementById('from').value"), str(low))
        self.js("document.getElementById('zoom-back').click()")
        self.until("Picture.current() && Picture.current().marks.stretch.to === 400000000")

    def test_wheel(self) -> None:
        """Ctrl and the wheel zoom; a bare wheel doesn't."""
        for key, zooms in (("ctrlKey", True), ("shiftKey", False), ("", False)):
            before = self.js("return [Stretch.now().from, Stretch.now().to]")
            self.js("const p = document.getElementById('picture'); const b = p.getBoundingClientRect();"
                    "p.dispatchEvent(new WheelEvent('wheel', {deltaY: -100, clientX: b.left + b.width / 2, clientY: b.top + 150,"
                    "bubbles: true, cancelable: true, [arguments[0] || 'x']: true}))", key)
            after = self.js("return [Stretch.now().from, Stretch.now().to]")
            self.assertEqual(after[1] - after[0] < before[1] - before[0], zooms, key)
        self.until("Picture.current()")

    def test_fields(self) -> None:
        """Fields take ms; what isn't a stretch is marked and changes nothing."""
        self.js("for (const [id, v] of [['to', '40'], ['from', '12.5']]) { const f = document.getElementById(id); f.value = v;"
                "f.dispatchEvent(new Event('change')); }")
        self.assertEqual(self.js("return [Stretch.now().from, Stretch.now().to]"), [12, 40])
        self.js("const f = document.getElementById('from'); f.value = 'x'; f.dispatchEvent(new Event('change'))")
        self.assertEqual(self.js("return document.getElementById('from').getAttribute('aria-invalid')"), "true")
        self.assertEqual(self.js("return [Stretch.now().from, Stretch.now().to]"), [12, 40])
        self.until("Picture.current() && Picture.current().marks.stretch.from === 12000000")

    def test_keys_alone(self) -> None:
        """The whole way by keys: the tabs, zoom, the cross, why, and back."""
        self.press("1", "+", "+", "-", "]", "[", "0")
        self.assertTrue(self.js("return Stretch.isWhole()"))
        self.press("+")
        self.shown()
        self.js("document.getElementById('picture').focus()")
        self.press(*[Keys.ARROW_DOWN] * 5)
        ActionChains(self.driver).key_down(Keys.SHIFT).send_keys(Keys.ARROW_RIGHT).key_up(Keys.SHIFT).perform()
        self.press(Keys.ENTER)
        self.until("document.getElementById('why-text')")
        thread, moment = self.asked()
        self.assertEqual(self.text_of("#why-text"), self.program("apsview", "explain", "--thread", thread, "--at", moment))
        self.press(Keys.ESCAPE, Keys.BACKSPACE, "/")
        self.assertEqual(self.js("return document.activeElement.id"), "text")
        self.press(Keys.ESCAPE, "3")
        self.until("Picture.tab() === 'usage' && Picture.current() && Picture.current().marks.lanes.length === 4")
        self.press("?")
        self.assertTrue(self.js("return document.getElementById('help').open"))

    def test_link_of_a_time(self) -> None:
        """A worst time asks inside the middle half of that wait; the page and the server choose the same moment."""
        for begin, length in ((155_000_000, 204_781_000), (168_502_000, 9_901_000), (0, 1), (7, 3)):
            self.assertEqual(self.js("return Numbers.inside(arguments[0], arguments[1])", begin, length), inside(begin, length))
        self.js("document.querySelector('#threads tbody td .link').click()")
        self.until("document.getElementById('why-text')")
        thread, moment = self.asked()
        self.assertEqual(self.text_of("#why-text"), self.program("apsview", "explain", "--thread", thread, "--at", moment))


class Comparing(Paged):
    def test_slider(self) -> None:
        """Keys on a slider write the budget into the text, at its place, and the slider keeps the focus."""
        slider = self.find("#cards article:nth-child(2) input")
        slider.send_keys(Keys.ARROW_RIGHT, Keys.ARROW_RIGHT)
        self.shown()
        self.assertIn('{name = "Cluster", budget = 22},', self.js("return Editor.text()"))
        self.assertEqual(self.js("return document.activeElement.getAttribute('aria-label')"), "budget of Cluster")
        self.assertIn("22 %", self.text_of("#cards article:nth-child(2)"))
        self.assertIn("13 %", self.text_of("#cards article:nth-child(1)"))

    def test_slider_by_mouse(self) -> None:
        slider = self.find("#cards article:nth-child(3) input")
        ActionChains(self.driver).click_and_hold(slider).move_by_offset(12, 0).move_by_offset(6, 0).release().perform()
        budget = int(self.js("return document.querySelector('#cards article:nth-child(3) input').value"))
        self.assertIn(f'"Infotain", budget = {budget}', self.js("return Editor.text()"))
        self.shown()

    def test_compare(self) -> None:
        """Differences are those of the programs' numbers, worse ones first; Back to A brings the text back."""
        self.press("p")
        before = self.program("apsim", "solo")
        self.edit('name = "Cluster", budget = 20', 'name = "Cluster", budget = 24')
        self.shown()
        after = self.program("apsim", "solo")
        self.assertEqual(self.text_of(".changed-line span"), "line 10")
        self.assertIn("budget = 20", self.text_of(".changed-line del"))
        self.assertIn("budget = 24", self.text_of(".changed-line ins"))
        if (more := self.all("#compare > .link")):
            more[0].click()
        rows = self.js("return Array.from(document.querySelectorAll('#compare tbody tr'), (r) => Array.from(r.cells, (c) => c.textContent))")
        signs = [row[0] for row in rows]
        order = {"▲ worse": 0, "▼ better": 1, "moved": 2}
        halves = [order[it] for it in signs]
        self.assertEqual(halves, sorted(halves))
        for name in ("Cluster", "Adas"):
            was, now = (int(re.search(rf"^partition \d+ {name} budget \d+ billed (\d+)", text, re.M)[1]) for text in (before, after))
            row = next(row for row in rows if row[1:3] == [name, "used"])
            self.assertEqual([round(float(it.split(" ")[0]) * 1e6) for it in row[3:5]], [was, now])
            self.assertEqual(round(float(row[5].split(" ")[0].replace("−", "-")) * 1e6), now - was)
        self.find("#pictures-of-a").click()
        self.until("document.querySelector('#earlier svg')")
        self.find("#back-to-a").click()
        self.assertEqual(self.js("return Editor.text()"), COCKPIT)
        self.shown()

    def test_sorting(self) -> None:
        """A heading sorts, and turns round; aria-sort tells."""
        def column(i: int) -> list[float]:
            cells = self.js("return Array.from(document.querySelectorAll('#threads tbody tr'), (r) => r.cells[arguments[0]].textContent)", i)
            return [-1.0 if it == "-" else float(it.split(" ")[0].replace(",", "")) for it in cells]

        self.assertEqual(column(4), sorted(column(4), reverse=True))
        for turn in ("descending", "ascending"):
            self.find("#threads thead th:nth-child(4) button").click()
            self.assertEqual(self.js("return document.querySelector('#threads thead th:nth-child(4)').getAttribute('aria-sort')"), turn)
            self.assertEqual(column(3), sorted(column(3), reverse=turn == "descending"))

    def test_deadline(self) -> None:
        """Late cycles are counted as `cycles` has them, and the deadline stays while the text is edited."""
        self.js("Cycles.choose('gauges')")
        self.until("document.getElementById('deadline')")
        self.until("document.getElementById('cycles-about').textContent.includes('cycles,')")
        self.find("#deadline").send_keys("9.5")
        for _ in range(2):
            lines = [line.split(",") for line in self.program("apsview", "cycles").splitlines() if line.startswith("gauges,")]
            late = sum(int(line[2]) - int(line[1]) > 9_500_000 for line in lines)
            self.until("document.getElementById('late') && document.getElementById('late').textContent.includes(arguments[0])",
                       f"{late} of {len(lines)} late")
            self.edit('name = "Cluster", budget = 20', 'name = "Cluster", budget = 18') if _ == 0 else None
            self.shown()

    def test_early_ends(self) -> None:
        """A run that ends by a reboot: the bar says so, and the pictures end where the run did."""
        self.write((ROOT / "scenarios" / "alarm-reboot.toml").read_text())
        self.until("Runs.shown() && Runs.shown().text === Editor.text() && Runs.shown().summary && Runs.shown().isDrawn")
        self.assertIn("the run ended by a reboot for Alarm", self.text_of("#ended"))
        end = self.js("return Picture.current().marks.stretch.to")
        self.assertLess(end, self.js("return Runs.shown().summary.ticks * Runs.shown().summary.tick"))
        self.assertEqual(round(float(self.js("return document.getElementById('to').value")) * 1e6), end)


class Saving(Paged):
    def test_save_and_reopen(self) -> None:
        """The saved page, opened from a file, answers without a server what it has, and names what it hasn't."""
        text = (ROOT / "scenarios" / "two-partitions.toml").read_text()
        self.write(text)
        self.shown()
        got = self.lab.ask("POST", "save", text.encode())
        self.assertEqual(got.status, 200)
        with tempfile.TemporaryDirectory() as room:
            path = Path(room) / "run.html"
            path.write_bytes(got.body)
            self.driver.get(path.as_uri())
            self.shown()
            self.assertEqual(self.js("return Editor.text()"), text)
            self.assertEqual(self.all("#cards input:not([hidden])"), [])
            self.assertTrue(self.js("return document.getElementById('text').readOnly"))
            self.js("document.querySelector('#threads tbody td .link').click()")
            shown = self.until("document.getElementById('why-text') && document.getElementById('why-text').textContent")
            thread, moment = re.search(r"^at (\d+)\nthread \d+ (\S+)", shown, re.M).groups()[::-1]
            self.assertEqual(shown, self.program("apsview", "explain", "--thread", thread, "--at", moment, text=text))
            self.js("Why.ask('a', 123457, {})")
            self.until("document.getElementById('why').textContent.includes('./apsview explain --thread a --at 123457')")
            for tab in ("2", "3", "1"):
                self.press(tab)
                self.until("Picture.current()")
            self.js("Cycles.choose('a')")
            self.until("document.getElementById('deadline')")


if __name__ == "__main__":
    unittest.main()
