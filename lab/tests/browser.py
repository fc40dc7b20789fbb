"""A browser for tests, and what a person does with the page."""
from __future__ import annotations

import os
import shutil
import subprocess
import tempfile
import time
import unittest
from pathlib import Path
from typing import Any

from lab.server.connection import Patience
from lab.server.programs import of_checkout
from lab.tests.client import ROOT, Lab

try:
    from selenium import webdriver
    from selenium.common.exceptions import JavascriptException
    from selenium.webdriver.chrome.service import Service
    from selenium.webdriver.common.action_chains import ActionChains
    from selenium.webdriver.common.by import By
    from selenium.webdriver.common.keys import Keys
    from selenium.webdriver.remote.webelement import WebElement
except ImportError:
    webdriver = ActionChains = By = JavascriptException = Keys = Service = None

ROOM = tempfile.TemporaryDirectory(prefix="lab-")
CHROMIUM = shutil.which("chromium")
DRIVER = shutil.which("chromedriver")


def missing_browser() -> str:
    """What these tests lack here; "" where they can run."""
    if webdriver is None:
        return "selenium is missing (Debian: python3-selenium)"
    if not CHROMIUM or not DRIVER:
        return "chromium or its driver is missing (Debian: chromium, chromium-driver)"
    return ""


def fresh_programs() -> Path | None:
    """A folder with the fresh proved programs, or that which APSLAB_PROGRAMS names. None where there is none."""
    if "APSLAB_PROGRAMS" in os.environ:
        return Path(os.environ["APSLAB_PROGRAMS"])
    find = of_checkout(ROOT)
    found = [find(name) for name in ("apsim", "apsview")]
    if any(program is None or program.how != "proved" for program in found):
        return None
    folder = Path(ROOM.name)
    for program in found:
        link = folder / program.name
        if not link.is_symlink():
            os.symlink(program.command[0], link)
    return folder


def start_browser(width: int = 1280, height: int = 900) -> webdriver.Chrome:
    options = webdriver.ChromeOptions()
    options.binary_location = CHROMIUM
    for word in ("--headless=new", "--no-sandbox", "--disable-gpu", "--disable-dev-shm-usage", "--hide-scrollbars",
                 "--force-device-scale-factor=1", f"--window-size={width},{height}"):
        options.add_argument(word)
    options.set_capability("goog:loggingPrefs", {"browser": "ALL"})
    driver = webdriver.Chrome(service=Service(DRIVER), options=options)
    size(driver, width, height)
    return driver


def size(driver: webdriver.Chrome, width: int, height: int) -> None:
    metrics = {"width": width, "height": height, "deviceScaleFactor": 1, "mobile": False}
    driver.execute_cdp_cmd("Emulation.setDeviceMetricsOverride", metrics)


class Paged(unittest.TestCase):
    """Tests of the page. After each the browser's log has to be free of errors and of breaches of the policy."""

    folder: Path | None = None
    checkout: Path | None = None
    first: Path | None = ROOT / "scenarios" / "cockpit.toml"
    seconds = 20.0
    patient = 60.0

    @classmethod
    def setUpClass(cls) -> None:
        lacks = missing_browser()
        if lacks:
            raise unittest.SkipTest(lacks)
        cls.folder = cls.folder or fresh_programs()
        if cls.folder is None:
            raise unittest.SkipTest("there is no fresh proved program (./prove builds them)")
        cls.lab = Lab(seconds=cls.seconds, folder=cls.folder, first=cls.first, patience=Patience(),
                      checkout=cls.checkout)
        cls.driver = start_browser()

    @classmethod
    def tearDownClass(cls) -> None:
        if hasattr(cls, "driver"):
            cls.driver.quit()
            cls.lab.stop()

    def setUp(self) -> None:
        self.driver.get("about:blank")
        self.driver.get_log("browser")
        self.driver.get(self.lab.server.address)
        self.shown()

    def tearDown(self) -> None:
        errors = [it["message"] for it in self.driver.get_log("browser") if it["level"] in ("SEVERE", "WARNING")]
        self.assertEqual(errors, [])

    def js(self, code: str, *words: object) -> Any:
        return self.driver.execute_script(code, *words)

    def until(self, code: str, *words: object, seconds: float | None = None) -> Any:
        """Waits until some code answers with something true."""
        until = time.monotonic() + (seconds or self.patient)
        while time.monotonic() < until:
            try:
                if (found := self.js(f"return {code}", *words)):
                    return found
            except JavascriptException:
                pass
            time.sleep(0.03)
        raise AssertionError(f"not within {seconds or self.patient} s: {code}")

    def shown(self) -> None:
        """Waits until the text in the editor is shown, with its picture."""
        self.until("typeof Runs === 'object' && Runs.shown() && Runs.shown() === Runs.newest() && Runs.newest().text === Editor.text()"
                   " && Runs.newest().answers.has('latency') && Runs.newest().isDrawn && document.querySelectorAll('.old').length === 0")

    def find(self, selector: str) -> WebElement:
        return self.driver.find_element(By.CSS_SELECTOR, selector)

    def all(self, selector: str) -> list[WebElement]:
        return self.driver.find_elements(By.CSS_SELECTOR, selector)

    def text_of(self, selector: str) -> str:
        return self.js("return document.querySelector(arguments[0]).textContent", selector)

    def press(self, *keys: str) -> None:
        ActionChains(self.driver).send_keys(*keys).perform()

    def write(self, text: str) -> None:
        """Puts a whole text into the editor, as a paste does."""
        self.js("const it = document.getElementById('text'); it.value = arguments[0];"
                "it.dispatchEvent(new Event('input', {bubbles: true}))", text)

    def edit(self, old: str, new: str) -> str:
        """Changes the text at one place; answers the whole."""
        text = self.js("return Editor.text()")
        self.assertEqual(text.count(old), 1, old)
        self.write(text.replace(old, new))
        return text.replace(old, new)

    def program(self, name: str, *words: str, text: str | None = None) -> str:
        """What a program itself answers to the text in the editor."""
        given = self.js("return Editor.text()") if text is None else text
        done = subprocess.run([str(self.folder / name), *words], input=given, capture_output=True, text=True, check=False)
        return done.stdout
