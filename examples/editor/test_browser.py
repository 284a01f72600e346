#!/usr/bin/env python3
"""Tests of the editor in a browser without a window, Chromium, with the program in bin/.

    examples/editor/test_browser.py

On Debian: apt-get install chromium chromium-driver python3-selenium. Where they are lacking, that is said and nothing is tried.
"""
import os
import pathlib
import shutil
import subprocess
import sys
import tempfile
import time
import unittest

try:
    from selenium import webdriver
    from selenium.webdriver.chrome.service import Service
    from selenium.webdriver.common.action_chains import ActionChains
    from selenium.webdriver.common.by import By
    from selenium.webdriver.common.keys import Keys
    from selenium.webdriver.support.ui import Select
except ImportError:
    webdriver = None
BROWSER, DRIVER = shutil.which("chromium"), shutil.which("chromedriver")
if not (webdriver and BROWSER and DRIVER):
    print("test_browser.py: there is no Chromium with its driver and Selenium here, so the editor was not tried in a browser.")
    print("On Debian they are chromium, chromium-driver and python3-selenium.")
    sys.exit(0)

HERE = pathlib.Path(__file__).resolve().parent
TOP = HERE.parent.parent
sys.path.insert(0, str(TOP / "python"))

import rhythm
from engraving import has_lilypond
from forms import forms
from written import bars_of

rhythm.PROGRAM = os.environ.get("PROGRAM") or str(TOP / "bin/rhythm")
VOICES = TOP / "examples/two-voices.mid", TOP / "examples/two-voices.rhy"
SWING = TOP / "examples/swing.mid", TOP / "grammars/duple.rhy"
WANDERING = TOP / "examples/wandering.mid", TOP / "grammars/duple.rhy"
OPTIONS = ["--headless=new", "--no-sandbox", "--disable-gpu", "--disable-dev-shm-usage", "--hide-scrollbars", "--mute-audio"]
PATIENCE = 30


def score_of(midi, grammar, lines):
    """The score of a fresh transcription after the lines of a script."""
    return forms("transcribe", midi, grammar, lines).decode()


class Window:
    """A browser on an editor of two files."""

    def __init__(self, midi, grammar, *options, size=(1280, 860)):
        self.files = midi, grammar
        words = [sys.executable, "-B", HERE / "serve.py", midi, grammar, "--program", rhythm.PROGRAM, *options]
        self.server = subprocess.Popen(words, stdout=subprocess.PIPE, text=True)
        self.address = self.server.stdout.readline().strip()
        self.kept = tempfile.TemporaryDirectory()
        given = webdriver.ChromeOptions()
        for option in OPTIONS:
            given.add_argument(option)
        given.add_experimental_option("prefs", {"download.default_directory": self.kept.name})
        given.set_capability("goog:loggingPrefs", {"browser": "ALL"})
        given.binary_location = BROWSER
        self.driver = webdriver.Chrome(service=Service(DRIVER), options=given)
        screen = {"width": size[0], "height": size[1], "deviceScaleFactor": 1, "mobile": False}
        self.driver.execute_cdp_cmd("Emulation.setDeviceMetricsOverride", screen)
        self.driver.execute_cdp_cmd("Page.setDownloadBehavior", {"behavior": "allow", "downloadPath": self.kept.name})
        self.open()

    def close(self):
        """Ends the browser and the server."""
        self.driver.quit()
        self.server.terminate()
        self.server.wait()
        self.server.stdout.close()
        self.kept.cleanup()

    def open(self):
        self.driver.get(self.address)
        self.until(lambda: self.ask("document.documentElement.dataset.ready"))

    def ask(self, expression):
        return self.driver.execute_script(f"return {expression}")

    def until(self, test):
        end = time.time() + PATIENCE
        while not (found := test()):
            if time.time() > end:
                raise AssertionError("it does not come")
            time.sleep(0.03)
        return found

    def named(self, name):
        return self.driver.find_element(By.ID, name)

    @property
    def roll(self):
        return self.named("roll")

    def version(self):
        return self.ask("desk.editor.piece.version")

    def does(self, action):
        """Does what makes a step, and waits until it is answered."""
        version, said = self.version(), self.said()
        action()
        self.until(lambda: self.version() != version or self.said() != said)
        self.driver.execute_async_script("desk.editor.waiting.then(arguments[0])")

    def made(self, count):
        """Waits until the page shows the piece after so many steps."""
        self.until(lambda: self.ask("desk.editor.piece.steps[0]") == count)

    def said(self):
        return self.named("said").text

    def click(self, name):
        self.does(self.named(name).click)

    def keys(self, *keys):
        self.does(lambda: self.roll.send_keys(*keys))

    def point(self, tick, key):
        """The place of a tick and a key, as the pointer counts on the roll: from its middle."""
        return self.ask(f"[desk.view.x({tick}) - desk.view.width / 2, desk.view.y({key}) + (desk.view.size - desk.view.height) / 2]")

    def mark(self, tick):
        """The place in the ruler where the barline at a tick is taken hold of."""
        return self.ask(f"[desk.view.x({tick}) - desk.view.width / 2, 28 - desk.view.height / 2]")

    def drag(self, start, by):
        """Drags from a point by so many pixels."""
        pointer = ActionChains(self.driver, duration=20).move_to_element_with_offset(self.roll, *map(round, start))
        self.does(pointer.click_and_hold().move_by_offset(*map(round, by)).release().perform)

    def click_at(self, tick, key):
        ActionChains(self.driver, duration=20).move_to_element_with_offset(self.roll, *map(round, self.point(tick, key))).click().perform()

    def lines(self):
        """The lines of the steps that were made, as the server keeps them."""
        return self.driver.execute_async_script("fetch('script').then((it) => it.text()).then(arguments[0])").splitlines()

    def shown(self):
        """The texts of the bars that the page shows as **kern, by their numbers."""
        Select(self.named("form")).select_by_value("kern")
        version = self.version()
        self.until(lambda: self.ask("document.querySelector('.columns')?.dataset.version") == str(version))
        return self.ask("""Object.fromEntries([...document.querySelectorAll('.columns table')].map((table) => [table.caption.textContent,
            [...table.rows].slice(1).map((row) => [...row.cells].map((cell) => cell.textContent).join('\\t')).join('\\n')]))""")

    def kept_file(self, name):
        path = pathlib.Path(self.kept.name) / name
        self.until(path.exists)
        return path.read_bytes()


class InABrowser(unittest.TestCase):
    def opened(self, *words):
        window = Window(*words)
        self.addCleanup(window.close)
        return window

    def shows_the_score(self, window):
        """What the page shows is what a fresh transcription by the lines that were made has."""
        bars = bars_of(score_of(*window.files, window.lines()))
        shown = window.shown()
        self.assertGreaterEqual(len(shown), min(len(bars), 2))
        self.assertEqual(shown, {f"bar {number}": bars[number - 1] for number in (int(name.split()[1]) for name in shown)})
        self.assertEqual(window.ask("desk.editor.piece.texts"), bars)

    def test_notes_are_drawn_dragged_lengthened_and_deleted(self):
        window = self.opened(*VOICES)
        self.shows_the_score(window)
        quarter = 480 * window.ask("desk.view.scale")
        window.drag(window.point(2890, 76), (quarter, 0))
        self.assertRegex(window.lines()[-1], "^add 0 76 2[89][0-9]+ 33[0-9]+$")
        self.shows_the_score(window)
        onset = int(window.lines()[-1].split()[3])
        window.drag(window.point(onset + 200, 76), (0, -window.ask("desk.view.size")))
        self.assertRegex("\n".join(window.lines()[-2:]), f"^drop 0 76 {onset}\nadd 0 77 {onset} ")
        window.drag(window.point(onset + 200, 77), (quarter / 2, 0))
        self.assertRegex(window.lines()[-1], f"^move 0 77 {onset} 3[0-9]+$")
        self.shows_the_score(window)
        onset = int(window.lines()[-1].split()[4])
        end = window.ask(f"desk.editor.piece.notes.get('0 77 {onset}').end")
        window.drag(window.point(end, 77), (-quarter / 4, 0))
        self.assertRegex(window.lines()[-1], f"^add 0 77 {onset} {str(end)[0]}")
        self.assertLess(int(window.lines()[-1].split()[4]), end)
        window.keys(Keys.DELETE)
        self.assertEqual(window.lines()[-1], f"drop 0 77 {onset}")
        window.click_at(100, 72)
        window.click("drop")
        self.assertEqual(window.lines()[-1], "drop 0 72 0")
        self.shows_the_score(window)

    def test_a_refused_edit_is_told_beside_it_and_springs_back(self):
        window = self.opened(*VOICES)
        before = window.ask("desk.editor.piece.texts")
        window.drag(window.point(3000, 84), (480 * window.ask("desk.view.scale"), 0))
        self.assertIn("before the last barline, which is at tick 3840", window.named("beside").text)
        self.assertEqual((window.lines(), window.ask("desk.editor.piece.texts"), window.ask("desk.roll.draft")), ([], before, None))
        self.assertTrue(window.ask("desk.editor.piece.notes.has('0 84 2880')"))
        window.drag(window.mark(1920), (700 * window.ask("desk.view.scale"), 0))
        self.assertRegex(window.named("said").text, "The grammar has no rhythm for that: from bar [12] on the voice of channel [01]")
        self.assertEqual(window.ask("desk.editor.piece.starts"), [0, 1920, 3840])
        self.shows_the_score(window)

    def test_steps_are_taken_back_and_made_again(self):
        window = self.opened(*VOICES)
        self.assertFalse(window.named("undo").is_enabled())
        window.click("addbar")
        window.keys(Keys.ARROW_RIGHT + Keys.ALT + Keys.ARROW_UP)
        self.assertEqual(window.lines(), ["addbar", "drop 1 48 0", "add 1 49 0 1910"])
        window.keys(Keys.CONTROL + "z")
        self.shows_the_score(window)
        self.assertEqual(window.lines(), ["addbar"])
        window.click("undo")
        self.assertEqual(window.lines(), [])
        self.shows_the_score(window)
        window.keys(Keys.CONTROL + Keys.SHIFT + "z")
        window.click("redo")
        self.assertEqual(window.lines(), ["addbar", "drop 1 48 0", "add 1 49 0 1910"])
        self.assertFalse(window.named("redo").is_enabled())
        self.shows_the_score(window)

    def test_a_rhythm_is_pinned_and_the_pin_taken_off(self):
        window = self.opened(*SWING)
        window.click_at(2500, 77)
        window.until(lambda: window.named("rhythms-title").text == "Rhythms of bar 2, voice 0")
        rows = window.until(lambda: (found := window.driver.find_elements(By.CSS_SELECTOR, "#rhythms button")) and len(found) > 1 and found)
        written, cost = rows[1].find_element(By.TAG_NAME, "code").text, rows[1].find_element(By.TAG_NAME, "span").text
        window.does(rows[1].click)
        self.assertRegex(window.lines()[0], "^pin 0 1 ")
        bars = bars_of(score_of(*SWING, window.lines()))
        self.assertEqual(written, " ".join(token for line in bars[1].split("\n") for token in [line.split("\t")[0]] if token != "."))
        self.shows_the_score(window)
        rows = "#rhythms button"
        off = window.until(lambda: [row for row in window.driver.find_elements(By.CSS_SELECTOR, rows) if row.text == "Take the pin off"])
        pinned = window.driver.find_element(By.CSS_SELECTOR, "#rhythms [aria-pressed=true] span").text
        self.assertEqual(pinned, "pinned, " + cost)
        window.does(off[0].click)
        self.assertEqual(window.lines()[1:], ["unpin 0 1"])
        self.shows_the_score(window)

    def test_barlines_are_dragged_fitted_and_follow_the_player(self):
        window = self.opened(*WANDERING)
        window.drag(window.mark(1920), (-80 * window.ask("desk.view.scale"), 0))
        self.assertRegex(window.lines()[0], "^barline 1 18[0-9]+$")
        self.shows_the_score(window)
        cost = window.ask("desk.editor.piece.cost")
        window.click("fit")
        self.assertLess(window.ask("desk.editor.piece.cost"), cost)
        self.shows_the_score(window)
        window.click("undo")
        window.click("undo")
        window.click("follow")
        window.made(1)
        self.assertEqual(window.lines(), rhythm.follow(*WANDERING))
        self.shows_the_score(window)
        self.assertEqual(window.shown()["bar 2"], "4gg\n4ff\n4ee\n4dd")
        window.click("undo")
        self.assertEqual(window.lines(), [])
        self.shows_the_score(window)

    def test_it_is_kept_and_opened_again(self):
        window = self.opened(*VOICES)
        window.click("addbar")
        window.keys(Keys.ARROW_RIGHT + Keys.DELETE)
        for form in ("script", "kern"):
            window.driver.find_element(By.CSS_SELECTOR, f"[data-form={form}]").click()
        self.assertEqual(window.kept_file("two-voices.script").decode().splitlines(), window.lines())
        self.assertEqual(window.kept_file("two-voices.krn").decode(), score_of(*VOICES, window.lines()))
        lines = window.lines()
        window.open()
        self.shows_the_score(window)
        window.click("undo")
        window.click("undo")
        window.does(lambda: window.named("open").send_keys(str(pathlib.Path(window.kept.name) / "two-voices.script")))
        self.assertEqual(window.lines(), lines)
        self.shows_the_score(window)

    def test_other_forms_are_kept_before_and_after_an_edit(self):
        window = self.opened(*VOICES)
        kept = [("musicxml", "two-voices.musicxml", b"<?xml"), ("page", "two-voices.ly", b"\\version"), ("render", "two-voices.mid", b"MThd")]
        for _ in range(2):
            for form, name, beginning in kept:
                window.driver.find_element(By.CSS_SELECTOR, f"[data-form={form}]").click()
                self.assertEqual(window.kept_file(name)[: len(beginning)], beginning)
                (pathlib.Path(window.kept.name) / name).unlink()
            window.click("addbar")

    def test_keys_alone_do_all(self):
        window = self.opened(*VOICES)
        window.keys(",.", "v", "n")
        self.assertEqual(window.lines(), ["add 1 48 240 720"])
        window.keys("]")
        self.assertEqual(window.lines()[1:], ["drop 1 48 240", "add 1 48 240 730"])
        window.keys(Keys.ALT + Keys.ARROW_RIGHT)
        self.assertEqual(window.lines()[-1], "move 1 48 240 250")
        window.roll.send_keys(Keys.ALT + Keys.ARROW_RIGHT * 5)
        window.made(8)
        self.assertEqual(window.lines()[-1], "move 1 48 290 300")
        window.roll.send_keys(Keys.CONTROL + "zzz")
        window.made(5)
        window.roll.send_keys(Keys.ALT + Keys.ARROW_RIGHT * 2)
        window.made(7)
        self.assertEqual(window.lines()[6:], ["move 1 48 270 280", "move 1 48 280 290"])
        window.keys("b", Keys.ALT + Keys.ARROW_LEFT)
        self.assertEqual(window.lines()[-1], "barline 1 1910")
        window.keys("f")
        window.roll.send_keys("+-zZ", Keys.PAGE_DOWN, Keys.HOME, Keys.ARROW_UP, Keys.ARROW_LEFT, "r")
        window.until(lambda: window.ask("document.activeElement.closest('#rhythms') !== null"))
        window.does(lambda: window.driver.switch_to.active_element.send_keys(Keys.ENTER))
        self.assertRegex(window.lines()[-1], "^pin ")
        window.roll.send_keys("?")
        self.assertTrue(window.named("help").is_displayed())
        self.shows_the_score(window)

    def test_it_is_heard(self):
        window = self.opened(*WANDERING)
        for name, key in (("play-performance", " "), ("play-score", Keys.SHIFT + " ")):
            window.named(name).click()
            first = window.until(lambda: window.ask("desk.roll.cursor"))
            window.until(lambda: (window.ask("desk.roll.cursor") or 0) > first + 200)
            self.assertEqual(window.named(name).get_attribute("aria-pressed"), "true")
            self.assertGreater(window.ask("desk.sound.sounding.size"), 0)
            window.roll.send_keys(key)
            window.until(lambda: window.ask("desk.roll.cursor") is None)

    def test_of_two_windows_the_older_one_is_told(self):
        window = self.opened(*VOICES)
        window.driver.execute_async_script("""fetch('edit', {method: 'POST', headers: {'Content-Type': 'application/json'},
            body: JSON.stringify({version: desk.editor.piece.version, lines: ['addbar']})}).then(arguments[0])""")
        window.click("dropbar")
        self.assertIn("another window", window.said())
        self.assertEqual(window.lines(), ["addbar"])
        self.shows_the_score(window)

    @unittest.skipUnless(has_lilypond(), "there is no lilypond here")
    def test_the_page_is_engraved(self):
        window = self.opened(*VOICES)
        image = "document.querySelector('#page img')?.dataset.version"
        window.until(lambda: window.ask(image))
        window.click("addbar")
        window.until(lambda: window.ask(image) == str(window.version()))
        self.shows_the_score(window)

    def test_the_browser_has_nothing_to_complain_of(self):
        window = self.opened(*VOICES)
        window.click("addbar")
        window.driver.get_log("browser")
        window.keys(Keys.ARROW_RIGHT + Keys.DELETE)
        self.assertEqual([it for it in window.driver.get_log("browser") if "engrave" not in it["message"]], [])


if __name__ == "__main__":
    unittest.main()
