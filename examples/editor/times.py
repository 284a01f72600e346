#!/usr/bin/env python3
"""Measures the editor in a browser: examples/editor/times.py

A step: from the release of the pointer, after a note is drawn, to the end of the drawing that has the new score, on a made piece of 1,000
bars. Scrolling: the time from one picture to the next while the wheel is turned at each, in a piece of 4,096 bars and 65,536 notes. A page:
from a scroll to the new page on the screen. The browser draws without a graphics card here.
"""
import pathlib
import random
import statistics
import subprocess
import tempfile
import time

from selenium.webdriver.common.action_chains import ActionChains

from test_browser import TOP, Window, rhythm

DUPLE = TOP / "grammars/duple.rhy"
WHEEL = """
const done = arguments[0], roll = document.getElementById("roll"), times = [];
let last = performance.now();
function turn(now) {
  times.push(now - last);
  last = now;
  roll.dispatchEvent(new WheelEvent("wheel", {deltaY: 150, bubbles: true, cancelable: true}));
  if (times.length > 120) done(times.slice(1)); else requestAnimationFrame(turn);
}
requestAnimationFrame(turn);
"""


def quantity(number):
    """A number as MIDI files have it."""
    digits = [number % 128]
    while number := number // 128:
        digits.insert(0, number % 128 + 128)
    return bytes(digits)


def largest(chance):
    """A MIDI file of the most bars and notes that are taken: quarters by four voices, with some scatter."""
    events = []
    for quarter in range(4 * 4096):
        for channel in range(4):
            key, onset = chance.randrange(36 + 12 * channel, 48 + 12 * channel), max(480 * quarter + chance.randint(-12, 12), 0)
            events += [(onset, 1, bytes([0x90 + channel, key, 64])), (onset + 440, 0, bytes([0x80 + channel, key, 0]))]
    body, now = bytearray(), 0
    for tick, _, message in sorted(events):
        body += quantity(tick - now) + message
        now = tick
    body += b"\0\xFF\x2F\0"
    return b"MThd\0\0\0\6\0\0\0\1\1\xE0MTrk" + len(body).to_bytes(4, "big") + body


def step(window, by):
    """Milliseconds of one step: a note is drawn somewhere."""
    time.sleep(0.7)
    window.ask("performance.clearMarks()")
    pointer = ActionChains(window.driver, duration=20).move_to_element_with_offset(window.roll, by * 30 - 350, by * 7 - 90)
    window.does(pointer.click_and_hold().move_by_offset(40, 0).release().perform)
    return window.until(lambda: window.ask("performance.getEntriesByName('drawn')[0]?.startTime - window.released || null"))


def page(window):
    """Seconds to the page of other bars."""
    before = window.ask("document.querySelector('#page img')?.src ?? ''")
    window.driver.execute_script("document.getElementById('roll').dispatchEvent(new WheelEvent('wheel', {deltaY: 800}))")
    start = time.time()
    window.until(lambda: window.ask("document.querySelector('#page img')?.src ?? ''") != before)
    return time.time() - start


def told(what, times):
    print(f"{what}: median {statistics.median(times):.0f}, most {max(times):.0f} milliseconds, of {len(times)}")


def main():
    with tempfile.TemporaryDirectory() as folder:
        made, large = pathlib.Path(folder, "made.mid"), pathlib.Path(folder, "large.mid")
        made.write_bytes(subprocess.run([rhythm.PROGRAM, "generate", "7", "1000"], capture_output=True, check=True).stdout)
        large.write_bytes(largest(random.Random(1)))
        window = Window(made, DUPLE)
        start = time.time()
        window.until(lambda: window.ask("document.querySelector('#page img')?.src ?? ''"))
        print(f"the first page, with the start of LilyPond: {time.time() - start:.1f} seconds")
        print("pages of other bars:", *(f"{page(window):.1f}" for _ in range(3)), "seconds")
        window.ask("window.addEventListener('pointerup', () => { window.released = performance.now(); }, true)")
        told("a step in 1,000 bars", [step(window, by) for by in range(20)])
        window.close()
        window = Window(large, DUPLE)
        time.sleep(15)
        told("a picture while 65,536 notes scroll", window.driver.execute_async_script(WHEEL))
        window.close()


if __name__ == "__main__":
    main()
