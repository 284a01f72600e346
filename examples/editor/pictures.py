#!/usr/bin/env python3
"""Makes the pictures of docs/EDITOR.md, wherever a browser, LilyPond and a program with `--script` are: examples/editor/pictures.py"""
from selenium.webdriver.common.by import By
from selenium.webdriver.common.keys import Keys

from test_browser import HERE, VOICES, WANDERING, Window


def page_is_new(window):
    """Waits for the page of the newest state, and for the bar's rhythms."""
    newest = "document.querySelector('#page img')?.dataset.version == desk.editor.piece.version"
    window.until(lambda: window.ask(newest) and window.ask("document.querySelector('#page').ariaBusy") is None)
    window.until(lambda: window.driver.find_elements(By.CSS_SELECTOR, "#rhythms button"))


def picture(name, files, act, height):
    window = Window(*files, size=(1180, height))
    try:
        act(window)
        page_is_new(window)
        window.driver.save_screenshot(str(HERE / name))
    finally:
        window.close()


def marks(window):
    """Short, tied and grace notes, one that was moved, and a refusal beside what was tried."""
    window.click_at(2600, 82)
    window.keys(Keys.ALT + Keys.ARROW_RIGHT * 4)
    page_is_new(window)
    window.drag(window.point(3450, 48), (180, 0))


def followed(window):
    window.click("follow")
    window.made(1)
    window.click_at(5600, 84)


if __name__ == "__main__":
    picture("two-voices.png", VOICES, marks, 880)
    picture("wandering.png", WANDERING, followed, 700)
