"""A browser whose steps are counted: a press, a choice, and a field that is filled, whatever is written into it."""
from __future__ import annotations

import pathlib

from browser import Browser

FILL = "const it = document.querySelector(arguments[0]); it.value = arguments[1]; it.dispatchEvent(new Event('input', {bubbles: true}))"


class Counted:
    """Counts from `begin` on. What only looks, or waits, is done by `browser` itself."""

    def __init__(self, browser: Browser) -> None:
        self.browser, self.count = browser, 0

    def begin(self) -> None:
        self.count = 0

    def press(self, css: str) -> None:
        self.count += 1
        self.browser.press(css)

    def write(self, name: str, value: str) -> None:
        self.count += 1
        self.browser.write(**{name: value})

    def choose(self, css: str, value: str) -> None:
        self.count += 1
        self.browser.choose(css, value)
        self.browser.settled()

    def paste(self, css: str, text: str) -> None:
        """Puts a long text into a field at once."""
        self.count += 1
        self.browser.driver.execute_script(FILL, css, text)

    def files(self, css: str, files: list[pathlib.Path]) -> None:
        """Chooses files, all at once."""
        self.count += 1
        self.browser.one(css).send_keys("\n".join(str(it) for it in files))
        self.browser.settled()
