"""Chromium, without a window, as somebody who signed in at the page through nginx and the gate.

PICTURES names a folder for pictures of the views.
"""
import contextlib
import json
import os
import pathlib
import time

from selenium import webdriver
from selenium.common.exceptions import SessionNotCreatedException
from selenium.webdriver.chrome.service import Service
from selenium.webdriver.common.by import By
from selenium.webdriver.remote.webelement import WebElement
from selenium.webdriver.support.ui import Select

from gate_trial.proxy import PASSWORD, Proxy
from gate_trial.world import TOP

LANGUAGES = {"en-US": "en", "de-DE": "de"}
PICTURES = os.environ.get("PICTURES")
WAIT = 300
STARTS = 5
# a request of the page itself, with the name and password that the browser has
FETCHED = """
const [verb, path, body, done] = arguments;
const lines = verb === "POST" ? { "Content-Type": "application/json" } : {};
fetch(new URL(`../${path}`, location.origin + location.pathname), { method: verb, body: body ?? undefined, headers: lines })
  .then(async (it) => done([it.status, await it.text()])).catch((error) => done([0, String(error)]));
"""


def texts(language: str, part: str = "proxy") -> dict:
    return json.loads((TOP / f"page/texts/{LANGUAGES[language]}.json").read_text())[part]


def started(options: webdriver.ChromeOptions) -> webdriver.Chrome:
    """Starts Chromium. Its driver gives a start up after a minute, which a machine with other work may need."""
    for _ in range(STARTS):
        with contextlib.suppress(SessionNotCreatedException):
            return webdriver.Chrome(service=Service("/usr/bin/chromedriver"), options=options)
    raise AssertionError("Chromium does not start")


class Browser:
    """Chromium, without a window, as somebody who signed in."""

    def __init__(self, proxy: Proxy, name: str, language: str) -> None:
        self.proxy, self.name, self.language = proxy, name, language
        options = webdriver.ChromeOptions()
        options.binary_location = "/usr/bin/chromium"
        for word in ("--headless=new", "--no-sandbox", "--disable-dev-shm-usage", f"--lang={language}",
                     "--window-size=1280,1000", "--hide-scrollbars"):
            options.add_argument(word)
        options.set_capability("acceptInsecureCerts", True)
        options.set_capability("goog:loggingPrefs", {"browser": "ALL"})
        options.add_experimental_option("prefs", {"intl.accept_languages": language})
        self.driver = started(options)
        self.driver.set_page_load_timeout(WAIT)
        self.driver.set_script_timeout(WAIT)
        word = f"{name}:{PASSWORD.replace(' ', '%20')}"
        self.driver.get(f"https://{word}@localhost:{proxy.port}/city/web/")

    def one(self, css: str) -> WebElement:
        return self.driver.find_element(By.CSS_SELECTOR, css)

    def is_seen(self, css: str) -> bool:
        return any(it.is_displayed() for it in self.driver.find_elements(By.CSS_SELECTOR, css))

    def settled(self) -> None:
        ends = time.time() + WAIT
        while time.time() < ends:
            if self.driver.execute_script("return document.body.classList.contains('ready') && "
                                          "!document.querySelector('.waiting, [aria-busy]')"):
                return
            time.sleep(0.05)
        raise AssertionError(f"{self.name}: the page goes on asking")

    def open(self, view: str) -> None:
        """Goes to a view, as a link does."""
        self.settled()
        self.driver.execute_script("location.hash = arguments[0]", view)
        time.sleep(0.2)
        self.settled()

    def picture(self, view: str) -> None:
        if PICTURES:
            place = pathlib.Path(PICTURES)
            place.mkdir(parents=True, exist_ok=True)
            height = self.driver.execute_script("return document.documentElement.scrollHeight")
            self.driver.set_window_size(1280, min(max(height + 150, 700), 3000))
            self.driver.save_screenshot(str(place / f"{self.name}-{self.language}-{view.split('?')[0]}.png"))

    def write(self, **fields: str) -> None:
        for name, value in fields.items():
            it = self.one(f"#{name.replace('_', '-')}")
            if it.is_enabled() and it.get_attribute("readonly") is None:
                it.clear()
                it.send_keys(value)

    def choose(self, css: str, value: str) -> None:
        Select(self.one(css)).select_by_value(value)

    def fetch(self, verb: str, path: str, body: str | None = None) -> tuple[int, str]:
        """Asks as a script of the page can, past its forms."""
        status, said = self.driver.execute_async_script(FETCHED, verb, path, body)
        return status, said

    def press(self, css: str) -> None:
        self.driver.execute_script("arguments[0].scrollIntoView({block: 'center'}); arguments[0].click()", self.one(css))
        time.sleep(0.3)
        self.settled()

    def complaints(self) -> list[str]:
        """What the console complained of, but for answers that were a no, which the page tells."""
        return [it["message"] for it in self.driver.get_log("browser") if it["level"] in ("SEVERE", "WARNING")
                and "Failed to load resource" not in it["message"]]
