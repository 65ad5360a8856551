"""Debian's Chromium, headless, by its driver and Python's selenium, as somebody who looks at the page."""
import base64
import contextlib
import time

from selenium import webdriver
from selenium.common.exceptions import SessionNotCreatedException
from selenium.webdriver.chrome.service import Service
from selenium.webdriver.common.by import By
from selenium.webdriver.support.ui import Select

from place import NAME, PASSWORD

# a request that acts waits until it is let go
HELD_BACK = """
const there = window.fetch;
window.fetch = async (...words) => {
  if (words[1]?.method === "POST") await new Promise((go) => (window.letGo = go));
  return there(...words);
};
"""
# a program that is compiled with checks takes half a minute for a MiB of contents, and ten on a busy machine
WAIT = 900


# how often it is tried to start Chromium, whose driver gives up after a minute
STARTS = 5


def started(options):
    """Starts Chromium, also on a machine that is busy with other work."""
    for _ in range(STARTS):
        with contextlib.suppress(SessionNotCreatedException):
            return webdriver.Chrome(service=Service("/usr/bin/chromedriver"), options=options)
    raise AssertionError("Chromium does not start")


class Browser:
    def __init__(self, folder, language="en-US"):
        options = webdriver.ChromeOptions()
        options.binary_location = "/usr/bin/chromium"
        for word in ("--headless=new", "--no-sandbox", "--disable-dev-shm-usage", "--hide-scrollbars", "--force-color-profile=srgb", f"--lang={language}"):
            options.add_argument(word)
        options.set_capability("acceptInsecureCerts", True)
        options.set_capability("goog:loggingPrefs", {"browser": "ALL"})
        options.add_experimental_option("prefs", {"download.default_directory": str(folder), "intl.accept_languages": language})
        self.driver = started(options)
        self.driver.set_page_load_timeout(WAIT)
        self.driver.set_script_timeout(WAIT)
        self.width(1280)

    def end(self):
        self.driver.quit()

    def width(self, width, height=900):
        """Lets the page have this width, whatever the window of a browser has at least."""
        self.driver.execute_cdp_cmd("Emulation.setDeviceMetricsOverride", {"width": width, "height": height, "deviceScaleFactor": 1, "mobile": False})

    def light(self, scheme):
        self.driver.execute_cdp_cmd("Emulation.setEmulatedMedia", {"features": [{"name": "prefers-color-scheme", "value": scheme}]})

    def know(self, address):
        """Lets the browser know name and password, as after its own question for them."""
        self.driver.get(address.replace("://", f"://{NAME}:{PASSWORD.replace(' ', '%20')}@"))

    def open(self, address):
        """Opens an address anew, as a bookmark does."""
        self.driver.get("about:blank")
        self.driver.get(address)
        self.wait(lambda: self.driver.execute_script("return document.body.classList.contains('ready')"), f"{address} is not ready")
        self.settled()

    def go(self, hash_):
        """Goes to another view, as a link does."""
        self.driver.execute_script("location.hash = arguments[0]", hash_)
        time.sleep(0.1)
        self.settled()

    def settled(self):
        """Waits until the page has begun what it was told last, however slow it is, and asks nothing any more."""
        self.driver.execute_async_script("setTimeout(arguments[0], 50)")
        self.wait(lambda: not self.all(".waiting, [aria-busy]"), "the page goes on asking")

    def wait(self, holds, else_):
        end = time.time() + WAIT
        while not holds():
            if time.time() > end:
                raise AssertionError(else_)
            time.sleep(0.02)

    def all(self, css):
        return self.driver.find_elements(By.CSS_SELECTOR, css)

    def one(self, css):
        return self.driver.find_element(By.CSS_SELECTOR, css)

    def text(self, css):
        """All text of an element, as it is in the page, seen or not."""
        return self.driver.execute_script("return document.querySelector(arguments[0]).textContent", css)

    def seen(self, css):
        """What is seen of an element."""
        return self.one(css).text

    def write(self, **fields):
        for name, value in fields.items():
            it = self.one(f"#{name.replace('_', '-')}")
            it.clear()
            it.send_keys(value)

    def choose(self, css, value):
        Select(self.one(css)).select_by_value(value)

    def press(self, css):
        self.driver.execute_script("arguments[0].scrollIntoView({block: 'center'})", self.one(css))
        self.one(css).click()
        self.settled()

    def hold_back(self):
        """Lets the page's next request that acts wait for `let_go`."""
        self.driver.execute_script(HELD_BACK)

    def let_go(self, before):
        """Once a request that acts is to be sent, does something before it is."""
        self.wait(lambda: self.driver.execute_script("return Boolean(window.letGo)"), "nothing is to be sent")
        before()
        self.driver.execute_script("window.letGo()")

    @contextlib.contextmanager
    def before_each_page(self, script):
        """Each page that is opened meanwhile begins with this script."""
        name = "Page.addScriptToEvaluateOnNewDocument"
        it = self.driver.execute_cdp_cmd(name, {"source": script})
        try:
            yield
        finally:
            self.driver.execute_cdp_cmd("Page.removeScriptToEvaluateOnNewDocument", it)

    def table(self, css):
        """The rows of a table as their cells' texts."""
        return self.driver.execute_script("return Array.from(document.querySelectorAll(arguments[0] + ' > tbody > tr'), (row) => Array.from(row.cells, (cell) => cell.textContent))", css)

    def facts(self, css):
        pairs = self.driver.execute_script("return Array.from(document.querySelectorAll(arguments[0] + ' dl > div'), (it) => Array.from(it.children, (part) => part.textContent))", css)
        return dict(pairs)

    def complaints(self):
        """What the browser's console complained of since it was asked last, but for failed requests, which the page tells."""
        return [it["message"] for it in self.driver.get_log("browser") if it["level"] in ("SEVERE", "WARNING") and "Failed to load resource" not in it["message"]]

    def paper(self, file):
        """What is printed, as a PDF; its bytes."""
        pdf = base64.b64decode(self.driver.execute_cdp_cmd("Page.printToPDF", {"printBackground": False, "preferCSSPageSize": True, "generateTaggedPDF": False})["data"])
        file.write_bytes(pdf)
        return pdf

    def loaded(self):
        """The addresses of all that the page asked for."""
        return self.driver.execute_script("return performance.getEntriesByType('resource').map((it) => it.name)")


@contextlib.contextmanager
def browser(folder, language="en-US"):
    it = Browser(folder, language)
    try:
        yield it
    finally:
        it.end()
