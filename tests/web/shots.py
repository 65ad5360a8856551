"""Pictures of a view, where a place for them is given: of three sizes, in light and in dark."""
import pathlib
import time
from collections.abc import Callable, Collection

from browser import Browser

# where pictures go, or None
PLACE: pathlib.Path | None = None
SIZES = {"1280x700": (1280, 700), "1280x900": (1280, 900), "400": (400, 900)}
# a narrow picture shows more of what is below
MOST = 2000
SCHEMES = {"light": "", "dark": "-dark"}


def shot(browser: Browser, name: str, size: str, scheme: str) -> None:
    """What is seen just now, as NAME-SIZE.png or NAME-SIZE-dark.png; the window has the size and the scheme already."""
    if PLACE is None:
        return
    PLACE.mkdir(parents=True, exist_ok=True)
    width, height = SIZES[size]
    if width == 400:
        full = browser.driver.execute_script("return document.documentElement.scrollHeight")
        browser.width(width, max(height, min(full, MOST)))
    browser.driver.execute_script("document.activeElement.blur()")
    time.sleep(0.3)
    browser.driver.save_screenshot(str(PLACE / f"{name}-{size}{SCHEMES[scheme]}.png"))


def shots(
    browser: Browser,
    name: str,
    address: str,
    prepare: Callable[[], None] = lambda: None,
    sizes: Collection[str] = tuple(SIZES),
    schemes: Collection[str] = tuple(SCHEMES),
) -> None:
    """The view at this address, once `prepare` has been done with it, at each size and in each scheme."""
    if PLACE is None:
        return
    for size in sizes:
        browser.width(*SIZES[size])
        browser.open(address)
        prepare()
        for scheme in schemes:
            browser.light(scheme)
            shot(browser, name, size, scheme)
    browser.light("light")
    browser.width(1280)
