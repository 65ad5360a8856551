"""What the page has seen of an office on several machines: it asks each machine for no older state."""
from __future__ import annotations

import pathlib

from actions import fill
from browser import Browser
from kit.judging import judge, same
from place import Office, Proxy

# The lines Office-After and Office-Read of the readings, as the page sends them; the office answers, and in its answer are
# the position of `window.position`, or the status 412 alone where one is asked for that is after `window.end`.
WATCHED = """
window.asked = [];
window.position = arguments[0];
window.end = arguments[1];
const there = window.fetch;
window.fetch = async (place, what = {}) => {
  const after = what.headers?.["Office-After"] ?? null;
  if (/records\\/[0-9]+$/.test(place)) window.asked.push([after, what.headers?.["Office-Read"] ?? null]);
  if (Number(after) > window.end) return new Response('{"error":"after"}', { status: 412 });
  const reply = await there(place, what);
  const headers = new Headers(reply.headers);
  if (window.position) headers.set("Office-Position", String(window.position));
  return new Response(await reply.arrayBuffer(), { status: reply.status, headers });
};
"""


class View:
    """The form that asks for a record, with what the page sends for it."""

    def __init__(self, browser: Browser, proxy: Proxy) -> None:
        self.browser, self.proxy = browser, proxy

    def open(self, position: int, end: int = 10**9) -> None:
        self.browser.open(f"{self.proxy.page}#record")
        self.browser.driver.execute_script(WATCHED, position, end)

    def ask(self, position: int | None = None) -> list[list[str | None]]:
        """Asks for record 1, at a machine at a position if one is given; gives what was sent."""
        script = "window.asked = []; if (arguments[0] !== null) window.position = arguments[0]"
        self.browser.driver.execute_script(script, position)
        self.browser.write(record_number="1")
        self.browser.press("#record-form button")
        self.browser.seen("#record-found, #record-outcome")
        found: list[list[str | None]] = self.browser.driver.execute_script("return window.asked")
        return found


def tell(office: Office, proxy: Proxy, browser: Browser, folder: pathlib.Path) -> None:
    fill(office)
    view = View(browser, proxy)
    view.open(0)
    view.ask()
    same("seen: of a bare office the page has seen no position", view.ask()[0], [None, None])
    judge("seen: and keeps nothing", browser.driver.execute_script("return sessionStorage.length") == 0)
    view.open(41)
    view.ask()
    same("seen: what an answer was of is asked for from then on", view.ask(), [["41", None]])
    view.ask(40)
    same("seen: an older position changes nothing", view.ask(43), [["41", None]])
    same("seen: a newer one does", view.ask(), [["43", None]])
    view.open(43)
    same("seen: the page remembers it when it is loaded anew", view.ask(), [["43", None]])
    view.open(3, 10)
    same("seen: of a log that ends before it the page forgets it, and asks again", view.ask(), [["43", None], [None, None]])
    same("seen: and goes on with that log", view.ask(), [["3", None]])
