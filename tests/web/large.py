"""An office of 200,000 records with its catalogue: how long the page works until each view shows, and at each key (typed.py).

That is the processor's time of the page's thread, since others may use the machine: the best of three rounds. The time
by the clock, and how much of it was waiting for answers, is printed beside it. Each view is opened anew, so that nothing
of the catalogue is read, and then gone to within the page.
"""
from __future__ import annotations

import os
import pathlib
import shutil
from collections.abc import Callable

import big_office
import catalogue
import typed
from browser import Browser
from kit.judging import judge, same
from place import Office, Proxy

# milliseconds
MOST = 1000
ROUNDS = 3
# the views, and what is seen once each shows
VIEWS = {
    "todo": "#todo-tasks > article",
    "due": "#due-table tbody tr",
    "overdue": "#overdue-table tbody tr",
    "outlook": "#outlook-table tbody tr",
    "record?number={half}": ".neighbours a",
    "file": "#file-choose",
    "import": "#import-choose",
    "plan?close=500": "#plan-close-forecast strong",
    "run": "#run-forecast .label",
    "certificate": "#certificate-form",
    "holds?code=H-BRAND": "#hold-told .targets li",
    "catalogue": "#catalogue-part tbody tr",
    "catalogue?class=BAU-RE&sort=-due": "#catalogue-part tbody tr",
    "catalogue?sort=title": "#catalogue-part tbody tr",
    "catalogue?text=goethe&due=2030-01-01": "#catalogue-part tbody tr",
    "catalogue?part=records&aggregation=500": "#catalogue-part tbody tr",
    "catalogue?part=aggregations": "#catalogue-part .tree summary",
    "catalogue?part=aggregations&state=open": "#catalogue-part tbody tr",
    "catalogue?part=holds": "#catalogue-part tbody tr",
}
# Notes when what is looked for is in sight and was drawn, and how long an answer was waited for until then. From that
# moment on the page does nothing more until it is let go, so that the processor's time is that of showing alone.
WATCH = """
const held = [];
let isHeld = false;
const wait = async (it) => { if (isHeld) await new Promise((go) => held.push(go)); return it; };
const later = window.setTimeout;
window.setTimeout = (work, ...more) => later(() => (isHeld ? held.push(work) : work()), ...more);
const ask = window.fetch;
window.fetch = async (...words) => wait(await ask(...words));
const whole = Response.prototype.arrayBuffer;
Response.prototype.arrayBuffer = async function () { return wait(await whole.call(this)); };
window.letGo = () => { isHeld = false; for (const go of held.splice(0)) go(); };
window.watched = (css, begun) => new Promise((done) => {
  const isSeen = () => [...document.querySelectorAll(css)].some((it) => it.checkVisibility());
  const waited = (until) => {
    const asked = performance.getEntriesByType("resource").filter(({ initiatorType, responseEnd }) => initiatorType === "fetch" && responseEnd > begun);
    const spans = asked.map(({ startTime, responseEnd }) => [Math.max(startTime, begun), Math.min(responseEnd, until)]).sort(([one], [other]) => one - other);
    let [sum, end] = [0, begun];
    for (const [from, to] of spans) if (to > end) { sum += to - Math.max(from, end); end = to; }
    return sum;
  };
  const look = () => {
    if (!isSeen()) return requestAnimationFrame(look);
    isHeld = true;
    // once that frame was drawn
    later(() => {
      const now = performance.now();
      done([now - begun, waited(now)]);
    });
  };
  look();
});
"""
OPENED = "const [css, done] = arguments; window.watched(css, 0).then(done)"
GONE = """
const [hash, css, done] = arguments;
performance.clearResourceTimings();
const begun = performance.now();
location.hash = hash;
// what another view shows is not what is looked for
requestAnimationFrame(() => window.watched(`section:not([hidden]) ${css}`, begun).then(done));
"""


def timed(it: Browser, show: Callable[[], list[float]], before: float) -> list[float]:
    """What a view takes of the processor until it shows, by the clock, and of that waiting."""
    spans = show()
    work = typed.worked(it) - before
    it.driver.execute_script("window.letGo()")
    it.settled()
    return [work, *spans]


def view(it: Browser, proxy: Proxy, name: str, css: str) -> None:
    """A view several times: opened anew, and gone to from another one."""
    it.open(f"{proxy.page}#{name}")

    def opened() -> list[float]:
        it.driver.refresh()
        return it.driver.execute_async_script(OPENED, css)

    rounds: dict[str, list] = {"opened": [], "gone to": []}
    for _ in range(ROUNDS):
        rounds["opened"].append(timed(it, opened, 0))
        it.go("#fault")
        gone = lambda: it.driver.execute_async_script(GONE, f"#{name}", css)
        rounds["gone to"].append(timed(it, gone, typed.worked(it)))
    for way, times in rounds.items():
        work, whole, waited = min(times)
        load = os.getloadavg()[0]
        told = f"{work:.0f} ms of the processor, at most {MOST}; by the clock {whole:.0f}, {waited:.0f} of them waiting, at a load of {load:.0f}"
        judge(f"large: {name}, {way}: {told}", work <= MOST)


def tell(office: Office, proxy: Proxy, browser: Browser, folder: pathlib.Path) -> None:
    copy = folder / "copy.db"
    shutil.copy(office.file, copy)
    pathlib.Path(f"{copy}-wal").unlink(missing_ok=True)
    catalogue.make(proxy, copy)
    status, body = proxy.ask("GET", "/catalogue/about.json", fields={"Accept-Encoding": "identity"})
    same("large: the catalogue has all records", (status, f'"records":{big_office.RECORDS}'.encode() in body), (200, True))
    browser.driver.execute_cdp_cmd("Performance.enable", {"timeDomain": "threadTicks"})
    browser.open(f"{proxy.page}#catalogue")
    judge("large: all are listed", f"of {big_office.RECORDS:,}" in browser.seen("#catalogue-count"), browser.seen("#catalogue-count"))
    typed.keys(browser)
    typed.alike(browser)
    with browser.before_each_page("performance.setResourceTimingBufferSize(5000);" + WATCH):
        for name, css in VIEWS.items():
            view(browser, proxy, name.format(half=big_office.RECORDS // 2), css)
