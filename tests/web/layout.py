"""How the page is laid out: what covers what, which words are broken, and what fits on paper."""
import pathlib
import re
import subprocess

from browser import Browser
from kit.judging import judge, same
from place import Proxy

WIDTHS = (1280, 1100, 1000, 800, 400)
# where the confirmation is, whether nothing covers it, and how many rows are seen whole between the table's head and it
PANEL = """
const panel = document.getElementById("due-panel"), box = panel.getBoundingClientRect();
const head = document.getElementById("due-head").getBoundingClientRect();
const seen = [];
const low = Math.min(box.bottom, innerHeight) - 6;
for (let x = box.left + 10; x < box.right - 10; x += 60)
  for (let y = box.top + 6; y < low; y += 15) seen.push(panel.contains(document.elementFromPoint(x, y)));
const rows = Array.from(document.querySelectorAll("#due-table tbody tr"), (row) => row.getBoundingClientRect());
const end = Math.min(innerHeight, box.top);
return {
  position: getComputedStyle(panel).position,
  inSight: box.bottom <= innerHeight + 1 && box.top > 0,
  uncovered: seen.length > 0 && seen.every(Boolean),
  rows: rows.filter((row) => row.top >= head.bottom - 1 && row.bottom <= end + 1).length };
"""
# the parts of words, from one space or hyphen to the next, that are on two lines; one longer than any code may be
BROKEN = """
const broken = [];
for (const table of document.querySelectorAll("section:not([hidden]) table")) {
  const walk = document.createTreeWalker(table, NodeFilter.SHOW_TEXT);
  while (walk.nextNode()) {
    const node = walk.currentNode;
    if (!node.parentElement.checkVisibility()) continue;
    for (const found of node.data.matchAll(/[^\\s-]+-?/g)) {
      if (found[0].length > 16) continue;
      const range = document.createRange();
      range.setStart(node, found.index);
      range.setEnd(node, found.index + found[0].length);
      if (new Set(Array.from(range.getClientRects(), (it) => Math.round(it.top))).size > 1) broken.push(found[0]);
    }
  }
}
return broken;
"""


def panel(browser: Browser, proxy: Proxy) -> None:
    """The confirmation stays in sight only once something is marked, and then leaves rows to be seen."""
    # where the page is so low that the confirmation reaches over the table's head no row is seen until it is scrolled
    for height, at_once, marked in ((560, 1, 0), (700, 3, 1), (900, 3, 1)):
        browser.width(1280, height)
        browser.open(f"{proxy.page}#due?day=2022-05-02")
        look = lambda: browser.driver.execute_script(PANEL)
        there = look()
        same(f"1280x{height}: while nothing is marked the confirmation is below the list", there["position"], "static")
        judge(f"1280x{height}: so that rows are seen at once, {there['rows']}", there["rows"] >= at_once, str(there))
        browser.driver.execute_script("document.querySelector('#due-mark').click()")
        for name, scroll, least in (("at the top", 0, marked), ("within the list", 430, 5), ("at the end", 99999, 5)):
            browser.driver.execute_script("scrollTo(0, arguments[0])", scroll)
            there = look()
            judge(
                f"1280x{height}: once something is marked it is in sight {name}, under nothing",
                there["inSight"] and there["uncovered"],
                str(there),
            )
            judge(f"1280x{height}: and rows are seen {name}, {there['rows']}", there["rows"] >= least, str(there))
        browser.driver.execute_script("document.querySelector('#due-unmark').click()")
        same(f"1280x{height}: with no mark left it goes back", look()["position"], "static")
    browser.width(1280)


def words(browser: Browser, address: str, name: str) -> None:
    """No word of a table is broken within, and no table is wider than the page."""
    for width in WIDTHS:
        browser.width(width)
        browser.open(address)
        whole(browser, name, width)
    browser.width(1280)


def words_there(browser: Browser, name: str) -> None:
    """The same of the view that is there, with what was chosen or written in it."""
    for width in WIDTHS:
        browser.width(width)
        whole(browser, name, width)
    browser.width(1280)


def whole(browser: Browser, name: str, width: int) -> None:
    same(f"{name}: at {width} pixels no word of a table is broken", browser.driver.execute_script(BROKEN), [])
    wide = browser.driver.execute_script("return document.documentElement.scrollWidth")
    judge(f"{name}: nor is anything wider than that", wide <= width, str(wide))


def on_paper(browser: Browser, address: str, file: pathlib.Path, name: str, wanted: dict[str, int]) -> None:
    """Printed, each of these words is whole, at least so often, and nothing reaches over the edge of the paper."""
    browser.open(address)
    browser.paper(file)
    told = subprocess.run(["pdftotext", "-bbox", file, "-"], stdout=subprocess.PIPE, check=True).stdout.decode()
    found = re.findall(r"<word .*>(.*)</word>", told)
    short = {word: found.count(word) for word, count in wanted.items() if found.count(word) < count}
    judge(f"{name}: on paper each word is whole", not short, f"{short} of {wanted}\n{found}")
    for page in told.split("<page ")[1:]:
        width = float(re.findall(r'^width="([\d.]+)"', page)[0])
        most = max((float(it) for it in re.findall(r'xMax="([\d.]+)"', page)), default=0)
        judge(f"{name}: and nothing reaches over the edge", most <= width - 20, f"{most} of {width}")
