"""What a search has found is confirmed from the catalogue: what is due, not held and not confirmed, by the office's own list."""
from __future__ import annotations

import pathlib

import town
from browser import Browser
from counted import Counted
from kit.judging import judge, same
from late import after
from place import Office, Proxy
from story import TEXTS, WHO, Story, says

WORDS = TEXTS["marked"]
BAR = "catalogue-record-confirm"
# what is left out of all records of the town, and how many of each
LEFT = {"away": 2, "held": 2, "confirmed": 3, "toReview": 1, "notDue": 4}
LETTERS, MAP = list(range(5, 13)), 16


def found(it: Counted, page: str) -> None:
    """Marks all that a search has found, and opens the form."""
    it.browser.open(f"{page}#catalogue")
    it.begin()
    it.write("catalogue_text", "title of")
    it.browser.settled()
    it.press("#catalogue-mark")
    it.press(f"#{BAR}-choose")


def confirmed(story: Story) -> set[int]:
    return {row["record"] for row in story.told(f"/due/{after(0)}") if row["confirmed"]}


def previewed(story: Story) -> None:
    """The preview says what would become of them, and why each other one is left out."""
    shown = story.browser.seen(f"#{BAR}-preview")
    sums = [WORDS["confirm"]["action"].format(action=action, count=count) for action, count in (("destroy", 8), ("transfer", 1))]
    says("confirming: what would become of what is found", shown, *sums, WORDS["confirm"]["what"]["record"]["many"].format(count=9))
    left = [WORDS["out"][why]["one" if count == 1 else "many"].format(count=count) for why, count in LEFT.items()]
    says("confirming: what is left out, and why", shown, *left)


def sent(story: Story, it: Counted) -> None:
    """What has changed since it was shown is not confirmed; then all of it is, and nothing else."""
    before = confirmed(story)
    town.send(story.office, [{"act": "hold-on", "day": after(0), "hold": town.HELD, "target": "record:5"}])
    it.write(f"{BAR.replace('-', '_')}_by", WHO)
    it.press(f"#{BAR}-submit")
    says("confirming: what is not as it was shown is said", story.browser.seen("#catalogue-record-outcome"), TEXTS["forecast"]["changed"])
    same("confirming: and nothing is sent", confirmed(story), before)
    story.browser.press(f"#{BAR}-submit")
    same("confirming: then what is free is confirmed, and nothing else", confirmed(story) - before, {*LETTERS, MAP} - {5})
    says("confirming: which is said", story.browser.seen("#catalogue-answer"), WORDS["confirm"]["whole"]["many"].format(count=8))
    judge(f"confirming: from the search on {it.count} steps, at most 5", it.count <= 5)


# where the line of what is marked is, whether nothing covers it, and how long the page is
LINE = """
const line = document.querySelector("section:not([hidden]) .panel-line"), box = line.getBoundingClientRect();
const middle = document.elementFromPoint(box.left + box.width / 2, box.top + box.height / 2);
return { isSeen: box.height > 0 && box.top >= 0 && box.bottom <= innerHeight + 1 && middle === line, text: line.textContent,
  long: document.documentElement.scrollHeight, form: line.parentElement.querySelector("form").checkVisibility() };
"""
# so many pixels a row has at most, of a list that is out of sight
ROW, ABOVE = 330, 2200


def small(story: Story) -> None:
    """On a small screen what is marked has a line that stays in sight, and opens by a press; the page is as long as its rows."""
    it = story.browser
    look = lambda: it.driver.execute_script(LINE)
    for width, height in ((400, 900), (320, 640), (640, 450)):
        it.width(width, height)
        it.open(f"{story.proxy.page}#due?day={after(800)}")
        rows = len(it.table("#due-table"))
        it.press("#due-mark-all")
        there = look()
        name = f"{width}x{height}"
        same(f"{name}: what is marked has a line in sight", (there["isSeen"], there["text"]), (True, WORDS["line"].format(count=rows)))
        judge(f"{name}: the page is no longer than its rows", there["long"] < ABOVE + rows * ROW, str(there))
        same(f"{name}: its forms are folded", there["form"], False)
        it.one("#due-panel > .panel-line").click()
        same(f"{name}: and open by a press", (look()["form"], it.one("#due-panel > .panel-line").get_attribute("aria-expanded")), (True, "true"))
        it.driver.execute_script("document.querySelector('#due-unmark').click()")
        same(f"{name}: with no mark left there is no line", look()["isSeen"], False)
        it.driver.execute_script("document.querySelector('#due-mark-all').click()")
        same(f"{name}: for other marks they are folded again", look()["form"], False)
    it.width(1280)


def tell(office: Office, proxy: Proxy, browser: Browser, folder: pathlib.Path) -> None:
    town.fill(office)
    town.renew(proxy, office)
    story, it = Story(office, proxy, browser, folder), Counted(browser)
    found(it, proxy.page)
    previewed(story)
    sent(story, it)
    small(story)
