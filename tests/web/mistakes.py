"""A record that was filed wrongly: filed again as it should be, and ready for the next run, by one form; or left as it is."""
from __future__ import annotations

import pathlib

import town
from browser import Browser
from counted import Counted
from kit.judging import judge, same
from late import after
from place import Office, Proxy
from story import TEXTS, WHO, Story, says

WORDS = TEXTS["misfiled"]
FORM = "record-misfiled"
WRONG, TAKEN, HELD = 5, 6, 1
# the records of the town are those up to this one
LAST = 21


def opened(story: Story, number: int) -> None:
    story.browser.open(f"{story.proxy.page}#record?number={number}")
    story.browser.press(f"#{FORM}-part summary")


def corrected(story: Story, it: Counted) -> None:
    """Another title and another file: a new record has them, and the wrong one is due and confirmed."""
    story.browser.open(f"{story.proxy.page}#record?number={WRONG}")
    before = story.told(f"/records/{WRONG}")
    it.begin()
    it.press(f"#{FORM}-part summary")
    same("mistakes: a ref that is free is suggested", story.browser.one(f"#{FORM}-ref").get_attribute("value"), "LET/5-2")
    for name, value in (("title", "What it is"), ("aggregation", "MAP"), ("by", WHO)):
        it.write(f"record_misfiled_{name}", value)
    it.press(f"#{FORM} button.grave")
    judge(f"mistakes: {it.count} steps, at most 5", it.count <= 5)
    new, old = (story.told(f"/records/{number}") for number in (LAST + 1, WRONG))
    same("mistakes: it is filed again with what was corrected", [new[name] for name in ("ref", "title", "aggregation", "class", "digest")],
         ["LET/5-2", "What it is", 2, "MAP", before["digest"]])
    same("mistakes: and originated when it did", new["originated"], before["originated"])
    same("mistakes: the wrong one has a schedule of its own, and is confirmed", (old["schedule"], old["confirmed"]["action"], old["confirmed"]["by"]),
         ("MISFILED", "destroy", WHO))
    row = next(row for row in story.told(f"/due/{after(0)}") if row["record"] == WRONG)
    same("mistakes: so that the next run takes it", (row["schedule"], row["confirmed"], row["held"]), ("MISFILED", True, None))
    says("mistakes: which is said", story.browser.seen(f"#{FORM}-outcome"), f"Filed again as record {LAST + 1}: LET/5-2.",
         WORDS["ends"].format(number=WRONG, code="MISFILED", run="Run"))


def refused(story: Story) -> None:
    """A ref that another record has: nothing is filed, and nothing becomes of the wrong one."""
    opened(story, TAKEN)
    before = story.told(f"/records/{TAKEN}")
    story.browser.write(record_misfiled_ref="LET/7", record_misfiled_by=WHO)
    story.browser.press(f"#{FORM} button.grave")
    says("mistakes: a ref that is taken is said at its field", story.browser.text(f"#{FORM}-ref-wrong"), WORDS["taken"].format(ref="LET/7"))
    says("mistakes: and that nothing became of it", story.browser.seen(f"#{FORM}-outcome"), WORDS["nothing"])
    same("mistakes: which is so", (story.told(f"/records/{TAKEN}"), story.office.ask("GET", f"/records/{LAST + 2}")[0]), (before, 404))
    story.browser.write(record_misfiled_ref="LET/6-2", record_misfiled_mistake="D-1")
    story.browser.press(f"#{FORM} button.grave")
    same("mistakes: a schedule that is another rule is not given", story.browser.text(f"#{FORM}-mistake-wrong"), WORDS["otherRule"].format(code="D-1"))
    same("mistakes: nor is anything filed then", (story.told(f"/records/{TAKEN}"), story.office.ask("GET", f"/records/{LAST + 2}")[0]), (before, 404))


def held(story: Story) -> None:
    """What a hold covers says so before; and what is gone is offered no form."""
    opened(story, HELD)
    says("mistakes: a hold is said before", story.browser.seen(f"#{FORM}-held"), WORDS["held"].format(hold=town.HELD))
    story.browser.open(f"{story.proxy.page}#record?number=13")
    judge("mistakes: what was sent is not filed again", not story.browser.one(f"#{FORM}-part").is_displayed())


def tell(office: Office, proxy: Proxy, browser: Browser, folder: pathlib.Path) -> None:
    town.fill(office)
    town.renew(proxy, office)
    story, it = Story(office, proxy, browser, folder), Counted(browser)
    corrected(story, it)
    refused(story)
    held(story)
