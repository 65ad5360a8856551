"""The first day of a new clerk: the steps of docs/WEB.md, by what the page says alone."""
from __future__ import annotations

import pathlib

from browser import Browser
from kit.judging import same
from late import after
from place import Office, Proxy
from story import TEXTS, Story, says

PLAN, FILE = TEXTS["plan"], TEXTS["file"]


def planned(it: Browser) -> str:
    """A schedule, a class and an aggregation: the number that the answer says."""
    it.write(plan_schedule_code="LET-3", plan_schedule_count="3")
    it.choose("#plan-schedule-trigger", "closed")
    it.press("#plan-schedule button")
    says("first day: the schedule is there", it.seen("#plan-schedule-outcome"),
         PLAN["schedule"]["done"].format(code="LET-3"))
    it.write(plan_class_code="LETTERS", plan_class_title="Letters", plan_class_schedule="LET-3")
    it.press("#plan-class button")
    says("first day: the class is there", it.seen("#plan-class-outcome"),
         PLAN["class"]["done"].format(code="LETTERS", schedule="LET-3"))
    it.write(plan_aggregation_ref="LET/1", plan_aggregation_title="Letters", plan_aggregation_class="LETTERS")
    it.press("#plan-aggregation button")
    told = it.one("#plan-aggregation-outcome p").text
    same("first day: the aggregation is there, and has a number", told,
         PLAN["aggregation"]["done"].format(number=1, ref="LET/1"))
    return "".join(part for part in told.split(":")[0] if part.isdigit())


def filed(it: Browser, folder: pathlib.Path, aggregation: str) -> str:
    """A document: first without the aggregation, then with it; the number of the record that its row says."""
    document = folder / "letter.txt"
    document.write_text("Dear Sir or Madam")
    it.go("#file")
    it.one("#file-choose").send_keys(str(document))
    it.settled()
    it.press("#file-submit")
    says("first day: without the aggregation it is said that one is needed", it.text("#file-all-aggregation-wrong"),
         FILE["noAggregation"])
    it.one("#file-send-outcome a").click()
    it.settled()
    same("first day: a link leads to the plan", it.seen("#plan h1"), PLAN["title"])
    it.driver.back()
    it.settled()
    it.write(file_all_aggregation=aggregation)
    it.press("#file-submit")
    same("first day: with it the document is filed", it.facts("#file-send-outcome"),
         {TEXTS["filing"]["counts"]["added"]: "1"})
    return it.one("#file-table tbody a").text


def tell(office: Office, proxy: Proxy, browser: Browser, folder: pathlib.Path) -> None:
    story = Story(office, proxy, browser, folder)
    browser.open(f"{proxy.page}#plan")
    aggregation = planned(browser)
    record = filed(browser, folder, aggregation)
    browser.go(f"#record?number={record}")
    says("first day: the record has no due day, and why is said", browser.seen("#record-words"),
         TEXTS["record"]["noDue"]["closed"].format(schedule="LET-3", aggregation=aggregation))
    browser.go("#plan")
    browser.write(plan_close_aggregation=aggregation)
    browser.press("#plan-close-sure")
    browser.press("#plan-close button")
    says("first day: the aggregation is closed", browser.seen("#plan-close-outcome"),
         PLAN["close"]["done"].format(aggregation=aggregation, day=after(0)))
    browser.go(f"#record?number={record}")
    due = story.told(f"/records/{record}")["due"]
    same("first day: its due day is in three years", due[:4], str(int(after(0)[:4]) + 3))
    says("first day: and is said", browser.seen("#record-words"), TEXTS["record"]["due"].format(due=due))
