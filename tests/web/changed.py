"""What changes between its being shown and the press: nothing is sent, what has changed is said, and it is asked for again."""
from __future__ import annotations

import itertools
import json
import pathlib

import layout
from browser import Browser
from kit.judging import judge, same
from late import CLOCK, after
from place import Office, Proxy
from shots import shots
from story import TEXTS, WHO, Story, says

WORDS = TEXTS["changes"]
COLUMNS = TEXTS["due"]["columns"]
NOT_HELD = TEXTS["due"]["free"]
FIRST, LATER = {"day": "2020-01-02"}, {"day": "2024-01-02"}
# the schedules: trigger, count of years, action
SCHEDULES = {
    "D2": ("added", 2, "destroy"),
    "D3": ("added", 3, "destroy"),
    "SEND-2": ("added", 2, "transfer"),
    "KEEP": ("added", 0, "keep"),
    "REV-2": ("review", 2, "review"),
    "REV-3": ("review", 3, "review"),
}
# of the due lists, records 1 to 8: the class of each; record 9 is to be reviewed
RECORDS = ["FIN", "LEG", "LEG", "FIN", "FIN", "FIN", "FIN", "FIN"]
# what the page asks for, one after another: the method, and which state
ASKED = """
window.asked = [];
const there = window.fetch;
window.fetch = (...words) => {
  window.asked.push(`${words[1].method} ${words[1].headers["Office-Read"] ?? ""}`.trim());
  return there(...words);
};
"""


def fill(office: Office) -> None:
    """Eight records that are due, of two classes, and one that is to be reviewed."""
    acts = [
        {"act": "add-schedule", **FIRST, "code": code, "trigger": trigger, "unit": "years", "count": count}
        | {"offset": "none", "action": action}
        for code, (trigger, count, action) in SCHEDULES.items()
    ]
    acts += [{"act": "add-class", **FIRST, "code": code, "title": code, "schedule": "D2"} for code in ("FIN", "LEG")]
    acts += [{"act": "add-aggregation", **FIRST, "ref": code, "title": code, "class": code} for code in ("FIN", "LEG")]
    record = {"act": "add-record", **FIRST, "originated": "2020-01-02", "content": "YWJj"}
    acts += [
        {**record, "ref": f"r{at}", "title": f"Letter {at}", "aggregation": 1 + (code == "LEG")}
        for at, code in enumerate(RECORDS, 1)
    ]
    acts += [{**record, "ref": "r9", "title": "Contract", "aggregation": 1, "schedule": "REV-2"}]
    hold = {"reason": "A lawsuit", "by": WHO}
    acts += [{"act": "place-hold", **FIRST, "code": code, **hold} for code in ("H-1", "H-2")]
    assert office.ask("POST", "/acts", json.dumps(acts))[0] == 200


class View:
    """The view Due or Overdue, and what another clerk does meanwhile."""

    def __init__(self, story: Story, name: str = "due", words: str = "day=2024-06-30") -> None:
        self.story, self.browser, self.name, self.words = story, story.browser, name, words

    def open(self) -> None:
        self.browser.open(f"{self.story.proxy.page}#{self.name}?{self.words}")
        self.browser.write(**{f"{self.name}_confirm_by": WHO, f"{self.name}_confirm_day": LATER["day"]})

    def mark(self, *records: int) -> None:
        for record in records:
            box = self.browser.one(f"#{self.name}-table input[aria-label='Mark record {record}']")
            self.browser.driver.execute_script("arguments[0].scrollIntoView({block: 'center'})", box)
            box.click()

    def marked(self) -> list[int]:
        script = "return Array.from(document.querySelectorAll(arguments[0]), (it) => Number(it.closest('tr').cells[1].textContent))"
        return sorted(self.browser.driver.execute_script(script, f"#{self.name}-table input:checked"))

    def meanwhile(self, *acts: dict[str, object]) -> None:
        """Another clerk has these acts done, while the list is open here."""
        assert self.story.office.ask("POST", "/acts", json.dumps([{**LATER, **act} for act in acts]))[0] == 200

    def press(self) -> int:
        """Presses the button that confirms; how many requests that act were sent."""
        before = self.story.posted()
        self.browser.press(f"#{self.name}-submit")
        return self.story.posted() - before

    def outcome(self, part: str = "panel-outcome") -> str:
        return self.browser.seen(f"#{self.name}-{part}")

    def changes(self) -> list[list[str]]:
        return self.browser.table(f"#{self.name} .changes")

    def confirmed(self, record: int) -> str | None:
        """For which due day a record is confirmed."""
        told = self.story.told(f"/records/{record}")["confirmed"]
        return told and told["due"]


def due(view: View) -> None:
    """A rule, a class, a hold and a record's own schedule change while the list is shown."""
    it = view.browser
    view.open()
    view.mark(1, 2, 4, 5, 6)
    view.meanwhile(
        {"act": "set-class-schedule", "class": "LEG", "schedule": "D3"},
        {"act": "hold-on", "hold": "H-1", "target": "record:4"},
        {"act": "reclassify", "target": "record:5", "class": "LEG"},
        {"act": "set-record-schedule", "record": 6, "schedule": "KEEP"},
    )
    same("changed: nothing is sent", view.press(), 0)
    says("changed: which is said, with how many", view.outcome(), WORDS["unsent"], WORDS["told"]["many"].format(count=4))
    rule, day = COLUMNS["schedule"], COLUMNS["due"]
    wanted = [
        ["2", "r2", rule, "D2", "D3"],
        ["2", "r2", day, "2022-01-02", "2023-01-02"],
        ["4", "r4", COLUMNS["held"], NOT_HELD, "H-1"],
        ["5", "r5", COLUMNS["class"], "FIN", "LEG"],
        ["5", "r5", rule, "D2", "D3"],
        ["5", "r5", day, "2022-01-02", "2023-01-02"],
        ["6", "r6", "", "", WORDS["gone"]],
    ]
    same("changed: what has changed, each with what was shown and what is there", view.changes(), wanted)
    same("changed: the list is as it is now", view.story.due_table(),
         view.story.due_cells(view.story.told("/due/2024-06-30")))
    same("changed: what has not changed is marked still, and nothing else", view.marked(), [1])
    same("changed: nothing is confirmed", [view.confirmed(it) for it in (1, 2, 4, 5, 6)], [None] * 5)
    it.press("#due-panel-outcome button")
    same("changed: on demand what is there still is marked again", view.marked(), [1, 2, 4, 5])
    same("changed: then one request confirms it", view.press(), 1)
    says("changed: and it is done", view.outcome("answer"), "Confirmed: 4 of 4.")
    same("changed: each for the due day that was shown last", [view.confirmed(it) for it in (1, 2, 4, 5)],
         ["2022-01-02", "2023-01-02", "2022-01-02", "2023-01-02"])


def newest(view: View) -> None:
    """Of an office on several machines the newest state is asked for, before a request that acts."""
    view.open()
    view.mark(3)
    view.browser.driver.execute_script(ASKED)
    same("changed: one request confirms what is as it was shown", view.press(), 1)
    same("changed: before it the newest list is asked for, and any list after it",
         view.browser.driver.execute_script("return window.asked"), ["HEAD", "GET newest", "POST", "GET"])


def again(view: View) -> None:
    """What changes once more is asked once more; what only others have changed is not."""
    view.open()
    view.mark(7)
    view.meanwhile({"act": "set-record-schedule", "record": 7, "schedule": "SEND-2"})
    same("changed: another action: nothing is sent", view.press(), 0)
    says("changed: one record, in words for one", view.outcome(), WORDS["told"]["one"].format(count=1))
    same("changed: the action in words", [row[2:] for row in view.changes()],
         [[COLUMNS["schedule"], "D2", "SEND-2"], [COLUMNS["action"], "destroy", "transfer"]])
    view.mark(7)
    view.meanwhile({"act": "hold-on", "hold": "H-2", "target": "record:7"})
    same("changed: marked again and changed again: nothing is sent", view.press(), 0)
    same("changed: the hold alone is told then", [row[2:] for row in view.changes()],
         [[COLUMNS["held"], NOT_HELD, "H-2"]])
    view.mark(7)
    view.meanwhile({"act": "hold-on", "hold": "H-2", "target": "record:8"})
    same("changed: what is not marked may change", view.press(), 1)
    same("changed: the record is confirmed, by its action", view.story.told("/records/7")["confirmed"]["action"],
         "transfer")


def overdue(view: View) -> None:
    """What is left in the list Overdue is confirmed by somebody else: then no list is left."""
    view.open()
    rows = [row["record"] for row in view.story.told("/overdue/2024-06-30/30") if row["action"] != "review"]
    same("changed: overdue: one record is left", rows, [8])
    view.mark(8)
    other = {"act": "confirm", "action": "destroy", "by": "Another"}
    keep = {"act": "set-record-schedule", "record": 9, "schedule": "KEEP"}
    view.meanwhile({**other, "record": 8}, keep)
    same("changed: overdue: nothing is sent", view.press(), 0)
    says("changed: overdue: it says so though no list is left", view.outcome("outcome"),
         WORDS["told"]["one"].format(count=1), WORDS["gone"])
    same("changed: overdue: the other's confirmation stays", view.story.told("/records/8")["confirmed"]["by"], "Another")


def away(view: View) -> None:
    """Another view is looked at meanwhile: the list is read anew, with the marks of what is as it was."""
    it = view.browser
    view.open()
    it.choose("#due-class", "FIN")
    it.press("#due [data-column=record] button")
    view.mark(1, 4, 7)
    it.go("#holds")
    view.meanwhile({"act": "lift-hold", "hold": "H-1"}, {"act": "hold-off", "hold": "H-2", "target": "record:7"})
    it.go("#due")
    rows = [row for row in view.story.told("/due/2024-06-30") if row["class"] == "FIN"]
    same("changed: away: the list is read anew, with its filter and order", view.story.due_table(),
         view.story.due_cells(sorted(rows, key=lambda row: row["record"])))
    same("changed: away: marked is still what is as it was", view.marked(), [1])
    says("changed: away: what has changed is said", view.outcome(), WORDS["told"]["many"].format(count=2))
    judge("changed: away: and not that it was not sent", WORDS["unsent"] not in view.outcome(), view.outcome())
    same("changed: away: with what has", [(row[0], *row[2:]) for row in view.changes()],
         [("4", COLUMNS["held"], "H-1", NOT_HELD), ("7", COLUMNS["held"], "H-2", NOT_HELD)])
    same("changed: away: one request confirms what is marked", view.press(), 1)
    says("changed: away: which is said", view.outcome("answer"), "Confirmed: 1 of 1.")
    it.go("#holds")
    it.go("#due")
    same("changed: away: and no more when another view was looked at", view.outcome("answer"), "")


def next_day(view: View) -> None:
    """The page stays open over midnight: the list of today is that of the new day, and another one stays."""
    it, day = view.browser, lambda: it.one("#due-day").get_attribute("value")
    it.open(f"{view.story.proxy.page}#due")
    same("changed: the view begins with the list of today", day(), after(0))
    it.go("#holds")
    it.driver.execute_script(CLOCK, 1)
    it.go("#due")
    same("changed: on the next day it is the list of that day", day(), after(1))
    it.driver.execute_script(CLOCK, 1)
    it.settled()
    same("changed: and so it is for somebody who comes back to it", day(), after(2))
    it.write(due_day="2024-06-30")
    it.press("#due-form button")
    it.go("#holds")
    it.driver.execute_script(CLOCK, 1)
    it.go("#due")
    same("changed: but a list that was asked for stays", day(), "2024-06-30")


def unread(view: View) -> None:
    """The list cannot be read anew: nothing is sent."""
    view.open()
    view.mark(1)
    view.story.office.stop()
    same("changed: without an office nothing is sent", view.press(), 0)
    says("changed: which is said, with the answer", view.outcome(), WORDS["unread"], TEXTS["proxy"]["502"]["meaning"])
    same("changed: and the mark stays", view.marked(), [1])
    view.story.office.start()
    same("changed: once it is there again it is sent", view.press(), 1)


def review(story: Story, view: View) -> None:
    """A record to be reviewed gets another schedule and a hold while it is shown."""
    it = story.browser
    view.meanwhile({"act": "set-record-schedule", "record": 9, "schedule": "REV-2"})
    it.open(f"{story.proxy.page}#record?number=9")
    it.press("#record-review-part summary")
    it.write(record_review_by=WHO, record_review_day=LATER["day"])
    view.meanwhile({"act": "set-record-schedule", "record": 9, "schedule": "REV-3"},
                   {"act": "hold-on", "hold": "H-1", "target": "record:9"})
    before = story.posted()
    it.press("#record-review button")
    same("changed: review: nothing is sent", story.posted() - before, 0)
    says("changed: review: which is said", it.seen("#record-review-outcome"), WORDS["record"])
    same("changed: review: with what has changed", it.table("#record-review-outcome .changes"),
         [[COLUMNS["schedule"], "REV-2", "REV-3"], [COLUMNS["due"], "2022-01-02", "2023-01-02"],
          [COLUMNS["held"], NOT_HELD, "H-1"]])
    says("changed: review: the record is shown as it is now", it.seen("#record-words"), "It is due on 2023-01-02.")
    it.press("#record-review button")
    same("changed: review: pressed once more it is sent", story.posted() - before, 1)
    says("changed: review: and recorded", it.seen("#record-review-outcome"), "Record 9 is reviewed.")


def pictures(view: View) -> None:
    codes = itertools.cycle(["D3", "D2"])

    def prepare() -> None:
        view.browser.write(due_confirm_by=WHO, due_confirm_day=LATER["day"])
        view.mark(1, 2, 4)
        view.meanwhile({"act": "set-class-schedule", "class": "LEG", "schedule": next(codes)})
        view.press()

    shots(view.browser, "changed", f"{view.story.proxy.page}#due?day=2024-06-30", prepare)


def tell(office: Office, proxy: Proxy, browser: Browser, folder: pathlib.Path) -> None:
    fill(office)
    story = Story(office, proxy, browser, folder)
    view = View(story)
    pictures(view)
    view.meanwhile({"act": "set-class-schedule", "class": "LEG", "schedule": "D2"})
    due(view)
    layout.words_there(browser, "changed: what was confirmed")
    newest(view)
    again(view)
    review(story, view)
    away(view)
    next_day(view)
    overdue(View(story, "overdue", "day=2024-06-30&count=30"))
    unread(view)
