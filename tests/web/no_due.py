"""Why a record has no due day, as the view Record says it: for each trigger and for what is kept.

By a catalogue the one reason is said, and without one those that are left. No reason is said that is not one.
"""
from __future__ import annotations

import json
import pathlib
import time

import catalogue
from browser import Browser
from events import FORM
from events import View as EventView
from kit.judging import judge, same
from place import Office, Proxy
from story import TEXTS, Story, says

WORDS = TEXTS["record"]["noDue"]
REASONS = ("keep", "closed", "event")
TRIGGERS = ("origin", "added", "closed", "last-addition", "review", "event")
# a record for each of these, numbered from 1: the code of its schedule, the trigger and the action
RULES = [(f"{trigger[:6].upper()}-{action[0].upper()}", trigger, action)
         for trigger in TRIGGERS for action in ("destroy", "keep")]
NUMBERS = {(trigger, action): number for number, (_, trigger, action) in enumerate(RULES, 1)}
DAY = "2024-01-02"


def added(number: int, code: str) -> dict[str, object]:
    """The act that adds a record of this schedule to the open aggregation 1."""
    return {"act": "add-record", "day": DAY, "ref": f"R/{number}", "title": code, "originated": "2020-05-31",
            "aggregation": 1, "class": None, "schedule": code, "content": "YWJj"}


def rule(code: str, trigger: str, action: str) -> dict[str, object]:
    return {"act": "add-schedule", "day": DAY, "code": code, "trigger": trigger, "unit": "years", "count": 500,
            "offset": "none", "action": action}


def fill(office: Office) -> None:
    """An open aggregation with a record for each trigger, one that is destroyed then and one that is kept."""
    there = [rule(*it) for it in RULES]
    there += [
        {"act": "add-class", "day": DAY, "code": "CLASS", "title": "Letters", "schedule": RULES[0][0]},
        {"act": "add-aggregation", "day": DAY, "ref": "A", "title": "Letters", "parent": None, "class": "CLASS"},
    ]
    there += [added(number, code) for number, (code, *_) in enumerate(RULES, 1)]
    status, _, body = office.ask("POST", "/acts", json.dumps(there))
    assert status == 200, body


class View(EventView):
    """The view of a record: which reasons it says."""

    def reason(self, number: int, name: str) -> str:
        told = self.story.told(f"/records/{number}")
        return WORDS[name].format(schedule=told["schedule"], aggregation=told["aggregation"])

    def reasons(self, number: int, text: str) -> list[str]:
        """The reasons that a text says of this record, each in its whole words."""
        return [name for name in REASONS if self.reason(number, name) in text]

    def has_no_due(self, name: str, number: int, *reasons: str) -> None:
        """The view of a record without a due day says these reasons, and no other one."""
        same(f"{name}: the path reports no due day", self.story.told(f"/records/{number}")["due"], None)
        text = self.words()
        same(f"{name}: the reasons are said", self.reasons(number, text), list(reasons))
        several = WORDS["several"].format(schedule=RULES[number - 1][0] if number <= len(RULES) else "LATER")
        says(f"{name}: as one, or as some of which one is it", text, WORDS["is"] if len(reasons) == 1 else several)

    def has_due(self, name: str, number: int) -> None:
        due = self.story.told(f"/records/{number}")["due"]
        judge(f"{name}: the path reports a due day", due is not None)
        says(f"{name}: it is said", self.words(), TEXTS["record"]["due"].format(due=due))
        same(f"{name}: and no reason", self.reasons(number, self.words()), [])


def each(view: View, name: str, known: bool) -> None:
    """Each trigger, with what is destroyed and what is kept; the aggregation is open, and no event is recorded."""
    for number, (_, trigger, action) in enumerate(RULES, 1):
        what = f"{name}: {trigger}, {action}"
        view.open(number)
        if action == "keep":
            view.has_no_due(what, number, *(["keep"] if known else REASONS))
        elif trigger in ("closed", "event"):
            view.has_no_due(what, number, *([trigger] if known else REASONS))
        else:
            view.has_due(what, number)


def event_in_between(view: View, name: str, known: bool, occurred: str) -> None:
    """An event is recorded for a record whose period begins with the closing: it is not said to be waited for."""
    number = NUMBERS["closed", "destroy"]
    view.open(number)
    same(f"{name}: an event is recorded", view.record(occurred), 1)
    left = ["closed"] if known else ["keep", "closed"]
    view.has_no_due(f"{name}: closed, with an event", number, *left)
    outcome = view.browser.seen(f"{FORM}-outcome")
    says(f"{name}: beside the answer, too", outcome, TEXTS["event"]["done"].format(record=number, occurred=occurred))
    same(f"{name}: with the same reasons", view.reasons(number, outcome), left)
    kept = NUMBERS["event", "keep"]
    view.open(kept)
    view.record(occurred)
    view.has_no_due(f"{name}: kept, with an event", kept, *(["keep"] if known else ["keep", "closed"]))


def later(view: View, office: Office, proxy: Proxy) -> None:
    """A schedule that came after the catalogue is known once a later catalogue has it, on a page that stayed open."""
    number = len(RULES) + 1
    view.open(1)
    view.acts(rule("LATER", "closed", "destroy"), added(number, "LATER"))
    view.browser.go(f"#record?number={number}")
    view.has_no_due("a schedule that the catalogue lacks", number, *REASONS)
    # a catalogue is known by its second
    time.sleep(1.1)
    catalogue.renew(proxy, office)
    view.browser.go("#record?number=1")
    view.browser.go(f"#record?number={number}")
    view.has_no_due("once a later one has it", number, "closed")


def closed(view: View) -> None:
    """The aggregation is closed and the event recorded: there is a due day then, and what is kept has none."""
    view.acts({"act": "close-aggregation", "aggregation": 1})
    view.open(NUMBERS["closed", "destroy"])
    view.has_due("once its aggregation is closed", NUMBERS["closed", "destroy"])
    view.open(NUMBERS["event", "destroy"])
    view.record("2020-05-31")
    view.has_due("once its event is recorded", NUMBERS["event", "destroy"])
    view.open(NUMBERS["closed", "keep"])
    view.has_no_due("what is kept, once its aggregation is closed", NUMBERS["closed", "keep"], "keep")


def tell(office: Office, proxy: Proxy, browser: Browser, folder: pathlib.Path) -> None:
    fill(office)
    view = View(Story(office, proxy, browser, folder))
    each(view, "without a catalogue", False)
    event_in_between(view, "without a catalogue", False, "2021-05-31")
    with catalogue.made(proxy, office):
        each(view, "with one", True)
        event_in_between(view, "with one", True, "2021-06-30")
        later(view, office, proxy)
        closed(view)
