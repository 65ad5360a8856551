"""The event of a record, through the page: what the view shows of it, the form, and the due day that counts from it."""
import json
import pathlib

from browser import Browser
from kit.judging import judge, same
from late import after
from place import Office, Proxy
from story import TEXTS, WHO, Story, says

WORDS = TEXTS["event"]
# what is said where no answer came
NOTHING = TEXTS["statuses"][-1]["meaning"]
FORM = "#record-event"
# the schedules: these parts of each
PARTS = ("trigger", "count", "offset", "action")
SCHEDULES: dict[str, tuple] = {
    "END-10": ("event", 10, "from-month-1", "destroy"),
    "END-2": ("event", 2, "none", "destroy"),
    "ADD-12": ("added", 12, "none", "destroy"),
    "SEND-2": ("event", 2, "none", "transfer"),
}
# the records, by number: the schedule of each
RECORDS = ["END-10", "END-2", "ADD-12", "SEND-2", "END-2"]
# requests are sent, and no answer comes back to the page any more
NO_ANSWER = """
const there = window.fetch;
window.fetch = async (...words) => { await there(...words); throw new TypeError("no answer"); };
"""


def fill(office: Office) -> None:
    """Five contracts, each with a schedule of its own."""
    day: dict = {"day": "2024-01-02"}
    record: dict = {"act": "add-record", **day, "originated": "2004-01-02", "aggregation": 1, "content": "YWJj"}
    there = [
        {"act": "add-schedule", **day, "code": code, "unit": "years", **dict(zip(PARTS, parts, strict=True))}
        for code, parts in SCHEDULES.items()
    ]
    there += [
        {"act": "add-class", **day, "code": "CON", "title": "Contracts", "schedule": "END-10"},
        {"act": "add-aggregation", **day, "ref": "CON", "title": "Contracts", "class": "CON"},
    ]
    there += [
        {**record, "ref": f"CON/{number}", "title": f"Contract {number}", "schedule": code}
        for number, code in enumerate(RECORDS, 1)
    ]
    assert office.ask("POST", "/acts", json.dumps(there))[0] == 200


class View:
    """The view of a record, and its form."""

    def __init__(self, story: Story) -> None:
        self.story, self.browser = story, story.browser

    def open(self, number: int) -> str:
        self.browser.open(f"{self.story.proxy.page}#record?number={number}")
        return self.words()

    def words(self) -> str:
        return self.browser.seen("#record-words")

    def outcome(self) -> str:
        return self.browser.seen(f"{FORM}-outcome")

    def written(self, field: str) -> str:
        return self.browser.one(f"{FORM}-{field}").get_attribute("value")

    def is_offered(self) -> bool:
        return self.browser.one(FORM).is_displayed()

    def record(self, occurred: str) -> int:
        """Writes this day and a name into the form, and presses its button; how many requests were sent."""
        before = self.story.posted()
        # it is folded where the rule waits for no event
        if not self.is_offered():
            self.browser.press(f"{FORM}-part > summary")
        self.browser.write(record_event_occurred=occurred, record_event_by=WHO)
        self.browser.press(f"{FORM} button")
        return self.story.posted() - before

    def acts(self, *acts: dict[str, object]) -> None:
        """Has these acts done by the office itself, today."""
        dated = json.dumps([{**act, "day": after(0)} for act in acts])
        assert self.story.office.ask("POST", "/acts", dated)[0] == 200

    def is_shown(self, number: int, event: str | None, due: str | None) -> None:
        """What the path reports, which the view shows in words."""
        there = self.story.told(f"/records/{number}")
        same(f"record {number}: its event and its due day", (there["event"], there["due"]), (event, due))
        of_event = WORDS["recorded"].format(event=event) if event else WORDS["none"]
        of_due = f"It is due on {due}." if due else TEXTS["record"]["noDue"]["event"]
        words = of_due.format(schedule=there["schedule"])
        says(f"record {number}: which the view says", self.words(), of_event, words)

    def is_listed(self, name: str, due: str, is_confirmed: bool) -> None:
        """The list of today has record 1 alone."""
        rows = self.story.told(f"/due/{after(0)}")
        there = [(row["record"], row["due"], row["confirmed"]) for row in rows]
        same(f"the list of today, {name}", there, [(1, due, is_confirmed)])


def refused(number: int) -> tuple[str, ...]:
    row = TEXTS["refusals"][str(number)]
    return f"Refusal {number}, {row['name']}", row["meaning"], row["do"]


def wrong(view: View) -> None:
    """What is wrong in the form, and what the office refuses."""
    view.open(1)
    view.is_shown(1, None, None)
    judge("record 1: its event can be recorded", view.is_offered())
    same("the day of the act is today", view.written("day"), after(0))
    same("and that of the event is not written", view.written("occurred"), "")
    same("an event of no day: nothing is sent", view.record("2023-02-29"), 0)
    same("and that is said at its field", view.browser.text(f"{FORM}-occurred-wrong"), TEXTS["fields"]["dayWrong"])
    same("an event of tomorrow: it is sent, for the office judges", view.record(after(1)), 1)
    says("and refused, in words", view.outcome(), *refused(21))
    view.is_shown(1, None, None)


def recorded(view: View) -> None:
    """An event, others in its place, and what becomes of a confirmation."""
    view.open(1)
    same("an event of long ago: one request is sent", view.record("2013-06-30"), 1)
    done = WORDS["done"].format(record=1, occurred="2013-06-30")
    view.story.success("it is recorded", f"{FORM}-outcome", '200 [{"done":true}]', done, "It is due on 2024-01-01.")
    view.is_shown(1, "2013-06-30", "2024-01-01")
    view.is_listed("by the event", "2024-01-01", False)
    view.acts({"act": "confirm", "record": 1, "action": "destroy", "by": WHO})
    view.is_listed("once it is confirmed", "2024-01-01", True)
    view.record("2014-03-31")
    view.is_shown(1, "2014-03-31", "2025-01-01")
    other = TEXTS["record"]["confirmedOther"]
    says("by another event the confirmation does not count", view.words(), other)
    view.is_listed("by another event", "2025-01-01", False)
    view.record("2013-02-28")
    view.is_shown(1, "2013-02-28", "2024-01-01")
    judge("by one with the due day of the confirmation it may count", other not in view.words(), view.words())
    view.is_listed("with the due day of the confirmation", "2024-01-01", True)
    # the other records are destroyed below, and this one is not
    view.record("2014-03-31")


def counted(view: View) -> None:
    """The due days of other records, each by its schedule."""
    view.browser.go("#record?number=2")
    same("the form of another record begins anew", (view.outcome(), view.written("occurred")), ("", ""))
    view.record("2012-02-29")
    # two years after a leap day: the last day of the month
    view.is_shown(2, "2012-02-29", "2014-02-28")
    view.open(3)
    view.record(after(0))
    done = WORDS["done"].format(record=3, occurred=after(0))
    says("an event of the act's own day is recorded", view.outcome(), done)
    # its period begins with its addition
    view.is_shown(3, after(0), "2036-01-02")
    view.open(4)
    view.record("2020-05-31")
    view.is_shown(4, "2020-05-31", "2022-05-31")


def disposed(view: View, number: int, action: str, refusal: int, words: str) -> None:
    """A run takes the record while the page shows it as it was: an event is refused then, and the view is anew."""
    view.open(number)
    event = view.story.told(f"/records/{number}")["event"]
    confirm = {"act": "confirm", "record": number, "action": action, "by": WHO}
    view.acts(confirm, {"act": "open-run", "by": WHO})
    assert view.story.office.ask("POST", "/run/resume")[0] == 200
    name, of_event = f"record {number}, which a run has taken", WORDS["recorded"].format(event=event)
    same(f"{name}: one request is sent", view.record("2013-06-30"), 1)
    says(f"{name}: and refused, in words", view.outcome(), *refused(refusal))
    says(f"{name}: then the view shows what became of it", view.words(), words, of_event)
    judge(f"{name}: and no event of it can be recorded", not view.is_offered())
    says(f"{name}: so it is when it is shown anew", view.open(number), words, of_event)
    judge(f"{name}: without the form, and without an outcome", not view.is_offered() and view.outcome() == "")
    same(f"{name}: its event stays", view.story.told(f"/records/{number}")["event"], event)


def taken(view: View) -> None:
    """A record that was destroyed or sent shows its event, and takes no other."""
    disposed(view, 2, "destroy", 13, "It was destroyed by run 1")
    disposed(view, 4, "transfer", 14, "It was sent to the archive")
    view.browser.go("#record?number=5")
    judge("of a record that is here an event can be recorded", view.is_offered())


def lost(view: View) -> None:
    """The answer does not come: it is unknown whether the event was recorded, until the record is shown again."""
    view.open(5)
    view.browser.driver.execute_script(NO_ANSWER)
    same("where no answer comes, nothing is sent a second time", view.record("2020-05-31"), 1)
    unknown = (NOTHING, WORDS["lost"].format(record=5), WORDS["stale"])
    says("it is said to be unknown", view.outcome(), *unknown)
    says("and the view is as it was", view.words(), WORDS["none"])
    view.open(5)
    view.is_shown(5, "2020-05-31", "2022-05-31")


def tell(office: Office, proxy: Proxy, browser: Browser, folder: pathlib.Path) -> None:
    fill(office)
    view = View(Story(office, proxy, browser, folder))
    wrong(view)
    recorded(view)
    counted(view)
    taken(view)
    lost(view)
