"""A day later than today: each form with the day of an act asks for a tick, and sends nothing without it."""
import datetime
import hashlib
import json
import pathlib

from browser import Browser
from kit.judging import judge, same
from place import Office, Proxy
from story import TEXTS, Story, says

TODAY = datetime.date.today()
# the forms, in an order in which each act is accepted; the fields of each but its day
FORMS: dict[str, dict[str, str]] = {
    "hold-place": {"code": "H-1", "reason": "A lawsuit", "by": "Legal office"},
    "hold-on": {"code": "H-1", "target": "C"},
    "hold-off": {"code": "H-1", "target": "C"},
    "hold-lift": {"code": "H-1"},
    "due-confirm": {"by": "Registrar"},
    "overdue-confirm": {"by": "Registrar"},
    "record-event": {"occurred": "2020-05-31", "by": "Registrar"},
    "record-review": {"by": "Registrar"},
    "record-schedule": {"schedule": "D12"},
    "record-class": {"class": "C"},
    "record-receipt": {"digest": hashlib.sha256(b"abc").hexdigest(), "by": "Registrar"},
    "file-send": {},
    "import-send": {},
    "plan-schedule": {"code": "P1", "count": "3"},
    "plan-class": {"code": "P", "title": "Plans", "schedule": "P1"},
    "plan-rule": {"class": "P", "schedule": "D1"},
    "plan-aggregation": {"ref": "P", "title": "Plans", "class": "P"},
    "plan-reclassify": {"number": "2", "class": "C"},
    "plan-close": {"aggregation": "2"},
    "plan-own": {"record": "2", "schedule": "D12"},
    "run-open": {"by": "Registrar"},
}
VIEWS = {
    "hold": "#holds",
    "due": "#due",
    "overdue": "#overdue",
    "file": "#file",
    "import": "#import",
    "plan": "#plan",
    "run": "#run",
}
# what is chosen in a view first: a file, and what is in it
CHOSEN = {
    "file": ("late.txt", "A letter"),
    "import": ("late.csv", "ref,title,originated,aggregation\nL/1,Late,2020-01-01,1\n"),
}
# the record of each form that is for one
RECORDS = {
    "record-event": 2,
    "record-review": 3,
    "record-schedule": 2,
    "record-class": 2,
    "record-receipt": 4,
    "due-confirm": 1,
    "overdue-confirm": 5,
}
LATE, CLOCKS = TEXTS["fields"]["late"], TEXTS["fields"]["clocks"]
# a day is written in one step, as by a script that tells nobody, or as by pasting it
WRITE = "const it = document.getElementById(arguments[0]); it.value = arguments[1];"
PASTE = WRITE + "it.dispatchEvent(new InputEvent('input', { bubbles: true }));"
# another clock in the page, so many days before its own or after it
CLOCK = """
const Real = Date, more = 86400000 * arguments[0];
window.Date = class extends Real {
  constructor(...words) { words.length ? super(...words) : super(Real.now() + more); }
  static now() { return Real.now() + more; }
};
dispatchEvent(new Event("focus"));
"""


def after(days: int) -> str:
    return (TODAY + datetime.timedelta(days)).isoformat()


def fill(office: Office) -> None:
    """Two records that are due since a year, one to be reviewed, one that was sent, and one that is due later."""
    day: dict = {"day": after(-800)}
    schedule = {"act": "add-schedule", **day, "unit": "years", "offset": "none"}
    acts = [
        {**schedule, "code": "D1", "trigger": "added", "count": 1, "action": "destroy"},
        {**schedule, "code": "D12", "trigger": "added", "count": 12, "action": "destroy"},
        {**schedule, "code": "REV-1", "trigger": "review", "count": 1, "action": "review"},
        {**schedule, "code": "SEND-1", "trigger": "added", "count": 1, "action": "transfer"},
        {"act": "add-class", **day, "code": "C", "title": "Letters", "schedule": "D1"},
        {"act": "add-aggregation", **day, "ref": "A", "title": "Letters", "class": "C"},
    ]
    record: dict = {"act": "add-record", **day, "originated": after(-800), "aggregation": 1, "content": "YWJj"}
    acts += [
        {**record, "ref": f"r{number}", "title": f"Letter {number}", "schedule": code}
        for number, code in enumerate((None, "D12", "REV-1", "SEND-1", None), 1)
    ]
    day = {"day": after(-400)}
    acts += [
        {"act": "confirm", **day, "record": 4, "action": "transfer", "by": "Registrar"},
        {"act": "open-run", **day, "by": "Registrar"},
    ]
    assert office.ask("POST", "/acts", json.dumps(acts))[0] == 200
    assert office.ask("POST", "/run/resume")[0] == 200


class Form:
    """One form of the page, which sends one act with a day."""

    def __init__(self, story: Story, name: str) -> None:
        self.story, self.browser, self.name, self.day = story, story.browser, name, f"{name}-day"

    def fill(self) -> None:
        it, view = self.browser, self.name.split("-")[0]
        it.go(f"#record?number={RECORDS[self.name]}" if view == "record" else VIEWS[view])
        if view in CHOSEN:
            self.choose(view, *CHOSEN[view])
        it.driver.execute_script(
            "document.getElementById(arguments[0]).closest('details')?.setAttribute('open', '')", self.name
        )
        it.write(**{f"{self.name}-{field}": value for field, value in FORMS[self.name].items()})
        if view in ("due", "overdue"):
            self.mark(f"#{view}-table input[aria-label='Mark record {RECORDS[self.name]}']")

    def mark(self, css: str) -> None:
        box = self.browser.one(css)
        if not box.is_selected():
            self.browser.driver.execute_script("arguments[0].scrollIntoView({block: 'center'})", box)
            box.click()

    def choose(self, view: str, name: str, text: str) -> None:
        file = self.story.folder / name
        file.write_text(text)
        self.browser.one(f"#{view}-choose").send_keys(str(file))
        self.browser.wait(lambda: self.browser.one(f"#{self.name}").is_displayed(), f"{name} is not shown")
        if view == "file":
            self.browser.write(file_all_aggregation="1")

    def says_late(self) -> str:
        return self.browser.text(f"#{self.day}-late")

    def press(self) -> int:
        """Presses the button, with the tick that a lift, a closing and another schedule ask for, and counts what was sent."""
        before = self.story.posted()
        tick = {"hold-lift": "#hold-sure", "plan-close": "#plan-close-sure", "plan-rule": "#plan-rule-forecast input"}.get(self.name)
        if tick:
            self.browser.wait(lambda: self.browser.all(tick), f"{self.name} asks for no tick")
            if not self.browser.one(tick).is_selected():
                self.browser.press(tick)
        self.browser.press(f"#{self.name} button:not([type])")
        return self.story.posted() - before

    def tick(self) -> None:
        self.browser.press(f"#{self.day}-sure")

    def write(self, day: str) -> None:
        self.browser.write(**{self.day: day})


def ahead(story: Story) -> None:
    """A list that looks ahead leaves the day of the confirmation as it is."""
    it, days = story.browser, lambda: it.one("#due-confirm-day").get_attribute("value")
    it.open(f"{story.proxy.page}#due?day=2999-12-31")
    same(
        "a list of a late day, by its address: the day of the confirmation is today",
        (len(story.due_table()), days()),
        (4, after(0)),
    )
    same("and it says that it looks ahead", it.seen("#due-ahead"), TEXTS["due"]["ahead"].format(today=after(0)))
    it.open(f"{story.proxy.page}#due")
    same("a list of today does not look ahead", it.text("#due-ahead"), "")
    it.write(due_day=after(4000))
    it.press("#due-form button")
    same(
        "a list of a late day, by its form: the day of the confirmation is today",
        (len(story.due_table()), days()),
        (4, after(0)),
    )
    it.press("#due-form button")
    same("and when that list is read again", (len(story.due_table()), days()), (4, after(0)))


def asked(story: Story, name: str, late: str) -> None:
    """What a form says of a late day, and that it sends nothing until its tick is there."""
    it, form = story.browser, Form(story, name)
    form.fill()
    same(f"{name}: its day begins as today", it.one(f"#{form.day}").get_attribute("value"), after(0))
    same(f"{name}: of today nothing is said", form.says_late(), "")
    form.write(late)
    says(
        f"{name}: of a later day it says what that means",
        it.seen(f"#{form.day}-late"),
        LATE.format(day=late, today=after(0), clock=CLOCKS["here"]),
    )
    same(f"{name}: without the tick nothing is sent", form.press(), 0)
    same(f"{name}: which is said at the tick", it.text(f"#{form.day}-sure-wrong"), TEXTS["fields"]["sureWrong"])
    same(
        f"{name}: and the tick has the focus",
        it.driver.execute_script("return document.activeElement.id"),
        f"{form.day}-sure",
    )
    form.tick()
    it.driver.execute_script(PASTE, form.day, "2999-12-31")
    same(f"{name}: a tick is for one day alone", form.press(), 0)
    form.write(after(0))
    it.driver.execute_script(WRITE, form.day, late)
    same(f"{name}: a day that a script wrote asks for it too", form.press(), 0)
    form.tick()
    same(f"{name}: with the tick one request is sent", form.press(), 1)
    outcome = it.one(f"#{name.removesuffix('-confirm')}-answer" if name.endswith("-confirm") else f"#{name}-outcome")
    judge(f"{name}: and its act is done", "done" in outcome.get_attribute("class"), outcome.text)
    judge(f"{name}: then the tick is gone", not it.one(f"#{form.day}-sure").is_selected())


def days_back(story: Story) -> None:
    """After that no act of today is taken, which is what the page has said."""
    form = Form(story, "hold-place")
    form.fill()
    form.write(after(0))
    same("back at today nothing is said", form.says_late(), "")
    same("and no tick is asked for", form.press(), 1)
    row = TEXTS["refusals"]["1"]
    says(
        "but the office takes no act of today any more",
        story.browser.seen("#hold-place-outcome"),
        "Refusal 1, DayBack",
        row["meaning"],
        row["do"],
        "backup",
    )


def carried_out(story: Story) -> None:
    """The run of a late day, and one after it that takes nothing: both say what they did."""
    it, counts = story.browser, lambda: list(it.facts("#run-resume-outcome").values())
    it.go("#run")
    it.press("#run-sure")
    it.press("#run-resume button")
    same("the run of the late day: its counts", counts(), ["2", "0", "1", "0"])
    story.office.ask(
        "POST", "/acts", json.dumps([{"act": "open-run", "day": after(len(FORMS) + 1), "by": "Registrar"}])
    )
    it.press("#run-sure")
    it.press("#run-resume button")
    same("a run that takes nothing: its counts", counts(), ["0", "0", "0", "0"])
    says("and that it took nothing", it.seen("#run-resume-outcome"), TEXTS["run"]["tookNone"])


def clock(story: Story) -> None:
    """Today is the day of the browser's clock, also on a page that stays open over midnight.

    The view asks nothing of the server as a day is written: its answer would show that the two clocks differ.
    """
    it = story.browser
    it.open(f"{story.proxy.page}#plan")
    it.driver.execute_script(CLOCK, 1)
    same(
        "over midnight a day that nobody wrote is today again", it.one("#plan-schedule-day").get_attribute("value"), after(1)
    )
    it.write(plan_schedule_day=after(1))
    same("and the new day is not late", it.text("#plan-schedule-day-late"), "")
    it.write(plan_schedule_day=after(2))
    words = LATE.format(day=after(2), today=after(1), clock=CLOCKS["here"])
    says("but the one after it is", it.text("#plan-schedule-day-late"), words)
    it.driver.execute_script("dispatchEvent(new Event('focus'))")
    same("and a day that somebody wrote stays", it.one("#plan-schedule-day").get_attribute("value"), after(2))


def all_forms(browser: Browser) -> None:
    """Each form with the day of an act is among those that are tried; those for what is marked are so in at_once.py."""
    days = (
        "return Array.from(document.querySelectorAll('form:not(.deed) [data-field=day] > input'), (it) => it.id).sort()"
    )
    same("each form with a day is tried", browser.driver.execute_script(days), sorted(f"{name}-day" for name in FORMS))


def tell(office: Office, proxy: Proxy, browser: Browser, folder: pathlib.Path) -> None:
    fill(office)
    story = Story(office, proxy, browser, folder)
    browser.open(proxy.page)
    all_forms(browser)
    ahead(story)
    browser.open(proxy.page)
    for number, name in enumerate(FORMS, 1):
        asked(story, name, after(number))
    days_back(story)
    carried_out(story)
    clock(story)
