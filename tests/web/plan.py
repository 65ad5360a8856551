"""The view Plan: a city's filing plan made from nothing by the page alone, and the due days of its example."""
import json
import pathlib
import sqlite3
import subprocess

from browser import Browser
from due_days import by_plan, cases, office_due
from interface import city
from kit.judging import judge, same
from place import OFFICE, TOP, Office, Proxy
from shots import shots
from story import TEXTS, Story, says

WORDS = TEXTS["plan"]
# the form of each kind of act, and the members that its fields have, but for the day
FORMS = {
    "add-schedule": ("plan-schedule", ("code", "trigger", "count", "unit", "offset", "action")),
    "add-class": ("plan-class", ("code", "title", "schedule")),
    "set-class-schedule": ("plan-rule", ("class", "schedule")),
    "add-aggregation": ("plan-aggregation", ("ref", "title", "parent", "class")),
    "close-aggregation": ("plan-close", ("aggregation",)),
    "reclassify": ("plan-reclassify", ("kind", "number", "class")),
    "set-record-schedule": ("plan-own", ("record", "schedule")),
}
CHOICES = ("trigger", "unit", "offset", "action", "kind")
TABLES = ("schedules2", "classes", "aggregations", "records")
# the due day of each case, by the page's own module
DUE_DAYS = """
const [cases, done] = arguments;
import(new URL("plain/days.js", location.href)).then(({ dueDay }) =>
  done(cases.map(([unit, count, offset, start]) => dueDay(start, { unit, count, offset }))),
  (error) => done(String(error)));
"""


# a closing asks for a tick, and so does another schedule that the page has no forecast of, as without a catalogue
TICKS = {"plan-close": "#plan-close-sure", "plan-rule": "#plan-rule-blind"}


class Plan:
    """The view and its forms."""

    def __init__(self, story: Story) -> None:
        self.story, self.browser = story, story.browser

    def write(self, act: dict) -> str:
        """Writes an act into its form; the form."""
        form, members = FORMS[act["act"]]
        if act["act"] == "reclassify":
            kind, number = act["target"].split(":")
            act = {**act, "kind": kind, "number": number}
        for member in (*members, "day"):
            value = str(act.get(member) or ("0" if member == "count" else ""))
            if member in CHOICES:
                self.browser.choose(f"#{form}-{member}", value)
            else:
                self.browser.write(**{f"{form}-{member}": value})
        return form

    def ask(self, act: dict) -> str:
        """Asks for an act through its form; what is said of it."""
        form = self.write(act)
        if form in TICKS:
            self.browser.wait(lambda: self.browser.all(TICKS[form]), f"{form} asks for no tick")
            if not self.browser.one(TICKS[form]).is_selected():
                self.browser.press(TICKS[form])
        self.browser.press(f"#{form} button")
        return self.browser.seen(f"#{form}-outcome")


def rows(file: pathlib.Path, table: str) -> list[tuple]:
    base = sqlite3.connect(f"file:{file}?mode=ro&immutable=1", uri=True)
    try:
        return base.execute(f"SELECT * FROM {table} ORDER BY 1").fetchall()
    finally:
        base.close()


def made(plan: Plan) -> None:
    """Each act of the city archive that is about the plan, by the page; its records are filed beside."""
    story, acts = plan.story, json.loads(city("1-schedule")) + json.loads(city("2-holdings"))
    plan.browser.open(f"{story.proxy.page}#plan")
    before, asked, numbers = story.posted(), [], 0
    for act in acts:
        if act["act"] == "add-record":
            assert story.office.ask("POST", "/acts", json.dumps([act]))[0] == 200
            continue
        numbers += act["act"] == "add-aggregation"
        words = {
            "add-schedule": "schedule",
            "add-class": "class",
            "add-aggregation": "aggregation",
            "close-aggregation": "close",
            "reclassify": "reclassify",
        }
        wanted = WORDS[words[act["act"]]]["done"].format(**{**act, "number": numbers, "target": act.get("target", "").replace(":", " ")})
        said = plan.ask(act)
        asked.append((act, wanted, said))
    wrong = [it for it in asked if it[1] not in it[2]]
    same(f"plan: each of {len(asked)} acts of a city's plan is done and said to be", wrong, [])
    same("plan: each by one request", story.posted() - before, len(asked))
    file = story.folder / "beside.db"
    for name in ("1-schedule", "2-holdings"):
        subprocess.run(
            [OFFICE, "apply", file, TOP / f"examples/city_archive/{name}.json"], check=True, stdout=subprocess.DEVNULL
        )
    story.office.close()
    for table in TABLES:
        there = rows(story.office.file, table)
        judge(
            f"plan: the table {table} is that of the acts from a file, {len(there)} rows",
            there == rows(file, table) and there != [],
        )
    story.office.start()


def changed(plan: Plan) -> None:
    """Another schedule for a class, a schedule of a record's own, another class; and back."""
    story, day = plan.story, {"day": "2022-05-02"}
    plan.browser.open(f"{story.proxy.page}#plan")
    told = lambda number, *names: tuple(story.told(f"/records/{number}")[name] for name in names)
    same("plan: record 8 before", told(8, "class", "schedule", "due"), ("PER-APP", "APP-6M", "2019-01-30"))
    says(
        "plan: a class gets another schedule",
        plan.ask({"act": "set-class-schedule", "class": "PER-APP", "schedule": "KEEP", **day}),
        "Class PER-APP has schedule KEEP.",
    )
    same("plan: which its records have then", told(8, "schedule", "due"), ("KEEP", None))
    says(
        "plan: a record gets a schedule of its own",
        plan.ask({"act": "set-record-schedule", "record": 8, "schedule": "CAM-30", **day}),
        "Done: the schedule of record 8.",
    )
    same("plan: which goes before the class's", told(8, "schedule", "due"), ("CAM-30", "2018-08-29"))
    plan.ask({"act": "set-record-schedule", "record": 8, "schedule": None, **day})
    same("plan: an empty field takes it away", told(8, "schedule", "due"), ("KEEP", None))
    says(
        "plan: an aggregation gets another class",
        plan.ask({"act": "reclassify", "target": "aggregation:4", "class": "GEN-COR", **day}),
        "Done: aggregation 4.",
    )
    same("plan: which its records have then", told(8, "class", "schedule"), ("GEN-COR", "COR-3"))
    plan.ask({"act": "reclassify", "target": "record:8", "class": "PER-APP", **day})
    same("plan: a record's own class goes before it", told(8, "class", "schedule"), ("PER-APP", "KEEP"))
    plan.ask({"act": "reclassify", "target": "record:8", "class": None, **day})
    same("plan: an empty field takes it away", told(8, "class", "schedule"), ("GEN-COR", "COR-3"))


def refused(plan: Plan) -> None:
    """What the office refuses is said in words, with what to do."""
    day: dict = {"day": "2022-05-02"}
    schedule: dict = {
        "act": "add-schedule",
        **day,
        "code": "KEEP",
        "trigger": "event",
        "unit": "weeks",
        "count": 3,
        "offset": "quarter",
        "action": "review",
    }
    aggregation: dict = {"act": "add-aggregation", **day, "ref": "NEW", "title": "New", "parent": None, "class": None}
    for act, number in (
        (schedule, 4),
        ({**schedule, "code": "NEW", "day": "2018-01-01"}, 1),
        ({"act": "add-class", **day, "code": "NEW", "title": "New", "schedule": "keep"}, 5),
        ({"act": "set-class-schedule", **day, "class": "NONE", "schedule": "KEEP"}, 5),
        (aggregation, 10),
        ({**aggregation, "parent": 2}, 7),
        ({**aggregation, "parent": 99}, 5),
        ({**aggregation, "ref": "EVT", "class": "EVT-PER"}, 4),
        ({"act": "close-aggregation", **day, "aggregation": 2}, 7),
        ({"act": "reclassify", **day, "target": "aggregation:4", "class": None}, 10),
        ({"act": "set-record-schedule", **day, "record": 99, "schedule": None}, 5),
    ):
        row = TEXTS["refusals"][str(number)]
        says(
            f"plan: {act['act']} refused {number} is said in words",
            plan.ask(act),
            f"Refusal {number}, {row['name']}",
            row["meaning"],
            row["do"],
        )
    deeper = {**aggregation, "ref": "D/2", "parent": 1}
    plan.ask(deeper)
    number = plan.story.told("/records/1")["aggregation"]
    says(
        "plan: a parent with an open child is not closed",
        plan.ask({"act": "close-aggregation", **day, "aggregation": 1}),
        "Refusal 8, ChildOpen",
        TEXTS["refusals"]["8"]["do"],
    )
    judge("plan: nothing else changed", number > 0)


def wrong(plan: Plan) -> None:
    """What is wrong in a field is said there, and nothing is sent."""
    it, before = plan.browser, plan.story.posted()
    fields = TEXTS["fields"]
    for form, written, field, word in (
        ("plan-schedule", {"code": "A B", "count": "1"}, "code", fields["codeSpaceOther"].format(other="A-B")),
        ("plan-schedule", {"code": "A", "count": "501"}, "count", WORDS["fields"]["countHint"]),
        ("plan-schedule", {"code": "A", "count": "-1"}, "count", WORDS["fields"]["countHint"]),
        ("plan-class", {"code": "A", "title": "x" * 201, "schedule": "A"}, "title", fields["textLong"]["one"].format(count=1)),
        ("plan-class", {"code": "A", "title": "A", "schedule": ""}, "schedule", fields["codeEmpty"]),
        ("plan-aggregation", {"ref": "A", "title": "A", "parent": "01", "class": ""}, "parent", fields["numberWrong"]),
        ("plan-close", {"aggregation": ""}, "aggregation", fields["numberEmpty"]),
        ("plan-reclassify", {"number": "1", "class": "x" * 17}, "class", fields["codeLong"].format(count=17, most=16)),
        ("plan-own", {"record": "4294967296", "schedule": ""}, "record", fields["numberWrong"]),
        ("plan-own", {"record": "1", "schedule": "", "day": "2023-02-29"}, "day", fields["dayWrong"]),
    ):
        it.open(f"{plan.story.proxy.page}#plan")
        it.write(**{f"{form}-{name}": value for name, value in written.items()})
        it.press(f"#{form} button")
        same(f"{form}: {field} {written[field][:20]!r} is told at its field", it.text(f"#{form}-{field}-wrong"), word)
        same(
            f"{form}: {field}: which has the focus",
            it.driver.execute_script("return document.activeElement.id"),
            f"{form}-{field}",
        )
    it.open(f"{plan.story.proxy.page}#plan")
    it.choose("#plan-schedule-unit", "weeks")
    it.write(plan_schedule_code="A", plan_schedule_count="26001")
    it.press("#plan-schedule button")
    same(
        "plan-schedule: the most is the unit's own", it.text("#plan-schedule-count-wrong"), WORDS["fields"]["countHint"]
    )
    same("plan: nothing of that was sent", plan.story.posted(), before)


def example(plan: Plan) -> None:
    """The example of the schedule that is being written says the due day that `office due` says."""
    it, said = plan.browser, lambda: it.text("#plan-example")
    it.open(f"{plan.story.proxy.page}#plan")
    same("example: without a count it says what is wanting", said(), WORDS["example"]["noCount"])
    for trigger, count, unit, offset, action, start in (
        ("origin", 10, "years", "from-month-1", "destroy", "2024-12-31"),
        ("added", 6, "months", "none", "transfer", "2024-08-31"),
        ("closed", 26, "weeks", "month", "review", "2024-02-29"),
        ("last-addition", 3, "years", "quarter", "destroy", "2023-11-30"),
        ("review", 30, "days", "none", "review", "2024-01-02"),
        ("event", 1, "months", "from-month-12", "destroy", "2024-01-31"),
    ):
        it.write(plan_schedule_count=str(count), plan_schedule_example=start)
        for name, value in (("trigger", trigger), ("unit", unit), ("offset", offset), ("action", action)):
            it.choose(f"#plan-schedule-{name}", value)
        due = office_due(unit, count, offset, start)
        wanted = f"{WORDS['example'][trigger].format(start=start, due=due)} {WORDS['then'][action]}"
        same(f"example: {trigger} {unit} {count} {offset} {action} from {start}: {due}", said(), wanted)
    it.write(plan_schedule_example="2024-02-30")
    same("example: a day that is none is said there", said(), TEXTS["fields"]["dayWrong"])
    it.write(plan_schedule_example="2024-11-01")
    says("example: a day that stays is said to", said(), "is due on 2024-12-01", WORDS["example"]["stays"])
    it.choose("#plan-schedule-action", "keep")
    same("example: what is kept has no due day", said(), WORDS["example"]["keep"])


def counted(plan: Plan, singly: int = 2000, planned: int = 20000) -> None:
    """The page's module gives the program's due days: of `office due` one by one, of `office plan` many at once."""
    these = cases(singly)
    due = lambda it: plan.browser.driver.execute_async_script(DUE_DAYS, it)
    there = due(these)
    other = [
        (case, mine, theirs) for case, mine in zip(these, there, strict=True) if mine != (theirs := office_due(*case))
    ]
    judge(f"days: {singly} due days are those of `office due`", not other, str(other[:5]))
    these, told = by_plan(plan.story.folder / "many.plan", planned)
    there = due(these)
    other = [(case, mine, theirs) for case, mine, theirs in zip(these, there, told, strict=True) if mine != theirs]
    judge(f"days: {planned} more are those of `office plan`", not other, str(other[:5]))


def reached(plan: Plan) -> None:
    """The schedule's form by the keyboard alone, in the order of the page."""
    from selenium.webdriver.common.keys import Keys

    it = plan.browser
    it.open(f"{plan.story.proxy.page}#plan")
    it.driver.execute_script("document.getElementById('plan-schedule-code').focus()")
    stops = ["plan-schedule-code"]
    for _ in range(7):
        it.driver.switch_to.active_element.send_keys(Keys.TAB)
        stops.append(it.driver.execute_script("return document.activeElement.id"))
    same(
        "keyboard: the fields of a schedule follow each other",
        stops,
        [
            f"plan-schedule-{name}"
            for name in ("code", "trigger", "count", "unit", "offset", "action", "example", "day")
        ],
    )
    it.one("#plan-schedule-code").send_keys("KEY-1")
    it.one("#plan-schedule-count").send_keys("2", Keys.ENTER)
    it.settled()
    says("keyboard: Enter adds it", it.seen("#plan-schedule-outcome"), WORDS["schedule"]["done"].format(code="KEY-1"))
    same("keyboard: its code is empty again for the next one", it.one("#plan-schedule-code").get_attribute("value"), "")


def pictures(plan: Plan) -> None:
    def written() -> None:
        plan.write(
            {
                "act": "add-schedule",
                "day": "2026-11-27",
                "code": "INV-10",
                "trigger": "closed",
                "unit": "years",
                "count": 10,
                "offset": "from-month-1",
                "action": "destroy",
            }
        )
        plan.browser.write(plan_schedule_example="2024-12-31")
        plan.browser.driver.execute_script("scrollTo(0, 0)")

    shots(plan.browser, "plan", f"{plan.story.proxy.page}#plan", written)


def tell(office: Office, proxy: Proxy, browser: Browser, folder: pathlib.Path) -> None:
    plan = Plan(Story(office, proxy, browser, folder))
    made(plan)
    wrong(plan)
    refused(plan)
    changed(plan)
    example(plan)
    pictures(plan)
    counted(plan)
    reached(plan)
