"""What else is recorded of a record, through its view: a review, a receipt, a schedule or a class of its own."""
import hashlib
import json
import pathlib

from browser import Browser
from events import NO_ANSWER, refused
from kit.judging import same
from late import after
from place import Office, Proxy
from shots import shots
from story import TEXTS, WHO, Story, says

WORDS = TEXTS["recordActs"]
FORMS = ("review", "schedule", "class", "receipt")
DAY = "2024-01-02"
# the schedules: trigger, count of years, action
SCHEDULES = {
    "REV-2": ("review", 2, "review"),
    "ADD-3": ("added", 3, "destroy"),
    "SEND-1": ("added", 1, "transfer"),
    "KEEP": ("added", 0, "keep"),
}
DIGEST = hashlib.sha256(b"abc").hexdigest()


def fill(office: Office) -> None:
    """Contracts that are looked at every two years, one that is sent, one that is destroyed; a hold on a class."""
    first, later = {"day": DAY}, {"day": "2025-01-02"}
    record = {"act": "add-record", **first, "originated": DAY, "aggregation": 1, "content": "YWJj"}
    acts = [
        {"act": "add-schedule", **first, "code": code, "trigger": trigger, "unit": "years", "count": count}
        | {"offset": "none", "action": action}
        for code, (trigger, count, action) in SCHEDULES.items()
    ]
    acts += [
        {"act": "add-class", **first, "code": "CON", "title": "Contracts", "schedule": "REV-2"},
        {"act": "add-class", **first, "code": "LET", "title": "Letters", "schedule": "ADD-3"},
        {"act": "add-aggregation", **first, "ref": "CON", "title": "Contracts", "class": "CON"},
    ]
    own = [None, None, "SEND-1", "SEND-1", None]
    acts += [
        {**record, "ref": f"CON/{at}", "title": f"Contract {at}", "schedule": code} for at, code in enumerate(own, 1)
    ]
    acts += [{"act": "confirm", **later, "record": at, "action": "transfer", "by": WHO} for at in (3, 4)]
    acts += [{"act": "open-run", **later, "by": WHO}]
    assert office.ask("POST", "/acts", json.dumps(acts))[0] == 200
    assert office.ask("POST", "/run/resume")[0] == 200
    receipt = {"act": "receipt", **later, "record": 4, "digest": DIGEST, "by": WHO}
    assert office.ask("POST", "/acts", json.dumps([receipt, {"act": "open-run", **later, "by": WHO}]))[0] == 200
    assert office.ask("POST", "/run/resume")[0] == 200


class View:
    """The view of a record, and its forms."""

    def __init__(self, story: Story) -> None:
        self.story, self.browser = story, story.browser

    def open(self, number: int) -> None:
        self.browser.open(f"{self.story.proxy.page}#record?number={number}")

    def offered(self) -> list[str]:
        return [name for name in FORMS if self.browser.one(f"#record-{name}-part").is_displayed()]

    def ask(self, name: str, **fields: str) -> str:
        """Opens a form where it is closed, writes into it, presses its button; what is said then."""
        if not self.browser.one(f"#record-{name}").is_displayed():
            self.browser.press(f"#record-{name}-part summary")
        self.browser.write(**{f"record_{name}_{field}": value for field, value in fields.items()})
        self.browser.press(f"#record-{name} button")
        return self.browser.seen(f"#record-{name}-outcome")

    def told(self, number: int, *names: str) -> tuple:
        record = self.story.told(f"/records/{number}")
        return tuple(record[name] for name in names)

    def facts(self) -> tuple[str, str]:
        facts = self.browser.facts("#record-facts")
        return facts["Class"], facts["Schedule"]


def offers(view: View) -> None:
    """Each form is offered for a record that takes its act."""
    for number, name, wanted in (
        (1, "here", ["review", "schedule", "class"]),
        (3, "sent", ["receipt"]),
        (4, "ended", []),
    ):
        view.open(number)
        same(f"record {number}, {name}: what can be recorded", view.offered(), wanted)
        same(
            f"record {number}: the event is among it where it is here",
            view.browser.one("#record-event").is_displayed(),
            name == "here",
        )
    view.open(1)
    same("a form is behind its title", view.browser.one("#record-review").is_displayed(), False)


def reviewed(view: View) -> None:
    """A review moves the due day, and may give a schedule of its own."""
    view.open(1)
    same("record 1: its due day", view.told(1, "due"), ("2026-01-02",))
    same("review: without a name nothing is sent", view.ask("review", day="2025-06-01"), "")
    same(
        "review: which is said at the field", view.browser.text("#record-review-by-wrong"), TEXTS["fields"]["textEmpty"]
    )
    says("review: one before the due day is refused, in words", view.ask("review", by=WHO), *refused(15))
    before = view.story.posted()
    said = view.ask("review", day="2026-03-01")
    says("review: it is recorded, with the new due day", said, "Record 1 is reviewed.", "It is due on 2028-03-01.")
    same("review: by one request", view.story.posted() - before, 1)
    same("review: which the record has", view.told(1, "due", "schedule"), ("2028-03-01", "REV-2"))
    view.open(2)
    says(
        "review: with a schedule that is not there it is refused",
        view.ask("review", by=WHO, day="2026-03-01", schedule="NONE"),
        *refused(5),
    )
    view.ask("review", schedule="KEEP")
    same(
        "review: a schedule that is given becomes the record's own",
        (view.told(2, "due", "schedule"), view.facts()),
        ((None, "KEEP"), ("CON", "KEEP")),
    )
    says("review: of what is not to be reviewed it is refused", view.ask("review", schedule=""), *refused(15))
    view.browser.go("#record?number=1")
    same(
        "the forms of another record begin anew",
        (view.browser.text("#record-review-outcome"), view.browser.one("#record-review").is_displayed()),
        ("", False),
    )


def own(view: View) -> None:
    """A schedule and a class of its own, and without them again."""
    view.open(5)
    said = view.ask("schedule", day="2026-03-01", schedule="ADD-3")
    says(
        "schedule: it is done, with the new due day",
        said,
        "Done: the schedule of record 5.",
        "It is due on 2027-01-02.",
    )
    same("schedule: which the view has", (view.told(5, "schedule"), view.facts()), (("ADD-3",), ("CON", "ADD-3")))
    says("schedule: one that is not there is refused, in words", view.ask("schedule", schedule="add-3"), *refused(5))
    view.ask("schedule", schedule="")
    same("schedule: an empty field takes it away", view.facts(), ("CON", "REV-2"))
    says(
        "class: it is done",
        view.ask("class", **{"day": "2026-03-01", "class": "LET"}),
        "Done: the class of record 5.",
        "It is due on 2027-01-02.",
    )
    same("class: which the view has, with its schedule", view.facts(), ("LET", "ADD-3"))
    hold = [
        {"act": "place-hold", "day": "2026-03-01", "code": "H-1", "reason": "A lawsuit", "by": WHO},
        {"act": "hold-on", "day": "2026-03-01", "hold": "H-1", "target": "class:LET"},
    ]
    assert view.story.office.ask("POST", "/acts", json.dumps(hold))[0] == 200
    says("class: a held one is not left, in words", view.ask("class", **{"class": ""}), *refused(11))
    says("class: and the view shows the hold then", view.browser.seen("#record-words"), "Hold H-1 covers it")
    same(
        "a code that is none is told at its field",
        (view.ask("class", **{"class": "A B"}), view.browser.text("#record-class-class-wrong"))[1],
        TEXTS["fields"]["codeSpaceOther"].format(other="A-B"),
    )


def received(view: View) -> None:
    """The receipt of a record that was sent."""
    view.open(3)
    view.ask("receipt", digest="12AB", by=WHO, day="2026-03-01")
    same(
        "receipt: what is no SHA-256 is told at its field",
        view.browser.text("#record-receipt-digest-wrong"),
        TEXTS["plan"]["fields"]["digestWrong"],
    )
    says(
        "receipt: another one than the content's is refused, in words",
        view.ask("receipt", digest="0" * 64),
        *refused(20),
    )
    says("receipt: the content's own is filed", view.ask("receipt", digest=DIGEST), "The receipt of record 3 is filed.")
    same("receipt: which the record has", view.told(3, "status"), ("received",))
    says("receipt: and the view", view.browser.seen("#record-words"), TEXTS["record"]["status"]["received"])
    same("receipt: no other one is asked for", view.offered(), [])


def taken(view: View) -> None:
    """A run takes the record while the page shows it as it was."""
    view.open(5)
    acts: list[dict] = [
        {"act": "hold-off", "hold": "H-1", "target": "class:LET"},
        {"act": "confirm", "record": 5, "action": "destroy", "by": WHO},
        {"act": "open-run", "by": WHO},
    ]
    assert view.story.office.ask("POST", "/acts", json.dumps([{**act, "day": "2027-01-02"} for act in acts]))[0] == 200
    assert view.story.office.ask("POST", "/run/resume")[0] == 200
    view.browser.driver.execute_script("document.getElementById('record-schedule-part').open = true")
    view.browser.write(record_schedule_day="2027-01-02")
    says("a record that a run has destroyed: it is refused, in words", late(view), *refused(13))
    says("and the view shows what became of it", view.browser.seen("#record-words"), "It was destroyed by run")
    same("and offers nothing more", view.offered(), [])


def late(view: View) -> str:
    """Presses the button of the schedule's form, with the tick that a day after today asks for."""
    # a refusal leaves the tick
    if "2027-01-02" > after(0) and not view.browser.one("#record-schedule-day-sure").is_selected():
        view.browser.press("#record-schedule-day-sure")
    view.browser.press("#record-schedule button")
    return view.browser.seen("#record-schedule-outcome")


def lost(view: View) -> None:
    """The answer does not come."""
    view.open(2)
    view.browser.driver.execute_script(NO_ANSWER)
    before = view.story.posted()
    said = view.ask("class", **{"class": "LET", "day": "2026-03-01"})
    says(
        "an answer that is lost is told as unknown",
        said,
        TEXTS["statuses"][-1]["meaning"],
        WORDS["class"]["lost"].format(target="record 2"),
        TEXTS["event"]["stale"],
    )
    same("and nothing is sent a second time", view.story.posted() - before, 1)


def pictures(view: View) -> None:
    def opened() -> None:
        view.browser.press("#record-review-part summary")
        view.browser.write(record_review_by=WHO)
        view.browser.driver.execute_script("document.getElementById('record-event').scrollIntoView()")

    shots(view.browser, "record-acts", f"{view.story.proxy.page}#record?number=1", opened)


def tell(office: Office, proxy: Proxy, browser: Browser, folder: pathlib.Path) -> None:
    fill(office)
    view = View(Story(office, proxy, browser, folder))
    offers(view)
    pictures(view)
    reviewed(view)
    own(view)
    received(view)
    lost(view)
    taken(view)
