"""What is overdue, through the page: the list, its address, order and filters, paper, and the confirmation."""
import json
import pathlib
import subprocess

import layout
from browser import Browser
from kit.judging import judge, same
from late import after
from place import Office, Proxy
from shots import shots
from story import TEXTS, WHO, Story, says

WORDS = TEXTS["overdue"]
DAY, COUNT = "2025-02-10", "30"
# the schedules: trigger, count of years, action
SCHEDULES = {
    "D1": ("added", 1, "destroy"),
    "SEND-1": ("added", 1, "transfer"),
    "REV-1": ("review", 1, "review"),
    "K": ("added", 1, "keep"),
}
# the records, by number: the day of filing, the class, and a schedule of its own or none
RECORDS = [
    ("2024-01-02", "FIN", None),
    ("2024-01-02", "LEG", None),
    ("2024-01-02", "FIN", "SEND-1"),
    ("2024-01-02", "LEG", "REV-1"),
    ("2024-01-02", "FIN", "K"),
    ("2024-01-05", "LEG", None),
    ("2024-01-08", "FIN", "SEND-1"),
    ("2024-01-11", "FIN", None),
    ("2024-01-12", "LEG", None),
    ("2024-03-01", "FIN", None),
    ("2025-01-02", "FIN", None),
    ("2024-01-02", "FIN", None),
]
COLUMNS = ("record", "ref", "class", "schedule", "action", "due", "deadline", "held")
FOCUSED = "return document.activeElement.id || document.activeElement.getAttribute('aria-label')"


def fill(office: Office) -> None:
    """Twelve records; the first is confirmed, the sixth and the seventh are held, and a run has destroyed the last."""
    first = {"day": "2024-01-02"}
    acts = [
        {
            "act": "add-schedule",
            **first,
            "code": code,
            "trigger": trigger,
            "unit": "years",
            "count": count,
            "offset": "none",
            "action": action,
        }
        for code, (trigger, count, action) in SCHEDULES.items()
    ]
    acts += [{"act": "add-class", **first, "code": code, "title": code, "schedule": "D1"} for code in ("FIN", "LEG")]
    acts += [{"act": "add-aggregation", **first, "ref": code, "title": code, "class": code} for code in ("FIN", "LEG")]
    for number, (added, code, schedule) in sorted(enumerate(RECORDS, 1), key=lambda it: it[1][0]):
        acts.append(
            {
                "act": "add-record",
                "day": added,
                "ref": f"r{number:02}",
                "title": f"Letter {number}",
                "originated": added,
                "aggregation": 1 if code == "FIN" else 2,
                "schedule": schedule,
                "content": "YWJj",
            }
        )
    day = {"day": "2025-01-12"}
    number_of = {
        act["ref"]: number for number, act in enumerate((act for act in acts if act["act"] == "add-record"), 1)
    }
    confirm = lambda ref: {"act": "confirm", **day, "record": number_of[ref], "action": "destroy", "by": WHO}
    acts += [confirm("r12"), {"act": "open-run", **day, "by": WHO}]
    assert office.ask("POST", "/acts", json.dumps(acts))[0] == 200
    assert office.ask("POST", "/run/resume")[0] == 200
    acts = [confirm("r01"), {"act": "place-hold", **day, "code": "H-1", "reason": "A lawsuit", "by": "Legal office"}]
    acts += [{"act": "hold-on", **day, "hold": "H-1", "target": f"record:{number_of[ref]}"} for ref in ("r06", "r07")]
    assert office.ask("POST", "/acts", json.dumps(acts))[0] == 200


class View:
    """The view Overdue."""

    def __init__(self, story: Story) -> None:
        self.story, self.browser = story, story.browser

    def open(self, day: str = DAY, count: str = COUNT, more: str = "") -> None:
        self.browser.open(f"{self.story.proxy.page}#overdue?day={day}&count={count}{more}")

    def rows(self, day: str = DAY, count: str = COUNT) -> list[dict]:
        return self.story.told(f"/overdue/{day}/{count}")

    def table(self) -> list[list[str]]:
        return self.browser.table("#overdue-table")

    def asked(self) -> tuple[str, ...]:
        return tuple(self.browser.one(f"#overdue-{name}").get_attribute("value") for name in ("day", "count"))


def cells(rows: list[dict]) -> list[list[str]]:
    """The rows of the path, as the table has them."""
    mark = lambda row: TEXTS["due"]["noMark"] if row["action"] == "review" else ""
    return [[mark(row), *(str(row[name] or "") for name in COLUMNS)] for row in rows]


def listed(view: View) -> None:
    """The table is what the path gives, by the form and by the address, in any order."""
    it, rows = view.browser, view.rows()
    same(
        "overdue: the path has these records",
        [(row["ref"], row["due"], row["deadline"]) for row in rows],
        [
            ("r02", "2025-01-02", "2025-02-01"),
            ("r03", "2025-01-02", "2025-02-01"),
            ("r04", "2025-01-02", "2025-02-01"),
            ("r06", "2025-01-05", "2025-02-04"),
            ("r07", "2025-01-08", "2025-02-07"),
        ],
    )
    it.open(f"{view.story.proxy.page}#overdue")
    same(
        "overdue: the view begins with today and 30 days",
        (view.asked(), view.table()),
        ((after(0), "30"), cells(view.rows(after(0)))),
    )
    it.write(overdue_day=DAY, overdue_count=COUNT)
    it.press("#overdue-form button")
    same("overdue: the table is what GET /overdue tells", view.table(), cells(rows))
    judge(
        "overdue: and the address has both",
        it.driver.current_url.endswith(f"#overdue?day={DAY}&count={COUNT}"),
        it.driver.current_url,
    )
    sums = it.driver.execute_script(
        "return Array.from(document.querySelectorAll('#overdue-totals dd'), (it) => it.textContent)"
    )
    same("overdue: the totals", sums, ["5", "2", "2", "1", "2", "5"])
    for column in COLUMNS:
        it.press(f"#overdue [data-column={column}] button")
        wanted = sorted(rows, key=lambda row: row[column] or "")
        same(f"overdue: sorted by {column}", view.table(), cells(wanted))
    it.press("#overdue [data-column=held] button")
    same("overdue: and the other way round", view.table(), cells(wanted[::-1]))
    same(
        "overdue: which the heading tells",
        it.one("#overdue [data-column=held]").get_attribute("aria-sort"),
        "descending",
    )
    it.press("#overdue [data-column=deadline] button")
    same(
        "overdue: the link of a row leads to its record",
        it.one("#overdue-table tbody th a").get_attribute("href").split("#")[1],
        f"record?number={rows[0]['record']}",
    )
    for name, value, takes in (
        ("class", "LEG", lambda row: row["class"] == "LEG"),
        ("schedule", "SEND-1", lambda row: row["schedule"] == "SEND-1"),
        ("action", "review", lambda row: row["action"] == "review"),
        ("held", "H-1", lambda row: row["held"] == "H-1"),
        ("held", "_none", lambda row: not row["held"]),
    ):
        it.choose(f"#overdue-{name}", value)
        shown = cells([row for row in rows if takes(row)])
        same(f"overdue: filtered by {name} {value}", view.table(), shown)
        says(
            "overdue: the caption tells how many",
            it.seen("#overdue-caption"),
            f"Records overdue on {DAY}: 5. Days after the due day: {COUNT}.",
            f"Shown here: {len(shown)}.",
        )
        it.press("#overdue-all")
    it.choose("#overdue-class", "LEG")
    it.press("#overdue [data-column=record] button")
    address, there = it.driver.current_url, view.table()
    it.open(address)
    same(
        "overdue: its address brings the same rows again, as a bookmark",
        (view.table(), view.asked()),
        (there, (DAY, COUNT)),
    )


def bounds(view: View) -> None:
    """The first day on which a record is overdue, and what is wrong before anything is sent."""
    it = view.browser
    view.open("2025-02-01")
    same(
        "overdue: on the deadline itself nothing is",
        (view.rows("2025-02-01"), it.seen("#overdue-outcome")),
        ([], WORDS["none"].format(day="2025-02-01", days=30)),
    )
    judge("overdue: so there is no table", not it.one("#overdue-list").is_displayed())
    view.open("2025-02-02")
    same("overdue: on the day after it is", (len(view.table()), view.table()), (3, cells(view.rows("2025-02-02"))))
    view.open(DAY, "0")
    same("overdue: with no day to confirm", view.table(), cells(view.rows(DAY, "0")))
    view.open("2999-12-31", "3650")
    same("overdue: with the most days", view.table(), cells(view.rows("2999-12-31", "3650")))
    same(
        "overdue: a list of a late day looks ahead",
        it.seen("#overdue-ahead"),
        TEXTS["due"]["ahead"].format(today=after(0)),
    )
    lines = lambda: len(view.story.logged())
    before = lines()
    for name, value, word in (
        ("day", "2023-02-29", TEXTS["fields"]["dayWrong"]),
        ("count", "3651", WORDS["countWrong"]),
        ("count", "-1", WORDS["countWrong"]),
        ("count", "", WORDS["countWrong"]),
    ):
        it.write(overdue_day=DAY, overdue_count=COUNT)
        it.write(**{f"overdue_{name}": value})
        it.press("#overdue-form button")
        same(f"overdue: {name} {value!r} is told at its field", it.text(f"#overdue-{name}-wrong"), word)
        same(f"overdue: {name} {value!r}: which has the focus", it.driver.execute_script(FOCUSED), f"overdue-{name}")
    for day, count, word in (("2023-02-29", "30", TEXTS["fields"]["dayWrong"]), (DAY, "4000", WORDS["countWrong"])):
        it.go(f"#overdue?day={day}&count={count}")
        same(f"overdue: the address with {day} and {count} is told as wrong", it.seen("#overdue-outcome"), word)
    same("overdue: nothing of that was sent", lines(), before)


def counted(view: View) -> None:
    """The view Due has the count of what is overdue on its day, with a link to it."""
    it, link = view.browser, lambda: it.text("#due-overdue")
    for day, count in (
        (DAY, "30"),
        (DAY, "0"),
        (DAY, "3650"),
        ("2025-02-01", "30"),
        ("2025-02-02", "30"),
        ("2025-04-01", "31"),
        ("2999-12-31", "365"),
    ):
        it.open(f"{view.story.proxy.page}#due?day={day}&count={count}")
        same(
            f"due: how many are overdue on {day} after {count} days",
            link(),
            WORDS["among"].format(count=len(view.rows(day, count))),
        )
    it.open(f"{view.story.proxy.page}#due?day={DAY}")
    same("due: where the address says nothing it is 30 days", it.one("#due-count").get_attribute("value"), "30")
    it.write(due_count="3")
    same("due: another number counts at once", link(), WORDS["among"].format(count=len(view.rows(DAY, "3"))))
    judge(
        "due: and is in the address", it.driver.current_url.endswith(f"#due?day={DAY}&count=3"), it.driver.current_url
    )
    it.write(due_count="x")
    same(
        "due: a wrong one is told",
        (it.text("#due-count-wrong"), link()),
        (WORDS["countWrong"], WORDS["among"].format(count=len(view.rows(DAY, "3")))),
    )
    it.write(due_count="30")
    it.choose("#due-class", "FIN")
    it.press("#due-overdue")
    same("due: its link leads to these records", (view.asked(), view.table()), ((DAY, COUNT), cells(view.rows())))


def reached(view: View) -> None:
    """The list by the keyboard alone."""
    from selenium.webdriver.common.keys import Keys

    it = view.browser
    view.open()
    keys = lambda *them: it.driver.switch_to.active_element.send_keys(*them)
    it.driver.execute_script("document.getElementById('overdue-count').focus()")
    keys(Keys.CONTROL, "a")
    keys("35", Keys.ENTER)
    it.settled()
    same("keyboard: the list of another number of days", view.table(), cells(view.rows(DAY, "35")))
    stops = []
    for _ in range(60):
        keys(Keys.TAB)
        stops.append(it.driver.execute_script(FOCUSED))
        if stops[-1] == "overdue-submit":
            break
    wanted = [
        "overdue-class",
        "overdue-schedule",
        "overdue-action",
        "overdue-held",
        "overdue-all",
        "overdue-mark",
        "overdue-mark-held",
        "overdue-unmark",
        "overdue-print",
        "overdue-skip",
        "overdue-confirm-day",
        "overdue-confirm-by",
        "overdue-submit",
    ]
    same("keyboard: each part is reached, in the order of the page", [name for name in stops if name in wanted], wanted)
    it.one("#overdue-skip").send_keys(Keys.ENTER)
    same("keyboard: one stop leads past the rows", it.driver.execute_script(FOCUSED), "overdue-confirm-day")
    it.driver.execute_script("document.querySelector('#overdue-table input').focus()")
    keys(Keys.SPACE)
    same("keyboard: the space bar marks a row", it.text("#overdue-submit"), "Confirm 1")


def confirmed(view: View) -> None:
    """What is marked is confirmed in one request, and is overdue no more."""
    it, story = view.browser, view.story
    view.open()
    same("overdue: what is to be reviewed has a box too, for a review", len(it.all("#overdue-table tbody input")), 5)
    it.write(overdue_confirm_by=WHO, overdue_confirm_day="2025-01-12")
    it.press("#overdue-submit")
    same(
        "overdue: where nothing is marked it says so", it.seen("#overdue-panel-outcome"), TEXTS["due"]["nothingMarked"]
    )
    it.choose("#overdue-class", "LEG")
    it.press("#overdue-mark")
    it.press("#overdue-mark-held")
    it.press("#overdue-all")
    same(
        "overdue: what is shown and can be confirmed is marked",
        it.seen("#overdue-marked"),
        "Marked: 2. Not shown among them: 0.",
    )
    before = story.posted()
    it.press("#overdue-submit")
    same("overdue: one request confirms both", story.posted() - before, 1)
    story.success(
        "overdue: they are confirmed, a held one too",
        "#overdue-answer",
        '200 [{"done":true},{"done":true}]',
        "Confirmed: 2 of 2.",
    )
    same(
        "overdue: the list is read anew, without them",
        ([row["ref"] for row in view.rows()], view.table()),
        (["r03", "r04", "r07"], cells(view.rows())),
    )
    same("overdue: the answer has the focus", it.driver.execute_script(FOCUSED), "overdue-answer")
    view.open("2025-04-01", "30")
    it.write(overdue_confirm_day="2025-02-20", overdue_confirm_by=WHO)
    it.press("#overdue-mark")
    it.press("#overdue-mark-held")
    it.press("#overdue-submit")
    row = TEXTS["refusals"]["15"]
    says(
        "overdue: a refusal is told in words",
        it.seen("#overdue-answer"),
        "Confirmed: 4 of 5. Refused: 1.",
        "Refusal 15, NotDue",
        row["meaning"],
        row["do"],
    )
    same(
        "overdue: what was refused is there still",
        ([row["ref"] for row in view.rows("2025-04-01")], view.table()),
        (["r04", "r10"], cells(view.rows("2025-04-01"))),
    )


def printed(view: View) -> None:
    """On paper is the list, and nothing that is pressed."""
    view.open()
    file = view.story.folder / "overdue.pdf"
    view.browser.paper(file)
    text = subprocess.run(["pdftotext", "-layout", file, "-"], stdout=subprocess.PIPE, check=True).stdout.decode()
    judge(
        "overdue: on paper is what is to be read",
        all(it in text for it in (f"Records overdue on {DAY}", "Deadline", "2025-02-07", "H-1")),
        text,
    )
    judge(
        "overdue: and nothing that is pressed",
        not any(it in text for it in ("Show the list", "Confirm what is marked", "Mark", WORDS["count"])),
        text,
    )


def pictures(view: View) -> None:
    def marked() -> None:
        view.browser.press("#overdue-mark")
        view.browser.write(overdue_confirm_by=WHO)
        view.browser.driver.execute_script("scrollTo(0, 0)")

    shots(view.browser, "overdue", f"{view.story.proxy.page}#overdue?day={DAY}&count=3", marked)
    shots(view.browser, "due-overdue", f"{view.story.proxy.page}#due?day={DAY}")


def tell(office: Office, proxy: Proxy, browser: Browser, folder: pathlib.Path) -> None:
    fill(office)
    view = View(Story(office, proxy, browser, folder))
    listed(view)
    bounds(view)
    counted(view)
    reached(view)
    printed(view)
    layout.words(browser, f"{proxy.page}#overdue?day={DAY}&count={COUNT}", "what is overdue")
    pictures(view)
    confirmed(view)
