"""A clerk's tasks through the page: how many steps each takes, and that the office did it.

A step is a press, a choice, or a field that is filled. They are counted once the view is open, since each view has an
address; what is searched before something is done with what was found is a task of its own.
"""
from __future__ import annotations

import csv
import hashlib
import json
import pathlib
from collections.abc import Callable
from typing import Any

import catalogue
from browser import Browser
from counted import Counted
from kit.judging import judge, same
from late import after
from place import Office, Proxy
from story import TEXTS, WHO, says

BEGUN, SENT = after(-500), after(-100)
# more than a hundred acts make more than one request; that is no further step
LETTERS, PERMITS, CONTRACTS, SITES, LEASES, MAPS, FILES, ROWS = 120, 28, 29, 40, 8, 120, 59, 120
# class: trigger, count of years, action
RULES = {
    "LETTERS": ("added", 1, "destroy"),
    "PERMITS": ("added", 1, "transfer"),
    "CONTRACTS": ("review", 1, "review"),
    "SITES": ("added", 30, "destroy"),
    "LEASES": ("event", 5, "destroy"),
    "MAPS": ("added", 1, "transfer"),
    "INVOICES": ("closed", 10, "destroy"),
}
COUNTS = {"LETTERS": LETTERS, "PERMITS": PERMITS, "CONTRACTS": CONTRACTS, "SITES": SITES, "LEASES": LEASES, "MAPS": MAPS}
TITLES = {"SITES": "Castle Hill, find", "LEASES": "Lease of the mill, part"}
ACTS = 1000


class Town:
    """The office, the page that its clerk has, and the numbers of its records by class."""

    def __init__(self, office: Office, proxy: Proxy, it: Counted, folder: pathlib.Path) -> None:
        self.office, self.proxy, self.it, self.folder = office, proxy, it, folder
        self.numbers: dict[str, list[int]] = {}

    def send(self, acts: list[dict]) -> list[dict]:
        answers = []
        for at in range(0, len(acts), ACTS):
            status, _, body = self.office.ask("POST", "/acts", json.dumps(acts[at:at + ACTS]))
            assert status == 200, body
            answers += json.loads(body)
        return answers

    def told(self, path: str) -> Any:
        return json.loads(self.office.ask("GET", path)[2])

    def open(self, view: str) -> None:
        self.it.browser.open(f"{self.proxy.page}#{view}")
        self.it.begin()

    def shown(self, css: str) -> None:
        """Waits until this is in sight."""
        self.it.browser.wait(lambda: any(it.is_displayed() for it in self.it.browser.all(css)), f"{css} is not shown")

    def fill(self) -> None:
        """A plan, records of each class, the invoices of a year, and the maps that a run has sent."""
        first: dict = {"day": BEGUN}
        acts = []
        for code, (trigger, count, action) in RULES.items():
            rule: dict = {"trigger": trigger, "unit": "years", "count": count, "offset": "none", "action": action}
            acts.append({"act": "add-schedule", **first, "code": f"{code}-1", **rule})
            acts.append({"act": "add-class", **first, "code": code, "title": code.title(), "schedule": f"{code}-1"})
            acts.append({"act": "add-aggregation", **first, "ref": code, "title": f"All {code.lower()}", "class": code})
        acts += [{"act": "add-aggregation", **first, "ref": f"INV/{at:02}/2025", "title": f"Invoices {at}", "class": "INVOICES"}
                 for at in range(1, FILES + 1)]
        self.send(acts)
        for aggregation, (code, count) in enumerate(COUNTS.items(), 1):
            self.numbers[code] = self.file(code, aggregation, count)
        maps = [{"act": "confirm", "day": SENT, "record": it, "action": "transfer", "by": WHO} for it in self.numbers["MAPS"]]
        self.send([*maps, {"act": "open-run", "day": SENT, "by": WHO}])
        assert self.office.ask("POST", "/run/resume")[0] == 200
        catalogue.renew(self.proxy, self.office)

    def file(self, code: str, aggregation: int, count: int) -> list[int]:
        def record(at: int) -> dict:
            title = f"{TITLES.get(code, code.title())} {at}"
            same_ = {"act": "add-record", "day": BEGUN, "originated": BEGUN, "aggregation": aggregation, "content": "YWJj"}
            return {**same_, "ref": f"{code}/{at}", "title": title}
        return [answer["number"] for answer in self.send([record(at) for at in range(1, count + 1)])]


# ---- the tasks: each is done, and what the office says of it is compared


def overdue(town: Town) -> None:
    town.open("todo")
    town.it.press("nav a[href='#overdue']")
    same("overdue: all of them are shown", len(town.it.browser.table("#overdue-table")), LETTERS + PERMITS + CONTRACTS)


def department(town: Town) -> None:
    """The list goes to the department."""
    town.open(f"due?day={after(0)}&class=LETTERS")
    town.it.press("#due-csv")
    file = town.folder / f"due-{after(0)}.csv"
    town.it.browser.wait(file.exists, "no list is saved")
    same("department: the list has its rows", len(file.read_text("utf-8-sig").splitlines()), LETTERS + 1)


def decided(town: Town) -> None:
    """It comes back with a yes in some rows."""
    rows = list(csv.reader((town.folder / f"due-{after(0)}.csv").read_text("utf-8-sig").splitlines()))
    words = ["decision", *(["yes"] * 10 + ["no"] * 5 + [""] * (LETTERS - 15))]
    file = town.folder / "came-back.csv"
    with file.open("w", newline="") as sheet:
        csv.writer(sheet).writerows([*row, word] for row, word in zip(rows, words, strict=True))
    town.open("import")
    town.it.files("#import-choose", [file])
    town.shown("#import-same-by")
    town.it.write("import_same_by", WHO)
    town.it.browser.driver.execute_script("document.activeElement.blur()")
    town.shown("#import-submit")
    town.it.press("#import-submit")
    confirmed = [row for row in town.told(f"/due/{after(0)}") if row["confirmed"]]
    same("department: what says yes is confirmed, and nothing else", len(confirmed), 10)


def quarter(town: Town) -> None:
    town.open("due")
    town.it.press("#due-mark")
    town.it.write("due_confirm_by", WHO)
    town.it.press("#due-submit")
    open_ = [row for row in town.told(f"/due/{after(0)}") if not row["confirmed"] and row["action"] != "review"]
    same("quarter: all that can be confirmed is", open_, [])


def run(town: Town) -> None:
    town.open("run")
    says("run: what it would do is shown first", town.it.browser.seen("#run-forecast"), str(LETTERS), str(PERMITS))
    town.it.write("run_open_by", WHO)
    town.it.press("#run-open button:not([type])")
    town.it.press("#run-sure")
    town.it.press("#run-resume button")
    town.it.press("#run-resume-outcome a")
    says("run: its certificate agrees", town.it.browser.seen("#certificate-verdict"), TEXTS["certificate"]["agrees"])
    text = town.office.ask("GET", "/certificates/2")[2].decode()
    same("run: it did so", [f"ENDED {LETTERS}" in text, f"SENT {PERMITS}" in text], [True, True])


def auditor(town: Town) -> None:
    town.open("certificate")
    town.it.write("certificate_number", "2")
    town.it.press("#certificate-form button")
    town.it.press("#certificate-save")
    file = town.folder / "certificate-2.txt"
    town.it.browser.wait(file.exists, "no certificate is saved")
    same("auditor: it is the office's", file.read_bytes(), town.office.ask("GET", "/certificates/2")[2])


def reviews(town: Town) -> None:
    town.open("due")
    town.it.choose("#due-action", "review")
    town.it.press("#due-mark-all")
    town.it.press("#due-record-review-choose")
    town.it.write("due_record_review_by", WHO)
    town.it.press("#due-record-review-submit")
    same("reviews: none is due any more", town.told(f"/due/{after(0)}"), [])


def search(town: Town) -> None:
    town.open("catalogue")
    town.it.write("catalogue_text", "castle hill")
    town.it.browser.settled()
    says("search: they are found", town.it.browser.seen("#catalogue-count"), f"Found: {SITES} ")


def found_on_hold(town: Town) -> None:
    """A hold on what was found just now."""
    it = town.it
    it.begin()
    it.press("#catalogue-mark")
    it.press("#catalogue-record-hold-choose")
    for name, value in (("code", "LAW-1"), ("reason", "The dig"), ("by", "Legal office")):
        it.write(f"catalogue_record_hold_{name}", value)
    it.press("#catalogue-record-hold-submit")
    held = [town.told(f"/records/{number}")["held"] for number in town.numbers["SITES"]]
    same("hold: it covers all of them", held, ["LAW-1"] * SITES)


def class_on_hold(town: Town) -> None:
    town.open("holds")
    town.it.choose("#hold-place-kind", "class")
    for name, value in (("code", "LAW-2"), ("reason", "A suit"), ("by", "Legal office"), ("target", "LEASES")):
        town.it.write(f"hold_place_{name}", value)
    town.it.press("#hold-place button:not([type])")
    same("hold: it covers the class", town.told(f"/records/{town.numbers['LEASES'][0]}")["held"], "LAW-2")


def lift(town: Town) -> None:
    """Lifted as soon as it is placed, with what that would do: the page knows its own acts before a catalogue has them."""
    town.it.browser.go("#holds?code=LAW-1")
    town.it.begin()
    says("lift: how many it covers is shown first", town.it.browser.seen("#hold-lift-forecast"), str(SITES))
    town.it.press("#hold-sure")
    town.it.press("#hold-lift button:not([type])")
    same("lift: it is lifted", town.told(f"/records/{town.numbers['SITES'][0]}")["held"], None)


def ended_contract(town: Town) -> None:
    town.open("catalogue")
    town.it.write("catalogue_text", "lease of the mill")
    town.it.browser.settled()
    town.it.press("#catalogue-mark")
    town.it.press("#catalogue-record-event-choose")
    town.it.write("catalogue_record_event_occurred", after(-30))
    town.it.write("catalogue_record_event_by", WHO)
    town.it.press("#catalogue-record-event-submit")
    events = [town.told(f"/records/{number}")["event"] for number in town.numbers["LEASES"]]
    same("contract: the event of each of its documents is recorded", events, [after(-30)] * LEASES)


def receipts(town: Town) -> None:
    digest = hashlib.sha256(b"abc").hexdigest()
    numbers = town.numbers["MAPS"]
    town.open("catalogue")
    town.it.choose("#catalogue-class", "MAPS")
    town.it.press("#catalogue-mark")
    town.it.press("#catalogue-record-receipt-choose")
    town.it.paste("#catalogue-record-receipt-list", "".join(f"{digest}  record-{number}\n" for number in numbers))
    town.it.write("catalogue_record_receipt_by", WHO)
    town.it.press("#catalogue-record-receipt-submit")
    statuses = {town.told(f"/records/{number}")["status"] for number in numbers}
    same("receipts: each is filed", statuses, {"received"})


def year_end(town: Town) -> None:
    town.open("catalogue?part=aggregations")
    town.it.write("catalogue_text", "/2025")
    town.it.browser.settled()
    town.it.choose("#catalogue-state", "open")
    town.it.press("#catalogue-mark")
    town.it.press("#catalogue-aggregation-close-choose")
    town.it.press("#catalogue-aggregation-close-sure")
    town.it.press("#catalogue-aggregation-close-submit")
    says("year: all are closed", town.it.browser.seen("#catalogue-answer"), f"{FILES} aggregations are closed.")


def files(town: Town) -> None:
    place = town.folder / "twelve"
    place.mkdir()
    paths = [place / f"letter-{at}.txt" for at in range(12)]
    for path in paths:
        path.write_text(path.name)
    town.open("file")
    town.it.files("#file-choose", paths)
    town.it.write("file_all_aggregation", "LETTERS")
    town.it.press("#file-submit")
    says("files: all are filed", town.it.browser.seen("#file-send-outcome"), "12")
    same("files: in the aggregation of that ref", {row[5] for row in town.it.browser.table("#file-table")} <= {"1", ""}, True)


def sheet(town: Town) -> None:
    file = town.folder / "records.csv"
    file.write_text("Ref;Title;Date;Folder no\n" + "".join(f"S/{at};Row {at};2020-01-02;LETTERS\n" for at in range(ROWS)))
    town.open("import")
    town.it.files("#import-choose", [file])
    town.shown("#import-submit")
    town.it.press("#import-submit")
    says("sheet: all rows are records", town.it.browser.seen("#import-send-outcome"), str(ROWS))


def new_law(town: Town) -> None:
    """A longer period for a class: a new schedule, and the class gets it; the due days that move are shown."""
    before = town.told(f"/records/{town.numbers['SITES'][0]}")["due"]
    town.open("plan")
    town.it.write("plan_schedule_code", "SITES-40")
    town.it.choose("#plan-schedule-trigger", "added")
    town.it.write("plan_schedule_count", "40")
    town.it.press("#plan-schedule button:not([type])")
    town.it.write("plan_rule_class", "SITES")
    forecast = lambda: town.it.browser.all("#plan-rule-forecast table")
    town.it.browser.wait(forecast, "what it would do is not shown")
    town.it.press("#plan-rule-sure")
    town.it.press("#plan-rule button:not([type])")
    now = town.told(f"/records/{town.numbers['SITES'][0]}")["due"]
    same("law: the due day is ten years later", int(now[:4]) - int(before[:4]), 10)


def own_rule(town: Town) -> None:
    town.open(f"record?number={town.numbers['SITES'][1]}")
    town.it.press("#record-schedule-part summary")
    town.it.write("record_schedule_schedule", "SITES-1")
    town.it.press("#record-schedule button:not([type])")
    same("own: the record has it", town.told(f"/records/{town.numbers['SITES'][1]}")["schedule"], "SITES-1")


# the task, what is done, and how many steps it may take
TASKS: list[tuple[str, Callable[[Town], None], int]] = [
    ("what is overdue", overdue, 1),
    ("a due list to a department", department, 2),
    ("its decisions come back", decided, 3),
    (f"confirm {LETTERS + PERMITS} that are due", quarter, 3),
    ("a run and its certificate", run, 5),
    ("a certificate for the auditor, checked", auditor, 3),
    (f"{CONTRACTS} reviews", reviews, 6),
    ("a search", search, 1),
    (f"a hold on {SITES} found records", found_on_hold, 6),
    ("lift a hold", lift, 3),
    ("a hold on a class", class_on_hold, 7),
    (f"a contract of {LEASES} documents has ended", ended_contract, 6),
    (f"receipts for {MAPS}", receipts, 6),
    (f"close the year's {FILES} files", year_end, 6),
    ("file 12 documents", files, 4),
    (f"a sheet of {ROWS} records", sheet, 4),
    ("another period for a class", new_law, 7),
    ("a schedule of its own for a record", own_rule, 6),
]


def tell(office: Office, proxy: Proxy, browser: Browser, folder: pathlib.Path) -> None:
    town = Town(office, proxy, Counted(browser), folder)
    town.fill()
    for name, task, most in TASKS:
        try:
            task(town)
        except Exception as error:  # noqa: BLE001 -- one task that cannot be done keeps no other one from being counted
            judge(f"{name}: {str(error).splitlines()[0]}", False)
            continue
        judge(f"{name}: {town.it.count} steps, at most {most}", town.it.count <= most)
