"""Many at once: what is marked is put on a hold, closed, reviewed and more, by one form, in requests of a right size.

Each press of a button and each field that is filled is counted. An answer that is lost and a refusal between are tried.
"""
import base64
import hashlib
import json
import pathlib
import time

import catalogue
from browser import Browser
from counted import Counted
from kit.judging import judge, same
from late import TODAY, after
from place import Office, Proxy
from story import TEXTS, WHO, says

WORDS = TEXTS["marked"]
CASTLE, CONTRACTS, MAPS, FILES = 40, 29, 3, 12
FIRST = {"day": "2024-01-02"}
# requests that act, as the page sends them; the second of them loses its answer where that is asked for
WATCHED = """
window.sent = [];
const there = window.fetch;
window.fetch = async (...words) => {
  if (words[1]?.method !== "POST") return there(...words);
  window.sent.push({ body: words[1].body, key: words[1].headers["Idempotency-Key"] });
  const answer = await there(...words);
  if (window.lost === window.sent.length) throw new TypeError("the connection is gone");
  return answer;
};
"""
MOST_CLICKS = 6
# the forms for what is marked
DEEDS = [
    *(f"{view}-record-{deed}" for view in ("due", "overdue") for deed in ("hold", "event", "review", "schedule")),
    *(f"catalogue-record-{deed}" for deed in ("confirm", "hold", "event", "review", "schedule", "receipt")),
    *(f"catalogue-aggregation-{deed}" for deed in ("hold", "close")),
    # the form for the record that is shown
    "record-misfiled",
]


def record(ref: str, title: str, aggregation: int, content: bytes = b"abc") -> dict[str, object]:
    day = {"originated": "2023-05-01", "aggregation": aggregation}
    return {"act": "add-record", **FIRST, "ref": ref, "title": title, **day, "content": base64.b64encode(content).decode()}


def plan():
    """Schedules, a class for each, and the aggregations: four roots, a year of files, and one in another one."""
    rules = {
        "KEEP-30": ("added", 30, "destroy"),
        "REV-1": ("review", 1, "review"),
        "SEND-0": ("added", 0, "transfer"),
        "INV-10": ("closed", 10, "destroy"),
    }
    for code, (trigger, count, action) in rules.items():
        yield {"act": "add-schedule", **FIRST, "code": code, "trigger": trigger, "unit": "years", "count": count, "offset": "none", "action": action}
    for code, schedule in (("SITES", "KEEP-30"), ("CONTRACTS", "REV-1"), ("MAPS", "SEND-0"), ("INVOICES", "INV-10")):
        yield {"act": "add-class", **FIRST, "code": code, "title": code.title(), "schedule": schedule}
        yield {"act": "add-aggregation", **FIRST, "ref": code, "title": f"All {code.lower()}", "class": code}
    for number in range(1, FILES + 1):
        yield {"act": "add-aggregation", **FIRST, "ref": f"INV/{number:02}/2025", "title": f"Invoices {number}", "parent": 4 if number > 1 else None, "class": "INVOICES"}
    yield {"act": "add-aggregation", **FIRST, "ref": "INV/12/2025/A", "title": "A part", "parent": 4 + FILES}


def fill(office: Office) -> None:
    """Records of a castle hill, contracts to be reviewed, maps that a run has sent, and a file of each year's invoices."""
    acts = list(plan())
    acts += [record(f"SITE/{n}", f"Castle Hill, find {n}", 1) for n in range(1, CASTLE + 1)]
    acts += [record(f"CON/{n}", f"Contract {n}", 2) for n in range(1, CONTRACTS + 1)]
    acts += [record(f"MAP/{n}", f"Map {n}", 3, f"map {n}".encode()) for n in range(1, MAPS + 1)]
    acts += [record("=1+1", "A ref that is a formula", 1), record("INV/1", "An invoice", 5)]
    first = CASTLE + CONTRACTS
    acts += [{"act": "confirm", **FIRST, "record": first + n, "action": "transfer", "by": WHO} for n in range(1, MAPS + 1)]
    acts.append({"act": "open-run", **FIRST, "by": WHO})
    status, _, body = office.ask("POST", "/acts", json.dumps(acts))
    assert status == 200, body
    assert office.ask("POST", "/run/resume")[0] == 200


def told(office: Office, number: int) -> dict:
    return json.loads(office.ask("GET", f"/records/{number}")[2])


def sent(it: Browser) -> list[list[dict]]:
    return [json.loads(one["body"]) for one in it.driver.execute_script("return window.sent")]


def held(office: Office, it: Counted, proxy: Proxy) -> None:
    """Forty records of a search come under a hold that is placed by the same form."""
    page = it.browser
    page.open(f"{proxy.page}#catalogue")
    page.write(catalogue_text="castle hill")
    page.settled()
    it.begin()
    it.press("#catalogue-mark")
    it.press("#catalogue-record-hold-choose")
    says("hold: what it would do is said before", page.seen("#catalogue-record-hold-preview"), "40 records will be put on it:", "1 · SITE/1 · Castle Hill, find 1", "40 · SITE/40")
    for name, value in (("code", "LAW-1"), ("reason", "The dig"), ("by", "Legal office")):
        it.write(f"catalogue_record_hold_{name}", value)
    it.press("#catalogue-record-hold-submit")
    same("hold: 40 found records take so many clicks", it.count, MOST_CLICKS)
    same("hold: by one array of acts", [[act["act"] for act in acts] for acts in sent(page)], [["place-hold", *["hold-on"] * CASTLE]])
    says("hold: and each has its answer", page.seen("#catalogue-answer"), "40 targets are on the hold.", "Hold LAW-1 is placed.")
    same("hold: the office says so of each", [told(office, n)["held"] for n in (1, 20, CASTLE)], ["LAW-1"] * 3)
    same("hold: and of no other", told(office, CASTLE + 1)["held"], None)
    same("hold: what is done is not marked any more", page.all("#catalogue-part tbody input:checked"), [])


def reviewed(office: Office, it: Counted, proxy: Proxy) -> None:
    """What is to be reviewed is reviewed from the list of what is due."""
    page = it.browser
    page.open(f"{proxy.page}#due")
    titles = page.driver.execute_script("return document.querySelectorAll('#due-table .of-ref').length")
    judge("review: the list has titles", titles > 0, str(titles))
    it.begin()
    it.choose("#due-action", "review")
    it.press("#due-mark-all")
    it.press("#due-record-review-choose")
    it.write("due_record_review_by", WHO)
    it.press("#due-record-review-submit")
    judge(f"review: {CONTRACTS} take so few clicks, {it.count}", it.count <= MOST_CLICKS)
    # the list is empty now, so that this is said above it
    says("review: each is reviewed", page.seen("#due-outcome"), f"{CONTRACTS} records are reviewed.")
    same("review: the office says so", told(office, CASTLE + 1)["due"], after(365 if TODAY.month > 2 or TODAY.year % 4 else 366))
    same("review: none is in the list any more", [row for row in page.table("#due-table") if row[5] == "review"], [])


def closed(office: Office, it: Counted, proxy: Proxy) -> None:
    """The year's files are closed, those within another one first."""
    page = it.browser
    page.open(f"{proxy.page}#catalogue?part=aggregations")
    it.begin()
    it.write("catalogue_text", "/2025")
    page.settled()
    it.choose("#catalogue-state", "open")
    it.press("#catalogue-mark")
    it.press("#catalogue-aggregation-close-choose")
    it.press("#catalogue-aggregation-close-sure")
    it.press("#catalogue-aggregation-close-submit")
    same("close: the year's files take so many clicks", it.count, MOST_CLICKS)
    says("close: all are closed", page.seen("#catalogue-answer"), f"{FILES + 1} aggregations are closed.")
    numbers = [act["aggregation"] for act in sent(page)[-1]]
    same("close: the one within goes first", numbers, sorted(numbers, reverse=True))
    same("close: and periods have begun", told(office, CASTLE + CONTRACTS + MAPS + 2)["due"], f"{TODAY.year + 10}{TODAY.isoformat()[4:]}")


def interrupted(office: Office, it: Counted, proxy: Proxy) -> None:
    """An answer is lost, and what has none goes again with the same key; no act is done that has an answer."""
    page = it.browser
    page.open(f"{proxy.page}#catalogue?class=SITES")
    page.press("#catalogue-mark")
    more = page.driver.execute_script("const it = window.sent.length; window.lost = it + 1; return it")
    page.press("#catalogue-record-event-choose")
    page.write(catalogue_record_event_occurred="2024-01-02", catalogue_record_event_by=WHO)
    page.press("#catalogue-record-event-submit")
    says("lost: what is not known is said", page.seen("#catalogue-answer"), f"Done: 0 of {CASTLE + 1}.", WORDS["event"]["lost"])
    page.driver.execute_script("window.lost = 0")
    page.press("#catalogue-answer > button")
    says("lost: and goes on to its end", page.seen("#catalogue-answer"), f"The event of {CASTLE + 1} records is recorded.")
    two = page.driver.execute_script("return window.sent.slice(arguments[0]).map((it) => [it.body, it.key])", more)
    same("lost: the same request has the same key", (len(two), two[0]), (2, two[1]))
    same("lost: the event is recorded", told(office, 1)["event"], "2024-01-02")


def refused(office: Office, it: Counted, proxy: Proxy) -> None:
    """Another clerk has lifted the hold meanwhile: each refusal is in the list of answers."""
    page = it.browser
    page.open(f"{proxy.page}#catalogue?text=contract")
    page.press("#catalogue-mark")
    page.press("#catalogue-record-hold-choose")
    page.write(catalogue_record_hold_code="OLD-1", catalogue_record_hold_reason="A case", catalogue_record_hold_by="Legal office")
    day = {"day": TODAY.isoformat()}
    place = {"act": "place-hold", **day, "code": "OLD-1", "reason": "Another case", "by": "Another clerk"}
    assert office.ask("POST", "/acts", json.dumps([place, {"act": "lift-hold", **day, "hold": "OLD-1"}]))[0] == 200
    page.press("#catalogue-record-hold-submit")
    says("refused: it is said of each", page.seen("#catalogue-answer"), f"Done: 0 of {CONTRACTS}.", "Refusal 12, Lifted", "There was a hold OLD-1 already")
    same("refused: what is not done stays marked", page.seen("#catalogue-marked"), TEXTS["catalogue"]["marked"].format(count=CONTRACTS, hidden=0))


def receipts(office: Office, it: Counted, proxy: Proxy) -> None:
    """The archive's list is pasted, in capitals: what it does not name is left out."""
    page = it.browser
    page.open(f"{proxy.page}#catalogue?status=sent")
    page.press("#catalogue-mark")
    page.press("#catalogue-record-receipt-choose")
    digest = lambda n: hashlib.sha256(f"map {n}".encode()).hexdigest().upper()
    lines = f"{digest(1)}  data/MAP-1.txt\n{digest(2)} *record-{CASTLE + CONTRACTS + 2}.bin\nnothing here\n"
    it.paste("#catalogue-record-receipt-list", lines)
    page.write(catalogue_record_receipt_by=WHO)
    time.sleep(0.3)
    says("receipts: what is left out is said", page.seen("#catalogue-record-receipt-preview"), "The receipts of 2 records will be filed:", "no SHA-256: 3", "1 is left out")
    page.press("#catalogue-record-receipt-submit")
    says("receipts: two are filed", page.seen("#catalogue-answer"), "The receipts of 2 records are filed.")
    first = CASTLE + CONTRACTS
    same("receipts: the office says so", [told(office, first + n)["status"] for n in (1, 2, 3)], ["received", "received", "sent"])


def placed(office: Office, it: Counted, proxy: Proxy) -> None:
    """A hold is placed with its targets in one form, by refs too; what a ref names is shown while it is written."""
    page = it.browser
    page.open(f"{proxy.page}#holds")
    page.write(hold_place_code="LAW-2", hold_place_reason="A suit", hold_place_by="Legal office")
    page.write(hold_place_target="SITE/2")
    named = "#hold-place-target-named"
    page.wait(lambda: page.all(named) and page.seen(named), "nothing is named")
    says("refs: what a ref names is shown", page.seen(named), "Record 2: SITE/2 · Castle Hill, find 2, here")
    page.press("#hold-place-add")
    page.choose("#hold-place-kind", "aggregation")
    page.write(hold_place_target="NO/SUCH")
    page.wait(lambda: "Neither a number" in page.seen(named), "an unknown ref is not said")
    before = len(sent(page))
    page.press("#hold-place button:not([type])")
    wrong = page.text("#hold-place-target-wrong")
    same("refs: one that nothing has is not sent", (len(sent(page)) - before, wrong), (0, TEXTS["fields"]["numberWrong"]))
    page.write(hold_place_target="CONTRACTS")
    page.press("#hold-place button:not([type])")
    targets = [act.get("target") for act in sent(page)[-1]]
    same("refs: the acts have the numbers, in one array", targets, [None, "record:2", "aggregation:2"])
    same("refs: the office says so", told(office, CASTLE + 1)["held"], "LAW-2")


def late(office: Office, it: Counted, proxy: Proxy) -> None:
    """Each form for what is marked asks for a tick at a day later than today, and sends nothing without it."""
    page = it.browser
    page.open(f"{proxy.page}#due?day=2999-12-31")
    forms = page.driver.execute_script("return Array.from(document.querySelectorAll('form.deed'), (it) => it.id)")
    same("late: the forms of deeds", sorted(forms), sorted(DEEDS))
    for name, view in (("due", "#due?day=2999-12-31"), ("overdue", "#overdue?day=2999-12-31&count=30"), ("catalogue", "#catalogue")):
        page.go(view)
        page.press("#catalogue-mark" if name == "catalogue" else f"#{name}-mark-all")
        for form in [form for form in forms if form.startswith(f"{name}-record-")]:
            page.press(f"#{form}-choose")
            page.write(**{f"{form}-day": after(2)})
            says(f"late: {form}: what that means is said", page.text(f"#{form}-day-late"), after(2))
            before = len(sent(page))
            page.press(f"#{form}-submit")
            same(f"late: {form}: without the tick nothing is sent", (len(sent(page)), page.text(f"#{form}-day-sure-wrong")), (before, TEXTS["fields"]["sureWrong"]))


def tell(office: Office, proxy: Proxy, it: Browser, folder: pathlib.Path) -> None:
    fill(office)
    catalogue.renew(proxy, office)
    counted = Counted(it)
    with it.before_each_page(WATCHED):
        for part in (late, held, reviewed, closed, interrupted, refused, receipts, placed):
            part(office, counted, proxy)
