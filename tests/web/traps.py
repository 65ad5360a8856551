"""What once led clerks astray: each trap, as the page does away with it."""
from __future__ import annotations

import json
import pathlib
import re
import subprocess
from collections.abc import Sequence

from selenium.webdriver.common.keys import Keys

import town
from browser import Browser, browser
from kit.judging import judge, same
from late import after
from place import NAME, Office, Proxy
from story import TEXTS, WHO, Story, says

READER, READS = "reader", "reads alone"
MANY = 40
# each day and each code that is seen is on one line
BROKEN = """
return Array.from(document.querySelectorAll("section:not([hidden]) :is(.day, .entries a)"))
  .filter((node) => node.checkVisibility() && node.getClientRects().length > 1).map((node) => node.textContent)
"""
# at each width the lines end elsewhere
WIDTHS = {"1280 pixels": [1280], "400 pixels and below": range(400, 330, -5)}
LONG = "BLDG-INQUIRY/2021/0241"
LINES_OF_REF = """
const rows = Array.from(document.querySelectorAll("#due-table tbody tr"));
const range = document.createRange();
range.selectNodeContents(rows.find(({ cells }) => cells[2].firstChild.data === arguments[0]).cells[2].firstChild);
return new Set(Array.from(range.getClientRects(), (it) => Math.round(it.top))).size;
"""
# the lines that this text takes as the first ref of the catalogue
LINES_IN_CATALOGUE = """
const cell = document.querySelector("#catalogue-part tbody tr").cells[2];
cell.textContent = arguments[0];
const range = document.createRange();
range.selectNodeContents(cell);
return new Set(Array.from(range.getClientRects(), (it) => Math.round(it.top))).size;
"""
SEEN = "const it = arguments[0].getBoundingClientRect(); return it.bottom <= innerHeight + 1 && it.top >= 0"
# the request for the server's time waits until it is let go
HELD_BACK = """
const there = window.fetch;
window.fetch = async (...words) => {
  if (words[1]?.method === "HEAD") await new Promise((go) => (window.letGo = go));
  return there(...words);
};
"""
# a browser's clock that goes wrong by so many hours
WRONG = """
const Real = Date;
window.Date = class extends Real {
  constructor(...words) { words.length ? super(...words) : super(Real.now() + HOURS * 3600000); }
  static now() { return Real.now() + HOURS * 3600000; }
};
"""


def broken(it: Browser, widths: Sequence[int]) -> list[str]:
    """The days and codes that a line breaks at one of these widths; the page is as wide as usual then."""
    found = []
    for width in widths:
        it.width(width)
        found += it.driver.execute_script(BROKEN)
    it.width(1280)
    return found


def printed(it: Browser, folder: pathlib.Path) -> str:
    it.paper(folder / "trap.pdf")
    words = ["pdftotext", "-layout", str(folder / "trap.pdf"), "-"]
    return subprocess.run(words, check=True, stdout=subprocess.PIPE).stdout.decode()


def hold_on_paper(story: Story) -> None:
    """A hold of many records is whole on paper, with their count, refs and titles."""
    acts = [{"act": "place-hold", "day": after(0), "code": "MANY-2026-01", "reason": "An inquiry", "by": WHO}]
    acts += [town.record(after(0), f"INQ/{at}", 1) for at in range(MANY)]
    acts += [{"act": "hold-on", "day": after(0), "hold": "MANY-2026-01", "target": f"record:{22 + at}"} for at in range(MANY)]
    town.send(story.office, acts)
    town.renew(story.proxy, story.office)
    it = story.browser
    it.open(f"{story.proxy.page}#catalogue?part=holds")
    says("holds: the catalogue says how many targets there are", it.seen("#catalogue-part"), f"{MANY} records")
    text = printed(it, story.folder)
    there = [at for at in range(MANY) if f"INQ/{at} " in f"{text} " or f"INQ/{at}\n" in text]
    same("holds: each of many targets is on paper, with its ref", len(there), MANY)
    same("holds: no day and no code is broken", it.driver.execute_script(BROKEN), [])
    it.press("#catalogue-part table tr:last-child button")
    saved = story.folder / "hold-MANY-2026-01.csv"
    it.wait(saved.exists, "no CSV of the targets is saved")
    lines = saved.read_text("utf-8-sig").splitlines()
    same("holds: the targets are saved as CSV", (lines[0], len(lines)), ('"kind","target","ref","title"', MANY + 1))


def stale(story: Story) -> None:
    """A list says of when it is, and is read anew by a press and whenever its view shows."""
    it = story.browser
    it.open(f"{story.proxy.page}#due")
    before = it.table("#due-table")
    says("due: it says of when it is", it.seen("#due-list .read"), "As the office had it at")
    town.send(story.office, town.confirm(after(0), [5], "destroy"))
    it.press("#due-anew")
    judge("due: a press reads it anew", it.table("#due-table") != before)
    numbers = lambda: [row[1] for row in it.table("#due-table")]
    before = numbers()
    it.go("#run")
    town.send(story.office, [{"act": "review", "day": after(0), "record": 17, "schedule": None, "by": WHO}])
    it.go("#due")
    same("due: and so does its showing again", numbers(), [number for number in before if number != "17"])


def marks(story: Story) -> None:
    """Marking leaves out what is held; the bar says what the marks are; a mark after the press is not meant."""
    it = story.browser
    town.send(story.office, [{"act": "hold-on", "day": after(0), "hold": town.HELD, "target": f"record:{at}"} for at in (6, 7)])
    it.open(f"{story.proxy.page}#due")
    it.press("#due-mark")
    rows = [row for row in story.told(f"/due/{after(0)}") if not row["confirmed"] and row["action"] != "review"]
    free = sum(row["held"] is None for row in rows)
    same("due: marking leaves out what is held", it.text("#due-submit"), f"Confirm {free}")
    it.press("#due-mark-held")
    same("due: a second button marks that", it.text("#due-submit"), f"Confirm {len(rows)}")
    says("due: the bar says what they are", it.seen("#due-what"), "To destroy: 7 (held: 2).", "To transfer: 1 (held: 0).")
    it.press("#due-unmark")
    boxes = it.all("#due-table input")
    boxes[7].click()
    it.write(due_confirm_by=WHO)
    it.driver.execute_script(HELD_BACK)
    it.driver.execute_script("document.querySelector('#due-submit').click()")
    it.wait(lambda: it.driver.execute_script("return Boolean(window.letGo)"), "the time is not asked for")
    boxes[8].click()
    it.driver.execute_script("window.letGo()")
    it.settled()
    it.wait(lambda: it.seen("#due-answer"), "no answer comes")
    says("due: what is marked after the press is not confirmed", it.seen("#due-answer"), "Confirmed: 1 of 1.")


def refs(story: Story) -> None:
    """A long ref is on one line of Due, with its title below it, and of the catalogue."""
    town.send(story.office, [town.record(after(0), LONG, 1)])
    it = story.browser
    it.open(f"{story.proxy.page}#due?day={after(800)}")
    same("due: a ref of 22 letters is on one line", it.driver.execute_script(LINES_OF_REF, LONG), 1)
    it.open(f"{story.proxy.page}#catalogue")
    same("catalogue: one of 18 letters too", it.driver.execute_script(LINES_IN_CATALOGUE, "EIN/3/2021-05/1581"), 1)


def days(story: Story) -> None:
    """A day is taken as people write it, and shown as the office has it; one with two readings is asked about."""
    it = story.browser
    it.open(f"{story.proxy.page}#due")
    it.write(due_day="2.5.2022")
    it.press("#due-form button:not([type])")
    same("days: a day with points is taken", it.one("#due-day").get_attribute("value"), "2022-05-02")
    it.write(due_day="05/06/2022")
    it.press("#due-form button:not([type])")
    says("days: of one with two readings both are said", it.text("#due-day-wrong"), "2022-06-05", "2022-05-06")
    judge("days: a field has a calendar", bool(it.all("#due-form .pick")))
    for words, widths in WIDTHS.items():
        for view in ("due", "overdue", "catalogue?part=holds", "catalogue?part=runs", "record?number=1", "certificate?number=1"):
            it.open(f"{story.proxy.page}#{view}")
            same(f"{view}: no day is broken at {words}", broken(it, widths), [])


def receipt(story: Story) -> None:
    """A receipt in capitals, and whether it is the record's, as it is pasted."""
    it = story.browser
    it.open(f"{story.proxy.page}#record?number=13")
    it.press("#record-receipt-part summary")
    it.write(record_receipt_digest="0" * 64)
    says("receipt: another digest is told as it is pasted", it.seen("#record-receipt-same"), TEXTS["recordActs"]["receipt"]["other"])
    it.write(record_receipt_digest=town.DIGEST.upper(), record_receipt_by=WHO)
    says("receipt: the record's too", it.seen("#record-receipt-same"), TEXTS["recordActs"]["receipt"]["same"])
    narrow = "const it = document.querySelector('#record-receipt-digest'); return it.scrollWidth > it.clientWidth"
    judge("receipt: all its digits are seen", not it.driver.execute_script(narrow))
    it.press("#record-receipt button:not([type])")
    says("receipt: capitals are taken", it.seen("#record-receipt-outcome"), "The receipt of record 13 is filed.")


def record(story: Story) -> None:
    """A record leads to its file and to its neighbours; its rule is in words; the form of an event is folded."""
    it = story.browser
    town.renew(story.proxy, story.office)
    it.open(f"{story.proxy.page}#record?number=3")
    it.wait(lambda: it.all(".neighbours a"), "no neighbours come")
    facts = it.facts("#record-facts")
    same("record: its file and its rule", (facts["Aggregation"], facts["Schedule"]),
         ("1 · LET · Files of LET", "D-1 · 1 year · when the record was added · destroy"))
    hrefs = [link.get_attribute("href").split("#")[1] for link in it.all(".neighbours a")]
    same("record: those beside it", hrefs, ["record?number=2", "record?number=4"])
    judge("record: no event is asked of a rule without one", not it.one("#record-event").is_displayed())
    it.go("#record?number=20")
    it.wait(lambda: it.one("#record-event").is_displayed(), "the form of an event does not come")
    it.go("#record?number=13")
    it.wait(lambda: "By the catalogue its receipt" in it.seen("#record-words"), "no receipt is told")
    says("record: who filed its receipt", it.seen("#record-words"), f"on {after(0)} by {WHO}")


def manifest(story: Story) -> None:
    """The manifest of a large file is called one, before it is filed and after."""
    it, words = story.browser, TEXTS["file"]
    large = story.folder / "scan.pdf"
    large.write_bytes(b"%PDF-" + bytes(300_000))
    it.open(f"{story.proxy.page}#file")
    it.one("#file-choose").send_keys(str(large))
    it.settled()
    it.press("#file-table tbody td:last-child button")
    ref = it.one("#file-table tbody input").get_attribute("value")
    same("file: the ref of a manifest says so", ref, "scan.pdf.manifest")
    totals = dict(zip([dt.text for dt in it.all("#file-totals dt")], [dd.text for dd in it.all("#file-totals dd")], strict=True))
    same("file: and so do the totals", (totals[words["totals"]["manifests"]], totals.get(words["totals"]["large"])), ("1", None))
    it.press("#file-submit")
    says("file: what is wrong is marked", it.seen("#file-send-outcome"), words["wrong"])
    it.write(file_all_place="//nas/scans/", file_all_aggregation="1")
    same("file: which is taken away once somebody writes", it.seen("#file-send-outcome"), "")
    it.press("#file-submit")
    number = it.one("#file-table tbody a").text
    it.go(f"#record?number={number}")
    it.wait(lambda: "//nas/scans/scan.pdf" in it.seen("#record-words"), "the manifest is not recognised")
    says("record: a manifest is called one", it.seen("#record-words"), "the manifest of a file of 300,005 bytes")


def looks(story: Story) -> None:
    """A sheet with days that cannot be meant, and with files that are not there."""
    it = story.browser
    sheet = story.folder / "looks.csv"
    sheet.write_text("ref,title,originated,aggregation\nA/1,One,2052-01-02,1\nA/2,Two,0205-01-02,1\n"
                     "A/3,Three,2020-01-02,9999\nA/4,Four,2020-01-02,CASE/1\nA/5,Five,2020-01-02,NO/1\n")
    it.open(f"{story.proxy.page}#import")
    it.one("#import-choose").send_keys(str(sheet))
    it.settled()
    look, wrong = (TEXTS["sheetActs"][part] for part in ("look", "wrong"))
    it.wait(lambda: "9999" in it.seen("#import-table"), "no rows are shown")
    table = it.table("#import-table")
    last = [row[-1] for row in table]
    says("import: a day that has not come", last[0], look["future"].format(today=after(0)))
    says("import: a day of the time of Rome", last[1], look["old"].format(year=1800))
    says("import: a file that is not there", last[2], look["notThere"])
    says("import: a ref in place of a number becomes its number", table[3][4], "6")
    says("import: one that nobody knows says so", last[4], wrong["noRef"])


def certificates(story: Story) -> None:
    """The last run has no next one; what the run before skipped is folded, and is on paper."""
    it = story.browser
    town.run(story.office, after(0))
    town.run(story.office, after(0))
    it.open(f"{story.proxy.page}#certificate?number=3")
    it.wait(lambda: it.all("#certificate-tables details"), "nothing is folded")
    it.wait(lambda: it.all("#certificate-others a"), "no link to another run comes")
    same("certificate: the last one leads to the one before alone", [a.text for a in it.all("#certificate-others a")], ["Run 2"])
    says("certificate: what was skipped before is folded", it.text("#certificate-tables summary"), "Skipped as in run 2: ")
    says("certificate: and is on paper", printed(it, story.folder), "LET/1")
    it.open(f"{story.proxy.page}#record?number=14")
    says("record: of what is transferred it does not say that this is all", it.seen("#record-words"), "what the office reports of it")
    it.open(f"{story.proxy.page}#certificate?number=2")
    it.wait(lambda: it.all("#certificate-tables .entries"), "no entries come")
    says("certificate: a record that a hold kept has the hold's code", it.text("#certificate-tables .entries"), town.HELD)
    same("certificate: which is on one line", it.driver.execute_script(BROKEN), [])


def clock(story: Story) -> None:
    """A catalogue is as old as it is by the server's clock, whatever the browser's says."""
    it = story.browser
    for hours in (-3, 3):
        with it.before_each_page(WRONG.replace("HOURS", str(hours))):
            it.open(f"{story.proxy.page}#catalogue")
            age = re.search(r", (\d+) min ago", it.seen("#catalogue-moment"))
            judge(f"catalogue: its age is that of the server's clock, {hours} hours off", age and int(age[1]) < 60, it.seen("#catalogue-moment"))
            it.open(f"{story.proxy.page}#todo")
        judge(f"todo: opens with a browser's clock {hours} hours off", it.all("#todo-tasks > article") != [])


def cards(story: Story) -> None:
    """What is said of a form is in sight, also in a low window for somebody who presses Enter at the form's first code."""
    it = story.browser
    it.width(1280, 500)
    it.open(f"{story.proxy.page}#holds")
    it.write(hold_place_reason="Again", hold_place_by=WHO, hold_place_code=f"{town.HELD}{Keys.ENTER}")
    it.wait(lambda: "Refusal" in it.seen("#hold-place-outcome"), "no refusal comes")
    says("holds: a code that is there is refused", it.seen("#hold-place-outcome"), "Refusal 4")
    judge("holds: which is seen", it.driver.execute_script(SEEN, it.one("#hold-place-outcome > :first-child")))
    it.width(1280)
    it.write(hold_place_code="NEW-1")
    same("holds: and taken away once somebody writes", it.seen("#hold-place-outcome"), "")
    says("holds: a target covers what is filed later", it.seen("#hold-on"), "also what is filed there later")


def reader(story: Story) -> None:
    """Who may only read is offered nothing else."""
    line = subprocess.run(["openssl", "passwd", "-6", READS], check=True, stdout=subprocess.PIPE).stdout.decode()
    with (story.folder / "office.htpasswd").open("a") as names:
        names.write(f"{READER}:{line}")
    place = story.proxy.page.replace("://", f"://{READER}:{READS.replace(' ', '%20')}@")
    with browser(story.folder) as it:
        it.driver.get(place)
        for view in ("run", "holds", "plan", "file", "import", "record?number=6"):
            it.open(f"{story.proxy.page}#{view}")
            there = [form for form in it.all("section:not([hidden]) form:has([data-field=day]), #run-resume, .drop") if form.is_displayed()]
            same(f"{view}: who may only read is offered no act", there, [])
        says("and is told why", it.seen("#rights"), TEXTS["page"]["reader"])
    status, body = story.proxy.ask("GET", "/rights")
    same(f"{NAME} may act", (status, json.loads(body)), (200, {"acts": True}))


def tell(office: Office, proxy: Proxy, browser_: Browser, folder: pathlib.Path) -> None:
    town.fill(office)
    town.renew(proxy, office)
    story = Story(office, proxy, browser_, folder)
    for trap in (hold_on_paper, stale, marks, refs, days, receipt, record, manifest, looks, certificates, clock, cards, reader):
        try:
            trap(story)
        except Exception as error:  # noqa: BLE001 -- one trap that the page still has keeps no other one from being tried
            judge(f"{trap.__name__}: {str(error).splitlines()[0]}", False)
