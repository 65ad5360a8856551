"""A list of 20,000 rows, or of `run --rows`: how long until it is shown, sorted, filtered, confirmed in parts."""
import json
import os
import subprocess
import time

from kit.judging import judge, same
from place import OFFICE
from story import WHO

ROWS = 20_000
# of more rows than these one request is surely too long
TOO_MANY = 9_999
MOST = 2.0
# from the press of the button until the first rows are drawn, and until all are in the page and it has been drawn again
SHOWN = """
const [rows, done] = arguments;
const began = performance.now();
const passed = () => (performance.now() - began) / 1000;
const drawn = (then) => requestAnimationFrame(() => setTimeout(then));
const table = document.getElementById("due-table");
const look = (holds, then) => holds() ? drawn(then) : setTimeout(() => look(holds, then), 1);
document.querySelector("#due-form button").click();
look(() => table.rows.length > 1, () => {
  const first = passed();
  look(() => table.rows.length === rows + 1 && !table.hasAttribute("aria-busy"), () => done([first, passed()]));
});
"""


def acts():
    """An office with so many records that are due."""
    day = {"day": "2018-01-02"}
    yield {"act": "add-schedule", **day, "code": "GO-1", "trigger": "added", "unit": "years", "count": 1, "offset": "none", "action": "destroy"}
    yield {"act": "add-schedule", **day, "code": "SEND-1", "trigger": "origin", "unit": "years", "count": 1, "offset": "none", "action": "transfer"}
    for code, schedule in (("LETTERS", "GO-1"), ("NOTICES", "GO-1"), ("PERMITS", "SEND-1")):
        yield {"act": "add-class", **day, "code": code, "title": code.title(), "schedule": schedule}
        yield {"act": "add-aggregation", **day, "ref": code, "title": code.title(), "class": code}
    for number in range(ROWS):
        yield {"act": "add-record", **day, "ref": f"R/{number}", "title": f"Record {number}", "originated": f"2017-{number % 12 + 1:02}-{number % 28 + 1:02}", "aggregation": number % 3 + 1, "content": "YWJj"}
    yield {"act": "place-hold", **day, "code": "H-1", "reason": "A lawsuit", "by": "Legal office"}
    for record in range(1, min(500, ROWS)):
        yield {"act": "hold-on", **day, "hold": "H-1", "target": f"record:{record}"}


def make(file):
    list_ = file.with_suffix(".json")
    list_.write_text(json.dumps(list(acts())))
    began = time.time()
    subprocess.run([OFFICE, "apply", file, list_], check=True, stdout=subprocess.DEVNULL)
    print(f"adding {ROWS} records took {time.time() - began:.1f} seconds")


def timed(work):
    began = time.time()
    work()
    return time.time() - began


def tell(office, proxy, browser, folder):
    began = time.time()
    rows = json.loads(office.ask("GET", "/due/2020-01-01")[2])
    print(f"the office itself tells {len(rows)} rows in {time.time() - began:.2f} seconds")
    same("so many rows are due", len(rows), ROWS)
    for width in (1280, 400):
        firsts, times = [], []
        for _ in range(5):
            # a list without rows, so that the first rows are those that are waited for
            browser.open(f"{proxy.page}#due?day=2018-01-02")
            browser.width(width)
            browser.write(due_day="2020-01-01")
            first, whole = browser.driver.execute_async_script(SHOWN, ROWS)
            firsts.append(first)
            times.append(whole)
        seconds = lambda them: ", ".join(f"{it:.2f}" for it in sorted(them))
        print(f"at {width} pixels the first of {ROWS} rows are seen after {seconds(firsts)} seconds, all are there after {seconds(times)}")
        judge(f"{ROWS} rows are shown within {MOST:.0f} seconds at {width} pixels, at best of five after {min(times):.2f}, at a load of {os.getloadavg()[0]:.0f}", min(times) <= MOST)
    browser.width(1280)
    shown = browser.table("#due-table")
    wanted = [["", str(row["record"]), row["ref"], row["class"], row["schedule"], row["action"], row["due"], row["held"] or "", "no"] for row in rows]
    same("each of them is what GET /due tells", [at for at, (one, other) in enumerate(zip(shown, wanted, strict=True)) if one != other], [])
    flush = lambda: browser.driver.execute_script("document.body.offsetHeight")
    for name, work in (("sorting", lambda: browser.one("[data-column=ref] button").click()), ("filtering", lambda: browser.choose("#due-class", "PERMITS"))):
        print(f"{name} takes {timed(lambda: (work(), flush())):.2f} seconds until the first rows are seen")
        browser.settled()
    browser.press("#due-all")
    began = time.time()
    pdf = browser.paper(folder / "many.pdf")
    print(f"putting them on paper takes {time.time() - began:.0f} seconds")
    text = subprocess.run(["pdftotext", "-layout", folder / "many.pdf", "-"], stdout=subprocess.PIPE, check=True).stdout.decode()
    same("on paper are all of them", sum(f" R/{number} " in text for number in range(0, ROWS, 500)), len(range(0, ROWS, 500)))
    print(f"they are {text.count(chr(12))} pages on paper, of {len(pdf)} bytes")
    parts(office, browser)


def marked(browser):
    """How many the button would confirm."""
    return int(browser.text("#due-submit").split(" ")[1])


def in_parts(browser, mark):
    """Confirms all that a button marks, in as many requests as that takes, and counts it. What one request cannot take is told first."""
    confirmed = 0
    browser.press(mark)
    while count := marked(browser):
        if count > TOO_MANY:
            browser.press("#due-submit")
            told = browser.seen("#due-panel-outcome")
            judge(f"{count}, too much for one request, is told, and nothing is sent", "one request takes 1048576" in told, told)
            browser.one("#due-panel-outcome button").click()
            count = marked(browser)
        began = time.time()
        browser.press("#due-submit")
        confirmed += count
        judge(f"{count} are confirmed in one request, after {time.time() - began:.1f} seconds", f"Confirmed: {count} of {count}." in browser.seen("#due-answer"), browser.seen("#due-answer")[:300])
        browser.press(mark)
    return confirmed


def parts(office, browser):
    """All are confirmed in parts: what is held is left out of them, and has a button of its own."""
    unconfirmed = lambda: [row["record"] for row in json.loads(office.ask("GET", "/due/2020-01-01")[2]) if not row["confirmed"]]
    browser.write(due_confirm_by=WHO, due_confirm_day="2020-01-01")
    held = list(range(1, min(500, ROWS)))
    free = in_parts(browser, "#due-mark")
    same("all but what is held are confirmed", (free, sorted(unconfirmed())), (ROWS - len(held), held))
    same("and then what is held, by a button of its own", (in_parts(browser, "#due-mark-held"), unconfirmed()), (len(held), []))
