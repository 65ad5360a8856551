"""Answers of a proxy, whatever body they have, in words; those of a member; and the office's own that name what is missing."""
import json

from browser import Browser
from kit.judging import judge, same
from place import Proxy
from story import TEXTS, says

# the page gets this answer to whatever it asks
ANSWER = """
const [status, type, body] = arguments;
window.fetch = async () => new Response(body, { status, headers: type ? { "Content-Type": type } : {} });
"""
HTML = "<html>\n<head><title>Bad Gateway</title></head>\n<body>padding to disable MSIE</body></html>"
BODIES = [
    ("text/html", HTML),
    ("application/json", '{"error":"office"}'),
    ("application/json", "no JSON"),
    ("text/plain", "The office does not run."),
    ("", ""),
]


def answers(browser: Browser, view: str, status: int, kind: str, body: str) -> None:
    browser.open(view)
    browser.driver.execute_script(ANSWER, status, kind, body)


def read(browser: Browser, proxy: Proxy, status: int, kind: str, body: str) -> str:
    """What the page says where a record is asked for and this comes."""
    answers(browser, f"{proxy.page}#record", status, kind, body)
    browser.write(record_number="1")
    browser.press("#record-form button")
    return browser.text("#record-outcome")


def members(browser: Browser, proxy: Proxy) -> None:
    """What a member of an office on several machines answers by itself; by some words it says that it did nothing."""
    undone = {"quorum", "recovering", "busy", "full", "key", "refused", "header"}
    for row in TEXTS["members"]:
        status, word = int(row["status"]), json.loads(row["body"])["error"]
        answers(browser, f"{proxy.page}#holds", status, "application/json", row["body"])
        browser.write(hold_place_code="H-1", hold_place_reason="A lawsuit", hold_place_by="Legal office")
        browser.press("#hold-place button:not([type])")
        told = browser.seen("#hold-place-outcome")
        to_do = TEXTS["help"]["statuses"].get(f"{status} {word}", row["do"])
        says(f"a {status} {word} of a member is said in words", told, row["meaning"], to_do)
        says(f"a {status} {word} of a member: whose answer it is, behind a summary", browser.text("#hold-place-outcome"), "The office said:")
        same(f"a {status} {word}: whether it is told as unknown", TEXTS["holds"]["lostPlace"] in told, word not in undone)
        same(f"a {status} {word}: whether it is told that nothing was done", "nothing was done" in told, word in undone)
        wanted = "wrong" if word in undone else "unknown"
        judge(f"a {status} {word}: and so it looks", wanted in browser.one("#hold-place-outcome").get_attribute("class"))


def forbidden(browser: Browser, proxy: Proxy) -> None:
    """A 403 says by its word which of three things it forbids, and the page says that one alone."""
    words = ("origin", "name", "future")
    for word in words:
        told = read(browser, proxy, 403, "application/json", json.dumps({"error": word, "place": 0}))
        row = TEXTS["proxy"][f"403 {word}"]
        says(f"a 403 {word} of the proxy is said in words", told, "The server said: 403", row["meaning"], row["do"])
        others = [TEXTS["proxy"][f"403 {other}"]["meaning"] for other in words if other != word]
        judge(f"a 403 {word}: and nothing of the others", not any(other in told for other in others), told)
    answers(browser, f"{proxy.page}#holds", 403, "application/json", '{"error":"future","place":0}')
    browser.write(hold_place_code="H-1", hold_place_reason="A lawsuit", hold_place_by="Legal office")
    browser.press("#hold-place button:not([type])")
    told = browser.seen("#hold-place-outcome")
    judge("an act of a day too far ahead is not told as unknown", TEXTS["holds"]["lostPlace"] not in told, told)


def tell(browser: Browser, proxy: Proxy) -> None:
    members(browser, proxy)
    forbidden(browser, proxy)
    for status in (403, 404, 429, 502, 504):
        row = TEXTS["proxy"][str(status)]
        for kind, body in BODIES:
            there = read(browser, proxy, status, kind, body)
            says(
                f"a {status} of the proxy with {kind or 'no type'} {body[:20]!r} is said in words",
                there,
                f"The server said: {status}",
                row["meaning"],
                row["do"],
            )
            judge("and without a mark of HTML", "<" not in there and "MSIE" not in there, there)
    for kind, body in BODIES:
        answers(browser, f"{proxy.page}#holds", 502, kind, body)
        browser.write(hold_place_code="H-1", hold_place_reason="A lawsuit", hold_place_by="Legal office")
        browser.press("#hold-place button:not([type])")
        says(
            f"an act that a 502 with {kind or 'no type'} answers is told as unknown",
            browser.seen("#hold-place-outcome"),
            TEXTS["holds"]["lostPlace"],
            TEXTS["proxy"]["502"]["meaning"],
        )
    says(
        "an answer that nobody knows is not explained",
        read(browser, proxy, 503, "application/json", '{"error":"strange"}'),
        "The server said: 503",
        TEXTS["said"]["strange"],
    )
    says(
        "one of the office is its own",
        read(browser, proxy, 503, "application/json", '{"fault":33}'),
        "The office said: 503",
        TEXTS["faults"]["33"]["meaning"],
    )
    missing = read(browser, proxy, 404, "application/json", '{"error":"record"}')
    says("a record that is not there", missing, "There is no record 1 in this office.", TEXTS["record"]["missingDo"])
    judge("which says nothing of other paths", "GET /records/N" not in missing, missing)
    browser.open(f"{proxy.page}#certificate?number=9999")
    says(
        "a certificate that is not there",
        browser.seen("#certificate-outcome"),
        TEXTS["run"]["notClosed"].format(number=9999),
        TEXTS["run"]["notClosedDo"],
    )
    judge("nor does it", "GET /records/N" not in browser.text("#certificate-outcome"))
    browser.open(f"{proxy.page}#run")
    browser.press("a[href='#fault']")
    faults = [[number, row["meaning"], row["do"]] for number, row in TEXTS["faults"].items()]
    same("a link of the view Run leads to what each fault means", browser.table("#fault-table table"), faults)
