"""Refs, titles and names that are hard to show: of 200 letters, and with characters that nobody sees."""
import json
import pathlib
import unicodedata

from browser import Browser
from kit.judging import judge, same
from layout import on_paper, words
from place import Office, Proxy
from story import Story

DAY = "2022-05-03"
LONG = "L" * 200
REF, TITLE, BY = "APP/\u202egpj.exe", "A \u2066title\u200b of \u00ad\ufeffnothing", "R.\u200d Halloran\u2028, manager"
SHOWN = {
    REF: "APP/[U+202E]gpj.exe",
    TITLE: "A [U+2066]title[U+200B] of [U+00AD][U+FEFF]nothing",
    BY: "R.[U+200D] Halloran[U+2028], manager",
}
# what is no letter, mark, digit, sign or space that is seen
UNSEEN = {"Cf", "Zl", "Zp", "Cc"}
TEXT = "return document.title + document.body.textContent"


def fill(office: Office) -> None:
    day: dict = {"day": "2018-01-02"}
    acts = [
        {
            "act": "add-schedule",
            **day,
            "code": "D1",
            "trigger": "added",
            "unit": "years",
            "count": 1,
            "offset": "none",
            "action": "destroy",
        },
        {
            "act": "add-schedule",
            **day,
            "code": "SCHEDULE-OF-16-L",
            "trigger": "added",
            "unit": "years",
            "count": 1,
            "offset": "none",
            "action": "destroy",
        },
        {"act": "add-class", **day, "code": "EVT-PER", "title": "Permits", "schedule": "D1"},
        {"act": "add-aggregation", **day, "ref": f"A{REF}", "title": TITLE, "class": "EVT-PER"},
        {"act": "add-aggregation", **day, "ref": "EVT", "title": "Permits", "class": "EVT-PER"},
    ]
    record: dict = {"act": "add-record", **day, "originated": "2017-06-30", "aggregation": 1, "content": "YWJj"}
    acts += [{**record, "ref": ref, "title": title} for ref, title in ((REF, TITLE), (LONG, LONG))]
    acts += [
        {**record, "ref": f"EVT/2018-01/{number}", "title": "Plain", "aggregation": 2, "schedule": "SCHEDULE-OF-16-L"}
        for number in range(8)
    ]
    acts += [
        {"act": "place-hold", **day, "code": "Q-2020-17", "reason": "A lawsuit", "by": BY},
        {"act": "hold-on", **day, "hold": "Q-2020-17", "target": "record:3"},
        {"act": "close-aggregation", **day, "aggregation": 1},
    ]
    assert office.ask("POST", "/acts", json.dumps(acts))[0] == 200


def unseen(browser: Browser) -> list[str]:
    """The characters of the page that nobody sees."""
    return sorted(
        {
            f"{ord(it):04X}"
            for it in browser.driver.execute_script(TEXT)
            if unicodedata.category(it) in UNSEEN and it not in "\n\t"
        }
    )


def shown(story: Story) -> None:
    """Each view but the list shows such characters as marks, and none as itself."""
    it, page = story.browser, story.proxy.page
    it.open(f"{page}#record?number=1")
    same("the record: its heading", it.seen("#record-heading"), f"Record 1: {SHOWN[TITLE]}")
    same("the record: its ref and title", list(it.facts("#record-facts").values())[:2], [SHOWN[REF], SHOWN[TITLE]])
    judge("the record: who confirmed", SHOWN[BY] in it.seen("#record-words"), it.seen("#record-words"))
    same("the record: no character that nobody sees", unseen(it), [])
    it.open(f"{page}#certificate?number=1")
    row = it.table("#certificate-tables .entries")[0]
    same("the certificate: an entry", (row[2], row[7]), (SHOWN[REF], SHOWN[BY]))
    same("the certificate: a spent aggregation", it.table("#certificate-tables .spent"), [["1", f"A{SHOWN[REF]}"]])
    same("the certificate: no character that nobody sees", unseen(it), [])
    judge("the certificate: it says that these are marks", it.one("#certificate-marks").is_displayed())
    it.press("#certificate-save")
    saved = story.folder / "certificate-1.txt"
    it.wait(saved.exists, "no certificate was saved")
    same(
        "the certificate: what is saved has the characters themselves",
        saved.read_bytes(),
        story.office.ask("GET", "/certificates/1")[2],
    )
    it.open(f"{page}#run?number=1")
    judge("the run: who opened it", SHOWN[BY] in it.seen("#run-outcome"), it.seen("#run-outcome"))


def dash(story: Story) -> None:
    """A hold whose code is `-`, on the record that the run left: in the list, its filter, and the next certificate."""
    it = story.browser
    day: dict = {"day": DAY}
    at_once: dict = {"trigger": "added", "unit": "days", "count": 0, "offset": "none", "action": "destroy"}
    free: dict = {"ref": "free", "title": "Not held", "originated": DAY, "aggregation": 2, "content": "YWJj"}
    acts = [
        {"act": "lift-hold", **day, "hold": "Q-2020-17"},
        {"act": "place-hold", **day, "code": "-", "reason": "A lawsuit", "by": BY},
        {"act": "hold-on", **day, "hold": "-", "target": "record:3"},
        {"act": "add-schedule", **day, "code": "D0", **at_once},
        {"act": "add-record", **day, **free, "schedule": "D0"},
        {"act": "open-run", **day, "by": "A clerk"},
    ]
    assert story.office.ask("POST", "/acts", json.dumps(acts))[0] == 200
    assert story.office.ask("POST", "/run/resume")[0] == 200
    it.open(f"{story.proxy.page}#due?day={DAY}")
    held = lambda: sorted((row[1], row[7]) for row in story.due_table())
    choice = lambda value: it.one(f"#due-held option[value='{value}']").text
    same("a hold of the code -: the choices of the filter", [choice(value) for value in ("*", "_none", "-")],
         ["held (1)", "not held (1)", "- (1)"])
    it.choose("#due-held", "-")
    same("a hold of the code -: the filter shows what it covers", held(), [("3", "-")])
    it.open(it.driver.current_url)
    same("a hold of the code -: and so does the address", held(), [("3", "-")])
    it.choose("#due-held", "_none")
    same("a hold of the code -: what is not held is another choice", held(), [("11", "")])
    it.open(it.driver.current_url)
    same("a hold of the code -: with an address of its own", held(), [("11", "")])
    it.open(f"{story.proxy.page}#certificate?number=2")
    row = it.table("#certificate-tables .entries")[0]
    same("a hold of the code -: the certificate names it", (row[0], row[1], row[6]), ("3", "skipped", "-"))
    link = it.one("#certificate-tables .entries td:nth-child(7) a").get_attribute("hash")
    same("a hold of the code -: and leads to it", link, "#holds?code=-")


def tell(office: Office, proxy: Proxy, browser: Browser, folder: pathlib.Path) -> None:
    fill(office)
    story = Story(office, proxy, browser, folder)
    words(browser, f"{proxy.page}#due?day={DAY}", "a list with a ref of 200 letters")
    dates = {"2019-01-02": 10, "destroy": 10, "Schedule": 1, "Confirmed": 1, "Record": 1, "EVT-PER": 10}
    on_paper(browser, f"{proxy.page}#due?day={DAY}", folder / "odd-due.pdf", "a list with a ref of 200 letters", dates)
    acts = [{"act": "confirm", "day": DAY, "record": record, "action": "destroy", "by": BY} for record in range(1, 11)]
    assert office.ask("POST", "/acts", json.dumps([*acts, {"act": "open-run", "day": DAY, "by": BY}]))[0] == 200
    # before the run, for the list has the records no more after it
    browser.open(f"{proxy.page}#due?day={DAY}")
    refs = [row[2] for row in story.due_table()]
    judge("the list shows a ref with its marks", SHOWN[REF] in refs and REF not in refs, str(refs))
    same("and no character that nobody sees", unseen(browser), [])
    assert office.ask("POST", "/run/resume")[0] == 200
    shown(story)
    words(browser, f"{proxy.page}#certificate?number=1", "a certificate with a ref of 200 letters")
    dates = {"2019-01-02": 10, "destroyed": 9, "skipped": 1, "Outcome": 1, "Schedule": 1, "Record": 1, "Bytes": 1}
    on_paper(
        browser,
        f"{proxy.page}#certificate?number=1",
        folder / "odd-certificate.pdf",
        "a certificate with a ref of 200 letters",
        dates,
    )
    dash(story)
