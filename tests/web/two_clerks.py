"""Two clerks at one office, each with a browser: what one does is seen by the other, and what both do at once is done once."""
from __future__ import annotations

import pathlib
from collections.abc import Callable
from concurrent.futures import ThreadPoolExecutor
from typing import Any

import catalogue
import town
from browser import Browser, browser
from kit.judging import judge, same
from late import after
from place import Office, Proxy
from story import TEXTS, Story, says

ONE, OTHER = "A. Vane", "B. Halloran"
WORDS = TEXTS["changes"]
HOLD = "LAW-2026-02"


class Clerks:
    """Both browsers at one office."""

    def __init__(self, story: Story, other: Browser) -> None:
        self.story, self.one, self.other = story, story.browser, other
        self.both = ((self.one, ONE), (self.other, OTHER))

    def open(self, view: str) -> None:
        for it, _ in self.both:
            it.open(f"{self.story.proxy.page}#{view}")

    def at_once(self, work: Callable[[Browser, str], None]) -> None:
        """Both do it at the same time."""
        with ThreadPoolExecutor(2) as pool:
            for done in [pool.submit(work, it, name) for it, name in self.both]:
                done.result()

    def told(self, path: str) -> Any:
        return self.story.told(path)


def mark(it: Browser, *records: int) -> None:
    for record in records:
        box = it.one(f"#due-table input[aria-label='Mark record {record}']")
        it.driver.execute_script("arguments[0].scrollIntoView({block: 'center'})", box)
        box.click()


def confirm(it: Browser, name: str) -> None:
    it.write(due_confirm_by=name)
    it.press("#due-submit")


def seen_before(clerks: Clerks) -> None:
    """Both look at the same list; one confirms, and the other's press does not take the place of that."""
    clerks.open("due")
    for it, _ in clerks.both:
        mark(it, 5, 6)
    confirm(clerks.one, ONE)
    says("two: one has confirmed", clerks.one.seen("#due-answer"), "Confirmed: 2 of 2.")
    before = clerks.story.posted()
    confirm(clerks.other, OTHER)
    same("two: the other's press sends nothing", clerks.story.posted(), before)
    says("two: and says why", clerks.other.seen("#due-panel-outcome"), WORDS["unsent"], WORDS["told"]["many"].format(count=2))
    same("two: with what has changed", [row[2:] for row in clerks.other.table("#due-panel-outcome .changes")],
         [[TEXTS["due"]["columns"]["confirmed"], "no", "yes"]] * 2)
    same("two: the first one's name stays", [clerks.told(f"/records/{it}")["confirmed"]["by"] for it in (5, 6)], [ONE, ONE])
    clerks.other.press("#due-panel-outcome button")
    confirm(clerks.other, OTHER)
    same("two: who means it may confirm it anew", clerks.told("/records/5")["confirmed"]["by"], OTHER)


def own_rows(clerks: Clerks) -> None:
    """Each confirms other records, at the same time: all are confirmed, each by its clerk."""
    clerks.open("due")
    rows = {ONE: (7, 8, 9), OTHER: (10, 11, 12)}
    for it, name in clerks.both:
        mark(it, *rows[name])
    clerks.at_once(confirm)
    there = [clerks.told(f"/records/{it}")["confirmed"]["by"] for it in range(7, 13)]
    same("two: at once: each record is confirmed by its clerk", there, [ONE] * 3 + [OTHER] * 3)
    for it, name in clerks.both:
        says(f"two: at once: {name} is told so", it.seen("#due-answer"), "Confirmed: 3 of 3.")


def one_hold(clerks: Clerks) -> None:
    """Both place a hold of the same code at the same time, on other records: there is one, and all are under it."""
    clerks.open("catalogue")
    for (it, _), text in zip(clerks.both, ("LET/7", "LET/8"), strict=True):
        it.write(catalogue_text=text)
        it.settled()
        it.press("#catalogue-mark")
        it.press("#catalogue-record-hold-choose")

    def place(it: Browser, name: str) -> None:
        it.write(catalogue_record_hold_code=HOLD, catalogue_record_hold_reason=f"Reason of {name}", catalogue_record_hold_by=name)
        it.press("#catalogue-record-hold-submit")

    clerks.at_once(place)
    same("two: one hold: both records are under it", [clerks.told(f"/records/{it}")["held"] for it in (7, 8)], [HOLD, HOLD])
    answers = [it.seen("#catalogue-answer") for it, _ in clerks.both]
    own = TEXTS["marked"]["hold"]["own"]
    placed = [own["done"].format(hold=HOLD) in words for words in answers]
    there = [own["already"].format(hold=HOLD) in words for words in answers]
    same("two: one hold: one placed it, and the other is told that it was there", (sorted(placed), there),
         ([False, True], [not it for it in placed]))


def one_file(clerks: Clerks, folder: pathlib.Path) -> None:
    """Both file the same documents at the same time: each is one record."""
    files = [folder / f"letter-{at}.txt" for at in range(3)]
    for file in files:
        file.write_text(file.name)
    clerks.open("file")
    for it, _ in clerks.both:
        it.one("#file-choose").send_keys("\n".join(map(str, files)))
        it.settled()
        it.write(file_all_aggregation="1", file_all_originated="2020-01-02")
    clerks.at_once(lambda it, _: it.press("#file-submit"))
    numbers = [[row[-1] for row in it.driver.execute_script(
        "return Array.from(document.querySelectorAll('#file-table tbody tr'), (row) => [row.querySelector('td:last-child a')?.textContent])")]
        for it, _ in clerks.both]
    same("two: one file: both are told the same numbers", numbers[0], numbers[1])
    facts = [it.facts("#file-send-outcome") for it, _ in clerks.both]
    words = TEXTS["filing"]["counts"]
    counts = [sum(int(it.get(words[name], "0")) for it in facts) for name in ("added", "same")]
    # where all are new to one, that one has no counts but a sentence
    judge("two: one file: nothing is filed twice", counts[1] in (0, 3) or counts == [3, 3], str(facts))
    status, _, _ = clerks.story.office.ask("GET", f"/records/{max(map(int, numbers[0])) + 1}")
    same("two: one file: there is no fourth record", status, 404)


def one_run(clerks: Clerks) -> None:
    """Both open a run and carry it out at the same time: there is one run, whose certificate has one of them."""
    clerks.open("run")

    def work(it: Browser, name: str) -> None:
        it.write(run_open_by=name)
        it.press("#run-open button:not([type])")
        it.press("#run-sure")
        it.press("#run-resume button")

    clerks.at_once(work)
    opened = [TEXTS["run"]["opened"].split("{")[0] in it.seen("#run-open-outcome") for it, _ in clerks.both]
    status = clerks.story.office.ask("GET", "/certificates/2")[0]
    if status == 404:
        # what one did while the other looked keeps both from it, until the button is pressed again
        clerks.one.press("#run-sure")
        clerks.one.press("#run-resume button")
    text = clerks.story.office.ask("GET", "/certificates/2")[2].decode()
    judge("two: one run: it is carried out, and was opened by one of both", f"BY {ONE}" in text or f"BY {OTHER}" in text, text)
    ended = [TEXTS["run"]["resumed"].split("{")[0] in it.seen("#run-resume-outcome") for it, _ in clerks.both]
    # once a run is carried out, its view no longer says that it is open
    judge("two: one run: one of both is told that it is open, or that it is carried out", any(opened) or any(ended),
          f"{opened} {ended}")
    for it, name in clerks.both:
        seen = it.seen("#run-resume-outcome")
        words = (TEXTS["run"]["resumed"].split("{")[0], TEXTS["forecast"]["changed"], "NoRun")
        judge(f"two: one run: {name} is told what came of it", any(word in seen for word in words), seen)


def one_closing(clerks: Clerks) -> None:
    """Both close the same file at the same time: it is closed, and the second one is told that it was so already."""
    catalogue_of(clerks)
    clerks.open("catalogue?part=aggregations")
    for it, _ in clerks.both:
        it.write(catalogue_text="CASE/1")
        it.settled()
        it.press("#catalogue-mark")
        it.press("#catalogue-aggregation-close-choose")

    def close(it: Browser, _: str) -> None:
        it.press("#catalogue-aggregation-close-sure")
        it.press("#catalogue-aggregation-close-submit")

    clerks.at_once(close)
    close_words = TEXTS["marked"]["close"]
    answers = [it.seen("#catalogue-answer") for it, _ in clerks.both]
    done = [close_words["done"].format(day=after(0)) in words for words in answers]
    same("two: one closing: one has closed it", sorted(done), [False, True])
    judge("two: one closing: the other is told that it was so already",
          close_words["already"] in answers[done.index(False)], answers[done.index(False)])
    judge("two: one closing: its records have a due day", clerks.told("/records/18")["due"] is not None)


def catalogue_of(clerks: Clerks) -> None:
    catalogue.renew(clerks.story.proxy, clerks.story.office)


def tell(office: Office, proxy: Proxy, browser_: Browser, folder: pathlib.Path) -> None:
    town.fill(office)
    town.renew(proxy, office)
    second = folder / "second"
    second.mkdir()
    with browser(second) as other:
        other.know(proxy.page)
        clerks = Clerks(Story(office, proxy, browser_, folder), other)
        seen_before(clerks)
        own_rows(clerks)
        one_hold(clerks)
        one_file(clerks, folder)
        one_run(clerks)
        one_closing(clerks)
