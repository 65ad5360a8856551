"""Folders in the view File: one that is dropped and one that is chosen, with mails, whose days are in their headers."""
from __future__ import annotations

import json
import pathlib

import looks
from browser import Browser
from filing import View, fill
from kit.judging import judge, same
from late import after
from place import Office, Proxy
from shots import SIZES, shot
from story import TEXTS, Story, says

PART = TEXTS["sheetActs"]["folders"]
MAIL = "From: a@example.org\nSubject: =?utf-8?q?Zaun_f=C3=BCr_den_Garten?=\nDate: Mon, 31 Dec 2018 23:30:00 -0800\n\nA letter.\n"


def make(folder: pathlib.Path) -> pathlib.Path:
    place = folder / "post"
    (place / "2018/Garten").mkdir(parents=True)
    (place / "empty").mkdir()
    (place / "2018/Garten/zaun.eml").write_text(MAIL)
    (place / "2018/Garten/odd.eml").write_text("no header")
    (place / "2018/letter.txt").write_text("A letter.")
    (place / "list.txt").write_text("A list.")
    return place


WANTED = {"post/2018/Garten/odd.eml": "odd", "post/2018/Garten/zaun.eml": "Zaun für den Garten", "post/2018/letter.txt": "letter",
          "post/list.txt": "list"}


def listed(view: View, how: str) -> None:
    """Each file is listed by its place; the mail has the day and the subject of its header."""
    rows = view.rows()
    same(f"a folder that is {how}: its files by their places, with their titles", {row[1]: row[2] for row in rows}, WANTED)
    days = {row[1]: row[3] for row in rows}
    same("the mail has the day of its header", days.pop("post/2018/Garten/zaun.eml"), "2018-12-31")
    same("the others that of their last change", set(days.values()), {after(0)})
    heads = view.browser.driver.execute_script(
        "return Array.from(document.querySelectorAll('#file-table tbody th'), (it) => it.textContent)")
    same("which its row alone says", [it.split(".")[0] for it in heads if PART["mail"] in it], ["zaun"])


def filed(view: View, office: Office) -> None:
    """They are filed; the same folder again is there already."""
    view.browser.write(file_all_aggregation="1")
    view.file()
    same("all are filed", view.counts(), {"added": "4"})
    told = json.loads(office.ask("GET", "/records/2")[2])
    same("by their places", (told["ref"] in WANTED, told["title"]), (True, WANTED[told["ref"]]))
    mails = [json.loads(office.ask("GET", f"/records/{n}")[2]) for n in range(1, 5)]
    same("one with the day of its mail", [it["originated"] for it in mails if it["ref"].endswith("zaun.eml")], ["2018-12-31"])


def tell(office: Office, proxy: Proxy, browser: Browser, folder: pathlib.Path) -> None:
    fill(office)
    place = make(folder)
    view = View(Story(office, proxy, browser, folder))
    view.open()
    view.drop([place])
    browser.wait(lambda: len(view.rows()) == len(WANTED), "the folder is not listed")
    listed(view, "dropped")
    filed(view, office)
    view.open()
    browser.one("#file-folder").send_keys(str(place))
    browser.wait(lambda: len(view.rows()) == len(WANTED), "the folder is not listed")
    listed(view, "chosen")
    browser.write(file_all_aggregation="1")
    view.file()
    same("a second time all are there already", view.counts(), {"added": "0", "same": "4"})
    view.open()
    view.drop([place / "empty"])
    browser.wait(lambda: browser.seen("#file-taken"), "nothing is said")
    says("an empty folder says so", browser.seen("#file-taken"), PART["none"])
    judge("and lists nothing", not browser.one("#file-list").is_displayed())
    for size, (width, height) in SIZES.items():
        browser.width(width, height)
        view.open()
        view.drop([place])
        browser.wait(lambda: len(view.rows()) == len(WANTED), "the folder is not listed")
        looks.judge_view(browser, f"file, a folder, {width} pixels", width)
        shot(browser, "file-folder", size, "light")
