"""What is saved of a sheet: the rows that were not taken, with reasons that name the cells of the saved file.

And words that have a form for one and a form for many, in both languages.
"""
from __future__ import annotations

import json
import pathlib

from browser import Browser, browser
from importing import View, fill
from kit.judging import same
from place import TOP, Office, Proxy
from story import TEXTS, Story

LANGUAGES = {name: json.loads((TOP / f"page/texts/{name}.json").read_text()) for name in ("en", "de")}
WORDS = TEXTS["import"]
# an older column of reasons goes; rows 3 to 6 are wrong
OLDER = """Reason;ref;title;originated;aggregation
old;T/1;One;2021-06-05;1
old;T/2;;2021-06-05;1
old;T/2;Two;2021-06-05;1
old;T/1;Three;2021-06-05;1
old;T/5;Five;2021-06-05;0
"""


def said(where: str, name: str, text: str, kind: str, **values: object) -> str:
    """What the page says of a wrong cell."""
    quoted = f" {WORDS['quoted'].format(text=text)}" if text else ""
    return f"{where} ({WORDS['columns'][name]}):{quoted} {WORDS['wrong'][kind].format(**values)}"


def renamed(view: View) -> None:
    """Each reason names its cell as the saved file has it: chosen again, the page says the same of it."""
    view.open()
    view.choose("older.csv", OLDER.encode())
    lines = view.saved("older-not-taken.csv")
    same("the saved file has one column of reasons, the last one", lines[0],
         ["ref", "title", "originated", "aggregation", WORDS["reason"]])
    wanted = [
        said("B2", "title", "", "empty"),
        said("A3", "ref", "T/2", "twice", row=2),
        said("A4", "ref", "T/1", "twiceInSheet", row=2, sheet="older.csv"),
        said("D5", "aggregation", "0", "range", most="4,294,967,295"),
    ]
    same("each reason names the cell of that file", [line[-1] for line in lines[1:]], wanted)
    (view.story.folder / "older-not-taken.csv").rename(view.story.folder / "again.csv")
    view.choose("again.csv", (view.story.folder / "again.csv").read_bytes())
    there = [row[-1] for row in view.filtered("wrong")]
    same("chosen again, the page says so of each row that is wrong by itself", there, [wanted[0], wanted[1], wanted[3]])


def sheet(wrong: int, ref: str) -> bytes:
    """A sheet of one good row, and so many wrong ones."""
    rows = [f"{ref}/{number};Letter;{'soon' if number else '2021-06-05'};1;QQ==" for number in range(wrong + 1)]
    return "\n".join(["ref;title;originated;aggregation;content", *rows, ""]).encode()


def counted(view: View, language: str) -> None:
    """One row, and two: each has the words of its number."""
    texts = LANGUAGES[language]
    for wrong, form in ((1, "one"), (2, "many")):
        name = f"{language}: {wrong} wrong"
        view.open()
        view.choose(f"{language}-{wrong}.csv", sheet(wrong, f"{language}{wrong}"))
        save = texts["import"]["save"][form].format(count=wrong)
        same(f"{name}: the button that saves them", view.browser.seen("#import-save"), save)
        same(f"{name}: a content of one byte", view.rows()[0][7], texts["page"]["bytes"]["one"].format(count=1))
        view.press()
        same(f"{name}: the good one is filed, as one", view.browser.seen("#import-send-outcome .verdict"),
             texts["filing"]["whole"]["one"])
        lines = view.browser.seen("#import-send-outcome").split("\n")
        left = texts["import"]["leftOut"][form].format(count=wrong)
        same(f"{name}: what is left out is said", [line for line in lines if line == left], [left])


def tell(office: Office, proxy: Proxy, it: Browser, folder: pathlib.Path) -> None:
    fill(office)
    view = View(Story(office, proxy, it, folder))
    renamed(view)
    counted(view, "en")
    with browser(folder, "de-DE") as german:
        german.know(proxy.page)
        counted(View(Story(office, proxy, german, folder)), "de")
