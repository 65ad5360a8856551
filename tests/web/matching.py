"""Which column of a sheet is which, in the view Import: what is found is shown, also where somebody has to say more."""
from __future__ import annotations

import json
import pathlib

from browser import Browser, browser
from importing import EMPTY, MATCHED, WORDS, View, columns_of, fill, in_column, unmatched
from kit.judging import same
from place import TOP, Office, Proxy
from story import Story, says

GERMAN = json.loads((TOP / "page/texts/de.json").read_text())["import"]


def either(view: View) -> None:
    """Two columns may be the title: the lists show the others."""
    it = view.browser
    view.open()
    view.choose("either.csv", b"ref;title;name;date;akte;note\nE/1;One;Two;2021-06-05;1;x\n")
    title = WORDS["columns"]["title"]
    says("two columns may be the title: which, is said", it.seen("#import-outcome"),
         WORDS["unreadable"]["both"].format(one="B", other="C", name=title))
    named = {"ref": "A: ref", "title": WORDS["either"], "originated": "D: date", "aggregation": "E: akte"}
    same("the lists show the others", columns_of(view), {**EMPTY, **named})
    says("and so does the sentence", it.seen("#import-matched"), in_column("aggregation", "E"),
         WORDS["unclear"].format(names=in_column("title", "B, C")), unmatched("class", "schedule", "content"))
    same("what is not used is said", it.seen("#import-unused"), WORDS["unused"].format(names="note"))
    it.choose("#import-column-title", "2")
    same("the one that is chosen is taken", [row[1:5] for row in view.rows()], [["E/1", "Two", "2021-06-05", "1"]])
    same("its list shows it", columns_of(view), {**EMPTY, **named, "title": "C: name"})
    same("and the other one is not used", it.seen("#import-unused"), WORDS["unused"].format(names="title, note"))


def one_missing(view: View) -> None:
    """One needed column has another name: the others are matched, before and after somebody says more."""
    it = view.browser
    view.open()
    view.choose("missing.csv", b"ref,subject,made,class\nM/1,One,2021-06-05,LETTERS\n")
    named = {**EMPTY, "ref": "A: ref", "title": "B: subject", "class": "D: class"}
    same("two columns are missing: the lists show the others", columns_of(view), named)
    there = ", ".join(in_column(name, at) for name, at in (("ref", "A"), ("title", "B"), ("class", "D")))
    missing = f"{WORDS['columns']['originated']}, {WORDS['columns']['aggregation']}"
    words = WORDS["unreadable"]["missing"].format(row=1, found=there, missing=missing)
    says("what is found is said, and what is not", it.seen("#import-outcome"), words)
    says("above the lists too", it.seen("#import-matched"), WORDS["matched"].format(names=there),
         unmatched("originated", "aggregation", "schedule", "content"))
    it.choose("#import-column-originated", "2")
    named["originated"] = "C: made"
    same("one of them is chosen: the lists show it and the others", columns_of(view), named)
    it.choose("#import-column-aggregation", "same")
    it.write(import_same_aggregation="1")
    it.driver.execute_script("document.activeElement.blur()")
    says("what is the same in each row is said", it.seen("#import-matched"),
         WORDS["sameFor"].format(names=WORDS["columns"]["aggregation"]), unmatched("schedule", "content"))
    same("then the row is right", [row[1:6] for row in view.rows()], [["M/1", "One", "2021-06-05", "1", "LETTERS"]])


def unknown(view: View) -> None:
    """No name is known, or the days cannot be told: what is known all the same is shown."""
    it = view.browser
    view.open()
    view.choose("unknown.csv", b"one;two\n1;2\n")
    needed = ", ".join(WORDS["columns"][name] for name in list(MATCHED)[:4])
    says("where no name is known that is said", it.seen("#import-outcome"),
         WORDS["unreadable"]["missingAll"].format(row=1, missing=needed))
    same("and no column is matched", columns_of(view), EMPTY)
    view.choose("mixed.csv", b"ref,title,date,akte\nX/1,One,31/12/2020,1\nX/2,Two,12/31/2020,1\n")
    named = {"ref": "A: ref", "title": "B: title", "originated": "C: date", "aggregation": "D: akte"}
    same("of a sheet with days of two orders the columns are shown", columns_of(view), {**EMPTY, **named})


def in_german(view: View) -> None:
    """The page in German knows its own labels as names of columns, and those of the English page."""
    labels = [GERMAN["columns"][name] for name in MATCHED]
    cells = ["G/1", "Brief", "2021-06-05", "1", "LETTERS", "LET-3", "YWJj"]
    english = [WORDS["columns"][name] for name in MATCHED]
    for name, header in (("deutsch.csv", labels), ("english.csv", english)):
        view.open()
        view.choose(name, "".join(";".join(row) + "\r\n" for row in (header, cells)).encode("windows-1252"))
        shown = {key: f"{'ABCDEFG'[at]}: {header[at]}" for at, key in enumerate(MATCHED)}
        same(f"German: {name}: each label of the page is the name of a column", columns_of(view), shown)
        same(f"German: {name}: so the row is right", [row[1:7] for row in view.rows()], [cells[:6]])
    view.choose("ohne.csv", "Aktenzeichen;Kurztext;Entstanden;Akte\r\nG/2;Brief;2021-06-05;1\r\n".encode())
    there = [GERMAN["inColumn"].format(name=GERMAN["columns"][name], column=at)
             for name, at in (("ref", "A"), ("originated", "C"), ("aggregation", "D"))]
    words = GERMAN["unreadable"]["missing"].format(row=1, found=", ".join(there), missing=GERMAN["columns"]["title"])
    says("German: what is found is said, and what is not", view.browser.seen("#import-outcome"), words)


def tell(office: Office, proxy: Proxy, it: Browser, folder: pathlib.Path) -> None:
    fill(office)
    view = View(Story(office, proxy, it, folder))
    one_missing(view)
    either(view)
    unknown(view)
    with browser(folder, "de-DE") as german:
        german.know(proxy.page)
        in_german(View(Story(office, proxy, german, folder)))
