"""A sheet through the page: 1,000 rows of a semicolon file in Windows-1252, ten of them wrong, which are corrected."""
from __future__ import annotations

import collections
import csv
import io
import json
import pathlib
import sys

import layout
import looks
from browser import Browser
from filing import SHOWN
from kit.judging import judge, same
from late import after
from place import TOP, Office, Proxy
from shots import SIZES, shot
from story import TEXTS, Story, says

WORDS, FILING = TEXTS["import"], TEXTS["filing"]
CASES = TOP / "tests/import/cases"
ROWS = 1_000
HEADER = ["Aktenzeichen", "Kurztext", "Datum", "Akten-Nr.", "Aktenplan", "Bemerkung"]
# the rows that are wrong, by their number in the sheet: which cell, what is in it, and the kind of that
WRONG = {
    12: (0, "", "empty"),
    101: (0, "BAU/00099", "twice"),
    202: (1, "Zwei\nZeilen", "lines"),
    303: (2, "31.02.2020", "calendar"),
    404: (2, "44196", "serial"),
    505: (3, "1,0", "number"),
    606: (3, "0", "range"),
    707: (4, "LETTERS_A", "code"),
}
# and those that the office refuses: an aggregation that is not there, a class that is not there
REFUSED = {808: (3, "77"), 909: (4, "NONE")}
# the cases in the browser, by the page's own modules
BY_PAGE = """
const [cases, done] = arguments;
Promise.all(["sheet/turning.js", "sheet/lookups.js", "cases/turned.js"].map((it) => import(`/web/${it}`)))
  .then(([{ turned }, { catalogueOf }, { outcomeOf }]) => done(cases.map((it) => outcomeOf(turned, catalogueOf, it))))
  .catch((why) => done(String(why)));
"""

# each request that acts waits until it is let go
HELD = """
const there = window.fetch;
const free = new Promise((then) => { window.letGo = then; });
window.fetch = async (...words) => {
  if (words[1]?.method === "POST") await free;
  return there(...words);
};
"""


def fill(office: Office) -> None:
    """An office with a schedule, a class and an open aggregation."""
    assert office.ask("POST", "/acts", (TOP / "examples/import/office.json").read_bytes())[0] == 200


def good(row: int) -> list[str]:
    """A row of the sheet, as it is right; the header is row 1."""
    day = f"{row % 28 + 1:02}.{row % 12 + 1:02}.{2015 + row % 6}"
    return [f"BAU/{row:05}", f"Bögen für Straße {row}; „Süd“ – 5 €", day, "1", "LETTERS" if row % 3 else "", "groß"]


def sheet() -> bytes:
    """The sheet, as Excel in German writes it: semicolons, Windows-1252, CR LF."""
    text = io.StringIO()
    writer = csv.writer(text, delimiter=";", lineterminator="\r\n")
    writer.writerow(HEADER)
    for number in range(2, ROWS + 2):
        cells = good(number)
        for place, cell in [it[:2] for it in (WRONG.get(number), REFUSED.get(number)) if it]:
            cells[place] = cell
        writer.writerow(cells)
    return text.getvalue().encode("windows-1252")


class View:
    """The view Import, as somebody sees it."""

    def __init__(self, story: Story) -> None:
        self.story, self.browser = story, story.browser

    def open(self) -> None:
        self.browser.open(f"{self.story.proxy.page}#import")

    def choose(self, name: str, data: bytes) -> None:
        """Chooses a file of that name."""
        file = self.story.folder / name
        file.write_bytes(data)
        self.browser.one("#import-choose").send_keys(str(file))
        heading = "return document.getElementById('import-heading').textContent"
        self.browser.wait(lambda: self.browser.driver.execute_script(heading) == name, "the sheet is not shown")

    def totals(self) -> dict[str, int]:
        names = {word: name for name, word in WORDS["totals"].items()}
        facts = self.browser.driver.execute_script(
            "return Array.from(document.querySelectorAll('#import-totals > div'),"
            " (it) => [it.children[0].textContent, it.children[1].textContent])")
        # what is 0 is not shown
        return collections.defaultdict(int, {names[word]: int(number.replace(",", "")) for word, number in facts})

    def rows(self) -> list[list[str]]:
        return self.browser.table("#import-table")

    def filtered(self, name: str) -> list[list[str]]:
        self.browser.choose("#import-filter", name)
        return self.rows()

    def found(self, field: str) -> str:
        """What the field says that was found."""
        script = "const it = document.getElementById(arguments[0]); return it.options[it.selectedIndex].text"
        return self.browser.driver.execute_script(script, f"import-{field}")

    def press(self) -> int:
        """Presses the button; how many requests were sent."""
        before = self.story.posted()
        self.browser.press("#import-submit")
        return self.story.posted() - before

    def counts(self) -> dict[str, str]:
        names = {word: name for name, word in FILING["counts"].items()}
        facts = self.browser.facts("#import-send-outcome")
        return {names[word]: count.replace(",", "") for word, count in facts.items() if word in names}

    def saved(self, name: str) -> list[list[str]]:
        """Saves the rows that were not taken: the rows of that file, with its header."""
        file = self.story.folder / name
        self.browser.press("#import-save")
        self.browser.wait(lambda: file.exists() and file.stat().st_size > 0, f"{name} was not saved")
        data = file.read_bytes()
        judge(f"{name} has the mark by which Excel knows UTF-8", data.startswith(b"\xef\xbb\xbf"))
        return list(csv.reader(io.StringIO(data.decode("utf-8-sig"), newline=""), delimiter=";"))


def cases(view: View) -> None:
    """The converter of the page gives, in Chromium, what the one of the command line gives."""
    sys.path.insert(0, str(CASES))
    from turned import bytes_of, expanded  # noqa: PLC0415
    import base64  # noqa: PLC0415
    place = view.story.proxy.web / "cases"
    place.mkdir()
    (place / "turned.js").write_text((CASES / "turned.js").read_text())
    table = [*json.loads((CASES / "table.json").read_text()), *json.loads((CASES / "acts.json").read_text())]
    view.open()
    given = [{"base64": base64.b64encode(bytes_of(it)).decode(), "options": it.get("options", {})} for it in table]
    there = view.browser.driver.execute_async_script(BY_PAGE, given)
    wrong = [case["name"] for case, outcome in zip(table, there, strict=True)
             if outcome != json.loads(expanded(json.dumps(case["outcome"])))]
    same(f"{len(table)} cases of tests/import/cases, in Chromium", wrong, [])


# the columns of that sheet, as the lists show them once the title is chosen
MATCHED = {"ref": "A: Aktenzeichen", "title": "B: Kurztext", "originated": "C: Datum", "aggregation": "D: Akten-Nr.",
           "class": "E: Aktenplan", "schedule": WORDS["none"], "content": WORDS["none"]}
EMPTY = dict.fromkeys(MATCHED, WORDS["none"])


def columns_of(view: View) -> dict[str, str]:
    """What each list of the columns shows."""
    return {name: view.found(f"column-{name}") for name in MATCHED}


def in_column(name: str, column: str) -> str:
    return WORDS["inColumn"].format(name=WORDS["columns"][name], column=column)


def unmatched(*names: str) -> str:
    """The sentence of the columns that are not matched; the first four are needed."""
    of = [WORDS["neededOf"].format(name=WORDS["columns"][name]) if name in list(MATCHED)[:4] else WORDS["columns"][name]
          for name in names]
    return WORDS["unmatched"].format(names=", ".join(of))


def matched(view: View) -> None:
    """What was found of the sheet; one column is matched by hand."""
    it = view.browser
    view.open()
    view.choose("bau.csv", sheet())
    outcome = it.seen("#import-outcome")
    there = f"{in_column('ref', 'A')}, {in_column('originated', 'C')}, {in_column('aggregation', 'D')}"
    values = {"row": 1, "found": f"{there}, {in_column('class', 'E')}", "missing": WORDS["columns"]["title"]}
    says("no column is known for the title: what is found is said, and what is not", outcome,
         WORDS["unreadable"]["missing"].format(**values))
    judge("and nothing can be sent yet", not it.one("#import-rows").is_displayed())
    same("the lists show the columns that were found", columns_of(view), {**MATCHED, "title": WORDS["none"]})
    says("and a sentence above them says which, and which not", it.seen("#import-matched"),
         WORDS["matched"].format(names=values["found"]), unmatched("title", "schedule", "content"))
    it.choose("#import-column-title", "1")
    same("once it is chosen, all rows are shown", it.one("#import-rows").is_displayed(), True)
    found = [view.found(field) for field in ("encoding", "separator", "days")]
    wanted = [WORDS["encodings"]["windows-1252"], WORDS["separators"]["semicolon"], WORDS["orders"]["dmy"]]
    same("encoding, separator and order of days are found", found, [WORDS["foundIs"].format(value=it) for it in wanted])
    same("columns are matched by likely names", columns_of(view), MATCHED)
    says("and the sentence says so", it.seen("#import-matched"), in_column("title", "B"),
         unmatched("schedule", "content"))
    says("and what is not used is said", it.seen("#import-unused"), "Bemerkung")
    totals = view.totals()
    same("the totals", (totals["count"], totals["ready"], totals["wrong"]), (ROWS, ROWS - len(WRONG), len(WRONG)))


def previewed(view: View) -> None:
    """Each row is what it will be."""
    rows = view.rows()
    same("200 rows are shown at first", len(rows), 200)
    for _ in range(4):
        view.browser.press("#import-more")
    rows = view.rows()
    same("and all of them on demand", len(rows), ROWS)
    differ = []
    for row in rows:
        number = int(row[0])
        ref, title, day, _, code, _ = good(number)
        iso = "-".join(reversed(day.split(".")))
        if number not in WRONG and number not in REFUSED and row[1:7] != [ref, title, iso, "1", code, ""]:
            differ.append(row)
    same("each is what the sheet has", differ, [])
    wrong = view.filtered("wrong")
    same("the wrong ones are those", [int(row[0]) for row in wrong], list(WRONG))
    for row, (place, _, kind) in zip(wrong, WRONG.values(), strict=True):
        says(f"row {row[0]} says which cell, and why", row[-1], f"{'ABCDE'[place]}{row[0]}",
             WORDS["wrong"][kind].split("{")[0])
    view.filtered("all")


def imported(view: View) -> None:
    """990 are imported in requests of 100; the others are saved, corrected, and imported."""
    it = view.browser
    requests = view.totals()["requests"]
    same("so many requests were sent as it said", view.press(), requests)
    added = ROWS - len(WRONG) - len(REFUSED)
    counts = {"added": str(added), "refused": str(len(REFUSED))}
    same("so many are imported, and two are refused", view.counts(), counts)
    left_out = WORDS["leftOut"]["many"].format(count=len(WRONG))
    says("what was left out is said", it.seen("#import-send-outcome"), left_out)
    refused = {int(row[0]): row[-1] for row in view.filtered("wrong")}
    same("ten rows were not taken", list(refused), sorted([*WRONG, *REFUSED]))
    row = TEXTS["refusals"]["5"]
    for number in REFUSED:
        says(f"row {number} has the refusal in words", refused[number], "Refusal 5, NoSuch", row["meaning"])
    numbers = sorted(int("".join(part for part in answer[-1] if part.isdigit())) for answer in all_rows(view)
                     if answer[-1].startswith(FILING["added"].split("{")[0]))
    first = numbers[0]
    judge("each of the others has a number of its own", numbers == list(range(first, first + added)), str(numbers))
    told = view.story.told("/records/500")
    line = next(row for row in view.rows() if row[-1] == FILING["added"].format(record=500))
    same("record 500 is its row", [told["ref"], told["title"], told["originated"]], line[1:4])
    corrected(view, view.saved("bau-not-taken.csv"))


def all_rows(view: View) -> list[list[str]]:
    view.filtered("all")
    while view.browser.one("#import-more").is_displayed():
        view.browser.press("#import-more")
    return view.rows()


def corrected(view: View, lines: list[list[str]]) -> None:
    same("the file has the sheet's own header, and the reason", lines[0], [*HEADER, WORDS["reason"]])
    same("and ten rows", len(lines), 11)
    judge("each with its reason", all(line[-1] for line in lines[1:]), str(lines))
    saved = dict(zip(sorted([*WRONG, *REFUSED]), enumerate(lines[1:], 2), strict=True))
    named = [(line[-1].split(" ")[0], f"{'ABCDE'[WRONG[row][0]]}{number}")
             for row, (number, line) in saved.items() if row in WRONG]
    same("which names the cell where that file has it", [it for it, _ in named], [it for _, it in named])
    says("a ref twice is that of a row of the sheet", saved[101][1][-1],
         WORDS["wrong"]["twiceInSheet"].format(row=99, sheet="bau.csv"))
    fixed = [[*good(number), line[-1]] for number, line in zip(sorted([*WRONG, *REFUSED]), lines[1:], strict=True)]
    text = io.StringIO()
    csv.writer(text, delimiter=";", lineterminator="\r\n").writerows([lines[0], *fixed])
    view.choose("bau-corrected.csv", text.getvalue().encode("windows-1252"))
    same("what was matched by hand is remembered", view.found("column-title"), "B: Kurztext")
    totals = view.totals()
    same("all ten are right now", (totals["count"], totals["ready"], totals["wrong"]), (10, 10, 0))
    same("they are imported", (view.press(), view.counts()), (1, {"added": "10"}))
    judge("nothing is left to be saved", not view.browser.one("#import-save").is_displayed())


def again(view: View) -> None:
    """The same sheet again: each row that is there already says so, also one corrected in its class alone."""
    view.choose("bau.csv", sheet())
    view.press()
    same("the same again", view.counts(), {"added": "0", "same": str(ROWS - len(WRONG) - 1), "refused": "1"})
    row = TEXTS["refusals"]["4"]
    told = view.filtered("wrong")[8][-1]
    says("the other one is there with another aggregation", told, "Refusal 4, Exists", row["do"])


def halted(view: View) -> None:
    """Stopped by hand: the request that is under way is answered, and the next one is sent on demand."""
    it = view.browser
    view.open()
    lines = [f"H/{number},Letter,2021-06-05,1" for number in range(150)]
    view.choose("halted.csv", "\n".join(["ref,title,originated,aggregation", *lines]).encode())
    same("150 rows make two requests", view.totals()["requests"], 2)
    it.driver.execute_script(HELD)
    before = view.story.posted()
    it.one("#import-submit").click()
    it.wait(it.one("#import-stop").is_displayed, "it cannot be stopped")
    held = "return ['drop', 'columns'].every((it) => document.getElementById(`import-${it}`).closest('[inert]'))"
    judge("while it is at work nothing else can be done", it.driver.execute_script(held))
    it.one("#import-stop").click()
    it.driver.execute_script("window.letGo()")
    it.settled()
    same("it stops after the request that is under way", view.story.posted() - before, 1)
    same("what was not sent is said", view.counts(), {"added": "100", "left": "50"})
    says("and that it can be sent", it.seen("#import-send-outcome"), FILING["retry"])
    same("the rows without an answer can be shown", len(view.filtered("open")), 50)
    same("then they are sent", (view.press(), view.counts()), (1, {"added": "50"}))


def doubtful(view: View) -> None:
    """Where a day has two readings, somebody says which."""
    it = view.browser
    view.open()
    text = "ref,title,originated,aggregation\nD/1,One,05/06/2021,1\nD/2,Two,07/08/2021,1\n"
    view.choose("doubtful.csv", text.encode())
    says("two readings are asked about", it.seen("#import-outcome"), "C2", "05/06/2021")
    named = {"ref": "A: ref", "title": "B: title", "originated": "C: originated", "aggregation": "D: aggregation"}
    same("and the lists show the columns all the same", columns_of(view), {**EMPTY, **named})
    buttons = [button.text for button in it.all("#import-outcome button")]
    wanted = [WORDS["readAs"].format(day=day, order=WORDS["orders"][order])
              for day, order in (("2021-06-05", "dmy"), ("2021-05-06", "mdy"))]
    same("both are offered", buttons, wanted)
    it.all("#import-outcome button")[1].click()
    same("the one that is pressed is taken", [row[3] for row in view.rows()], ["2021-05-06", "2021-07-08"])
    it.choose("#import-days", "dmy")
    same("and can be changed", [row[3] for row in view.rows()], ["2021-06-05", "2021-08-07"])
    view.press()
    text = "ref,title,originated,aggregation\nD/3,Three,09/10/2021,1\n"
    view.choose("doubtful-too.csv", text.encode())
    order = WORDS["orders"]["dmy"]
    says("the next sheet of these columns is read alike, which is said", it.seen("#import-outcome"),
         WORDS["recalledDays"].format(order=order))
    same("so it is", [row[3] for row in view.rows()], ["2021-10-09"])


def others(view: View) -> None:
    """The same in each row, a header further down, a workbook, and a file that is none."""
    it = view.browser
    view.choose("short.csv", "Letters of 2023\n\nref;title;date\nS/1;One;2021-06-05\n".encode("utf-16"))
    same("a header further down is found", it.one("#import-header").get_attribute("value"), "3")
    says("the aggregation is missing, and where its number comes from is said", it.seen("#import-outcome"),
         WORDS["columns"]["aggregation"], TEXTS["file"]["whereAggregation"].split("{")[0])
    it.choose("#import-column-aggregation", "same")
    it.write(import_same_aggregation="1")
    it.driver.execute_script("document.activeElement.blur()")
    same("it may be the same in each row", [row[1:5] for row in view.rows()], [["S/1", "One", "2021-06-05", "1"]])
    same("and is sent so", (view.press(), view.counts()), (1, {"added": "1"}))
    view.choose("book.xlsx", b"PK\x03\x04")
    same("and none of its columns is matched", (columns_of(view), it.text("#import-matched")), (EMPTY, ""))
    says("a workbook is no sheet", it.seen("#import-outcome"), WORDS["unreadable"]["workbook"])
    view.choose("odd.csv", "ref,title,originated,aggregation\n\u202egpj.exe,<b>x</b>,2021-06-05,1\n".encode())
    shown = ["[U+202E]gpj.exe", "<b>x</b>"]
    same("a character that nobody sees is a mark, and a text is a text", view.rows()[0][1:3], shown)
    says("which is to be looked at", view.rows()[0][-1], WORDS["look"]["unseen"])


def readable(view: View) -> None:
    """The view with a sheet: contrast, sizes, names, widths; and its pictures."""
    it = view.browser
    lines = sheet().split(b"\r\n")
    part = b"\r\n".join([lines[0], *lines[400:412], lines[706], b""])
    for scheme in ("light", "dark"):
        it.light(scheme)
        for size, (width, height) in SIZES.items():
            it.width(width, height)
            view.open()
            # other refs each time, so that they are new
            view.choose("weg.csv", part.replace(b"BAU/", f"WEG-{width % 97}{height % 97}{scheme[0]}/".encode()))
            it.choose("#import-column-title", "1")
            looks.judge_view(it, f"import, {scheme}, {width} pixels", width)
            view.press()
            looks.judge_view(it, f"import, answered, {scheme}, {width} pixels", width)
            it.driver.execute_script(SHOWN, size == "1280x900")
            shot(it, "import", size, scheme)
    it.light("light")
    layout.words_there(it, "import")


def tell(office: Office, proxy: Proxy, browser: Browser, folder: pathlib.Path) -> None:
    fill(office)
    view = View(Story(office, proxy, browser, folder))
    cases(view)
    doubtful(view)
    others(view)
    halted(view)
    matched(view)
    previewed(view)
    same("the day begins as today", browser.one("#import-send-day").get_attribute("value"), after(0))
    imported(view)
    again(view)
    readable(view)
