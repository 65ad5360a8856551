"""The libraries of the package, as an office takes them, as a record, and as a spreadsheet saves them."""
from __future__ import annotations

import hashlib
import json
from pathlib import Path

from kit.commands import office
from kit.judging import judge, same
from library.model import RULE
from library.place import DAY, LIBRARIES, NAMES, applied, asked, library, rows_of

OFFSETS = ["", *"JAN FEB MAR APR MAY JUN JUL AUG SEP OCT NOV DEC".split()]
TRIGGERS = {"last-addition": "LAST"}
LAST_OF_YEAR = {"de": {"VOUCHERS": "2034-01-01", "BOOKS": "2036-01-01", "PAYROLL": "2032-01-01"},
                "at": {"BOOKS": "2033-01-01", "LAND-VAT": "2048-01-01"}, "ch": {"BOOKS": "2036-01-01"},
                "us": {"OSHA-LOGS": "2031-01-01"}, "eu": {"EU-FUNDS": "2031-01-01", "EU-VAT-OSS": "2036-01-01"},
                "uk": {"VAT": "2031-12-31", "DEEDS": "2037-12-31"}}
"""when a period that begins on 2025-12-31 is over: that is what the laws say of the years after the end of a year"""


def code_of(row: dict[str, str]) -> str:
    """Returns the code that a schedule of the package has: it says the rule."""
    offset = "" if row["offset"] == "none" else "-" + OFFSETS[int(row["offset"].removeprefix("from-month-"))]
    trigger = TRIGGERS.get(row["trigger"], row["trigger"].upper())
    return f"{trigger}-{row['count']}{row['unit'][0].upper()}{offset}-{row['action'][0].upper()}"


def judge_plan(folder: Path, name: str, rows: list[dict[str, str]]) -> None:
    """Judges that an office which takes a plan has its schedules and classes."""
    file = folder / f"{name}.db"
    answers = office("apply", file, folder / name / "plan.json")
    same(f"the office takes {name}", (answers.status, set(answers.out.split("\n"))), (0, {'{"done":true}', ""}))
    same(f"the classes of {name}", set(asked(file, "SELECT code, title, schedule FROM classes")),
         {(row["class"], f"{row['notation']} {row['title']}".strip(), row["schedule"]) for row in rows})
    same(f"the schedules of {name}",
         set(asked(file, "SELECT code, start_at, unit, span, roll, disposal FROM schedules2")),
         {(row["schedule"], row["trigger"], row["unit"], int(row["count"]), row["offset"], row["action"]) for row in rows})


def shipped(folder: Path) -> None:
    """Each library of the package is a plan that an office takes, whose codes say the rules."""
    listed = library("list")
    same("the list", (listed.status, [line.split()[0] for line in listed.out.splitlines()], listed.error), (0, NAMES, ""))
    for name in NAMES:
        rows = rows_of((LIBRARIES / f"{name}.csv").read_text())
        judge(f"nobody has checked {name}, and the list says so",
              f"{name:10} {len(rows):3} classes  " in listed.out and listed.out.count("checked by nobody yet") == len(NAMES))
        same(f"the codes of {name} say the rules", [row["schedule"] for row in rows], [code_of(row) for row in rows])
        done = library("plan", name, "--day", DAY, "-o", folder / name)
        judge(f"a plan of {name}, with a line that nobody has checked it",
              done.status == 0 and f"nobody has checked {name} yet" in done.error, done)
        judge_plan(folder, name, rows)
        for code, day in LAST_OF_YEAR[name].items():
            row = next(row for row in rows if row["class"] == code)
            trigger, *rule = (row[each] for each in RULE)
            same(f"{name}: {code} of 2025 is due", office("due", rule[0], rule[1], rule[2], "2025-12-31").out, f"{day}\n")
            judge(f"{name}: {code} begins with the end of a year", trigger in ("closed", "event"), trigger)
        shown = library("show", name)
        judge(f"{name} is shown whole", shown.status == 0 and all(row["section"] in shown.out and row["title"] in shown.out
                                                                    for row in rows), shown.error)


def filed(folder: Path) -> None:
    """The rows that were taken are filed as a record, and give the laws of the office again."""
    done = library("plan", "de", "eu", "--only", "BOOKS,VOUCHERS,EU-FUNDS", "--day", DAY, "--aggregation", 1, "-o", folder / "rules")
    same("a plan of two libraries", (done.status, done.out.split(":")[0]), (0, "3 schedules, 3 classes"))
    sheet = (folder / "rules/mandates.csv").read_bytes()
    acts = json.loads((folder / "rules/plan.json").read_text())
    before = [*acts[:-1], {"act": "add-aggregation", "day": DAY, "ref": "RULES", "title": "R", "parent": None, "class": "BOOKS"}]
    same("the office takes it", applied(folder / "city.db", [*before, acts[-1]]).out.split(),
         ['{"done":true}'] * 6 + ['{"number":1}'] * 2)
    same("the record has the digest of the sheet", asked(folder / "city.db", "SELECT digest FROM records"),
         [(hashlib.sha256(sheet).hexdigest(),)])
    kept, again = folder / "city.db.mandates.json", folder / "again.json"
    library("add", kept, "de", "eu", "--only", "BOOKS,VOUCHERS,EU-FUNDS")
    library("add", again, folder / "rules/mandates.csv")
    judge("the record gives the laws again", kept.read_bytes() == again.read_bytes() and len(kept.read_bytes()) > 1000)
    second = library("plan", folder / "rules/mandates.csv", "--day", DAY, "-o", folder / "second")
    same("a plan of the sheet", (second.status, json.loads((folder / "second/plan.json").read_text())), (0, acts[:-1]))


def saved(folder: Path) -> None:
    """A library that a spreadsheet saved gives the same plan."""
    text = (LIBRARIES / "de.csv").read_text()
    head, lines = text.split("class,", 1)[0], rows_of(text)
    columns = list(lines[0])
    library("plan", "de", "--day", DAY, "-o", folder / "as it is")
    wanted = json.loads((folder / "as it is/plan.json").read_text())
    for name, separator, end, mark in (("semicolons", ";", "\r\n", "\ufeff"), ("tabs", "\t", "\n", ""), ("commas", ",", "\r\n", "\ufeff")):
        cells = [[column.upper() for column in columns], *([row[column] for column in columns] for row in lines)]
        out = "".join(separator.join('"' + cell.replace('"', '""') + '"' for cell in [*row, ""]) + end for row in cells)
        heads = "".join(line + separator * 4 + end for line in head.splitlines())
        file = folder / f"{name}.csv"
        file.write_text(mark + heads + end + out + separator * 5 + end, newline="")
        done = library("plan", file, "--day", DAY, "-o", folder / name)
        judge(f"a library with {name}", done.status == 0 and json.loads((folder / name / "plan.json").read_text()) == wanted, done)
