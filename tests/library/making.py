"""Libraries and offices that are made by chance, from a seed."""
from __future__ import annotations

import base64
import csv
import datetime
import io
import random

from library.model import Cells

COLUMNS = ("class", "title", "schedule", "trigger", "unit", "count", "offset", "action", "law", "section", "why", "notation",
           "as of", "checked by")
CLASSES = [f"K{at}" for at in range(7)]
DAYS = ["2019-01-01", "2021-06-30", "2023-01-01", "2024-02-29", "2025-01-01"]
RULES = {"S0": "origin years 1 none destroy", "S1": "added days 30 none destroy", "S2": "origin months 6 month destroy",
         "S3": "added weeks 2 quarter destroy", "S4": "origin days 400 from-month-1 destroy", "S5": "added years 3 none keep"}
LETTERS = ["a", "Ä", "§ 1, Abs. 2", '"quoted"', "semi;colon", "tab", "=1+1", "'", "漢", "-", "1"]
HEAD = "# title: A library of a trial\n# checked by: nobody yet\n"
NOBODY = "nobody yet"


def text(chance: random.Random, least: int = 1) -> str:
    return " ".join(chance.choice(LETTERS) for _ in range(chance.randint(least, 4)))


def usual(chance: random.Random, code: str) -> str:
    """Returns a schedule for a class: mostly the same one, so that a library and an office often agree."""
    return f"S{int(code[1:]) % len(RULES)}" if chance.random() < 0.7 else chance.choice(list(RULES))


def row(chance: random.Random, code: str) -> Cells:
    """Makes a row. The rule of a schedule is another one now and then."""
    schedule = usual(chance, code)
    rule = RULES[schedule] if chance.random() < 0.97 else "origin years 9 none transfer"
    trigger, unit, count, offset, action = rule.split()
    return {"class": code, "title": text(chance), "schedule": schedule, "trigger": trigger, "unit": unit, "count": count,
            "offset": offset, "action": action, "law": text(chance), "section": text(chance), "why": text(chance, 0),
            "notation": chance.choice(["", "", "20.1"]), "as of": chance.choice(DAYS),
            "checked by": chance.choice([NOBODY, NOBODY, "Dr. Ä"])}


def rows(chance: random.Random, before: list[Cells]) -> list[Cells]:
    """Makes the rows of a library: some classes, some of them as another library had them. The others are mostly later."""
    made = {code: row(chance, code) for code in chance.sample(CLASSES, chance.randint(1, 4))}
    for code, each in list(made.items()):
        later = [day for day in DAYS if all(day > known["as of"] for known in before if known["class"] == code)]
        if later and chance.random() < 0.95:
            each["as of"] = min(later)
        elif not later:
            del made[code]
    for known in chance.sample(before, min(len(before), chance.randint(0, 2))):
        made[known["class"]] = known
    return list(made.values())


def is_one(made: list[Cells]) -> bool:
    """Returns whether no two rows have two rules for one schedule."""
    rules: dict[str, str] = {}
    return all(rules.setdefault(each["schedule"], str([each[name] for name in COLUMNS[3:8]]))
               == str([each[name] for name in COLUMNS[3:8]]) for each in made)


def sheet(made: list[Cells], separator: str = ",", end: str = "\n", head: str = HEAD) -> str:
    """Writes rows as a library."""
    out = io.StringIO()
    writer = csv.DictWriter(out, COLUMNS, delimiter=separator, lineterminator=end)
    writer.writeheader()
    writer.writerows(made)
    return head.replace("\n", end) + out.getvalue()


def schedules() -> list[dict[str, object]]:
    """Returns the acts that add the schedules."""
    acts: list[dict[str, object]] = []
    for code, rule in RULES.items():
        trigger, unit, count, offset, action = rule.split()
        acts.append({"act": "add-schedule", "day": "2020-01-01", "code": code, "trigger": trigger, "unit": unit,
                     "count": int(count), "offset": offset, "action": action})
    return acts


def office(chance: random.Random, run_day: str) -> list[dict[str, object]]:
    """Returns the acts of an office whose records come due, with a run on a day."""
    acts = schedules()
    acts += [{"act": "add-class", "day": "2020-01-01", "code": code, "title": code, "schedule": usual(chance, code)}
             for code in CLASSES]
    acts += [{"act": "add-aggregation", "day": "2020-01-01", "ref": f"A{at}", "title": "A", "parent": None,
              "class": chance.choice(CLASSES)} for at in range(4)]
    first = datetime.date(2020, 1, 1)
    count = chance.randint(8, 16)
    for at in range(count):
        acts.append({"act": "add-record", "day": "2020-02-01", "ref": f"r{at}, \"{at}\"", "title": "R",
                     "originated": (first - datetime.timedelta(chance.randint(0, 900))).isoformat(),
                     "aggregation": chance.randint(1, 4), "class": chance.choice([None, *CLASSES]),
                     "schedule": chance.choice([*[None] * 8, *RULES]), "content": base64.b64encode(b"x").decode()})
    acts += [{"act": "set-class-schedule", "day": "2020-03-01", "class": code, "schedule": chance.choice(list(RULES))}
             for code in chance.sample(CLASSES, 2)]
    acts += [{"act": "confirm", "day": run_day, "record": at + 1, "action": "destroy", "by": "Ada"}
             for at in range(count) if chance.random() < 0.6]
    return [*acts, {"act": "open-run", "day": run_day, "by": "Ada"}]
