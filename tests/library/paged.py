"""The law that the page shows of a class on a day, compared with the model."""
from __future__ import annotations

import json
import random
from pathlib import Path

from kit.commands import run
from kit.judging import judge, same
from library.making import CLASSES, DAYS, RULES
from library.model import Model
from library.place import COUNT, library
from library.showing import SHOWN, grown

SCRIPT = Path(__file__).with_name("page.mjs")


def wanted(model: Model, code: str, schedule: str, day: str) -> list[str]:
    """Returns what the page shows: what it lacks, and the section and the schedule of the entry."""
    section, reason, _ = model.law(code, schedule, day)
    known = [each for each in model.days.get(code, {}) if each <= day]
    row = model.days[code][max(known)] if known else {"section": "", "schedule": ""}
    lack = "" if section else "other" if known else "later" if reason.endswith(day) else "none"
    return [lack, row["section"], row["schedule"]]


def page(folder: Path) -> None:
    """The page shows the laws that the model shows."""
    laws = 0
    for seed in range(COUNT):
        chance, model, kept = random.Random(3000 + seed), Model(), folder / f"{seed}.laws"
        grown(chance, folder, model, kept, 6)
        questions = [[chance.choice([*CLASSES, "NONE"]), chance.choice(list(RULES)), chance.choice([*SHOWN, *DAYS])] for _ in range(60)]
        (folder / "entries.json").write_text(library("entries", kept).out)
        (folder / "questions.json").write_text(json.dumps(questions))
        done = run("node", SCRIPT, folder / "entries.json", folder / "questions.json")
        answer = json.loads(done.out)
        same(f"seed {seed}: the laws", answer["shown"], [wanted(model, *question) for question in questions])
        pairs = sorted({f"{code} {schedule}" for code, schedule, _ in questions})
        same(f"seed {seed}: the rules", answer["rules"], [dict(zip(("class", "schedule"), pair.split())) for pair in pairs])
        laws += sum(not shown[0] for shown in answer["shown"])
    judge("the page shows laws, and each the model's", laws > COUNT, laws)
