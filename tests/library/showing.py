"""What office-library shows beside the rows of an office, compared with the model."""
from __future__ import annotations

import csv
import io
import json
import random
from pathlib import Path

from kit.commands import office
from kit.judging import judge, same
from library.making import CLASSES, DAYS, RULES, is_one, office as acts_of, rows, sheet
from library.model import Cells, Model
from library.place import COUNT, OFFICES, applied, library, table

RUN_DAY = "2023-05-05"
HEADER = ["record", "ref", "class", "schedule", "action", "due", "held", "confirmed"]
SHOWN = [*DAYS, "2018-12-31", "2020-01-01", "2024-02-28", "2031-01-01"]


def grown(chance: random.Random, folder: Path, model: Model, file: Path, times: int) -> None:
    """Adds libraries that are made by chance to a file, each as the model has it, and judges each addition."""
    before: list[Cells] = []
    for at in range(times):
        made = rows(chance, before)
        if not made or not is_one(made):
            continue
        path = folder / f"lib{at}.csv"
        path.write_text(sheet(made), encoding="utf-8")
        old = file.read_bytes() if file.exists() else b""
        entries = entries_in(file)
        is_right = model.add(made)
        done = library("add", file, path)
        judge(f"library {at} is {'added' if is_right else 'refused'}", done.status == (0 if is_right else 1), (made, done), is_quiet=True)
        if is_right:
            before += made
            judge(f"library {at} changes no entry that is there", entries.items() <= entries_in(file).items(), is_quiet=True)
        else:
            judge(f"library {at} changes nothing", (file.read_bytes() if file.exists() else b"") == old, is_quiet=True)


def entries_in(file: Path) -> dict[tuple[str, str], str]:
    """Returns each entry of a file by its class and day."""
    if not file.exists():
        return {}
    classes = json.loads(file.read_bytes())["classes"]
    return {(code, entry["day"]): json.dumps(entry) for code, entries in classes.items() for entry in entries}


def added(folder: Path) -> None:
    """Libraries are added as the model adds them, and an entry that is there never changes."""
    for seed in range(COUNT):
        chance, model, file = random.Random(seed), Model(), folder / f"{seed}.laws"
        grown(chance, folder, model, file, 8)
        kept = {(code, day) for code, days in model.days.items() for day in days}
        same(f"seed {seed}: the entries that are there", set(entries_in(file)), kept)
    judge("random libraries are added as the model adds them", True)


def made_rows(chance: random.Random) -> list[list[str]]:
    """Makes the rows of a register by chance, some of a class that no library has."""
    return [[str(at), chance.choice(['r, "1"', "Ä;b", "x"]), chance.choice([*CLASSES, "NONE"]), chance.choice(list(RULES)), "destroy",
             "2020-01-01", "", "yes"] for at in range(1, 30)]


def made(folder: Path) -> None:
    """Registers and certificates that are made by chance show what the model shows, without an office."""
    shown = 0
    for seed in range(COUNT):
        chance, model, kept = random.Random(4000 + seed), Model(), folder / f"{seed}.laws"
        grown(chance, folder, model, kept, 6)
        rows_made = made_rows(chance)
        out = io.StringIO()
        csv.writer(out, lineterminator="\n").writerows([HEADER, *rows_made])
        for day in SHOWN:
            shown += judge_register(f"seed {seed} as of {day}", model, kept, out.getvalue(), day)
            entries = "".join("\t".join(["ENTRY", row[0], "destroyed", *row[1:4], row[5], "-", "Ada", "1", "0" * 64]) + "\n"
                              for row in rows_made)
            text = f"CERTIFICATE 1\nDAY {day}\nBY DAY 2099-01-01\nENDED 29\n{entries}SPENT 0\nSHA256 0\n"
            wanted = [[row[0], "destroyed", *row[1:4], row[5], *model.law(row[2], row[3], day)] for row in rows_made]
            done = library("why", kept, "-", data=text.encode())
            same(f"seed {seed}: a certificate of {day}", (done.status, table(done.out)[1:]), (0, wanted))
    judge("made registers and certificates show laws, and each the model's", shown > COUNT, shown)


def laws(folder: Path) -> None:
    """Each row of a register shows what the model shows on each day, and each entry of a certificate what it shows on the
    day of the certificate, whatever was added since."""
    counts = {"registers": 0, "certificates": 0}
    for seed in range(OFFICES):
        chance, model, file, kept = random.Random(1000 + seed), Model(), folder / f"{seed}.db", folder / f"{seed}.laws"
        applied(file, acts_of(chance, RUN_DAY))
        grown(chance, folder, model, kept, 6)
        register = office("export", file, "2060-01-01").out
        for day in SHOWN:
            counts["registers"] += judge_register(f"seed {seed} as of {day}", model, kept, register, day)
        office("resume", file)
        entries = table(office("export", file, "entries").out)[1:]
        wanted = [[row[1], row[3], row[2], row[4], row[5], row[6], *model.law(row[4], row[5], RUN_DAY)] for row in entries]
        done = library("why", kept, "-", data=office("certificate", file, 1).out.encode())
        same(f"seed {seed}: the entries of the certificate", (done.status, done.error, table(done.out)),
             (0, "", [["record", "outcome", "ref", "class", "schedule", "due", "law", "why", "as of"], *wanted]))
        counts["certificates"] += sum(bool(row[-1]) for row in wanted)
    judge("registers and certificates show laws, and each the model's", min(counts.values()) > 0, counts)


def judge_register(name: str, model: Model, kept: Path, register: str, day: str) -> int:
    """Judges what a register shows as of a day, and returns how many of its rows have a law."""
    header, *due = table(register)
    done = library("why", kept, "-", "--day", day, data=register.encode())
    wanted = [[*row, *model.law(row[2], row[3], day)] for row in due]
    same(f"{name}: the register", (done.status, done.error, table(done.out)), (0, "", [[*header, "law", "why", "as of"], *wanted]))
    return sum(bool(row[-1]) for row in wanted)
