"""What is wrong in a library, in the laws of an office, and in a call: it is named, and nothing is written."""
from __future__ import annotations

import json
import os
import random
import subprocess
from pathlib import Path

from kit.judging import judge, same
from library.making import HEAD, rows, sheet
from library.place import COMMAND, COUNT, DAY, judge_refusal, library, started

GOOD = {"class": "K1", "title": "T", "schedule": "S1", "trigger": "closed", "unit": "years", "count": "10", "offset": "none",
        "action": "destroy", "law": "L", "section": "§ 1", "why": "", "notation": "", "as of": "2025-01-01", "checked by": ""}
CELLS = (("class", "a b", "K1:4: 'a b' is no code"), ("class", "", "class: empty"), ("class", "X" * 17, "is no code"),
         ("class", "Ä", "is no code"), ("title", "", "title: empty"), ("title", "ä" * 101, "has 202 bytes"),
         ("title", "two\nlines", "line break"), ("schedule", "S_1", "is no code"), ("trigger", "closing", "is none of origin"),
         ("trigger", "Closed", "is none of"), ("unit", "year", "is none of days"), ("count", "ten", "is no count"),
         ("count", "-1", "is no count"), ("count", "٣", "is no count"), ("count", "501", "is more than 500 years"),
         ("count", "9" * 5000, "is no count"), ("offset", "from-month-13", "is none of"), ("action", "shred", "is none of keep"),
         ("law", "", "law: empty"), ("section", "", "section: empty"), ("section", "a\tb", "control character"),
         ("why", "x" * 1001, "has 1001 bytes"), ("why", "a\u2028b", "line break"), ("as of", "", "as of: empty"),
         ("as of", "1.1.2025", "is no day"), ("as of", "2025-02-29", "is no day"), ("as of", "2025-1-1", "is no day"))
HEADS = (("", "no line `# title"), ("# title: T\n", "no line `# checked by"), ("# checked by: nobody yet\n", "no line `# title"),
         ("# title:\n# checked by: x\n", "no line `# title"))


def written(folder: Path) -> list[str]:
    return sorted(path.name for path in folder.glob("out/*"))


def judge_wrong(name: str, folder: Path, text: str | bytes, *parts: str) -> None:
    """Judges that neither a plan nor the laws of an office are made of a library."""
    file, kept = folder / "K1", folder / "kept.json"
    file.write_bytes(text if isinstance(text, bytes) else text.encode())
    before = kept.read_bytes()
    judge_refusal(f"{name}: no plan", library("plan", file, "--day", DAY, "-o", folder / "out"), 2, *parts)
    judge_refusal(f"{name}: nothing is added", library("add", kept, file), 2, *parts)
    judge(f"{name}: nothing is written", (written(folder), kept.read_bytes()) == ([], before), is_quiet=True)


def wrong(folder: Path) -> None:
    """A library with something wrong makes nothing, and the place is named."""
    library("add", folder / "kept.json", "ch")
    for column, cell, part in CELLS:
        judge_wrong(f"{column} {cell[:20]!r}", folder, sheet([{**GOOD, column: cell}]), part)
    for head, part in HEADS:
        judge_wrong(f"the head {head!r}", folder, sheet([GOOD], head=head), part)
    whole = sheet([GOOD])
    other = {**GOOD, "class": "K2"}
    for name, text, part in (
            ("a class twice", sheet([GOOD, GOOD]), "K1:5: class K1 is in K1:4 too"),
            ("a schedule with two rules", sheet([GOOD, {**other, "count": "9"}]), "K1:5: schedule S1 has another rule in K1:4"),
            ("a cell too many", whole.rstrip("\n") + ",x\n", "more cells than the header"),
            ("a section without quotes", whole.replace("§ 1", "§ 1, Abs. 2"), "as of: empty"),
            ("a column twice", whole.replace("law,section", "law,law,section", 1), "the header has law twice"),
            ("no column of laws", whole.replace(",law,", ",lex,", 1), "the header lacks law"),
            ("no header", HEAD, "the header lacks"), ("nothing", "", "the header lacks"),
            ("no row", sheet([]), "no row to take"), ("a quote that is not closed", whole + '"K3', "is no CSV"),
            ("Latin-1", whole.encode("latin-1"), "is not UTF-8"), ("zeros", b"\0" * 100, "the header lacks")):
        judge_wrong(name, folder, text, part)
    judge_wrong("two mistakes", folder, sheet([{**GOOD, "unit": "x"}, {**other, "count": "x"}]), "K1:4: unit", "K1:5: 'x'")
    judge("wrong libraries are named", True)
    chance = random.Random(7)
    for at in range(5 * COUNT):
        text = bytearray(sheet(rows(chance, [])).encode())
        for _ in range(chance.randint(1, 6)):
            text[chance.randrange(len(text))] = chance.choice(b',;"\n\r\t#x1\xff\0')
        (folder / "K1").write_bytes(bytes(text))
        done = library("plan", folder / "K1", "--day", DAY, "-o", folder / "out")
        judge(f"changed library {at}", done.status in (0, 2) and "Traceback" not in done.error, done, is_quiet=True)


def damaged(folder: Path) -> None:
    """The laws of an office that are cut or changed are refused, and no register is printed."""
    kept, copy = folder / "kept.json", folder / "copy.json"
    library("add", kept, "eu", "--only", "EU-FUNDS,EU-AML")
    data, register = kept.read_bytes(), b"class,schedule\nEU-AML,CLOSED-5Y-D\n"
    same("as it is", library("why", kept, "-", "--day", DAY, data=register).out.split("\n")[1],
         "EU-AML,CLOSED-5Y-D,Directive (EU) 2015/849 Art. 40(1),Five years after the end of the business relationship or of an "
         "occasional transaction,2025-01-01")
    chance = random.Random(3)
    for at in sorted({0, 1, len(data) - 2, *(chance.randrange(len(data) - 2) for _ in range(2 * COUNT))}):
        copy.write_bytes(data[:at])
        judge_refusal(f"cut at {at}", library("why", copy, data=register), 2, "copy.json is damaged")
    whole = json.loads(data)
    entry = whole["classes"]["EU-AML"][0]
    for name, change in (
            ("another form", {**whole, "form": "office-mandates 2"}), ("a member more", {**whole, "x": 1}), ("a list", [whole]),
            ("no rule", {**whole, "schedules": {}}), ("no entries", {**whole, "classes": {"EU-AML": []}}),
            ("a code that is none", {**whole, "classes": {"a b": [entry]}}),
            ("two of a day", {**whole, "classes": {"EU-AML": [entry, entry]}}),
            ("the older one first", {**whole, "classes": {"EU-AML": [{**entry, "day": "2001-01-01"}, entry]}}),
            ("a day that is none", {**whole, "classes": {"EU-AML": [{**entry, "day": "2001-02-30"}]}}),
            ("a number", {**whole, "classes": {"EU-AML": [{**entry, "law": 1}]}}),
            ("a member less", {**whole, "classes": {"EU-AML": [{key: entry[key] for key in entry if key != "why"}]}}),
            ("a line break", {**whole, "classes": {"EU-AML": [{**entry, "why": "a\nb"}]}}),
            ("a count of text", {**whole, "schedules": {**whole["schedules"], "CLOSED-5Y-D": {
                **whole["schedules"]["CLOSED-5Y-D"], "count": "5"}}}),
            ("a count that is true", {**whole, "schedules": {**whole["schedules"], "CLOSED-5Y-D": {
                **whole["schedules"]["CLOSED-5Y-D"], "count": True}}})):
        copy.write_text(json.dumps(change))
        judge_refusal(name, library("why", copy, data=register), 2, "copy.json is damaged")
        before = copy.read_bytes()
        judge_refusal(f"{name}: nothing is added", library("add", copy, "ch"), 2, "copy.json is damaged")
        judge(f"{name}: the file stays", copy.read_bytes() == before, is_quiet=True)
    judge("damaged laws are refused", True)


def ends(folder: Path) -> None:
    """Each call that is wrong ends with status 2 and one clear line."""
    kept = folder / "kept.json"
    library("add", kept, "ch")
    register, certificate = b"class,schedule\n", b"CERTIFICATE 1\nDAY 2024-01-03\nENTRY\t1\n"
    judge_refusal("no library", library("show", "fr"), 2, "there is no library fr: there are at, ch, de, eu, uk, us")
    judge_refusal("no file", library("show", folder / "none.csv"), 2, "No such file")
    judge_refusal("no class", library("show", "ch", "--only", "NONE"), 2, "no library has a class NONE")
    judge_refusal("no folder", library("add", folder / "none/kept.json", "ch"), 2, "there is no folder")
    judge_refusal("no folder above", library("plan", "ch", "--day", DAY, "-o", folder / "none/out"), 2, "none/out")
    judge_refusal("two libraries of a class", library("plan", "ch", "at", "--day", DAY, "-o", folder / "out"), 2, "is in ch:")
    judge_refusal("no laws", library("why", folder / "none.json", data=register), 2, "none.json: No such file")
    judge_refusal("no register", library("why", kept, folder / "none"), 2, "No such file")
    for name, data, part in (("no class", b"schedule\n", "one column class"), ("no schedule", b"class\n", "one column schedule"),
                             ("two classes", b"class,class,schedule\n", "one column class"), ("a law", b"class,schedule,law\n", "column law"),
                             ("a long row", b"class,schedule\na,b,c\n", "as many cells"), ("nothing", b"", "one column class"),
                             ("no text", b"\xff", "is not UTF-8"), ("a quote", b'class,schedule\n"a', "is no CSV"),
                             ("a short entry", certificate, "certificate is not whole"),
                             ("no day", b"CERTIFICATE 1\n", "certificate is not whole")):
        judge_refusal(f"a register with {name}", library("why", kept, data=data), 2, part)
    judge_refusal("a day for a certificate", library("why", kept, "-", "--day", DAY, data=certificate), 2, "its own day")
    same("the command", started("list").out, library("list").out)
    same("a command that is wrong", (started("why", kept, folder / "none").status, started("show", "fr").status), (2, 2))
    for args in (("why",), ("plan", "ch", "-o", "x"), ("plan", "ch", "--day", "1.1.2025", "-o", "x"), ("shows",), (),
                 ("plan", "ch", "--day", DAY, "-o", folder / "out", "--aggregation", "0"), ("list", "x")):
        done = library(*args)
        judge(f"office-library {args[:2]}", done.status == 2 and done.out == "" and "Traceback" not in done.error, done, is_quiet=True)
    with subprocess.Popen([COMMAND, "show", "de"], stdout=subprocess.PIPE, stderr=subprocess.PIPE) as process:
        assert process.stdout and process.stderr
        process.stdout.close()
        errors = process.stderr.read().decode()
    judge("nobody reads what is shown", process.returncode == 2 and "Traceback" not in errors and "Exception" not in errors, errors)
    if os.geteuid() == 0:
        os.chown(folder, 65534, 65534)
        started("add", folder / "theirs.json", "ch")
        judge("root writes as the owner of the folder", (folder / "theirs.json").stat().st_uid == 65534)
        judge("everybody may read the laws", (folder / "theirs.json").stat().st_mode & 0o777 == 0o644)
    judge("wrong calls end with status 2", True)
