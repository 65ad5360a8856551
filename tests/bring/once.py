"""One code for a word, one day for a moment, one record for a document, and one folder that is whole or not there."""
from __future__ import annotations

import datetime
import gzip
import json
import os
import random
import re
import resource
import shutil
import signal
import subprocess
import sys
import time
from pathlib import Path
from zoneinfo import ZoneInfo

import compared
import offices
import systems
import written
from compared import BRING
from kit.commands import OFFICE, TOP, run
from kit.judging import judge, same
from kit.office import Office
from systems import RULES, Source

sys.path[:0] = [str(TOP / "companions/bring"), str(TOP / "companions")]

from office_bring import alfresco, plan, xdomea  # noqa: E402
from office_bring.brought import KEEP, Rule  # noqa: E402
from office_bring.codes import Codes  # noqa: E402
from office_bring.ledger import Wrong  # noqa: E402
from office_bring.moments import Days  # noqa: E402
from office_bring.texts import ref, title  # noqa: E402
from office_common.errors import Refused  # noqa: E402
from office_common.facts import PERIODS, WORDS  # noqa: E402

CATALOGUE = TOP / "companions/registers/office-catalogue"
PLAN = "Kennzeichen;Bezeichnung;Aufbewahrungsfrist;Aussonderungsart\r\n"
TABLE = "word,code,new\n"


# ---- codes


def random_words(rng: random.Random) -> list[str]:
    """Makes words of which many have the same beginning as a code."""
    return ["".join(rng.choice(["20", ".", "/", "Bau", "ä", "Straße", "-", "Ж", " ", "11", "_"]) for _ in range(rng.randint(1, 9)))
            for _ in range(40)]


def code_of_each(folder: Path) -> None:
    """Random words over many runs: one code for each, no code twice, and each of its form."""
    rng, known = random.Random(3), dict[str, str]()
    for _ in range(30):
        codes = Codes(folder / "codes.csv", bool(rng.randint(0, 1)), frozenset({"BAU", "20"}))
        for word in random_words(rng):
            code = codes.of(word)
            same(f"the code of {word!r} stays", known.setdefault(" ".join(word.split()), code), code)
            judge(f"{code} is a code", re.fullmatch("[A-Za-z0-9-]{1,16}", code) and code not in ("BAU", "20"), code, is_quiet=True)
        codes.keep()
    same("no code is given twice", len(set(known.values())), len(known))


def looked_at(folder: Path) -> None:
    """New codes are looked at before a sheet is written, and what somebody wrote there counts."""
    plan = folder / "plan.csv"
    plan.write_text(PLAN + "10.1;a;1 Jahr;V\r\n10.2;b;1 Jahr;V\r\n", encoding="utf-8")
    arguments = [BRING, "plan", plan, "-o", folder / "out", "--codes", folder / "codes.csv", *RULES]
    done = run(*arguments)
    same("codes alone are written", (done.status, sorted(os.listdir(folder)), (folder / "codes.csv").read_text()),
         (1, ["codes.csv", "plan.csv"], TABLE + "10.1,10-1,new\n10.2,10-2,new\n"))
    same("as often as it is called", (run(*arguments).status, (folder / "out").exists()), (1, False))
    (folder / "codes.csv").write_text(TABLE + "10.1,FENCES,\n10.2,10-2,\n")
    same("then the sheets are", run(*arguments).status, 0)
    same("with the codes of the table", [row["code"] for row in compared.rows_in(folder / "out/classes.csv")], ["FENCES", "10-2"])
    same("and the table stays", (folder / "codes.csv").read_text(), TABLE + "10.1,FENCES,\n10.2,10-2,\n")
    for text, reason in (("x", "the first row is not"), (TABLE + "a\n", "write WORD,CODE"), (TABLE + "a,B C,\n", "is no code"),
                         (TABLE + f"a,{'B' * 17},\n", "is no code"), (TABLE + "a,B,\na,C,\n", "has another code above"),
                         (TABLE + "a,B,old\n", "write WORD,CODE"), (TABLE + "a,\"B\n", "line "), (b"\xff", "is not UTF-8")):
        (folder / "codes.csv").write_bytes(text if isinstance(text, bytes) else text.encode())
        done = run(*arguments)
        judge(f"a table of codes: {reason}", done.status == 2 and reason in done.error and done.error.count("\n") == 1, done, is_quiet=True)


def at_once(folder: Path) -> None:
    """Calls that run at the same time share a table."""
    calls = []
    for number in range(4):
        source = folder / f"{number}.csv"
        source.write_text(PLAN + "".join(f"{each}.{number % 2};x;1 Jahr;V\r\n" for each in range(20)), encoding="utf-8")
        calls.append(subprocess.Popen([BRING, "plan", source, "-o", folder / f"out-{number}", "--codes", folder / "codes.csv",
                                       "--take-codes", *RULES], stdout=subprocess.DEVNULL, stderr=subprocess.DEVNULL))
    same("all of them end", [call.wait() for call in calls], [0] * 4)
    noted = [row["word"] for row in compared.rows_in(folder / "codes.csv")]
    same("each word is there once", sorted(noted), sorted(f"{each}.{number}" for each in range(20) for number in range(2)))
    same("two plans of the same words have the same classes", (folder / "out-0/classes.csv").read_bytes(),
         (folder / "out-2/classes.csv").read_bytes())


def codes_of_rules(folder: Path) -> None:
    """Each rule has a code of its own, which an office takes, and the terms of the readers are those of an office."""
    rules = [Rule(trigger, unit, length, offset, action) for trigger in WORDS["trigger"] for unit in WORDS["unit"]
             for length in (0, 1, 11, PERIODS[unit]) for offset in WORDS["offset"] for action in WORDS["action"] if action != "keep"]
    made = {rule.code() for rule in [*rules, KEEP]}
    same("rules have codes of their own", len(made), len(rules) + 1)
    same("each is a code", [code for code in made if not re.fullmatch("[A-Za-z0-9-]{1,16}", code)], [])
    terms = {"trigger": {*plan.TRIGGERS, *alfresco.TRIGGERS.values()}, "unit": {*plan.UNITS, *(unit for unit, _ in alfresco.UNITS.values())},
             "action": {*plan.ACTIONS, *alfresco.ACTIONS.values(), *xdomea.ACTIONS.values()}}
    same("no reader has another term", {name: terms[name] - set(WORDS[name]) for name in terms}, {name: set() for name in terms})


def codes(folder: Path) -> None:
    """A word has one code in all runs."""
    for part in (code_of_each, codes_of_rules, looked_at, at_once):
        (folder / part.__name__).mkdir()
        part(folder / part.__name__)


# ---- days and texts


def day_of(days: Days, text: str) -> str:
    try:
        return days.day(text)
    except Wrong:
        return "wrong"
    except Refused as refused:
        return f"asks {refused}".partition("say ")[2] or "refused"


def moments() -> None:
    """Random moments with a zone have the day that another clock gives them."""
    rng = random.Random(5)
    for _ in range(400):
        moment = datetime.datetime(1970, 1, 1, tzinfo=datetime.UTC) + datetime.timedelta(minutes=rng.randint(0, 60 * 24 * 365 * 60))
        name, offset = rng.choice(["Europe/Berlin", "America/New_York", "Pacific/Auckland", "UTC"]), rng.choice([0, 60, -330, 765])
        seen = moment.astimezone(datetime.timezone(datetime.timedelta(minutes=offset)))
        text = rng.choice([seen.isoformat(), seen.isoformat(" ", "seconds"), seen.isoformat(timespec="milliseconds"),
                           moment.strftime("%Y-%m-%dT%H:%M:%SZ")])
        same(f"{text} in {name}", day_of(Days(ZoneInfo(name), None), text), f"{moment.astimezone(ZoneInfo(name)).date()}")


def days(folder: Path) -> None:
    """A moment has its day at the place of the office, and no day is guessed."""
    moments()
    zone = ZoneInfo("Europe/Berlin")
    for text, wanted in (("2024-12-31", "2024-12-31"), ("2024-12-31T23:30:00", "2024-12-31"), ("2024-12-31Z", "2024-12-31"),
                         ("2024-12-31T23:30:00Z", "2025-01-01"), ("2024-12-31T23:30:00.0000000Z", "2025-01-01"), ("2024-12-31 23:30", "2024-12-31"), ("2024-02-30", "wrong"), ("", ""),
                         ("31.12.2024", "wrong"), ("2024", "wrong"), ("2024-12-31T99:30:00Z", "wrong"), ("yesterday", "wrong"),
                         ("0001-01-01T00:00:00+14:00", "wrong")):
        same(f"the day of {text!r}", day_of(Days(zone, None), text), wanted)
    for text, order, wanted in (("12/04/2017 at 9:15 AM", "dmy", "2017-04-12"), ("12/04/2017 at 9:15 AM", "mdy", "2017-12-04"),
                                ("31.12.2024 23:59", "dmy", "2024-12-31"), ("31.12.2024", "mdy", "wrong"), ("1.2.2024, 9:00", "dmy", "2024-02-01")):
        same(f"the day of {text!r} by {order}", day_of(Days(None, order), text), wanted)
    same("a moment without a zone asks", day_of(Days(None, None), "2024-12-31T23:30:00Z"), "--zone Europe/Berlin")
    for texts, wanted in ((["12/04/2017", "13/04/2017"], "dmy"), (["12/04/2017", "04/13/2017"], "mdy"), (["05/05/2017"], "dmy"), ([], None)):
        learned = Days(zone, None)
        learned.learn(texts)
        same(f"the order of {texts}", learned.order, wanted)
    for texts in (["12/04/2017"], ["13/04/2017", "04/13/2017"]):
        try:
            Days(zone, None).learn(texts)
            judge(f"{texts} ask", False)
        except Refused as refused:
            judge(f"{texts} ask", "say --days dmy" in str(refused), str(refused), is_quiet=True)
    long = "ä" * 150
    same("a long title is cut between letters", title(f"a\n{long}"), f"a {'ä' * 99}")
    refs = [ref(f"{long}{number}") for number in range(20)]
    same("long refs stay apart, and fit", (len(set(refs)), max(len(each.encode()) for each in refs) <= 200), (20, True))
    top = folder / "top"
    top.mkdir()
    (top / "a.txt").write_bytes(b"")
    done = run(BRING, "share", top, "-o", folder / "out", "--class", "K")
    same("a share without a zone asks", (done.status, "say --zone" in done.error, (folder / "out").exists()), (2, True, False))


# ---- a second bringing


def catalogue_of(folder: Path) -> Path:
    """Makes the catalogue of the office in a folder."""
    shutil.copyfile(folder / "office.db", folder / "copy.db")
    (folder / "catalogue").mkdir(exist_ok=True)
    env = {"PATH": f"{CATALOGUE.parent}:{os.environ['PATH']}"}
    done = run(CATALOGUE, folder / "copy.db", folder / "catalogue", **env)
    judge("there is a catalogue", done.status == 0, done.error, is_quiet=True)
    return folder / "catalogue"


def again(folder: Path) -> None:
    """A second bringing of the same source brings nothing twice, and one of a source that grew brings what is new."""
    rng = random.Random(11)
    model = systems.xdomea_model(rng)
    sources = systems.write_xdomea(folder, model, rng)
    for source in sources:
        compared.brought(folder, source)
    with Office(folder / "office.db") as served:
        compared.send(folder, sources, served)
        before = compared.due_in(served, IDENTITY)
        out = folder / "out-xdomea"
        done = run(compared.CONVERT, "--history", out / "files.csv", out / "records.csv", "--files", "path", "--folder", folder,
                   "--office", served.address)
        same("without a catalogue the office refuses it all", (done.status, " number " in done.out), (1, False))
        same("and has what it had", compared.due_in(served, IDENTITY), before)
    run(OFFICE, "init", folder / "office.db")
    there = catalogue_of(folder)
    for source in sources:
        shutil.move(folder / f"out-{source.kind}", folder / f"first-{source.kind}")
        done = compared.brought(folder, source, "--catalogue", there)
        same(f"{source.kind} again brings nothing", (done.status, done.out, "there already: " in done.error, "look at" in done.error),
             (0, f"{folder / f'out-{source.kind}'}: nothing\n", True, False))
        shutil.rmtree(folder / f"out-{source.kind}")
    grown(folder, model, there)


IDENTITY = type("Identity", (dict,), {"__missing__": lambda self, key: key})()


def grown(folder: Path, model: offices.Model, there: Path) -> None:
    """A source that has more than before, and some things otherwise, brings what is new and names what differs."""
    closed = next(at for at, file in enumerate(model.files) if file.closed is None and file.parent is None)
    model.files[closed] = model.files[closed]._replace(closed=max(each.originated for each in model.records))
    model.records[0] = model.records[0]._replace(title="Another title")
    model.records.append(offices.Record("NEW-1", "A new one", model.files[closed].opened, model.files[closed].ref, b"new"))
    written.xdomea(folder / "message.xml", model, random.Random(12))
    done = compared.brought(folder, Source("xdomea", folder / "message.xml", ("--contents", folder)), "--catalogue", there)
    same("what is new comes alone", (done.status, done.out), (0, f"{folder / 'out-xdomea'}: 1 records\n"))
    judge("another title is named", f"look at record {model.records[0].ref}: the office has the title" in done.error, done.error)
    judge("a closing is named", f"look at file {model.files[closed].ref}: the source closed it on" in done.error, done.error)
    sheet = folder / "out-xdomea/records.csv"
    done = run(compared.CONVERT, sheet, "--catalogue", there, "--files", "path", "--folder", folder, "-o", folder / "new.csv")
    same("it is a sheet of records", done.status, 0)
    done = run(OFFICE, "import", folder / "office.db", "2024-01-02", folder / "new.csv")
    same("which the office adds", (done.status, done.out), (0, f"1 number {len(model.records)}\n"))
    same("a schedule of another rule under the same code is refused", other_rule(folder, there), 2)


def other_rule(folder: Path, there: Path) -> int:
    """Changes the schedules in the catalogue, and brings the plan that means the first ones."""
    file = next((there / "now").glob("schedules.json*"))
    rows = json.loads(gzip.decompress(file.read_bytes()))
    for row in rows["schedules"]:
        row["count"] = row["count"] + 1
    file.write_bytes(gzip.compress(json.dumps(rows).encode()))
    done = compared.brought(folder, Source("plan", folder / "plan.csv", RULES), "--catalogue", there)
    judge("it names the code", "the office has another schedule" in done.error, done.error, is_quiet=True)
    return done.status


# ---- stops


def stopped(folder: Path) -> None:
    """Kills, and writes that fail, leave the folder whole or not there."""
    plan = folder / "plan.csv"
    plan.write_text(PLAN + "".join(f"{number};x;{number % 90 + 1} Jahre;V\r\n" for number in range(3000)), encoding="utf-8")
    arguments = [str(BRING), "plan", str(plan), "-o", str(folder / "out"), "--codes", str(folder / "codes.csv"), "--take-codes", *RULES]
    began = time.monotonic()
    whole = subprocess.run(arguments, capture_output=True, check=False)
    took = time.monotonic() - began
    sheets = {file.name: file.read_bytes() for file in (folder / "out").iterdir()}
    same("the whole", (whole.returncode, sorted(sheets)), (0, ["classes.csv", "rules.csv"]))
    same("a second call finds it there", (run(*arguments).status, "has them already" in run(*arguments).out), (0, True))
    rng = random.Random(13)
    for _ in range(12):
        shutil.rmtree(folder / "out", ignore_errors=True)
        process = subprocess.Popen(arguments, stdout=subprocess.DEVNULL, stderr=subprocess.DEVNULL)
        time.sleep(rng.uniform(took / 3, took * 1.1))
        process.send_signal(signal.SIGKILL)
        process.wait()
        left = folder / "out"
        is_whole = not left.exists() or {file.name: file.read_bytes() for file in left.iterdir()} == sheets
        judge("a kill leaves it whole or not there", is_whole, is_quiet=True)
    shutil.rmtree(folder / "out", ignore_errors=True)
    same("and it comes at last", (run(*arguments).status, sorted(os.listdir(folder))), (0, ["codes.csv", "out", "plan.csv"]))
    shutil.rmtree(folder / "out")
    done = subprocess.run(arguments, capture_output=True, text=True, check=False,
                          preexec_fn=lambda: resource.setrlimit(resource.RLIMIT_FSIZE, (1000, 1000)))
    same("a write that fails", (done.returncode, done.stderr.count("office-bring: "), sorted(os.listdir(folder))),
         (2, 1, ["codes.csv", "plan.csv"]))
    (folder / "out").mkdir()
    (folder / "out/mine.txt").write_text("x")
    same("what is there is not touched", (run(*arguments).status, os.listdir(folder / "out")), (2, ["mine.txt"]))
