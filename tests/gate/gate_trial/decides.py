"""An office that decides too: what the gate states to it, and what comes of acts that the gate allowed and it denies.

The office has settings of its own here, with fewer rights, so that it denies what the gate allows.
"""
import json
import os
import pathlib
import subprocess

from gate_trial.answers import RECORD, Stand, whole
from gate_trial.base import SETTINGS, filing, plan
from gate_trial.contents import on_disk
from gate_trial.recovery import closed, replayed
from gate_trial.replay import rows
from gate_trial.world import OFFICE_TOKEN, READER, READING, World, today
from kit.judging import judge, same

GATE = SETTINGS + READING + """role checker may event open-run
role checking may confirm
name checker is checker checking
name checker signs C. Hecker
rule confirmer-does-not-open
"""
"""the settings of the gate"""
OFFICE = GATE.replace("role records-manager may confirm review open-run run-step resume\n",
                      "role records-manager may confirm review open-run run-step\n") \
    .replace("role registry may add-aggregation add-record close-aggregation event vault\n",
             "role registry may add-aggregation close-aggregation event vault\nrole filer may add-record\n") \
    .replace("name registry is registry\n", "name registry is registry\nname registry is filer in BLDG*\n") \
    .replace("name auditor is auditor\n", "name auditor is auditor in BLDG*\n") \
    .replace("name checker is checker checking\n", "name checker is checker\nname checker is checking in BLDG*\n")
"""those of the office: there the manager carries out no run, and three names have rights for one class alone"""
STATED = ("Office-Token:", "Office-Name:", "Office-Day:")
LARGE = 40_000
DENIED = {"error": "class", "place": 1, "rule": None}


def tried(folder: pathlib.Path) -> None:
    stated(folder / "stand")
    world = World(folder / "office", GATE)
    world.decide(OFFICE)
    world.start_office()
    world.start_gate()
    same("the plan", world.act("records-manager", *plan()[:-2])[0], 200)
    copy = closed(world).rename(world.folder / "copy.db")
    world.start_office()
    stops(world)
    denies(world)
    readings(world)
    eyes(world)
    histories(world)
    anew(world)
    now = closed(world)
    status, printed = replayed(world, copy, "--beside", now)
    judge("the copy and the journal are the office of now", status == 0, printed)
    judge("each row is equal", rows(world.folder / "new.db") == rows(now))
    judge("the chain holds", world.check().returncode == 0, world.check().stderr)
    without_secret(world)
    world.end()
    options(folder / "options")


# ---- the lines

def lines_of(data: bytes) -> list[str]:
    """Lists the lines of a request that state who asks."""
    return [it for it in data.partition(b"\r\n\r\n")[0].decode().split("\r\n") if it.startswith(STATED)]


def wanted(name: str) -> list[str]:
    return [f"Office-Token: {OFFICE_TOKEN}", f"Office-Name: {name}", f"Office-Day: {today()}"]


def stated(folder: pathlib.Path) -> None:
    """Compares the lines of each kind of request, with the options and without them."""
    world = World(folder, GATE)
    stand = Stand(world.port)
    world.start_gate()
    stand.told(whole(b'[{"done":true}]'))
    world.act("legal", {"act": "place-hold", "code": "H", "reason": "r"})
    world.get("auditor", "/records/1")
    same("without the options", [lines_of(it) for it in stand.asked], [[], []])
    world.stop_gate()
    world.decide(GATE)
    world.start_gate()
    due = whole(b"[]")
    cases = {("legal", "POST", "/acts"): [wanted("legal")], ("auditor", "GET", "/records/1"): [wanted("auditor")],
             ("department", "GET", "/records/1/content"): [wanted(READER), wanted("department")],
             ("records-manager", "GET", "/records/1/content"): [wanted("records-manager")],
             ("monitor", "GET", "/alive"): [wanted(READER)], ("auditor", "GET", "/certificates/1"): [wanted("auditor")]}
    for (name, verb, path), lines in cases.items():
        stand.told(*[whole(RECORD)] * len(lines))
        data = json.dumps([{"act": "place-hold", "day": today(), "code": "H", "reason": "r"}]).encode() if verb == "POST" else None
        world.ask(name, verb, path, data)
        same(f"{name}: {verb} {path}", [lines_of(it) for it in stand.asked], lines)
    stand.told(due)
    world.get("auditor", f"/due/{today()}")
    same("a list", [lines_of(it) for it in stand.asked], [wanted("auditor")])
    stand.told(whole(RECORD), whole(b'[{"done":true}]'))
    world.act("department", {"act": "confirm", "record": 1, "action": "destroy"})
    same("the class of a record is asked for by the reader", [lines_of(it) for it in stand.asked],
         [wanted(READER), wanted("department")])
    stand.link.close()
    world.end()


# ---- acts

def stops(world: World) -> None:
    """Sends a list that the office stops at an act: the client, the journal and the contents have the acts before it."""
    mine, foreign = os.urandom(LARGE), os.urandom(LARGE)
    status, body = world.act("registry", filing(1, 1, mine), filing(2, 2, foreign), filing(3, 1, os.urandom(LARGE)))
    same("the answer of the office", (status, body), (403, {"answers": [{"number": 1}], **DENIED}))
    line = world.last("answered")
    same("the journal has it", {name: line.get(name) for name in ("status", "answers", "known", "fault", *DENIED)},
         {"status": 403, "answers": [{"number": 1}], "known": None, "fault": None, **DENIED})
    same("the office has the act before", world.office_column("SELECT ref FROM records"), ["r1"])
    size, _ = on_disk(world)
    same("of the contents that of the act before stays", size, LARGE)
    same("the whole list is in the journal", [it["ref"] for it in world.last("asked")["acts"]], ["r1", "r2", "r3"])
    same("what is there already, and one that is denied", world.act("registry", filing(1, 1, mine), filing(2, 2, foreign)),
         (403, {"answers": [{"number": 1, "same": True}], **DENIED}))
    same("its contents are freed", on_disk(world)[0], LARGE)
    same("one that is denied at once", world.act("registry", filing(2, 2, foreign)), (403, {"answers": [], **DENIED, "place": 0}))
    same("it leaves no content", on_disk(world)[0], LARGE)
    same("the registry goes on", world.act("registry", filing(4, 1)), (200, [{"number": 2}]))


def denies(world: World) -> None:
    """Asks for what no list is: the run that is open."""
    status, body = world.ask("records-manager", "POST", "/run/resume", b"")
    same("the office denies it", (status, json.loads(body)), (403, {"error": "right", "rule": None}))
    line = world.last("answered")
    same("the journal has it", (line["status"], line["answer"]), (403, {"error": "right", "rule": None}))


def readings(world: World) -> None:
    """Reads what the gate allows and the office does not."""
    same("the office may read it", world.get("auditor", "/records/1")[0], 200)
    status, _ = world.act("records-manager", {"act": "reclassify", "target": "record:2", "class": "PER1"})
    same("another class", status, 200)
    same("the denial of the office", world.get("auditor", "/records/2"), (403, {"error": "class", "rule": None}))
    line = world.last("read")
    same("the journal has it", (line["name"], line["request"], line["status"]), ("auditor", "GET /records/2", 403))
    status, body = world.get("auditor", f"/due/{today(1)}")
    same("a list has the rows that both allow", (status, [it["record"] for it in body]), (200, [1]))
    same("health is asked by the reader", world.get("monitor", "/alive"), (200, {"records": True}))


def eyes(world: World) -> None:
    """Counts for the rules of the gate what was done alone: a confirmation that the office denied is none."""
    world.office_access(OFFICE.replace("role checking may confirm\n", "role checking may review\n"))
    confirm = [{"act": "confirm", "record": record, "action": "destroy"} for record in (1, 2)]
    status, body = world.act("checker", confirm[0])
    same("the office denies it", (status, body), (403, {"answers": [], "error": "right", "place": 0, "rule": None}))
    same("so the name may open", world.act("checker", {"act": "open-run", "day": today()}), (200, [{"number": 1}]))
    same("nobody confirmed the record", world.office_column("SELECT conf_by FROM records WHERE num = 1"), [None])
    status, body = world.act("records-manager", {"act": "run-step"})
    same("a step", (status, body), (200, [{"certificate": 1}]))
    world.office_access(OFFICE)
    same("now it may confirm one of two", world.act("checker", *confirm), (403, {"answers": [{"done": True}], **DENIED}))
    same("and the gate keeps it from opening", world.act("checker", {"act": "open-run", "day": today()})[1],
         {"error": "eyes", "rule": "confirmer-does-not-open", "place": 0, "record": 1})


def history(world: World, question: str) -> list[tuple[object, ...]]:
    status, body = world.get("records-manager", f"/history?{question}")
    assert status == 200, body
    return [(it["kind"], it["place"], it["status"], it["known"], it["answer"]) for it in body["rows"]]


def histories(world: World) -> None:
    """Compares what the history has of the lists: done before the place, denied from there on."""
    stopped = [it for it in history(world, "name=registry") if it[2] == 403]
    same("the acts of the lists", [(it[0], it[1], it[4]) for it in stopped],
         [("add-record", 0, {**DENIED, "place": 0}),
          ("add-record", 1, DENIED), ("add-record", 0, {"number": 1, "same": True}),
          ("add-record", 2, DENIED), ("add-record", 1, DENIED), ("add-record", 0, {"number": 1})])
    same("all of them are known", {it[3] for it in stopped}, {True})
    same("a record has the act that made it", history(world, "record=1")[-1], ("add-record", 0, 403, True, {"number": 1}))
    since = world.get("records-manager", "/since?moment=2026-01-01T00:00:00Z")[1]["rows"]
    same("what was done since", [it["answer"] for it in since if it["act"]["act"] == "add-record"],
         [{"number": 1}, {"number": 1, "same": True}, {"number": 2}])


def anew(world: World) -> None:
    """Makes what the gate knows anew from its journal, and asks once more."""
    before = history(world, "name=registry")
    world.stop_gate()
    for name in ("facts.db", "history.db"):
        for it in world.state.glob(f"{name}*"):
            it.unlink()
    world.start_gate()
    same("the same history", history(world, "name=registry"), before)
    same("the same rule", world.act("checker", {"act": "open-run", "day": today()})[0], 403)


# ---- what is wrong

def without_secret(world: World) -> None:
    """Starts the office with another secret: each request is 503, and nothing of it is done."""
    world.stop_office()
    (world.folder / "office-token").write_text("z" * 32)
    world.start_office()
    for name, path in (("auditor", "/records/1"), ("monitor", "/alive"), ("auditor", f"/due/{today()}")):
        same(f"{name}: {path}", world.get(name, path), (503, {"error": "office"}))
    same("an act", world.act("legal", {"act": "place-hold", "code": "NONE", "reason": "r"}), (503, {"error": "office"}))
    line = world.last("answered")
    same("the journal has it", (line["status"], line["answer"]), (503, {"error": "office"}))
    same("nothing was done", world.office_column("SELECT code FROM holds"), [])
    judge("the gate names the reason", world.prints("(403 token): compare --office-token"))


def options(folder: pathlib.Path) -> None:
    """Starts with options that are wrong, and settings by which the reader cannot read."""
    world = World(folder, SETTINGS)
    world.decide(SETTINGS)
    words = world.words()
    at, reader = words.index("--office-token"), words.index("--office-reader")
    for name, given in (("no reader", words[:reader] + words[reader + 2:]), ("no token", words[:at] + words[at + 2:])):
        done = begun(given)
        same(name, (done.returncode, done.stderr), (2, "office-gate: --office-token and --office-reader need each other\n"))
    done = begun(words)
    same("a reader without rights", (done.returncode, done.stderr),
         (2, f"office-gate: {world.settings}: the name {READER}, by which this gate asks the office, needs a role that reads "
             "records lists certificates without classes\n"))
    world.settings.write_text(world.settings.read_text() + GATE.removeprefix(SETTINGS))
    (folder / "office-token").write_text("short")
    done = begun(words)
    judge("a short secret", done.returncode == 2 and "has no token of 32 letters" in done.stderr, done.stderr)
    (folder / "office-token").write_text(OFFICE_TOKEN)
    world.start_office()
    world.start_gate()
    world.settings.write_text(world.settings.read_text().replace(f"name {READER} is {READER}\n", ""))
    world.hang_up()
    judge("a reload that takes the reader's rights away is refused", world.prints("the settings stay as they were"))
    same("the gate goes on", world.get("auditor", "/records/1")[0], 404)
    world.end()


def begun(words: list[str]) -> "subprocess.CompletedProcess[str]":
    """Starts a gate that ends at once."""
    return subprocess.run(words, capture_output=True, text=True, check=False, timeout=60)
