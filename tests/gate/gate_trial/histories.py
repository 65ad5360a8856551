"""Who did what to a thing, when and why: the histories that the gate answers from its journal, by a name's rights."""
import json
import pathlib
import signal
import time

from gate_trial.base import filing, made
from kit.judging import judge, same
from gate_trial.world import World, today

CLERK = """
role clerk may confirm hold-on
role clerk reads records catalogue history
name clerk is clerk in BLDG*
name records-manager signs R. Halloran, records manager
"""
DAY = today()
MOST = 200
LONG = 450


def tried(folder: pathlib.Path) -> None:
    world = made(folder, CLERK)
    acted(world)
    things(world)
    changes(world)
    refusals(world)
    rights(world)
    classes(world)
    questions(world)
    long(world)
    lost(world)
    rotated(world)
    since(world)
    judge("the chain holds", world.check().returncode == 0, world.check().stderr)
    world.end()


def asked(world: World, name: str, question: str) -> list[dict]:
    """Returns all rows of a question, from page to page."""
    found, at = [], ""
    while True:
        status, body = world.get(name, f"/history?{question}{at}")
        same(f"{name}: {question}{at}", status, 200)
        if status != 200:
            return found
        judge(f"{question}: at most {MOST} rows", len(body["rows"]) <= MOST, len(body["rows"]))
        found += body["rows"]
        if not body["next"]:
            return found
        at = f"&from={body['next']}"


def kinds(rows: list[dict]) -> list[str]:
    return [it["kind"] for it in rows]


def acted(world: World) -> None:
    """A year of an office in a few lists, each with who and why."""
    lists = (("records-manager", "", [{"act": "add-schedule", "code": "D1", "trigger": "added", "unit": "days", "count": 1,
                                       "offset": "none", "action": "destroy"}]),
             ("records-manager", "the law changed", [{"act": "set-class-schedule", "class": "BLDG1", "schedule": "D1"}]),
             ("records-manager", "", [{"act": "set-class-schedule", "class": "BLDG1", "schedule": "D0"}]),
             ("legal", "a lawsuit", [{"act": "hold-on", "hold": "H", "target": "record:1"},
                                     {"act": "hold-on", "hold": "H", "target": "aggregation:2"}]),
             ("legal", "settled", [{"act": "hold-off", "hold": "H", "target": "record:1"}]),
             ("records-manager", "filed wrongly", [{"act": "reclassify", "target": "record:2", "class": "BLDG1"},
                                                   {"act": "reclassify", "target": "record:2", "class": None}]),
             ("records-manager", "", [{"act": "set-record-schedule", "record": 1, "schedule": "T0"},
                                      {"act": "set-record-schedule", "record": 1, "schedule": None}]),
             ("department", "", [{"act": "confirm", "record": 1, "action": "destroy"}]),
             ("records-manager", "as each month", [{"act": "open-run"}]))
    for name, reason, acts in lists:
        status, said = world.act(name, *acts, Office_Reason=reason.replace(" ", "%20"))
        same(f"{name}: {kinds([{'kind': it['act']} for it in acts])}", status, 200)
    same("the run", world.ask("records-manager", "POST", "/run/resume", b"",
                              {"Office-Reason": "as%20each%20month"})[0], 200)


def things(world: World) -> None:
    """Each thing has its own acts, the newest first, with name, time and reason."""
    rows = asked(world, "auditor", "record=1")
    same("a record, with the run that ended it", kinds(rows), ["resume", "open-run", "confirm", "set-record-schedule",
                                                               "set-record-schedule", "hold-off", "hold-on", "add-record"])
    same("who", [it["name"] for it in rows], ["records-manager", "records-manager", "department", "records-manager",
                                              "records-manager", "legal", "legal", "records-manager"])
    same("who, as the office has it", rows[0]["by"], "R. Halloran, records manager")
    same("why", [it["reason"] for it in rows[5:7]], ["settled", "a lawsuit"])
    line = next(it for it in world.lines() if it["line"] == rows[5]["line"])
    same("when", rows[5]["at"], line["at"])
    same("what", (rows[5]["act"], rows[5]["answer"], rows[5]["status"]),
         ({"day": DAY, "hold": "H", "target": "record:1"}, {"done": True}, 200))
    same("a record's ref and title, and nothing of its content", rows[-1]["act"],
         {"day": DAY, "ref": "r1", "title": "title 1", "originated": DAY, "aggregation": 1})
    same("a hold", kinds(asked(world, "auditor", "hold=H")), ["hold-off", "hold-on", "hold-on", "place-hold"])
    same("a class", kinds(asked(world, "auditor", "class=BLDG1")),
         ["reclassify", "set-class-schedule", "set-class-schedule", "add-aggregation", "add-class"])
    same("an aggregation", kinds(asked(world, "auditor", "aggregation=2")), ["hold-on", "add-record", "add-aggregation"])
    same("a schedule", kinds(asked(world, "auditor", "schedule=D1")), ["set-class-schedule", "add-schedule"])
    same("a run", kinds(asked(world, "auditor", "run=1")), ["resume", "open-run"])
    same("why a run was carried out", asked(world, "auditor", "run=1")[0]["reason"], "as each month")
    same("a name", kinds(asked(world, "auditor", "name=legal")), ["hold-off", "hold-on", "hold-on", "place-hold"])
    same("of nobody", asked(world, "auditor", "name=nobody"), [])


def changes(world: World) -> None:
    """What an act changed has the value before, if the journal has that."""
    rows = [it["change"] for it in asked(world, "auditor", "class=BLDG1") if it["kind"] == "set-class-schedule"]
    same("the schedule of a class", rows, [{"what": "schedule", "from": "D1", "to": "D0"},
                                           {"what": "schedule", "from": "D0", "to": "D1"}])
    rows = [it["change"] for it in asked(world, "auditor", "record=2") if it["kind"] == "reclassify"]
    same("the class of a record", rows, [{"what": "class", "from": "BLDG1", "to": None},
                                         {"what": "class", "from": None, "to": "BLDG1"}])
    rows = [it["change"] for it in asked(world, "auditor", "record=1") if it["kind"] == "set-record-schedule"]
    same("the schedule of a record", rows, [{"what": "schedule", "from": "T0", "to": None},
                                            {"what": "schedule", "from": None, "to": "T0"}])


def refusals(world: World) -> None:
    """What the office or the gate refused is there too, with the answer."""
    world.act("legal", {"act": "lift-hold", "hold": "NONE"}, Office_Reason="a%20mistake")
    row = asked(world, "auditor", "hold=NONE")[0]
    same("refused by the office", (row["status"], row["answer"], row["reason"]), (409, {"refused": 5}, "a mistake"))
    world.act("clerk", {"act": "hold-on", "hold": "NONE", "target": "record:2"})
    row = asked(world, "auditor", "hold=NONE")[0]
    same("refused by the gate", (row["name"], row["status"], row["answer"]["error"]), ("clerk", 403, "class"))
    world.act("registry", {"act": "lift-hold", "hold": "NONE"})
    same("a name without the right leaves no text of its own", len(asked(world, "auditor", "hold=NONE")), 2)


def rights(world: World) -> None:
    for name in ("registry", "department", "archive", "monitor", "stranger"):
        same(f"{name} reads no history", world.get(name, "/history?record=1"), (403, {"error": "right", "read": "history"}))
    for name in ("legal", "records-manager", "auditor"):
        same(f"{name} reads histories", world.get(name, "/history?record=1")[0], 200)


def classes(world: World) -> None:
    """A name that is limited to classes sees what was done in these, by whomever."""
    same("a record of its class", kinds(asked(world, "clerk", "record=1")),
         ["confirm", "set-record-schedule", "set-record-schedule", "hold-off", "hold-on", "add-record"])
    foreign = {"error": "class", "read": "history"}
    for question in ("record=2", "aggregation=2", "class=PER1"):
        same(f"clerk: {question}", world.get("clerk", f"/history?{question}"), (403, foreign))
    same("clerk: a hold", [it["act"].get("target") for it in asked(world, "clerk", "hold=H")], ["record:1", "record:1"])
    for question in ("schedule=D0", "run=1", "name=legal", "name=records-manager", "class=BLDG1", "aggregation=1"):
        rows = json.dumps(asked(world, "clerk", question))
        judge(f"clerk: nothing of a foreign class in {question}", not any(
            it in rows for it in ("PER1", "r2", "title 2", "record:2", "aggregation:2", '"B"')), rows)
    judge("clerk: what a name did in its classes", kinds(asked(world, "clerk", "name=records-manager")).count("add-record"),
          asked(world, "clerk", "name=records-manager"))
    # a record that is moved out of its classes takes its history along
    world.act("records-manager", filing(30, 1), Office_Reason="moved")
    number = asked(world, "auditor", "aggregation=1")[0]["answer"]["number"]
    same("clerk: a new record", kinds(asked(world, "clerk", f"record={number}")), ["add-record"])
    world.act("records-manager", {"act": "reclassify", "target": f"record:{number}", "class": "PER1"})
    same("clerk: once it is foreign", world.get("clerk", f"/history?record={number}"), (403, foreign))
    judge("clerk: it is in no other history", "title 30" not in json.dumps([asked(world, "clerk", it) for it in (
        "aggregation=1", "name=records-manager", "class=BLDG1")]))


def questions(world: World) -> None:
    for question in ("", "record=", "record=0", "record=01", "record=1&record=2", "record=x", "content=1", "class=a_b",
                     "record=1&from=", "record=1&from=x", "record=1&to=5", "record=1&from=1&from=2", "name=a%20b"):
        status, said = world.get("auditor", f"/history?{question}")
        same(f"history?{question}", (status, said), (404, {"error": "path"}))
    for path in ("/history", "/history/record=1", "/since", "/since?moment=now", "/since?moment=2026-99-01T00:00:00Z"):
        same(path, world.get("auditor", path), (404, {"error": "path"}))
    same("of a record that is not there", world.get("auditor", "/history?record=999"), (404, {"error": "record"}))
    same("not to be posted to", world.ask("auditor", "POST", "/history?record=1", b"")[0], 405)


def long(world: World) -> None:
    """A long history comes in parts, none of which leaves out anything, also in the middle of one request."""
    world.act("legal", {"act": "place-hold", "code": "LONG", "reason": "many"})
    acts = [{"act": "hold-on", "hold": "LONG", "target": f"record:{it}"} for it in range(1000, 1000 + LONG)]
    world.act("legal", *acts)
    rows = asked(world, "auditor", "hold=LONG")
    same("all of it, the newest first", [it["act"].get("target") for it in rows],
         [it["target"] for it in reversed(acts)] + [None])
    middle = rows[100]
    status, said = world.get("auditor", f"/history?hold=LONG&from={middle['line']}")
    same("from a line on", (status, said["rows"][0]["line"], said["rows"][0]["place"]), (200, middle["line"], LONG - 1))


def lost(world: World) -> None:
    """The index is made anew if it is lost or damaged, or was made from another journal."""
    wanted = [asked(world, "auditor", it) for it in ("record=1", "hold=H", "class=BLDG1", "name=legal")]
    index = world.state / "history.db"
    for damage in (None, b"no database", b"another"):
        world.stop_gate()
        if damage == b"another":
            other = json.dumps({"before": "0" * 64, "line": 7, "at": "2026-01-01T00:00:00+00:00", "what": "opened"}).encode()
            kept = world.journal.read_bytes()
            world.journal.write_bytes(other + b"\n")
            world.start_gate()
            same("of another journal", asked(world, "auditor", "name=legal"), [])
            world.stop_gate()
            world.journal.write_bytes(kept)
        elif damage:
            index.write_bytes(damage)
        else:
            for it in world.state.glob("history.db*"):
                it.unlink()
        world.start_gate()
        seen = [asked(world, "auditor", it) for it in ("record=1", "hold=H", "class=BLDG1", "name=legal")]
        judge(f"made anew after {damage!r}", seen == wanted, [list(map(len, seen)), list(map(len, wanted))])


def rotated(world: World) -> None:
    """What is in older files is there, and stays there once these are put away."""
    before = kinds(asked(world, "auditor", "hold=H"))
    older = world.journal.with_name("journal-20261128")
    world.journal.rename(older)
    world.gate.send_signal(signal.SIGHUP)
    for _ in range(200):
        if world.journal.exists():
            break
        time.sleep(0.01)
    world.act("legal", {"act": "hold-off", "hold": "H", "target": "aggregation:2"}, Office_Reason="after")
    same("both files", kinds(asked(world, "auditor", "hold=H")), ["hold-off", *before])
    world.stop_gate()
    for it in world.state.glob("history.db*"):
        it.unlink()
    world.start_gate()
    same("both files, anew", kinds(asked(world, "auditor", "hold=H")), ["hold-off", *before])
    older.rename(world.folder / "away")
    world.act("legal", {"act": "hold-on", "hold": "H", "target": "aggregation:2"})
    same("the older one is put away", kinds(asked(world, "auditor", "hold=H")), ["hold-on", "hold-off", *before])
    (world.folder / "away").rename(older)


def since(world: World) -> None:
    """What was done since a catalogue, in order and by classes; nothing that was refused."""
    moment = time.strftime("%Y-%m-%dT%H:%M:%SZ", time.gmtime(time.time() + 5))
    same("nothing yet", world.get("auditor", f"/since?moment={moment}"), (200, {"rows": [], "last": "0.0", "more": False}))
    earlier = time.strftime("%Y-%m-%dT%H:%M:%SZ", time.gmtime(time.time() - 3600))
    count = len(since_of(world, "auditor", earlier))
    world.act("legal", {"act": "place-hold", "code": "NEW", "reason": "since"}, {"act": "lift-hold", "hold": "NONE"},
              {"act": "hold-on", "hold": "NEW", "target": "record:2"})
    world.act("records-manager", filing(60, 1), filing(61, 2))
    rows = since_of(world, "auditor", earlier)[count:]
    same("what was done, in order", [it["act"]["act"] for it in rows], ["place-hold", "hold-on", "add-record", "add-record"])
    judge("the number of what was made", all(it["answer"]["number"] for it in rows[2:]), rows)
    judge("neither names nor reasons", not any({"name", "reason", "by"} & it.keys() for it in rows), rows)
    mine = since_of(world, "clerk", earlier)
    judge("its own", "title 60" in json.dumps(mine), mine)
    judge("none of others", not any(it in json.dumps(mine) for it in ("title 61", "record:2", "PER1", '"B"')), mine)
    same("who reads no catalogue", world.get("monitor", f"/since?moment={earlier}"),
         (403, {"error": "right", "read": "catalogue"}))


def since_of(world: World, name: str, moment: str) -> list[dict]:
    found, at = [], ""
    while True:
        status, body = world.get(name, f"/since?moment={moment}{at}")
        same(f"{name}: since {moment}{at}", status, 200)
        found += body["rows"]
        at = f"&after={body['last']}"
        if not body["more"]:
            judge("nothing comes twice", world.get(name, f"/since?moment={moment}{at}")[1]["rows"] == [])
            return found
