"""The catalogue of a name that is limited to classes, made by the real program: its own titles, and nothing of others."""
import gzip
import json
import os
import pathlib
import subprocess
import time

from gate_trial.base import SETTINGS, filing
from kit.companions import companion
from kit.judging import judge, same
from gate_trial.world import OFFICE, World, today

MORE = """
role clerk reads catalogue records lists history
name clerk is clerk in BLDG*
name other is clerk in PER1
name both is clerk in BLDG1
name both is clerk in PER1
"""
DAY = today()
PARTS = ("about", "schedules", "classes", "aggregations", "holds", "records", "details", "receipts", "todo", "runs", "awaiting")
OWN = ("about", "schedules", "classes", "aggregations", "holds", "records", "details", "receipts", "todo")
MARK = "SECRET"
"""in each ref, title and reason of a foreign class, and in the code of each"""
FOREIGN = "SECRET1"


def titled(act: dict, name: str, **more: object) -> dict:
    return {**act, "ref": name, "title": f"title of {name}", **more}


def plan() -> list[dict]:
    """Files within one another, records with classes of their own, and holds on both sides."""
    rule = {"act": "add-schedule", "trigger": "added", "unit": "days", "count": 0, "offset": "none", "action": "destroy"}
    event = {**rule, "trigger": "event", "count": 5}
    file = {"act": "add-aggregation"}
    return [{**rule, "code": "D0"}, {**rule, "code": "T0", "action": "transfer"}, {**event, "code": "OWN-RULE"},
            {**event, "code": "SECRET-RULE"},
            {"act": "add-class", "code": "BLDG1", "title": "buildings", "schedule": "D0"},
            {"act": "add-class", "code": "BLDG2", "title": "bridges", "schedule": "T0"},
            {"act": "add-class", "code": "bldg3", "title": f"{MARK} in small letters", "schedule": "D0"},
            {"act": "add-class", "code": FOREIGN, "title": f"{MARK} persons", "schedule": "SECRET-RULE"},
            # 1 own; 2 foreign; 3 own in a foreign one; 4 foreign in an own one; 5 inherits from 1; 6 inherits from 2
            titled(file, "own-1", **{"class": "BLDG1"}), titled(file, f"{MARK}-2", **{"class": FOREIGN}),
            titled(file, "own-3", parent=2, **{"class": "BLDG2"}), titled(file, f"{MARK}-4", parent=1, **{"class": FOREIGN}),
            titled(file, "own-5", parent=1), titled(file, f"{MARK}-6", parent=2),
            titled(file, f"{MARK}-7", **{"class": "bldg3"}),
            titled(filing(0, 1), "own-a"), titled(filing(0, 2), f"{MARK}-b"), titled(filing(0, 3), "own-c"),
            titled(filing(0, 4), f"{MARK}-d"), titled(filing(0, 5), "own-e", schedule="OWN-RULE"),
            titled(filing(0, 6), f"{MARK}-f"),
            # 7 of its own class in a foreign file, 8 of a foreign class in its own one
            titled(filing(0, 2), "own-g", **{"class": "BLDG1"}), titled(filing(0, 1), f"{MARK}-h", **{"class": FOREIGN}),
            titled(filing(0, 7), f"{MARK}-i"), titled(filing(0, 3), "own-j"), titled(filing(0, 6), f"{MARK}-k")]


HOLDS = [{"act": "place-hold", "code": "BOTH", "reason": "a reason of both"},
         *({"act": "hold-on", "hold": "BOTH", "target": it} for it in ("record:1", "record:2", "aggregation:2", "aggregation:3",
                                                                      f"class:{FOREIGN}", "class:BLDG2")),
         {"act": "place-hold", "code": "SECRET-HOLD", "reason": f"{MARK} reason"},
         {"act": "hold-on", "hold": "SECRET-HOLD", "target": "record:4"},
         {"act": "place-hold", "code": "ABOVE", "reason": "on the file above"},
         {"act": "hold-on", "hold": "ABOVE", "target": "aggregation:2"}]
OWN_RECORDS = [1, 3, 5, 7, 10]
OWN_FILES = [1, 3, 5]


def tried(folder: pathlib.Path) -> None:
    world = World(folder, SETTINGS + MORE)
    world.catalogue.mkdir()
    world.start_office()
    world.start_gate()
    same("the plan", world.act("records-manager", *plan())[0], 200)
    same("the holds", world.act("legal", *HOLDS)[0], 200)
    same("what was sent", world.act("records-manager", {"act": "confirm", "record": 10, "action": "transfer"},
                                    {"act": "open-run"})[0], 200)
    same("by a run", world.ask("records-manager", "POST", "/run/resume", b"")[0], 200)
    for name in ("clerk", "auditor"):
        same(f"{name}: no catalogue yet", world.ask(name, "GET", "/catalogue/about.json")[0], 404)
    make(world)
    whole(world)
    titles(world)
    places(world)
    secrets(world)
    names(world)
    moved(world)
    kept(world)
    judge("the chain holds", world.check().returncode == 0, world.check().stderr)
    world.end()


def make(world: World) -> None:
    """Makes the catalogue, as its timer does."""
    copy = world.folder / "copy.db"
    copy.unlink(missing_ok=True)
    for command, *words in (("office-backup", world.file, copy), ("office-catalogue", copy, world.catalogue)):
        done = subprocess.run([companion(str(command)), *words], capture_output=True, text=True, check=False,
                              env={**os.environ, "OFFICE": OFFICE})
        judge(command, done.returncode == 0, done.stderr)


def part(world: World, name: str, which: str) -> dict:
    status, body = world.ask(name, "GET", f"/catalogue/{which}.json")
    same(f"{name}: {which}", status, 200)
    return json.loads(gzip.decompress(body)) if status == 200 else {which: []}


def rows(world: World, name: str, which: str) -> list:
    return part(world, name, which)[which]


def whole(world: World) -> None:
    """Who may read all has the files as they were made."""
    for it in PARTS:
        status, body = world.ask("auditor", "GET", f"/catalogue/{it}.json")
        same(f"auditor: {it}", (status, body), (200, (world.catalogue / "now" / f"{it}.json.gz").read_bytes()))
    for path in ("/catalogue/none.json", "/catalogue/../now/records.json", "/catalogue/records.json.gz", "/catalogue/"):
        same(f"auditor: {path}", world.ask("auditor", "GET", path)[0], 404)
    for it in ("runs", "awaiting", "none"):
        same(f"clerk: {it}", world.ask("clerk", "GET", f"/catalogue/{it}.json"),
             (403, b'{"error":"class","read":"catalogue"}'))


def titles(world: World) -> None:
    """A name with classes sees each title of these, with all that belongs to it."""
    same("records", [it[0] for it in rows(world, "clerk", "records")], OWN_RECORDS)
    same("their titles", [it[2] for it in rows(world, "clerk", "records")], [f"title of own-{it}" for it in "acegj"])
    files = {it["number"]: it for it in rows(world, "clerk", "aggregations")}
    same("files", list(files), OWN_FILES)
    same("what they lie in", [files[it]["parent"] for it in OWN_FILES], [None, None, 1])
    same("what is in them", [(files[it]["here"], files[it]["sent"]) for it in OWN_FILES], [(1, 0), (1, 1), (1, 0)])
    same("classes", [it["code"] for it in rows(world, "clerk", "classes")], ["BLDG1", "BLDG2"])
    same("schedules", [it["code"] for it in rows(world, "clerk", "schedules")], ["D0", "OWN-RULE", "T0"])
    holds = {it["code"]: it for it in rows(world, "clerk", "holds")}
    same("holds", list(holds), ["ABOVE", "BOTH"])
    same("their targets", (holds["ABOVE"]["targets"], holds["BOTH"]["targets"]),
         ([], ["aggregation:3", "class:BLDG2", "record:1"]))
    todo = rows(world, "clerk", "todo")[0]
    same("what was sent", [it[0] for it in todo["sent"]], [10])
    same("what waits for an event", todo["waiting"], [{"class": "BLDG1", "schedule": "OWN-RULE", "count": 1}])
    about = part(world, "clerk", "about")
    same("counts", about["about"][0], {"day": DAY, "schedules": 3, "classes": 2, "aggregations": 3, "holds": 2, "records": 5})
    same("the moment", {part(world, "clerk", it)["moment"] for it in OWN}, {part(world, "auditor", "about")["moment"]})
    same("the shipped department", rows(world, "department", "records"), rows(world, "clerk", "records"))


def details(world: World, name: str) -> dict[int, list]:
    """The details of each record, with codes in the place of their places."""
    columns, records = rows(world, name, "details"), rows(world, name, "records")
    codes = {at: [it["code"] for it in rows(world, name, which)]
             for at, which in ((2, "classes"), (3, "schedules"), (6, "holds"))}
    judge(f"{name}: a detail for each record", all(len(it) == len(records) for it in columns), columns)
    return {row[0]: [None if it[at] is None else codes[place][it[at]] if place in codes else it[at]
                     for place, it in enumerate(columns)] for at, row in enumerate(records)}


def places(world: World) -> None:
    """Class, schedule, due day and hold of each record are those of the whole catalogue."""
    of_all, mine = details(world, "auditor"), details(world, "clerk")
    same("details", mine, {it: of_all[it] for it in OWN_RECORDS})
    same("a hold from above", mine[7][6], "ABOVE")


def secrets(world: World) -> None:
    """No byte that a name with classes gets names what is of another one."""
    paths = [f"/catalogue/{it}.json" for it in PARTS] + [f"/due/{DAY}", f"/overdue/{today(40)}/30", "/rights",
                                                         "/since?moment=2026-01-01T00:00:00Z"]
    paths += [f"/records/{it}" for it in range(1, 13)] + [f"/history?record={it}" for it in range(1, 13)]
    paths += [f"/history?aggregation={it}" for it in range(1, 8)]
    paths += [f"/history?{it}" for it in ("hold=BOTH", "hold=SECRET-HOLD", "hold=ABOVE", f"class={FOREIGN}", "class=BLDG1",
                                          "schedule=SECRET-RULE", "schedule=D0", "run=1", "name=legal",
                                          "name=records-manager")]
    for name in ("clerk", "department"):
        for path in paths:
            status, body = world.ask(name, "GET", path)
            if body[:2] == b"\x1f\x8b":
                body = gzip.decompress(body)
            judge(f"{name}: {path} has nothing of others", MARK.encode() not in body, body)
    judge("but who may read all has it", MARK in json.dumps(rows(world, "auditor", "records")))


def names(world: World) -> None:
    """Each set of classes has its own files; a limit of another name does not change them."""
    same("others", [it[0] for it in rows(world, "other", "records")], [])
    world.reload(SETTINGS + MORE.replace("PER1", FOREIGN))
    same("others, once they may", [it[0] for it in rows(world, "other", "records")], [2, 4, 6, 8, 11])
    same("both", [it[0] for it in rows(world, "both", "records")], [1, 2, 4, 5, 6, 7, 8, 11])
    same("the first ones still", [it[0] for it in rows(world, "clerk", "records")], OWN_RECORDS)
    world.reload(SETTINGS + MORE.replace("name clerk is clerk in BLDG*", "name clerk is clerk in BLDG2"))
    same("fewer classes at once", [it[0] for it in rows(world, "clerk", "records")], [3, 10])
    world.reload(SETTINGS + MORE)


def moved(world: World) -> None:
    """What gets another class after the making is in no catalogue of a name with classes until the next one."""
    same("off the holds", world.act("legal", {"act": "hold-off", "hold": "BOTH", "target": f"class:{FOREIGN}"},
                                    {"act": "hold-off", "hold": "BOTH", "target": "class:BLDG2"})[0], 200)
    same("given", world.act("records-manager", {"act": "reclassify", "target": "record:1", "class": FOREIGN},
                            {"act": "reclassify", "target": "aggregation:3", "class": FOREIGN},
                            {"act": "reclassify", "target": "record:2", "class": "BLDG1"})[0], 200)
    same("records", [it[0] for it in rows(world, "clerk", "records")], [5, 7])
    same("files", [it["number"] for it in rows(world, "clerk", "aggregations")], [1, 5])
    same("targets", [it["targets"] for it in rows(world, "clerk", "holds")], [[], ["class:BLDG2"]])
    time.sleep(3.1)
    make(world)
    same("after the next one", [it[0] for it in rows(world, "clerk", "records")], [2, 5, 7])


def kept(world: World) -> None:
    """What was made is there once, whoever asks how often; what is older goes."""
    def folders() -> list[str]:
        return sorted(str(it.relative_to(world.state)) for it in (world.state / "catalogues").glob("*/*"))
    before = folders()
    judge("one folder for each set of classes that asked", len(before) == len({it.split("/")[1] for it in before}), before)
    stamps = {it: (world.state / it).stat().st_mtime_ns for it in before}
    for it in OWN:
        part(world, "clerk", it)
    same("nothing is made twice", {it: (world.state / it).stat().st_mtime_ns for it in folders()}, stamps)
    judge("nobody else reads it", all((world.state / it).stat().st_mode & 0o007 == 0 for it in before),
          [oct((world.state / it).stat().st_mode) for it in before])
