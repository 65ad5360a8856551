"""A right for some classes: acts and readings that would reach into another one."""
import gzip
import json
import pathlib
import resource
import time

from gate_trial.base import SETTINGS, filing, made
from kit.judging import judge, same
from gate_trial.world import World, today

CLERK = """
role clerk may reclassify confirm review event set-record-schedule set-class-schedule add-class add-record
role clerk may add-aggregation close-aggregation hold-on hold-off lift-hold place-hold add-schedule receipt
role clerk reads records contents lists certificates catalogue
name clerk is clerk in BLDG*
"""
MINE, FOREIGN = "BLDG1", "PER1"


def tried(folder: pathlib.Path) -> None:
    world = made(folder, CLERK)
    foreign(world)
    lists(world)
    own(world)
    behind(world)
    read(world)
    catalogue(world)
    unknown(world)
    judge("the chain holds", world.check().returncode == 0, world.check().stderr)
    world.end()


def refused(world: World, what: str, *acts: dict, place: int | None = None) -> None:
    count = sum(it["what"] == "asked" for it in world.lines())
    status, said = world.act("clerk", *acts)
    seen = said if isinstance(said, dict) else {}
    same(what, (status, seen.get("error")), (403, "class"))
    if place is not None:
        same(f"{what}: the place", seen.get("place"), place)
    same(f"{what}: it was not sent", sum(it["what"] == "asked" for it in world.lines()), count)
    same(f"{what}: it is in the journal", [it["act"] for it in world.last("refused")["acts"]],
         [it["act"] for it in acts])


def foreign(world: World) -> None:
    """One act that is about a class of others."""
    for act in ({"act": "confirm", "record": 2, "action": "destroy"}, {"act": "review", "record": 2},
                {"act": "event", "record": 2, "occurred": today()},
                {"act": "set-record-schedule", "record": 2, "schedule": "D0"},
                {"act": "receipt", "record": 2, "digest": "0" * 64}, {"act": "close-aggregation", "aggregation": 2},
                {"act": "set-class-schedule", "class": FOREIGN, "schedule": "D0"},
                {"act": "add-class", "code": "PER2", "title": "t", "schedule": "D0"},
                {"act": "add-class", "code": "bldg2", "title": "t", "schedule": "D0"},
                {"act": "hold-on", "hold": "H", "target": "record:2"},
                {"act": "hold-off", "hold": "H", "target": "record:2"},
                {"act": "hold-on", "hold": "H", "target": "aggregation:2"},
                {"act": "hold-on", "hold": "H", "target": f"class:{FOREIGN}"},
                {"act": "hold-on", "hold": "H", "target": "record:02"},
                {"act": "hold-on", "hold": "H", "target": "record:\u0662"},
                {"act": "hold-on", "hold": "H", "target": "Record:2"}, {"act": "hold-on", "hold": "H", "target": None},
                filing(9, 2), filing(9, 2, **{"class": MINE}), filing(9, 1, **{"class": FOREIGN}),
                {"act": "add-aggregation", "ref": "X", "title": "X", "parent": 2, "class": MINE},
                {"act": "add-aggregation", "ref": "X", "title": "X", "parent": 1, "class": FOREIGN},
                {"act": "add-aggregation", "ref": "X", "title": "X", "class": FOREIGN},
                {"act": "add-aggregation", "ref": "X", "title": "X"}):
        refused(world, f"{act}", act)
    for act in ({"act": "lift-hold", "hold": "H"}, {"act": "place-hold", "code": "X", "reason": "r"},
                {"act": "add-schedule", "code": "X", "trigger": "added", "unit": "days", "count": 0, "offset": "none",
                 "action": "destroy"}):
        refused(world, f"{act['act']} lies in no class", act)
    for number in ("2.0", "2e0", '"2"', "02", " 2", "4294967298"):
        status, said = world.text("clerk", f'[{{"act":"confirm","day":"{today()}","record":{number},"action":"destroy"}}]')
        judge(f"record {number}", (status, said["error"]) in ((403, "class"), (400, "json")),
              (status, said))


def lists(world: World) -> None:
    """A list whose first act makes the second one look like one's own."""
    confirm = {"act": "confirm", "record": 2, "action": "destroy"}
    for target, code in (("record:2", MINE), ("aggregation:2", MINE), ("record:1", FOREIGN), ("aggregation:1", FOREIGN),
                         ("record:2", None), ("record:99", MINE)):
        refused(world, f"{target} into {code}", {"act": "reclassify", "target": target, "class": code}, confirm,
                place=0)
    refused(world, "a record that the list files", filing(3, 1), {"act": "confirm", "record": 3, "action": "destroy"},
            place=1)
    refused(world, "an aggregation that the list makes", {"act": "add-aggregation", "ref": "C", "title": "C",
                                                          "class": MINE},
            filing(3, 3), place=1)
    # a record of its own class in a foreign aggregation, which null gives back to that one
    world.act("records-manager", {"act": "reclassify", "target": "record:2", "class": MINE})
    refused(world, "null in a foreign aggregation", {"act": "reclassify", "target": "record:2", "class": None}, place=0)
    status, _ = world.act("clerk", {"act": "set-record-schedule", "record": 2, "schedule": "D0"})
    same("while it is in one's class, one may", status, 200)
    world.act("records-manager", {"act": "reclassify", "target": "record:2", "class": None},
              {"act": "set-record-schedule", "record": 2, "schedule": None})
    refused(world, "and once it is not, one may not", confirm)
    # a class that the list gives counts for the whole list
    more = "role mover may reclassify\nrole owner may confirm\nname clerk is mover\nname clerk is owner in BLDG*\n"
    world.reload(SETTINGS + more)
    refused(world, "given and confirmed in one list", {"act": "reclassify", "target": "record:1", "class": FOREIGN},
            {"act": "confirm", "record": 1, "action": "destroy"}, place=1)
    refused(world, "the file given, its record confirmed", {"act": "reclassify", "target": "aggregation:1",
                                                            "class": FOREIGN},
            {"act": "confirm", "record": 1, "action": "destroy"}, place=1)
    # what null gives back counts too
    world.act("records-manager", {"act": "reclassify", "target": "record:2", "class": MINE})
    refused(world, "given back by null and confirmed in one list",
            {"act": "reclassify", "target": "record:2", "class": None}, confirm, place=1)
    world.act("records-manager", {"act": "reclassify", "target": "record:2", "class": None})
    world.reload(SETTINGS + CLERK)


def own(world: World) -> None:
    """What is about one's own classes passes, also where the class is that of a file above."""
    status, said = world.act("clerk", {"act": "add-class", "code": "BLDG2", "title": "t", "schedule": "D0"},
                             {"act": "add-aggregation", "ref": "C", "title": "C", "parent": 1},
                             filing(3, 1, **{"class": "BLDG1"}), {"act": "event", "record": 1, "occurred": today()},
                             {"act": "hold-on", "hold": "H", "target": "aggregation:1"})
    same("one's own", (status, said), (200, [{"done": True}, {"number": 3}, {"number": 3}, {"done": True},
                                             {"done": True}]))
    status, said = world.act("clerk", filing(4, 3), {"act": "reclassify", "target": "aggregation:3", "class": "BLDG2"})
    same("in a file of a moment ago", (status, said), (200, [{"number": 4}, {"done": True}]))
    status, said = world.act("clerk", {"act": "reclassify", "target": "aggregation:3", "class": None},
                             {"act": "hold-off", "hold": "H", "target": "aggregation:1"})
    same("and back", (status, said), (200, [{"done": True}, {"done": True}]))
    world.act("records-manager", {"act": "reclassify", "target": "aggregation:3", "class": FOREIGN})
    refused(world, "a file that somebody else gave another class", filing(5, 3))


def behind(world: World) -> None:
    """A class that was given while the disk took nothing but the journal counts for the next act."""
    file = world.act("clerk", {"act": "add-aggregation", "ref": "D", "title": "D", "parent": 1})[1][0]["number"]
    same("one's own file", world.act("clerk", filing(50, file))[0], 200)
    noted = world.state / "facts.db-wal"
    judge("the journal is the shorter file", world.journal.stat().st_size < noted.stat().st_size - 4000)
    resource.prlimit(world.gate.pid, resource.RLIMIT_FSIZE, (noted.stat().st_size, resource.RLIM_INFINITY))
    status, _ = world.act("records-manager", {"act": "reclassify", "target": f"aggregation:{file}", "class": FOREIGN})
    same("another class is given", status, 200)
    judge("and not noted", "is not noted" in (world.folder / "log").read_text())
    same("as long as it is not, nobody acts", world.act("clerk", filing(51, file)), (503, {"error": "journal"}))
    resource.prlimit(world.gate.pid, resource.RLIMIT_FSIZE, (resource.RLIM_INFINITY, resource.RLIM_INFINITY))
    refused(world, "the file is no longer one's own", filing(51, file))
    same("what is one's own passes", world.act("clerk", filing(51, 1))[0], 200)


def read(world: World) -> None:
    """Readings show what lies in one's classes."""
    for path, status in (("/records/1", 200), ("/records/2", 403), ("/records/4", 403), ("/records/1/content", 200),
                         ("/records/2/content", 403), ("/records/99", 404), ("/records/99/content", 404),
                         ("/certificates/1", 403)):
        same(f"clerk reads {path}", world.ask("clerk", "GET", path)[0], status)
    for path in (f"/due/{today()}", f"/overdue/{today(40)}/30"):
        whole, mine = (world.ask(it, "GET", path)[1] for it in ("auditor", "clerk"))
        rows = [it for it in json.loads(whole) if it["class"].startswith("BLDG")]
        same(f"{path} is filtered", json.loads(mine), rows)
        judge(f"{path}: there is something of both", 0 < len(rows) < len(json.loads(whole)), whole)
        judge(f"{path}: each row as the office wrote it", all(it in whole for it in mine[1:-1].split(b"},{")))
    same("a list with nothing in it", world.ask("clerk", "GET", "/due/2001-01-01"), (200, b"[]"))
    # a title that looks like a row
    world.act("registry", filing(6, 1) | {"ref": '"},{"class":"BLDG1","ref":"x'},
              filing(7, 2) | {"ref": '},{"class":"BLDG1"'})
    refs = [it["ref"] for it in world.get("clerk", f"/due/{today()}")[1]]
    judge("a ref that looks like a row", '"},{"class":"BLDG1","ref":"x' in refs and '},{"class":"BLDG1"' not in refs,
          refs)
    for verb, path in (("GET", "/records/2/files"), ("GET", "/records/2/files/1"), ("GET", "/catalogue/records.json")):
        same(f"{verb} {path}", world.ask("clerk", "GET", "/may", None, {"Office-Method": verb, "Office-Path": path})[0],
             403)
    same("one's own files", world.ask("clerk", "GET", "/may", None,
                                      {"Office-Method": "GET", "Office-Path": "/records/1/files/1"})[0], 204)


def write_catalogue(world: World, moment: float, rows: list[dict], runs: list[dict] | None = None) -> None:
    """Puts a catalogue in place, as office-catalogue does."""
    stamp = world.catalogue / f"{moment}"
    stamp.mkdir(parents=True)
    at = time.strftime("%Y-%m-%dT%H:%M:%SZ", time.gmtime(moment))
    for name, value in (("aggregations", rows), ("runs", runs or [])):
        (stamp / f"{name}.json.gz").write_bytes(gzip.compress(json.dumps({"moment": at, name: value}).encode()))
    new = world.catalogue / "new"
    new.symlink_to(stamp)
    new.rename(world.catalogue / "now")


def catalogue(world: World) -> None:
    """Files from before the gate are known by the catalogue; what was done since counts more."""
    rows = [{"number": it, "parent": None, "class": MINE} for it in range(1, 30)]
    write_catalogue(world, time.time() - 3600, rows)
    # from the first act on, before anything else is done
    refused(world, "the journal knows better", filing(8, 2))
    refused(world, "and of a class that was given since", filing(8, 3))
    status, said = world.act("clerk", filing(8, 20))
    same("a file that the catalogue knows", (status, said), (409, [{"refused": 5}]))
    refused(world, "it still does after an act", filing(8, 2))
    ahead(world, [{**it, "class": MINE if it["number"] == 1 else FOREIGN} for it in rows])
    write_catalogue(world, time.time() - 3600, rows)
    refused(world, "nor does an older one", filing(8, 2))


def ahead(world: World, rows: list[dict]) -> None:
    """A catalogue whose clock was a minute ahead, and was put right since, hides nothing that was done after it."""
    move = {"act": "reclassify", "target": "aggregation:1"}
    same("a file gets a foreign class", world.act("records-manager", {**move, "class": FOREIGN})[0], 200)
    write_catalogue(world, time.time() + 60, rows)
    refused(world, "a catalogue of a clock that was ahead does not hide that", filing(8, 1))
    same("and gets back its own", world.act("records-manager", {**move, "class": MINE})[0], 200)
    same("that is known too", world.act("clerk", filing(8, 1, b"x", ref="after"))[0], 200)


def unknown(world: World) -> None:
    """After a start without what it had noted the gate knows the same; a file that nobody knows is nobody's."""
    world.start_without_facts()
    refused(world, "after a start, from the journal", filing(8, 3))
    for damage in (b"no database", None):
        world.stop_gate()
        facts = world.state / "facts.db"
        whole = facts.read_bytes()
        # or of each page but the first one the half
        facts.write_bytes(damage or whole[:4096] + b"".join(whole[at:at + 2048] + b"\xff" * 2048
                                                            for at in range(4096, len(whole), 4096)))
        world.start_gate()
        refused(world, "what it had noted is damaged", filing(8, 3))
        judge("it says so", "is made anew" in (world.folder / "log").read_text())
    same("one's own after a start", world.act("clerk", filing(8, 1))[0], 200)
    refused(world, "a file that nobody knows", filing(9, 40))
    world.stop_gate()
    for it in [*world.catalogue.iterdir()]:
        if it.is_symlink():
            it.unlink()
    world.start_gate()
    refused(world, "without a catalogue, what it alone had", filing(9, 20))
    same("what the journal has is known without one", world.act("clerk", filing(9, 1))[0], 200)
