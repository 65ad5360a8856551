"""Four eyes: what one name did keeps it from the other step, also by way of a list, a file or a class."""
import contextlib
import json
import pathlib
import sqlite3
import time

from gate_trial.base import ROLES, filing, made
from gate_trial.classes import write_catalogue
from kit.judging import judge, same
from gate_trial.world import World, today, until

NAMES = "".join(f"name {it} is records-manager\n" for it in ("anna", "berta", "carl", "records-manager"))
NAMES += "name legal is legal\nname registry is registry\nlimit requests 64\nname anna signs Anna A.\n"
# dora decides, and has no part in a run
NAMES += "name dora is department\n"
RULES = "rule opener-does-not-carry-out\nrule confirmer-does-not-open\nrule changer-does-not-open 30\n"
OPEN, STEP = {"act": "open-run"}, {"act": "run-step"}


def confirm(record: int) -> dict:
    return {"act": "confirm", "record": record, "action": "destroy"}


def tried(folder: pathlib.Path) -> None:
    world = made(folder, NAMES + RULES, ROLES)
    opener(world)
    confirmer(world)
    changer(world)
    within(world)
    filer(world)
    counted_again(world)
    unconfirmed(world)
    unknown(world)
    moving(world)
    closing(world)
    again(world)
    making(world)
    lone(world)
    reasons(world)
    off(world)
    judge("the chain holds", world.check().returncode == 0, world.check().stderr)
    world.end()


def eyes(world: World, what: str, name: str, rule: str, *acts: dict) -> None:
    status, said = world.act(name, *acts)
    seen = said if isinstance(said, dict) else {}
    same(what, (status, seen.get("error"), seen.get("rule")), (403, "eyes", rule))
    same(f"{what}: it is in the journal", world.last("refused")["name"], name)


def resume(world: World, name: str) -> int:
    return world.ask(name, "POST", "/run/resume", b"")[0]


def opener(world: World) -> None:
    """Who opened a run does not carry it out, step by step or at once, before or after a start of the gate."""
    rule = "opener-does-not-carry-out"
    eyes(world, "both in one list", "anna", rule, OPEN, STEP)
    same("anna opens", world.act("anna", OPEN)[0], 200)
    eyes(world, "anna does not step", "anna", rule, STEP)
    same("anna does not resume", resume(world, "anna"), 403)
    world.start_without_facts()
    same("nor after a start", resume(world, "anna"), 403)
    same("berta resumes", resume(world, "berta"), 200)
    same("then no run is open", resume(world, "anna"), 409)


def confirmer(world: World) -> None:
    """Who confirmed a record does not open the run that takes it; nor does who opens confirm while it is open."""
    rule = "confirmer-does-not-open"
    eyes(world, "confirmed and opened in one list", "anna", rule, confirm(1), OPEN)
    eyes(world, "opened and confirmed in one list", "anna", rule, OPEN, confirm(1))
    same("anna confirms", world.act("anna", confirm(1))[0], 200)
    eyes(world, "anna does not open", "anna", rule, OPEN)
    same("berta opens", world.act("berta", OPEN)[0], 200)
    eyes(world, "berta does not confirm while it is open", "berta", rule, confirm(2))
    eyes(world, "nor give another schedule", "berta", "changer-does-not-open",
         {"act": "set-record-schedule", "record": 1, "schedule": "D0"})
    eyes(world, "nor does carl, who may carry it out", "carl", rule, confirm(2))
    same("dora may confirm meanwhile", world.act("dora", confirm(2))[0], 200)
    same("carl resumes", resume(world, "carl"), 200)
    same("both records ended", [world.get("carl", f"/records/{it}")[1]["status"] for it in (1, 2)], ["ended", "ended"])
    # a confirmation that the journal does not have, since it was made past the gate
    world.act("registry", filing(3, 1))
    world.direct("POST", "/acts",
                 f'[{{"act":"confirm","day":"{today()}","record":3,"action":"destroy","by":"Anna A."}}]'.encode())
    eyes(world, "the office has her name", "anna", rule, OPEN)
    same("after another's confirmation she may", (world.act("berta", confirm(3))[0], world.act("anna", OPEN)[0]),
         (200, 200))
    same("and berta carries it out", resume(world, "berta"), 200)


def changer(world: World) -> None:
    """Nor does who gave the record, its file or its class another schedule or class."""
    rule = "changer-does-not-open"
    world.act("registry", {"act": "add-aggregation", "ref": "C", "title": "C", "parent": 1}, filing(4, 3))
    changes = [{"act": "set-record-schedule", "record": 4, "schedule": "D0"},
               {"act": "reclassify", "target": "record:4", "class": "BLDG1"},
               {"act": "reclassify", "target": "aggregation:3", "class": "BLDG1"},
               {"act": "reclassify", "target": "aggregation:1", "class": "BLDG1"},
               {"act": "set-class-schedule", "class": "BLDG1", "schedule": "D0"}]
    for at, act in enumerate(changes):
        name = f"changer{at}"
        names = "".join(f"name changer{it} is records-manager\n" for it in range(len(changes)))
        if at == 0:
            world.reload(ROLES + NAMES + RULES + names)
        status, said = world.act(name, act)
        same(f"{act} is done", status, 200)
        same("berta confirms", world.act("berta", confirm(4))[0], 200)
        eyes(world, f"after {act['act']} {act.get('target', '')}", name, rule, OPEN)
    same("carl, who did nothing, opens", world.act("carl", OPEN)[0], 200)
    same("anna carries it out", resume(world, "anna"), 200)
    same("a record that no run takes does not count", world.act("changer0", OPEN)[0], 200)
    same("anna carries it out", resume(world, "anna"), 200)


def moved(world: World, name: str, days: float) -> None:
    """Lets what a name did be so many days ago, as the gate has noted it."""
    with contextlib.closing(sqlite3.connect(world.state / "facts.db")) as db, db:
        db.execute("UPDATE touches SET at = ? WHERE name = ?", (time.time() - days * 86400, name))


def within(world: World) -> None:
    """The rule counts days: thirty, and no more."""
    world.act("registry", filing(20, 1))
    record = world.act("registry", filing(21, 1))[1][0]["number"]
    world.act("carl", {"act": "set-record-schedule", "record": record, "schedule": "D0"})
    same("berta confirms", world.act("berta", confirm(record))[0], 200)
    moved(world, "carl", 29.9)
    eyes(world, "after 29 days and some hours", "carl", "changer-does-not-open", OPEN)
    moved(world, "carl", 30.1)
    same("after thirty days and some hours", world.act("carl", OPEN)[0], 200)
    same("anna carries it out", resume(world, "anna"), 200)


def filer(world: World) -> None:
    """Who files a record with a schedule of its own gave it that one."""
    record = world.act("carl", filing(30, 1, b"abc", schedule="D0"))[1][0]["number"]
    same("berta confirms", world.act("berta", confirm(record))[0], 200)
    eyes(world, "after a filing with a schedule", "carl", "changer-does-not-open", OPEN)
    same("anna opens", world.act("anna", OPEN)[0], 200)
    same("berta carries it out", resume(world, "berta"), 200)
    record = world.act("registry", filing(32, 1))[1][0]["number"]
    same("anna confirms, and berta after her", [world.act(it, confirm(record))[0] for it in ("anna", "berta")], [200, 200])
    same("the last one counts", world.act("anna", OPEN)[0], 200)
    same("berta carries it out", resume(world, "berta"), 200)
    record = world.act("carl", filing(31, 1))[1][0]["number"]
    same("berta confirms", world.act("berta", confirm(record))[0], 200)
    same("a filing without one does not count", world.act("carl", OPEN)[0], 200)
    same("anna carries it out", resume(world, "anna"), 200)


def counted_again(world: World) -> None:
    """A confirmation that does not count as the run is opened may count once it is open: an event brings the day back."""
    rule = "confirmer-does-not-open"
    world.act("records-manager", {"act": "add-schedule", "code": "E0", "trigger": "event", "unit": "days", "count": 0,
                                  "offset": "none", "action": "destroy"})
    record = world.act("registry", filing(40, 1, b"abc", schedule="E0"))[1][0]["number"]
    first, other = ({"act": "event", "record": record, "occurred": today(it)} for it in (-1, -2))
    same("an event", world.act("registry", first)[0], 200)
    same("anna confirms", world.act("anna", confirm(record))[0], 200)
    same("another event", world.act("registry", other)[0], 200)
    due = {it["record"]: it["confirmed"] for it in world.get("anna", f"/due/{today()}")[1]}
    same("her confirmation does not count", due[record], False)
    eyes(world, "it may count again", "anna", rule, OPEN)
    eyes(world, "opened, and an event in the same list", "carl", rule, OPEN, first)
    same("berta opens", world.act("berta", OPEN)[0], 200)
    eyes(world, "she records no event while it is open", "berta", rule, first)
    same("the registry does", world.act("registry", first)[0], 200)
    same("carl carries it out", resume(world, "carl"), 200)
    same("the confirmation counted again", world.get("carl", f"/records/{record}")[1]["status"], "ended")


def unconfirmed(world: World) -> None:
    """What nobody has confirmed yet may be confirmed while the run is open."""
    record = world.act("registry", filing(41, 1))[1][0]["number"]
    same("carl gives a schedule", world.act("carl", {"act": "set-record-schedule", "record": record,
                                                     "schedule": "D0"})[0], 200)
    eyes(world, "nobody confirmed it yet", "carl", "changer-does-not-open", OPEN)
    same("anna opens", world.act("anna", OPEN)[0], 200)
    same("dora confirms meanwhile, and berta carries it out", (world.act("dora", confirm(record))[0],
                                                               resume(world, "berta")), (200, 200))
    same("the run took it", world.get("carl", f"/records/{record}")[1]["status"], "ended")


def past(world: World, act: dict) -> int:
    """Does an act past the gate, and returns the number of what it made."""
    return json.loads(world.direct("POST", "/acts", json.dumps([{**act, "day": today()}]).encode())[1])[0]["number"]


def unknown(world: World) -> None:
    """What lies in a file that the gate does not know counts as changed by whoever changed some file."""
    file = past(world, {"act": "add-aggregation", "ref": "P", "title": "P", "class": "BLDG1"})
    record = past(world, filing(42, file))
    same("carl gives a class", world.act("carl", {"act": "reclassify", "target": f"aggregation:{file}",
                                                  "class": "BLDG1"})[0], 200)
    same("berta confirms", world.act("berta", confirm(record))[0], 200)
    eyes(world, "the gate does not know the file", "carl", "changer-does-not-open", OPEN)
    same("anna, who changed no file, opens", world.act("anna", OPEN)[0], 200)
    same("berta carries it out", resume(world, "berta"), 200)


def moving(world: World) -> None:
    """An event, and a day of origin before the filing, make a record due as a schedule does."""
    rule = "changer-does-not-open"
    record = world.act("registry", filing(50, 1, b"abc", schedule="E0"))[1][0]["number"]
    same("carl records an event", world.act("carl", {"act": "event", "record": record, "occurred": today(-2)})[0], 200)
    same("berta confirms", world.act("berta", confirm(record))[0], 200)
    eyes(world, "who recorded the event", "carl", rule, OPEN)
    same("anna opens", world.act("anna", OPEN)[0], 200)
    eyes(world, "an event while it is open", "anna", "confirmer-does-not-open",
         {"act": "event", "record": record, "occurred": today(-3)})
    same("berta carries it out", resume(world, "berta"), 200)
    # the class has a schedule whose period begins with the day of origin
    world.act("records-manager", {"act": "add-schedule", "code": "O1", "trigger": "origin", "unit": "years", "count": 1,
                                  "offset": "none", "action": "destroy"},
              {"act": "add-class", "code": "ORIGIN", "title": "t", "schedule": "O1"})
    file = world.act("records-manager", {"act": "add-aggregation", "ref": "OWN", "title": "t", "class": "ORIGIN"})[1][0]
    early = filing(51, file["number"]) | {"originated": "2001-01-01"}
    record = world.act("carl", early)[1][0]["number"]
    same("berta confirms what carl filed with an early day", world.act("berta", confirm(record))[0], 200)
    eyes(world, "who filed it with an early day", "carl", rule, OPEN)
    eyes(world, "opened, and filed so in one list", "berta", rule, OPEN, early | {"ref": "r52"})
    same("anna opens", world.act("anna", OPEN)[0], 200)
    eyes(world, "she files nothing with an early day", "anna", rule, early | {"ref": "r53"})
    same("but with the day of the filing", world.act("anna", filing(54, file["number"]))[0], 200)
    same("berta carries it out", resume(world, "berta"), 200)


def closing(world: World) -> None:
    """Whoever closes a file makes its records due, and slips none of them into the run of somebody else."""
    rule = "changer-does-not-open"
    world.act("records-manager", {"act": "add-schedule", "code": "C0", "trigger": "closed", "unit": "days", "count": 0,
                                  "offset": "none", "action": "destroy"},
              {"act": "add-class", "code": "CLOSED", "title": "t", "schedule": "C0"})
    made = [{"act": "add-aggregation", "ref": it, "title": "t", "class": "CLOSED"} for it in ("SLIP", "SHUT")]
    slip, shut = (it["number"] for it in world.act("records-manager", *made)[1])
    first, second = (it["number"] for it in world.act("registry", filing(55, slip), filing(56, shut))[1])
    own = [{"act": "set-record-schedule", "record": first, "schedule": it} for it in ("D0", "C0")]
    same("berta confirms what is due for a moment", world.act("berta", own[0], confirm(first), own[1])[0], 200)
    same("anna opens, and nothing is due", world.act("anna", OPEN)[0], 200)
    for name in ("anna", "berta"):
        eyes(world, f"{name} closes no file while it is open", name, rule, {"act": "close-aggregation", "aggregation": slip})
    same("berta carries it out", resume(world, "berta"), 200)
    same("nothing was slipped in", world.direct("GET", f"/records/{first}/content")[0], 200)
    same("carl closes the other file", world.act("carl", {"act": "close-aggregation", "aggregation": shut})[0], 200)
    same("berta confirms what that made due", world.act("berta", confirm(second))[0], 200)
    eyes(world, "who closed its file", "carl", rule, OPEN)
    same("anna, who closed none, opens", world.act("anna", OPEN)[0], 200)
    same("berta carries that out", resume(world, "berta"), 200)


def opened_run(world: World, moment: float, number: int, by: str) -> None:
    """Puts a catalogue in place in which this run is open."""
    write_catalogue(world, moment, [], [{"number": number, "by": by, "closed": False}])


def again(world: World) -> None:
    """What the journal has of a closing counts more than a catalogue from before; a newer one tells of what it lacks."""
    record = world.act("registry", filing(60, 1))[1][0]["number"]
    number = world.act("anna", OPEN)[1][0]["number"]
    opened_run(world, time.time(), number, "Anna A.")
    eyes(world, "while it is open", "anna", "confirmer-does-not-open", confirm(record))
    same("berta carries it out", resume(world, "berta"), 200)
    same("anna decides again at once", world.act("anna", confirm(record))[0], 200)
    world.start_without_facts()
    same("and after a start", world.act("anna", confirm(record))[0], 200)
    # a run that somebody opened past the gate, since then
    number = past(world, {"act": "open-run", "by": "Anna A."})
    # a catalogue has whole seconds, and this one is of a later second than what the journal has
    second = int(time.time())
    until(lambda: int(time.time()) > second)
    opened_run(world, time.time(), number, "Anna A.")
    same("the catalogue has who opened it", resume(world, "anna"), 403)
    same("another one carries it out", resume(world, "carl"), 200)
    same("then nobody opened it", resume(world, "anna"), 409)


def making(world: World) -> None:
    """Who opened a run makes nothing that has a schedule or a class of its own while it is open."""
    rule = "changer-does-not-open"
    own = filing(43, 1, b"abc", schedule="D0")
    eyes(world, "opened, and filed in the same list", "berta", rule, OPEN, own)
    same("anna opens", world.act("anna", OPEN)[0], 200)
    eyes(world, "she files nothing with a schedule", "anna", rule, own)
    eyes(world, "nor with a class", "anna", rule, filing(43, 1, **{"class": "BLDG1"}))
    eyes(world, "nor makes a file", "anna", rule, {"act": "add-aggregation", "ref": "Q", "title": "Q", "class": "BLDG1"})
    same("without one she does", world.act("anna", filing(44, 1))[0], 200)
    same("and somebody else may", world.act("registry", filing(45, 1, b"abc", schedule="D0"))[0], 200)
    same("berta carries it out", resume(world, "berta"), 200)


def lone(world: World) -> None:
    """A rule that is off refuses nothing; of two the one is named that is on."""
    acts = (confirm(1), {"act": "set-record-schedule", "record": 1, "schedule": "D0"},
            {"act": "event", "record": 1, "occurred": today()})
    for rule in ("confirmer-does-not-open", "changer-does-not-open 30"):
        world.reload(f"{ROLES}{NAMES}rule {rule}\n")
        same(f"{rule}: berta opens", world.act("berta", OPEN)[0], 200)
        for act in acts:
            eyes(world, f"{rule}: no {act['act']} while it is open", "berta", rule.split()[0], act)
        same(f"{rule}: she carries it out", resume(world, "berta"), 200)
    world.reload(f"{ROLES}{NAMES}rule confirmer-does-not-open\n")
    same("anna opens", world.act("anna", OPEN)[0], 200)
    same("and files with a schedule, since that rule is off", world.act("anna", filing(46, 1, b"abc",
                                                                                        schedule="D0"))[0], 200)
    same("she carries it out", resume(world, "anna"), 200)
    world.reload(f"{ROLES}{NAMES}rule opener-does-not-carry-out\n")
    same("berta opens, and confirms", (world.act("berta", OPEN)[0], world.act("berta", confirm(999))[0]), (200, 409))
    same("she does not carry it out", resume(world, "berta"), 403)
    same("anna does", resume(world, "anna"), 200)
    world.reload(ROLES + NAMES + RULES)


def reasons(world: World) -> None:
    """An act that needs a reason is refused without one; the journal has it, in any writing."""
    world.reload(ROLES + NAMES + RULES + "rule reason-for lift-hold resume\n")
    status, said = world.act("legal", {"act": "lift-hold", "hold": "H"})
    same("without a reason", (status, said["error"], said["act"]), (400, "reason", "lift-hold"))
    same("an empty one is none", world.act("legal", {"act": "lift-hold", "hold": "H"}, Office_Reason="%20")[0], 400)
    same("with one", world.act("legal", {"act": "lift-hold", "hold": "H"},
                               Office_Reason="Urteil%20vom%203.%20M%C3%A4rz")[0], 200)
    same("it is in the journal", world.last("asked")["reason"], "Urteil vom 3. März")
    same("one that cannot be read", world.act("legal", {"act": "lift-hold", "hold": "H"}, Office_Reason="%ff")[0], 400)
    same("a run without a reason", resume(world, "berta"), 400)
    status, _ = world.ask("berta", "POST", "/run/resume", b"", {"Office-Reason": "quarter"})
    same("a run with one", status, 409)


def off(world: World) -> None:
    """Without their lines the rules are off."""
    world.reload(ROLES + NAMES)
    world.act("registry", filing(5, 1))
    status, said = world.act("anna", confirm(5), OPEN, STEP)
    same("one name does all", (status, [it.get("outcome", "") for it in said]), (200, ["", "", "destroyed"]))
    same("and resumes", resume(world, "anna"), 200)
