"""The rules of four eyes, as the office itself decides them: by what it knows of who did what."""
from __future__ import annotations

import pathlib
from typing import Any

from command_trial.filed import fill, filing
from command_trial.served import CITY, DAY, Answer, Gated, denied, stopped
from kit.judging import judge, same

SETTINGS = CITY + "name one is records-manager\nname two is records-manager\n"
"""the settings that are shipped, with each rule on, and two names more that may do all of a run"""
MANAGER, DEPUTY = "R. Halloran, records manager", "T. Okafor, deputy records manager"
SIGNS = {"manager": MANAGER, "deputy": DEPUTY}
RULES = ("opener-does-not-carry-out", "confirmer-does-not-open", "changer-does-not-open", "sender-does-not-receive",
         "receiver-does-not-open")
STEP = {"act": "run-step"}
DONE = {"done": True}
Json = dict[str, Any]


def signed(name: str, kind: str, **more: object) -> Json:
    """Returns an act that the name signs."""
    return {"act": kind, "by": SIGNS.get(name, name), **more}


def opening(name: str, day: str = DAY) -> Json:
    return signed(name, "open-run", day=day)


def confirming(name: str, record: int, action: str = "destroy") -> Json:
    return signed(name, "confirm", record=record, action=action)


def eyes(folder: pathlib.Path) -> None:
    for part in (carries_out, confirms, changes, decides, receives):
        with Gated(folder / part.__name__, SETTINGS) as gated:
            fill(gated, "manager")
            part(gated)
    without_rules(folder)


def carries_out(gated: Gated) -> None:
    """Tries the name that opened a run: it neither takes a step of it nor resumes it, in a list or on its own."""
    rule = RULES[0]
    same("confirming", gated.act("one", confirming("one", 1), confirming("one", 2)), Answer(200, [DONE, DONE]))
    same("opening and a step in one list", gated.act("deputy", opening("deputy"), STEP),
         stopped([{"number": 1}], "eyes", rule))
    same("a step", gated.act("deputy", STEP), stopped([], "eyes", rule))
    same("resuming", gated.resume("deputy"), Answer(403, denied("eyes", rule)))
    same("the run is as it was opened", gated.rows("SELECT place, closed FROM runs"), [(0, 0)])
    same("another name takes a step", gated.act("manager", STEP), Answer(200, [{"outcome": "destroyed", "record": 1}]))
    same("another name resumes", gated.resume("manager"), Answer(200, {"certificate": 1}))
    same("the run is closed", gated.column("SELECT closed FROM runs"), [1])
    same("without a run whoever opened the last one may ask", gated.resume("deputy"), Answer(409, {"refused": 18}))
    same("who has no right to it may not", gated.resume("registrar"), Answer(403, denied("right")))


def confirms(gated: Gated) -> None:
    """Tries the name that confirmed a record last: it opens no run, as long as the record is here."""
    rule = RULES[1]
    same("confirming", gated.act("manager", confirming("manager", 1)), Answer(200, [DONE]))
    same("the confirmer opens", gated.act("manager", opening("manager")), stopped([], "eyes", rule))
    same("both in one list", gated.act("deputy", confirming("deputy", 2), opening("deputy"), confirming("deputy", 1)),
         stopped([DONE], "eyes", rule))
    same("no run is open", gated.column("SELECT num FROM runs"), [])
    same("another one confirms it too", gated.act("one", confirming("one", 1)), Answer(200, [DONE]))
    same("the first one may open again", gated.act("manager", opening("manager")), Answer(200, [{"number": 1}]))
    same("another one carries out", gated.resume("one"), Answer(200, {"certificate": 1}))
    same("a record that is gone keeps nobody", gated.act("one", opening("one")), Answer(200, [{"number": 2}]))
    same("no content is left", gated.column("SELECT count(*) FROM contents"), [0])


def changes(gated: Gated) -> None:
    """Tries the name that recorded an event or reviewed a record within the days of the rule."""
    rule = RULES[2]
    same("an event", gated.act("manager", signed("manager", "event", record=1, occurred=DAY)), Answer(200, [DONE]))
    same("whoever recorded it opens", gated.act("manager", opening("manager")), stopped([], "eyes", rule))
    same("on the last day of the rule", gated.act("manager", opening("manager", "2026-06-30"), day="2026-06-30"),
         stopped([], "eyes", rule))
    same("no run is open", gated.column("SELECT num FROM runs"), [])
    same("on the day after it", gated.act("manager", opening("manager", "2026-07-01"), day="2026-07-01"),
         Answer(200, [{"number": 1}]))


def decides(gated: Gated) -> None:
    """Tries acts of names that have a part in an open run: whoever opened it, and whoever may carry it out."""
    same("opening", gated.act("deputy", opening("deputy")), Answer(200, [{"number": 1}]))
    parts = [(RULES[1], confirming("NAME", 1)), (RULES[1], signed("NAME", "event", record=1, occurred=DAY)),
             (RULES[1], {"act": "set-record-schedule", "record": 1, "schedule": "T0"}),
             (RULES[1], {"act": "reclassify", "target": "record:1", "class": "PER1"}),
             (RULES[1], {"act": "set-class-schedule", "class": "BLDG1", "schedule": "T0"}),
             (RULES[1], {"act": "close-aggregation", "aggregation": 1}),
             (RULES[2], {"act": "add-class", "code": "NEW", "title": "t", "schedule": "D0"}),
             (RULES[2], {"act": "add-aggregation", "ref": "N", "title": "t", "class": "BLDG1"}),
             (RULES[2], filing(9, 1, schedule="D0")), (RULES[2], filing(9, 1, originated="2026-05-31"))]
    for name in ("deputy", "one"):
        for rule, act in parts:
            own = act | ({"by": SIGNS.get(name, name)} if "by" in act else {})
            same(f"{name} with a part: {act['act']}", gated.act(name, own), stopped([], "eyes", rule))
    same("a name without a part confirms", gated.act("builder", confirming("builder", 1)), Answer(200, [DONE]))
    same("filing as usual", gated.act("one", filing(9, 1)), Answer(200, [{"number": 3}]))
    judge("a hold", gated.act("legal", {"act": "hold-on", "hold": "H", "target": "record:1"}).status == 200)


def receives(gated: Gated) -> None:
    """Tries receipts: not by whoever opened the run that sent the record, and whoever filed one opens no run."""
    gated.settle(SETTINGS + "role archive may receipt open-run run-step resume\nrole records-manager may receipt\n")
    digest = "ba7816bf8f01cfea414140de5dae2223b00361a396177a9cb410ff61f20015ad"
    receipt = {name: signed(name, "receipt", record=1, digest=digest) for name in ("deputy", "state-archive", "two")}
    sent = {"act": "set-record-schedule", "record": 1, "schedule": "T0"}
    same("a record is to be transferred", gated.act("manager", sent, confirming("manager", 1, "transfer")),
         Answer(200, [DONE, DONE]))
    same("opening", gated.act("deputy", opening("deputy")), Answer(200, [{"number": 1}]))
    same("carrying out", gated.resume("one"), Answer(200, {"certificate": 1}))
    same("the record was sent", gated.column("SELECT outcome FROM entries WHERE record = 1"), ["sent"])
    same("the sender files the receipt", gated.act("deputy", receipt["deputy"]), stopped([], "eyes", RULES[3]))
    same("another one does", gated.act("state-archive", receipt["state-archive"]), Answer(200, [DONE]))
    same("who filed it opens a run", gated.act("state-archive", opening("state-archive")),
         stopped([], "eyes", RULES[4]))
    same("another one opens", gated.act("deputy", opening("deputy")), Answer(200, [{"number": 2}]))
    same("a receipt by a name that may carry it out", gated.act("two", receipt["two"]), stopped([], "eyes", RULES[4]))
    same("resuming", gated.resume("one"), Answer(200, {"certificate": 2}))
    same("what was received is gone", gated.column("SELECT count(*) FROM contents WHERE record = 1"), [0])


def without_rules(folder: pathlib.Path) -> None:
    """Tries that each denial is that of its rule: without the rules one name does all."""
    settings = "".join(f"{line}\n" for line in SETTINGS.splitlines() if not line.startswith("rule "))
    with Gated(folder / "off", settings) as gated:
        fill(gated, "manager")
        answer = gated.act("one", confirming("one", 1), confirming("one", 2), opening("one"), STEP)
        judge("without rules one name confirms, opens and takes a step", answer.status == 200, answer)
        same("and resumes", gated.resume("one"), Answer(200, {"certificate": 1}))
        same("all is gone", gated.column("SELECT count(*) FROM contents"), [0])
