"""Every kind of act and every reading, by every role."""
import json
import pathlib
from typing import Any

from gate_trial.base import filing, made
from kit.judging import judge, same
from gate_trial.world import World, today

MANAGER = {"add-schedule", "add-class", "set-class-schedule", "set-record-schedule", "reclassify", "add-aggregation",
           "add-record", "close-aggregation", "event", "confirm", "review", "open-run", "run-step", "resume", "vault"}
MAY: dict[str, set[str]] = {
    "registry": {"add-aggregation", "add-record", "close-aggregation", "event", "vault"},
    "records-manager": MANAGER,
    "legal": {"place-hold", "hold-on", "hold-off", "lift-hold"},
    "department": {"confirm", "review", "event"},
    "auditor": set(), "archive": {"receipt"}, "monitor": set(), "stranger": set()}
READS: dict[str, set[str]] = {
    "registry": {"records", "contents", "lists", "catalogue"},
    "records-manager": {"records", "contents", "lists", "certificates", "catalogue", "history"},
    "legal": {"records", "contents", "lists", "certificates", "catalogue", "history"},
    "department": {"records", "contents", "lists", "catalogue"},
    "auditor": {"records", "lists", "certificates", "catalogue", "history"},
    "archive": {"certificates"}, "monitor": {"health"}, "stranger": set()}
# what the office refuses, so that nothing changes when it gets there
ACTS: list[dict[str, Any]] = [
    {"act": "add-schedule", "code": "D0", "trigger": "added", "unit": "days", "count": 0, "offset": "none",
     "action": "destroy"},
    {"act": "add-class", "code": "BLDG1", "title": "t", "schedule": "D0"},
    {"act": "set-class-schedule", "class": "BLDG1", "schedule": "NONE"},
    {"act": "add-aggregation", "ref": "A", "title": "A", "class": "BLDG1"},
    {"act": "close-aggregation", "aggregation": 99},
    filing(1, 1, b"other"),
    {"act": "set-record-schedule", "record": 1, "schedule": "NONE"},
    {"act": "reclassify", "target": "record:1", "class": "NONE"},
    {"act": "place-hold", "code": "H", "reason": "r"},
    {"act": "hold-on", "hold": "H", "target": "record:99"},
    {"act": "hold-off", "hold": "H", "target": "record:99"},
    {"act": "lift-hold", "hold": "NONE"},
    {"act": "confirm", "record": 1, "action": "transfer"},
    {"act": "review", "record": 1},
    {"act": "open-run", "day": "2001-01-01"},
    {"act": "run-step"},
    {"act": "receipt", "record": 1, "digest": "0" * 64},
    {"act": "event", "record": 1, "occurred": today(1)}]
PATHS = {"records": ["/records/1"], "contents": ["/records/1/content"], "certificates": ["/certificates/1"],
         "lists": [f"/due/{today()}", f"/overdue/{today()}/30"], "health": ["/alive", "/metrics"],
         "history": ["/history?record=1", "/history?name=legal"],
         "catalogue": ["/catalogue/records.json", "/since?moment=2026-01-01T00:00:00Z"]}
# there is no certificate yet, and no catalogue
MISSING = ("/certificates/1", "/catalogue/records.json")
FILES = {"contents": ["/records/1/files", "/records/1/files/1"]}
OBJECT, LIMITS = f"/vault/{'a' * 64}", "/vault/limits"


def tried(folder: pathlib.Path) -> None:
    world = made(folder)
    for role in MAY:
        for act in ACTS:
            acting(world, role, act)
        resuming(world, role)
        for thing, paths in PATHS.items():
            for path in paths:
                reading(world, role, thing, path)
        for thing, paths in FILES.items():
            for path in paths:
                asked(world, role, "GET", path, thing in READS[role])
        asked(world, role, "PUT", OBJECT, "vault" in MAY[role])
        asked(world, role, "GET", LIMITS, "vault" in MAY[role])
        rights(world, role)
    judge("the chain holds", world.check().returncode == 0, world.check().stderr)
    world.end()


def acting(world: World, role: str, act: dict) -> None:
    kind = act["act"]
    status, body = world.act(role, act)
    if kind in MAY[role]:
        judge(f"{role} may {kind}", status == 409 and "refused" in body[0], (status, body))
        judge(f"{role}, {kind}: the answer is in the journal", world.last("answered")["answers"] == body)
        line = world.last("asked")
        judge(f"{role}, {kind}: the act is in the journal, whole", is_noted(line, role, act), line)
        return
    # whoever may do no act has its body read by nobody
    is_read = bool(MAY[role] - {"resume", "vault"})
    place = {"act": kind, "place": 0} if is_read else {}
    same(f"{role} may not {kind}", (status, body), (403, {"error": "right"} | place))
    line = world.last("refused")
    judge(f"{role}, {kind}: the journal has who, and a summary", is_summed(line, role, {kind: 1} if is_read else None), line)


def is_noted(line: dict, role: str, act: dict) -> bool:
    noted = dict(line["acts"][0])
    given = {"day": today(), **act}
    if given["act"] == "run-step":
        del given["day"]
    given.pop("content", None)
    content = noted.pop("content", {"bytes": 5})
    noted.pop("by", None)
    return line["name"] == role and line["from"] == "192.0.2.7" and noted == given and content["bytes"] == 5


def is_summed(line: dict, role: str, kinds: dict[str, int] | None) -> bool:
    """Whether a line has name, origin, length, digest and kinds of a list, and nothing that the client wrote."""
    given = {"before", "line", "at", "what", "name", "from", "request", "body", "status", "answer"}
    summary = {"count", "kinds"} if kinds is not None else set()
    return line.keys() == given | summary and (line["name"], line["from"]) == (role, "192.0.2.7") and \
        line["body"].keys() == {"bytes", "sha256"} and (kinds is None or (line["count"], line["kinds"]) == (1, kinds))


def resuming(world: World, role: str) -> None:
    status, body = world.ask(role, "POST", "/run/resume", b"")
    if "resume" in MAY[role]:
        same(f"{role} may carry out a run", (status, body), (409, b'{"refused":18}'))
    else:
        same(f"{role} may not carry out a run", status, 403)
        same(f"{role}: that is in the journal", world.last("refused")["request"], "POST /run/resume")


def reading(world: World, role: str, thing: str, path: str) -> None:
    status, body = world.ask(role, "GET", path)
    if thing in READS[role]:
        wanted = 404 if path in MISSING else 200
        same(f"{role} reads {path}", status, wanted)
        line = world.last("refused" if path == "/catalogue/records.json" else "read")
    else:
        word = "class" if role == "archive" and thing in ("records", "contents") else "right"
        same(f"{role} does not read {path}", (status, json.loads(body)), (403, {"error": word, "read": thing}))
        line = world.last("refused")
    same(f"{role}, {path}: it is in the journal", (line["name"], line["request"], line["status"]),
         (role, f"GET {path}", status))


def asked(world: World, role: str, verb: str, path: str, allowed: bool) -> None:
    """What nginx asks before it gives a file, or takes one."""
    status, _ = world.ask(role, "GET", "/may", None, {"Office-Method": verb, "Office-Path": path})
    same(f"{role}: {verb} {path}", status, 204 if allowed else 403)
    line = world.last(("put" if verb == "PUT" else "read") if allowed else "refused")
    same(f"{role}: {verb} {path} is in the journal", (line["name"], line["request"], line["from"]),
         (role, f"{verb} {path}", "192.0.2.7"))


def rights(world: World, role: str) -> None:
    """What the page is told is what is so."""
    status, found = world.get(role, "/rights")
    same(f"{role}: rights", (status, set(found["may"]), set(found["reads"])),
         (200, MAY[role], READS[role] | ({"records", "contents"} if role == "archive" else set())))
    same(f"{role}: acts", found["acts"], bool(MAY[role]))
