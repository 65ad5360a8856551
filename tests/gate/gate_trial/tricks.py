"""Spellings and lists by which an act could look like another, or like none, to one of two readers."""
import base64
import json
import pathlib

from gate_trial.base import filing, made
from kit.judging import judge, same
from gate_trial.world import World, today

DAY = today()
MAY_ACT = ("registry", "department")
LIFT = f'"day":"{DAY}","hold":"H"'
LIFTS = [f'[{{"act":"lift-hold",{LIFT}}}]',
         f'[{{"act":"lift\\u002dhold",{LIFT}}}]',
         f'[{{"\\u0061ct":"l\\u0069ft-hold",{LIFT}}}]',
         f'[{{"act":"lift-hold"{" " * 1400},{LIFT}}}]',
         f'\n\t [ {{ "act"\r\n : "lift-hold" , {LIFT} }} ]\n',
         f'[{{"hold":"\\u0048","day":"{DAY}","act":"lift-hold"}}]']
OTHER = {"json": ["", "{}", "null", '"lift-hold"', "[", "[{]", '[{"act":"lift-hold"}', "[1e400,]", "[NaN]",
                  "[-Infinity]",
                  '[{"act":"lift-hold","n":01}]', "[{'act':'lift-hold'}]", '[{"act":"lift-hold"}]x', "[[" * 60000,
                  '[{"act":"lift-hold","hold":"\\ud800"}]', '[{"act":"lift\nhold"}]', "[//\n]",
                  "\ufeff[]", "[{}".encode() + b"\xff}]", "[]".encode("utf-16"), "[]".encode("utf-32")],
         "double": [f'[{{"act":"add-record","act":"lift-hold",{LIFT}}}]',
                    f'[{{"act":"lift-hold","\\u0061ct":"event",{LIFT}}}]',
                    f'[{{"act":"lift-hold",{LIFT},"hold":"H"}}]',
                    f'[{{"act":"confirm","day":"{DAY}","record":1,"action":"destroy","by":"legal","by":"manager"}}]',
                    f'[{{"act":"confirm","day":"{DAY}","record":1,"action":"destroy","by":"legal","b\\u0079":"x"}}]'],
         "act": ["[[]]", '[["lift-hold"]]', "[null]", "[1]", '[{"act":null}]', '[{"act":1}]', '[{"act":["lift-hold"]}]',
                 '[{"Act":"lift-hold"}]', '[{"act":"Lift-hold"}]', '[{"act":"lift-hold "}]', '[{"act":"lift_hold"}]',
                 '[{"act":"lift-hold\\u0000"}]', '[{"act":"lift\u2010hold"}]', "[{}]"]}


def tried(folder: pathlib.Path) -> None:
    world = made(folder)
    before = state(world)
    hidden(world)
    unread(world)
    signed(world)
    asked_so_far = sum(it["what"] == "asked" for it in world.lines())
    same("nothing of all this was sent to the office", asked_so_far, 2)
    same("and nothing changed there", state(world), before)
    passed_on(world)
    contents(world)
    judge("the chain holds", world.check().returncode == 0, world.check().stderr)
    world.end()


def state(world: World) -> list:
    return [world.direct("GET", it) for it in ("/records/1", "/records/2", "/records/3", f"/due/{DAY}",
                                               "/certificates/1")]


def hidden(world: World) -> None:
    """However a lift is written, who may not lift does not, and the journal has it as it is."""
    for at, body in enumerate(LIFTS):
        for name in ("registry", "auditor", "department", "stranger"):
            status, said = world.text(name, body)
            same(f"lift {at} of {name}", (status, said["error"]), (403, "right"))
            line = world.last("refused")
            same(f"lift {at} of {name} is in the journal", (line["name"], line["body"]["bytes"], line.get("acts")),
                 (name, len(body.encode()), None))
            # an auditor and a stranger may do no act, so nobody reads what they send
            same(f"lift {at} of {name}: its kind", line.get("kinds"), {"lift-hold": 1} if name in MAY_ACT else None)
        # a lift among others
        many = json.dumps([{"day": DAY, **filing(9, 1)}])[:-1] + "," + body.strip()[1:]
        status, said = world.text("registry", many)
        same(f"lift {at} beside a filing", (status, said), (403, {"error": "right", "act": "lift-hold", "place": 1}))
        same(f"lift {at} beside a filing is in the journal", world.last("refused")["kinds"],
             {"add-record": 1, "lift-hold": 1})


def unread(world: World) -> None:
    """What is no list of acts for one reader goes to no other."""
    for word, bodies in OTHER.items():
        for body in bodies:
            status, said = world.text("legal", body)
            same(f"{body[:60]!r}", (status, said["error"]), (400, word))
            line = world.last("refused")
            data = body if isinstance(body, bytes) else body.encode()
            same(f"{body[:60]!r} is in the journal", (line["name"], line["body"]["bytes"]), ("legal", len(data)))


def signed(world: World) -> None:
    """Nobody signs as another."""
    for by in ("records-manager", "Legal", "legal ", " legal", "l\u0435gal", "legal\u200b", 5, True, ["legal"],
               {"a": "legal"}):
        for kind in ({"act": "confirm", "record": 1, "action": "destroy"}, {"act": "open-run"},
                     {"act": "review", "record": 1}):
            name = "records-manager" if by == "legal" or kind["act"] == "open-run" else "department"
            if by == name:
                continue
            status, said = world.act(name, {**kind, "by": by})
            same(f"{name} does {kind['act']} by {by!r}", (status, said["error"]), (403, "by"))
            same("that is in the journal", world.last("refused")["kinds"], {kind["act"]: 1})


def passed_on(world: World) -> None:
    """What goes on is what the journal has: numbers and members as they were written, for the office to judge."""
    for number in ("1.0", "1.50", "1e0", "1E2", "-0", "-1", "0", "4294967296", "9" * 5000, '"1"', "true", "null", "[1]"):
        body = f'[{{"act":"confirm","day":"{DAY}","record":{number},"action":"destroy"}}]'
        through = world.text("records-manager", body)
        plain = world.direct("POST", "/acts", body.replace('}]', ',"by":"records-manager"}]').encode())
        same(f"record {number[:20]}", through, (plain[0], json.loads(plain[1])))
        # of what no act has in this place the journal has the digest
        if len(number) < 100 and number != "[1]":
            lines = world.journal.read_bytes().splitlines()
            found = any(f'"record":{number},'.encode() in it for it in lines[-2:])
            judge(f"record {number}: the journal has it as it was written", found, lines[-2:])
    for act in ({"act": "lift-hold", "hold": "NONE", "strange": 1}, {"act": "lift-hold", "hold": None},
                {"act": "place-hold", "code": "X", "reason": "r" * 201},
                {"act": "place-hold", "code": "X", "reason": {}},
                {"act": "lift-hold", "day": "2024-02-30", "hold": "H"}, {"act": "lift-hold", "day": None, "hold": "H"}):
        status, said = world.act("legal", act)
        same(f"{act} is the office's to refuse", (status, said), (400, {"error": "act", "place": 0, "refused": 2}))
    for by in (None, "", "records-manager", "absent"):
        act = {"act": "confirm", "record": 1, "action": "transfer"} | ({} if by == "absent" else {"by": by})
        same(f"by {by!r}: the name is put in", world.act("records-manager", act)[0], 409)
        same(f"by {by!r} in the journal", world.last("asked")["acts"][0]["by"], "records-manager")
    status, _ = world.act("department", {"act": "confirm", "record": 1, "action": "destroy"})
    same("the office has the name", (status, json.loads(world.direct("GET", "/records/1")[1])["confirmed"]["by"]),
         (200, "department"))


def contents(world: World) -> None:
    """No content is in the journal, in whatever member it stands."""
    secret = b"a secret " * 3000
    text = base64.b64encode(secret).decode()
    for act in (filing(3, 1, secret), filing(4, 1) | {"title": text}, filing(5, 1) | {"strange": text},
                filing(6, 1) | {"content": {"a": text}}, filing(7, 1) | {"content": text + "="}):
        world.act("registry", act)
    journal = world.journal.read_bytes()
    judge("no content is in the journal", b"a secret" not in journal and text[:400].encode() not in journal)
    noted = [it for line in world.lines() for it in line.get("acts", []) if it.get("ref") == "r3"]
    same("its length is", noted[0]["content"]["bytes"], len(secret))
    for path in world.state.rglob("*"):
        # the group reads counts and numbers at most
        others = 0o077 if "contents" in path.parts else 0o027
        judge(f"{path.name} is for its owner alone", path.stat().st_mode & others == 0, oct(path.stat().st_mode))
