"""The office that the parts begin with: two classes, an aggregation and a record in each, a hold, and a name a role."""
import base64
import pathlib

from gate_trial.world import TOP, World, today

CITY = (TOP / "companions/gate/city.access").read_text()
ROLES = "\n".join(it for it in CITY.splitlines() if it.startswith("role ")) + "\n"
NAMES = "".join(f"name {it} is {it}\n" for it in ("registry", "records-manager", "legal", "auditor", "archive",
                                                  "monitor"))
NAMES += "name department is department in BLDG*\nname nobody is monitor\nlimit requests 64\nlimit lists 8\n"
SETTINGS = ROLES + NAMES


def filing(number: int, aggregation: int, content: bytes = b"abc", **more: object) -> dict:
    return {"act": "add-record", "ref": f"r{number}", "title": f"title {number}", "originated": today(),
            "aggregation": aggregation, "content": base64.b64encode(content).decode(), **more}


def plan() -> list[dict]:
    return [{"act": "add-schedule", "code": "D0", "trigger": "added", "unit": "days", "count": 0, "offset": "none",
             "action": "destroy"},
            {"act": "add-schedule", "code": "T0", "trigger": "added", "unit": "days", "count": 0, "offset": "none",
             "action": "transfer"},
            *({"act": "add-class", "code": it, "title": it, "schedule": "D0"} for it in ("BLDG1", "PER1")),
            {"act": "add-aggregation", "ref": "A", "title": "A", "class": "BLDG1"},
            {"act": "add-aggregation", "ref": "B", "title": "B", "class": "PER1"},
            filing(1, 1), filing(2, 2)]


def made(folder: pathlib.Path, more: str = "", settings: str = SETTINGS) -> World:
    """Starts an office and a gate, and files what the parts need."""
    world = World(folder, settings + more)
    world.start_office()
    world.start_gate()
    status, said = world.act("records-manager", *plan())
    assert status == 200, (status, said)
    status, said = world.act("legal", {"act": "place-hold", "code": "H", "reason": "a lawsuit"})
    assert status == 200, (status, said)
    return world
