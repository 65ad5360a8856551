"""The office that several parts begin with: two classes, an aggregation and a record in each, and a hold."""
from __future__ import annotations

import base64
from typing import Any

from command_trial.served import DAY, ROLES, Gated

OWN = ("registry", "records-manager", "legal", "auditor", "archive", "monitor")
"""the names that are called as their roles are"""
NAMES = "".join(f"name {it} is {it}\n" for it in OWN)
SETTINGS = f"{ROLES}{NAMES}name department is department in BLDG*\nname nobody is monitor\n"
"""a name for each role, without a rule of four eyes"""


def filing(number: int, aggregation: int, content: bytes = b"abc", **more: object) -> dict[str, Any]:
    """Returns an act that files a record."""
    return {"act": "add-record", "ref": f"r{number}", "title": f"title {number}", "originated": DAY,
            "aggregation": aggregation, "content": base64.b64encode(content).decode(), **more}


def plan() -> list[dict[str, Any]]:
    """Returns the acts that make the office; record 1 is of the class BLDG1, record 2 of PER1."""
    return [*({"act": "add-schedule", "code": f"{action[0].upper()}0", "trigger": "added", "unit": "days", "count": 0,
               "offset": "none", "action": action} for action in ("destroy", "transfer")),
            *({"act": "add-class", "code": it, "title": it, "schedule": "D0"} for it in ("BLDG1", "PER1")),
            {"act": "add-aggregation", "ref": "A", "title": "A", "class": "BLDG1"},
            {"act": "add-aggregation", "ref": "B", "title": "B", "class": "PER1"},
            filing(1, 1), filing(2, 2)]


def fill(gated: Gated, manager: str = "records-manager", legal: str = "legal") -> None:
    """Makes the office by the names that may."""
    answers = [gated.act(manager, *plan()),
               gated.act(legal, {"act": "place-hold", "code": "H", "reason": "a lawsuit", "by": legal})]
    assert [it.status for it in answers] == [200, 200], answers
