"""Lists that stop in the middle: the place, the answers before it, and that nothing behind it was done."""
from __future__ import annotations

import pathlib
import random
from typing import Any

from command_trial.filed import SETTINGS, fill, filing
from command_trial.served import DAY, Answer, Gated, stopped
from kit.judging import judge, same

SEED, LISTS, LONGEST = 3, 200, 8
CLERK = """role clerk may reclassify hold-on hold-off
role filer may add-record
name clerk is clerk
name clerk is filer in BLDG*
"""
"""a name that may give each thing a class, and may file in one class: what it may do depends on what it did"""
DONE = {"done": True}
NEXT_DAY = "2026-06-02"
Json = dict[str, Any]


def lists(folder: pathlib.Path) -> None:
    with Gated(folder / "office", SETTINGS + CLERK) as gated:
        fill(gated)
        first_asked(gated)
        in_between(gated)
        random_lists(gated)
        same("nothing is printed", gated.errors(), "")


def first_asked(gated: Gated) -> None:
    """Tries what no office permits: it is asked for the whole list first, and nothing of the list is done."""
    good: Json = {"act": "add-schedule", "code": "NEW", "trigger": "added", "unit": "days", "count": 0, "offset": "none",
                  "action": "destroy"}
    bad: list[tuple[str, Json]] = [("right", {"act": "lift-hold", "hold": "H"}),
                                   ("by", {"act": "confirm", "record": 1, "action": "destroy", "by": "somebody"}),
                                   ("future", {**good, "day": NEXT_DAY})]
    for error, act in bad:
        for before in (0, 1, 5):
            wanted = Answer(403, {"answers": [], "place": before, "error": error, "rule": None})
            same(f"{error} at {before}", gated.act("records-manager", *[good] * before, act, good), wanted)
    # of two such acts the first one is named, and a class is asked for after all of them
    for acts, place, error in (([act for _, act in bad], 0, "right"), ([act for _, act in reversed(bad)], 0, "future"),
                               ([{"act": "confirm", "record": 2, "action": "destroy", "by": "department"}, bad[0][1]], 1,
                                "right")):
        name = "department" if place else "records-manager"
        same(f"the first of several: {error}", gated.act(name, *acts),
             Answer(403, {"answers": [], "place": place, "error": error, "rule": None}))
    same("nothing of these lists was done", gated.rows("SELECT count(*) FROM schedules2 WHERE code = 'NEW'"), [(0,)])
    same("no record is confirmed", gated.rows("SELECT count(*) FROM records WHERE conf_by IS NOT NULL"), [(0,)])
    same("an act that cannot be read comes first", gated.act("nobody", {"act": "confrim"}),
         Answer(400, {"error": "act", "place": 0, "refused": 2}))
    same("an empty list", gated.act("nobody"), Answer(200, []))


def in_between(gated: Gated) -> None:
    """Tries a class that is foreign at a place, with acts before and behind it."""
    def confirm(record: int, action: str = "destroy") -> Json:
        return {"act": "confirm", "record": record, "action": action, "by": "department"}
    refused = gated.act("department", confirm(1, "keep")).body
    judge("an act that the office refuses is answered", "refused" in refused[0], refused)
    same("one of a foreign class", gated.act("department", confirm(1), confirm(1, "keep"), confirm(2), confirm(1)),
         stopped([DONE, *refused], "class"))
    same("one that is not there", gated.act("department", confirm(1), confirm(99)), stopped([DONE], "class"))
    same("the first one", gated.act("department", confirm(2), confirm(1)), stopped([], "class"))
    same("record 2 is not confirmed", gated.column("SELECT conf_by FROM records ORDER BY num"), ["department", None])


class Model:
    """The classes of two aggregations, and the records that are filed, as the acts of a list change them."""

    def __init__(self) -> None:
        self.classes = {1: "BLDG1", 2: "PER1"}
        self.refs = ["r1", "r2"]

    def answer(self, act: Json) -> Json | None:
        """Does an act, and returns its answer; None if the name may not do it in this office."""
        if act["act"] == "reclassify":
            self.classes[int(act["target"].partition(":")[2])] = act["class"]
            return DONE
        own = act.get("class")
        if not all(code.startswith("BLDG") for code in (self.classes[act["aggregation"]], own or "BLDG")):
            return None
        self.refs.append(act["ref"])
        return {"number": len(self.refs)}

    def answer_to(self, acts: list[Json]) -> Answer:
        answers: list[Json] = []
        for act in acts:
            answer = self.answer(act)
            if answer is None:
                return stopped(answers, "class")
            answers.append(answer)
        return Answer(200, answers)


def random_lists(gated: Gated) -> None:
    """Sends lists in which an act changes what the name may do behind it, and compares them with the model."""
    dice, model, number = random.Random(SEED), Model(), 100
    stops, ends = 0, 0
    for at in range(LISTS):
        acts = list[Json]()
        for _ in range(dice.randint(1, LONGEST)):
            place = dice.choice([1, 2])
            if dice.random() < 0.35:
                acts.append({"act": "reclassify", "target": f"aggregation:{place}",
                             "class": dice.choice(["BLDG1", "PER1"])})
            else:
                number += 1
                own = {"class": dice.choice(["BLDG1", "PER1"])} if dice.random() < 0.3 else {}
                acts.append(filing(number, place, b"x", **own))
        wanted = model.answer_to(acts)
        stops, ends = stops + (wanted.status == 403), ends + (wanted.status == 200)
        same(f"list {at}: {acts}", gated.act("clerk", *acts), wanted)
        if at % 20 == 0 or at == LISTS - 1:
            same(f"records after list {at}", gated.column("SELECT ref FROM records ORDER BY num"), model.refs)
            same(f"classes after list {at}", dict(gated.rows("SELECT num, class FROM aggregations")), model.classes)
    judge(f"lists stop and come to their end, on {DAY}", min(stops, ends) >= LISTS // 5, (stops, ends), always=True)
