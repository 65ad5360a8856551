"""What this page has just done is in its lists and fields at once, at an office without a gate and without a new catalogue."""
import json
import pathlib
import time

import catalogue
from browser import Browser
from kit.judging import judge, same
from place import Office, Proxy
from story import TEXTS

RULE = {"act": "add-schedule", "code": "D0", "trigger": "added", "unit": "days", "count": 0, "offset": "none", "action": "destroy"}


def day() -> str:
    return time.strftime("%Y-%m-%d")


def filled(proxy: Proxy) -> None:
    """An office with a class, an aggregation and a record."""
    acts = [RULE, {"act": "add-class", "code": "OLD", "title": "an older class", "schedule": "D0"},
            {"act": "add-aggregation", "ref": "file-1", "title": "an older file", "class": "OLD"},
            {"act": "add-record", "ref": "record-1", "title": "an older record", "originated": day(), "aggregation": 1, "content": "YQ=="}]
    here = {"Origin": proxy.address, "Content-Type": "application/json"}
    status, _ = proxy.ask("POST", "/acts", json.dumps([{**it, "day": day()} for it in acts]), here)
    same("fresh: an office", status, 200)


def holds(it: Browser, proxy: Proxy) -> None:
    it.open(f"{proxy.page}#holds")
    same("fresh: no hold is in force", it.seen("#hold-list"), TEXTS["holds"]["none"])
    it.write(hold_place_code="H-1", hold_place_reason="A lawsuit", hold_place_by="Legal")
    it.press("#hold-place > button:last-of-type")
    it.wait(lambda: it.all("#hold-list > table"), "no hold is listed")
    same("fresh: a hold that was placed stands in the list", it.table("#hold-list > table")[0][:4], ["H-1", "A lawsuit", day(), "Legal"])
    it.choose("#hold-on-kind", "record")
    it.write(hold_on_target="record-1")
    it.press("#hold-on button")
    it.wait(lambda: "1" in it.table("#hold-list > table")[0][4], "its target is not listed")
    it.go("catalogue?part=holds")
    row = it.table("#catalogue-part > table")[0]
    judge("fresh: and in the catalogue, with its target and that one's title", row[0] == "H-1" and "an older record" in row[5], str(row))
    it.go("holds?code=H-1")
    judge("fresh: it is shown", "A lawsuit" in it.text("#hold-told"), it.text("#hold-told"))
    it.driver.execute_script("document.querySelector('#hold-sure').click()")
    it.press("#hold-lift .grave")
    it.wait(lambda: it.all("#hold-list > details"), "it is not among those that were lifted")
    same("fresh: a lifted one is below", it.table("#hold-list > details > table")[0][4], day())


def files(it: Browser, proxy: Proxy) -> None:
    it.go("plan")
    it.write(plan_class_code="NEW", plan_class_title="a newer class", plan_class_schedule="D0")
    it.press("#plan-class button")
    it.write(plan_aggregation_ref="file-2", plan_aggregation_title="a newer file", plan_aggregation_class="NEW")
    it.press("#plan-aggregation button")
    it.go("catalogue?part=classes")
    same("fresh: a class that was added", [row[0] for row in it.table("#catalogue-part > table")], ["NEW", "OLD"])
    it.go("plan")
    it.write(plan_close_aggregation="file-2")
    judge("fresh: its file is known by its ref", "a newer file" in it.text("#plan-close-aggregation-named"),
          it.text("#plan-close-aggregation-named"))
    it.go("catalogue?part=aggregations&text=newer")
    same("fresh: and found by its title", [row[2] for row in it.table("#catalogue-part > table")], ["file-2"])


def tell(office: Office, proxy: Proxy, it: Browser, folder: pathlib.Path) -> None:
    filled(proxy)
    with catalogue.made(proxy, office):
        holds(it, proxy)
        files(it, proxy)
        it.go("run")
        same("fresh: no run yet", it.seen("#run-list"), TEXTS["run"]["noRuns"])
        judge("fresh: no history without a gate", not any(node.is_displayed() for node in it.all(".history")))
        # what is hidden asks for nothing, also where a script opens it
        it.driver.execute_script("for (const node of document.querySelectorAll('details')) node.open = true")
        it.settled()
