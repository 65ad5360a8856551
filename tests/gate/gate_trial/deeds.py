"""What a role does in the page: each act that is shown is done, and each that is not is refused when it is forged."""
import hashlib
import json
import pathlib
import time
from dataclasses import dataclass
from typing import Any, NamedTuple

from selenium.webdriver.common.by import By

from gate_trial.base import filing
from gate_trial.browsing import Browser, texts
from kit.judging import judge, same
from gate_trial.proxy import Proxy
from gate_trial.roles import ACTS, MAY, READS
from gate_trial.world import World, today

DAY = {"day": today()}
# the classes of the body by which the page leaves forms out
SHOWN = "document.body.className = 'ready'; for (const it of document.querySelectorAll('details.act')) it.open = true"
# marks the row of a record in the due list
MARKED = """
const link = [...document.querySelectorAll("#due-table tbody a")].find((it) => it.hash === `#record?number=${arguments[0]}`);
const box = link.closest("tr").querySelector("input[type=checkbox]");
if (!box.checked) box.click();
"""
# the kinds of acts that need a reason here
NEEDED = ("lift-hold", "set-record-schedule", "reclassify")
REASON = "why it is so"
SENT_CONTENT = b"what the archive gets"


class Deed(NamedTuple):
    """How an act is asked for: the view, the form, what is written and chosen, and the tick that it asks for."""

    view: str
    form: str
    fields: dict[str, str]
    chosen: dict[str, str] = {}
    tick: str = ""


@dataclass
class Stage:
    """What is there for one role in one language alone, so that each act can be done once."""

    mark: str
    aggregation: int
    closing: int
    records: dict[str, int]


class Stages:
    """Makes stages, as a records manager and a lawyer do by programs."""

    def __init__(self, proxy: Proxy) -> None:
        self.proxy, self.count = proxy, 0

    def act(self, name: str, *acts: dict[str, Any]) -> list[dict[str, Any]]:
        status, found = self.proxy.act(name, [{**it, **DAY} for it in acts])
        judge("a stage", status == 200 and isinstance(found, list) and not any("refused" in it for it in found), found)
        assert isinstance(found, list)
        return found

    def stage(self) -> Stage:
        """Files records, sends one of them to the archive, holds another one, and has one that is overdue."""
        self.count += 1
        mark = f"{self.count}"
        found = self.act("records-manager", *({"act": "add-aggregation", "ref": f"{it}{mark}", "title": it,
                                               "class": "BLDG1"} for it in ("in", "closing")),
                         {"act": "add-class", "code": f"BLDG-Z{mark}", "title": "t", "schedule": "D0"})
        first, closing = (it["number"] for it in found[:2])
        names = {"event": None, "own": None, "class": None, "review": "REV", "sent": "T0", "due": None, "old": "O0"}
        acts = [filing(1000 * self.count + at, first, SENT_CONTENT if name == "sent" else b"abc", schedule=schedule,
                       **({"originated": "2020-01-01"} if name == "old" else {}))
                for at, (name, schedule) in enumerate(names.items())]
        numbers = [it["number"] for it in self.act("records-manager", *acts)]
        records = dict(zip(names, numbers))
        self.act("records-manager", {"act": "confirm", "record": records["sent"], "action": "transfer"},
                 {"act": "open-run"})
        same("a run", self.proxy.ask("records-manager", "POST", "/city/run/resume", b"")[0], 200)
        self.act("legal", {"act": "place-hold", "code": f"H{mark}", "reason": "r"},
                 {"act": "hold-on", "hold": f"H{mark}", "target": f"record:{records['own']}"})
        return Stage(mark, first, closing, records)


def deeds(stage: Stage, name: str) -> dict[str, Deed]:
    """Lists how each kind of act is asked for in the page, in an order in which all of them can be done."""
    mark, records = stage.mark, {it: str(number) for it, number in stage.records.items()}
    by = {"by": name}
    of_hold = {"kind": "record"}
    return {
        "add-schedule": Deed("plan", "plan-schedule", {"code": f"S{mark}", "count": "1"}),
        "add-class": Deed("plan", "plan-class", {"code": f"K{mark}", "title": "t", "schedule": "D0"}),
        "set-class-schedule": Deed("plan", "plan-rule", {"class": f"BLDG-Z{mark}", "schedule": "T0"},
                                   tick="plan-rule-forecast input"),
        "add-aggregation": Deed("plan", "plan-aggregation", {"ref": f"more{mark}", "title": "t", "class": "BLDG1"}),
        "close-aggregation": Deed("plan", "plan-close", {"aggregation": str(stage.closing)}, tick="plan-close-sure"),
        "reclassify": Deed("plan", "plan-reclassify", {"number": records["class"], "class": f"BLDG-Z{mark}"}, of_hold),
        "set-record-schedule": Deed("plan", "plan-own", {"record": records["event"], "schedule": "T0"}),
        "place-hold": Deed("holds", "hold-place", {"code": f"P{mark}", "reason": "r", **by}),
        "hold-on": Deed("holds", "hold-on", {"code": f"H{mark}", "target": records["class"]}, of_hold),
        "hold-off": Deed("holds", "hold-off", {"code": f"H{mark}", "target": records["own"]}, of_hold),
        "lift-hold": Deed("holds", "hold-lift", {"code": f"H{mark}"}, tick="hold-sure"),
        "event": Deed(f"record?number={records['event']}", "record-event", {"occurred": today(), **by}),
        "review": Deed(f"record?number={records['review']}", "record-review", by),
        "receipt": Deed(f"record?number={records['sent']}", "record-receipt",
                        {"digest": hashlib.sha256(SENT_CONTENT).hexdigest(), **by}),
        "open-run": Deed("run", "run-open", by),
        "resume": Deed("run", "run-resume", {}, tick="run-sure")}


def asked_for(it: Browser, deed: Deed) -> str:
    """Writes a form and sends it, and returns what it says then."""
    it.driver.execute_script("for (const it of document.querySelectorAll('details.act')) it.open = true")
    for field, value in deed.chosen.items():
        it.choose(f"#{deed.form}-{field}", value)
    it.write(**{f"{deed.form}-{field}": value for field, value in deed.fields.items()})
    reason = f"#{deed.form}-why"
    if it.driver.find_elements(By.CSS_SELECTOR, reason):
        it.write(**{reason[1:]: REASON})
    # what an act would do is shown once nobody writes any more
    time.sleep(0.4)
    it.settled()
    # a tick that the page does not ask for is not there, and an act that lacks one is not sent
    for box in it.driver.find_elements(By.CSS_SELECTOR, f"#{deed.tick}") if deed.tick else []:
        if not box.is_selected():
            it.driver.execute_script("arguments[0].click()", box)
    it.press(f"#{deed.form} button:not([type])")
    return it.one(f"#{deed.form}-outcome").text


def all_done(it: Browser, role: str, stage: Stage, world: World, folder: pathlib.Path) -> None:
    """Does each act that the role may do, by what the page shows for it."""
    for kind, deed in deeds(stage, role).items():
        if kind in MAY[role]:
            it.open(deed.view)
            told = asked_for(it, deed)
            done(it, role, kind, told, f"#{deed.form}-outcome", world)
    if "add-record" in MAY[role]:
        filed(it, role, stage, world, folder)
    if "confirm" in MAY[role]:
        confirmed(it, role, stage, world)
    # what is left of a run is not for the next role
    if "open-run" in MAY[role]:
        same(f"{role}, {it.language}: no run is open", it.fetch("POST", "run/resume")[0], 409)


def done(it: Browser, role: str, kind: str, told: str, outcome: str, world: World) -> None:
    """The page says that it is done, and so does the journal, with the name of who did it."""
    name = f"{role}, {it.language}: {kind} can be done"
    judge(f"{name}: the page", "done" in (it.one(outcome).get_attribute("class") or "").split(), told)
    asked, answered = world.last("asked"), world.last("answered")
    kinds = [one["act"] for one in asked.get("acts", [])] or ["resume"]
    same(f"{name}: the journal", (asked["name"], set(kinds), answered["of"], answered["status"]),
         (role, {kind}, asked["line"], 200))
    same(f"{name}: the journal has a reason if it needs one", asked.get("reason"), REASON if kinds[0] in NEEDED else None)
    judge(f"{name}: the office", all("refused" not in one for one in answered.get("answers", [])), answered)
    it.picture(f"done-{kind}")


def filed(it: Browser, role: str, stage: Stage, world: World, folder: pathlib.Path) -> None:
    """Files a file through the view for it."""
    paper = folder / f"paper-{stage.mark}.txt"
    paper.write_bytes(f"paper {stage.mark}".encode())
    it.open("file")
    it.one("#file-choose").send_keys(str(paper))
    it.settled()
    it.write(file_all_aggregation=str(stage.aggregation))
    it.driver.execute_script("arguments[0].dispatchEvent(new Event('change', { bubbles: true }))",
                             it.one("#file-all-aggregation"))
    it.settled()
    it.press("#file-submit")
    done(it, role, "add-record", it.one("#file-send-outcome").text, "#file-send-outcome", world)


def confirmed(it: Browser, role: str, stage: Stage, world: World) -> None:
    """Confirms a record of the due list."""
    it.open("due")
    it.driver.execute_script(MARKED, stage.records["due"])
    it.write(due_confirm_by=role)
    it.press("#due-submit")
    done(it, role, "confirm", it.one("#due-answer").text, "#due-answer", world)


# ---- what is not shown

def all_forged(it: Browser, role: str, stage: Stage, world: World) -> None:
    """Forges each act and each reading that is not the role's: the gate refuses it, and the office gets nothing."""
    asked = sum(line["what"] == "asked" for line in world.lines())
    by_script(it, role, world)
    by_form(it, role, stage, world)
    readings(it, role, stage)
    same(f"{role}, {it.language}: the office got nothing of it",
         sum(line["what"] == "asked" for line in world.lines()), asked)


def kinds_of(role: str, kind: str) -> dict[str, int] | None:
    """The kinds of acts in the line of a refused act; nobody reads what a name sends that may do no act."""
    return {kind: 1} if MAY[role] - {"resume", "vault"} else None


def by_script(it: Browser, role: str, world: World) -> None:
    for act in ACTS:
        if act["act"] in MAY[role]:
            continue
        kind = act["act"]
        status, said = it.fetch("POST", "acts", json.dumps([act if kind == "run-step" else {**DAY, **act}]))
        same(f"{role}, {it.language}: forges {kind}", (status, json.loads(said)),
             (403, {"error": "right"} | ({"act": kind, "place": 0} if kinds_of(role, kind) else {})))
        line = world.last("refused")
        same(f"{role}, {it.language}: the journal has a forged {kind}", (line["name"], line.get("kinds")),
             (role, kinds_of(role, kind)))
    if "resume" not in MAY[role]:
        status, said = it.fetch("POST", "run/resume")
        same(f"{role}, {it.language}: forges resume", (status, json.loads(said)), (403, {"error": "right", "act": "resume"}))
    if "vault" not in MAY[role]:
        status, said = it.fetch("PUT", f"vault/{'a' * 64}", "x")
        same(f"{role}, {it.language}: forges a file of the vault", (status, json.loads(said)), (403, {"error": "right"}))


# these ask the office for nothing before they send
PLAIN = ("add-schedule", "add-class", "add-aggregation", "reclassify", "set-record-schedule", "place-hold", "hold-on",
         "hold-off", "open-run")


def by_form(it: Browser, role: str, stage: Stage, world: World, most: int = len(PLAIN)) -> None:
    """Who shows a form that is left out, and sends it, is told in words that it is not theirs."""
    words = texts(it.language)["403 right"]
    left = {kind: deed for kind, deed in deeds(stage, role).items() if kind in PLAIN and kind not in MAY[role]}
    for kind, deed in list(left.items())[:most]:
        it.open(deed.view)
        it.driver.execute_script(SHOWN)
        seen = asked_for(it, deed)
        judge(f"{role}, {it.language}: sends {kind} all the same", words["meaning"] in seen and words["do"] in seen, seen)
        line = world.last("refused")
        same(f"{role}, {it.language}: the journal has it", (line["name"], line.get("kinds"), line["status"]),
             (role, kinds_of(role, kind), 403))
    it.picture("refused")


def readings(it: Browser, role: str, stage: Stage) -> None:
    """Asks past the page for what is not the role's to read, and for what is."""
    number = stage.records["due"]
    paths = {"records": f"records/{number}", "contents": f"records/{number}/content", "lists": f"due/{today()}",
             "certificates": "certificates/1", "catalogue": "catalogue/records.json", "history": "history?name=legal"}
    for thing, path in paths.items():
        status, said = it.fetch("GET", path)
        if thing in READS[role]:
            same(f"{role}, {it.language}: reads {path}", status, 200)
            continue
        word = "class" if role == "archive" and thing in ("records", "contents") else "right"
        same(f"{role}, {it.language}: does not read {path}", (status, json.loads(said)["error"]), (403, word))
    for path in ("alive", "metrics"):
        same(f"{role}, {it.language}: {path} is for a monitor", it.proxy.ask(role, "GET", f"/city/{path}")[0], 401)
