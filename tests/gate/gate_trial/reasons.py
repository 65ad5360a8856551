"""Reasons in the page: a form asks for one if its acts need one, no other act gets it, and success empties the field."""
import pathlib

from selenium.webdriver.common.by import By

from gate_trial.browsing import Browser
from gate_trial.deeds import MARKED, NEEDED, Stage
from kit.judging import judge, same
from gate_trial.proxy import Proxy
from gate_trial.world import World, today

RULE = f"rule reason-for {' '.join(NEEDED)}\n"
# somebody with both roles, who lifts a hold and confirms
NAME = "both"
NAMES = f"name {NAME} is records-manager legal\n"
JUDGMENT, MISFILED = "Urteil vom 3.11.2026", "Falsch zugeordnet, Vermerk vom 15.1."
VIEWS = ("todo", "due", "overdue", "outlook", "record?number=2", "file", "import", "plan", "run", "certificate?number=1",
         "holds", "catalogue")
# the fields for a reason that are seen, by the form of each
FIELDS = """
return [...document.querySelectorAll("[data-field=why] > input, #office-reason")].filter((it) => it.checkVisibility())
  .map((it) => it.form?.id ?? "no form")
"""
OF_HOLD = {"hold-lift"}
OF_PLAN = {"plan-reclassify", "plan-own"}


def tried(world: World, proxy: Proxy, stage: Stage, folder: pathlib.Path) -> None:
    it = Browser(proxy, NAME, "en-US")
    try:
        places(it, stage)
        lifted(it, stage, world)
        confirmed(it, stage, world)
        kept(it, stage, world)
        marked(it, stage, world)
        sheets(it, stage, world, folder)
        same("reasons: the console complains of nothing", it.complaints(), [])
    finally:
        it.driver.quit()
    reader(proxy)


def count(world: World) -> int:
    """How many requests that act came to the gate."""
    return sum(line["what"] in ("asked", "refused") for line in world.lines())


def last(world: World) -> tuple[set[str], object]:
    """The kinds of acts of the last request, and its reason."""
    line = world.last("asked")
    return {one["act"] for one in line["acts"]}, line.get("reason")


def fields(it: Browser) -> set[str]:
    return set(it.driver.execute_script(FIELDS))


def places(it: Browser, stage: Stage) -> None:
    """Only the forms of acts that need a reason have a field for one."""
    for view, forms in (("holds", OF_HOLD), ("plan", OF_PLAN), ("due", set()), ("run", set()), ("todo", set())):
        it.open(view)
        same(f"reasons: the fields of {view}", fields(it), forms)
    it.open(f"record?number={stage.records['event']}")
    it.driver.execute_script("for (const it of document.querySelectorAll('details.act')) it.open = true")
    same("reasons: the fields of a record", fields(it), {"record-schedule", "record-class", "record-misfiled"})


def lifted(it: Browser, stage: Stage, world: World) -> None:
    """A lift says before it is pressed that it needs a reason, sends nothing without one, and the journal has it."""
    before = count(world)
    it.open(f"holds?code=H{stage.mark}")
    hint = it.driver.find_elements(By.CSS_SELECTOR, "#hold-lift-why-hint")
    judge("reasons: a lift says that it needs one", bool(hint) and "needed" in hint[0].text, fields(it))
    it.press("#hold-sure")
    it.press("#hold-lift button:not([type])")
    same("reasons: without one a lift is not sent", count(world), before)
    wrong = it.driver.find_elements(By.CSS_SELECTOR, "#hold-lift-why-wrong")
    judge("reasons: which is said at its field", bool(wrong) and wrong[0].text != "", fields(it))
    it.write(hold_lift_why=JUDGMENT)
    it.press("#hold-lift button:not([type])")
    same("reasons: a lift has its reason in the journal", last(world), ({"lift-hold"}, JUDGMENT))
    same("reasons: then its field is empty", it.one("#hold-lift-why").get_attribute("value"), "")


def confirmed(it: Browser, stage: Stage, world: World) -> None:
    """The reason of the lift does not go along with what is confirmed after it."""
    it.open("due")
    it.driver.execute_script(MARKED, stage.records["due"])
    it.press("#due-submit")
    same("reasons: a confirmation after it has none", last(world), ({"confirm"}, None))


def kept(it: Browser, stage: Stage, world: World) -> None:
    """A refusal takes neither the reason nor the tick away."""
    it.open(f"holds?code=H{stage.mark}")
    it.write(hold_lift_why="once more")
    it.press("#hold-sure")
    it.press("#hold-lift button:not([type])")
    same("reasons: what is lifted is refused", world.last("answered")["answers"], [{"refused": 12}])
    same("reasons: a refusal leaves the tick", it.one("#hold-sure").is_selected(), True)
    same("reasons: and the reason", it.one("#hold-lift-why").get_attribute("value"), "once more")


def marked(it: Browser, stage: Stage, world: World) -> None:
    """Of the deeds with what is marked only those that need a reason ask for one and get it."""
    it.open("due")
    it.driver.execute_script(MARKED, stage.records["own"])
    it.press("#due-record-event-choose")
    same("reasons: an event of what is marked has no field", fields(it), set())
    it.press("#due-record-schedule-choose")
    same("reasons: a schedule of what is marked has one", fields(it), {"due-record-schedule"})
    before = count(world)
    it.write(due_record_schedule_schedule="T0")
    it.press("#due-record-schedule-submit")
    same("reasons: without it nothing is sent", count(world), before)
    it.write(due_record_schedule_why=MISFILED)
    it.press("#due-record-schedule-submit")
    same("reasons: with it the journal has it", last(world), ({"set-record-schedule"}, MISFILED))


def sheets(it: Browser, stage: Stage, world: World, folder: pathlib.Path) -> None:
    """A list asks for one reason if its acts need one, and sends it with these alone."""
    number = stage.records["event"]
    it.open("import")
    taken(it, folder / "classes.csv", "record,class\n" f"{number},BLDG-Z{stage.mark}\n", "reclassify")
    same("reasons: a list of classes asks for one", fields(it), {"import-send"})
    before = count(world)
    it.press("#import-submit")
    same("reasons: without it nothing of the list is sent", count(world), before)
    it.write(import_send_why=MISFILED)
    it.press("#import-submit")
    same("reasons: the list has its reason in the journal", last(world), ({"reclassify"}, MISFILED))
    taken(it, folder / "events.csv", f"record,occurred,by\n{number},2026-01-02,{NAME}\n", "event")
    same("reasons: a list of events asks for none", fields(it), set())
    it.press("#import-submit")
    same("reasons: and sends none", last(world), ({"event"}, None))
    text = f"Record,Ref,Action,Due,decision\n{stage.records['old']},,destroy,{today()},yes\n"
    taken(it, folder / "came-back.csv", text, "")
    it.press("#import-submit")
    same("reasons: a due list with decisions needs neither a kind nor a name", last(world), ({"confirm"}, None))
    same("reasons: it is confirmed by who signed in", world.last("asked")["acts"][0]["by"], NAME)


def taken(it: Browser, file: pathlib.Path, text: str, kind: str) -> None:
    file.write_text(text)
    it.one("#import-choose").send_keys(str(file))
    it.settled()
    it.choose("#import-kind", kind)
    it.settled()


def reader(proxy: Proxy) -> None:
    """A name that may only read sees no field for a reason."""
    it = Browser(proxy, "auditor", "en-US")
    try:
        for view in VIEWS:
            it.open(view)
            same(f"reasons: an auditor sees no field at {view}", fields(it), set())
    finally:
        it.driver.quit()
