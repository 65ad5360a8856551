"""The page in Chromium, through nginx and the gate, by each role: what it offers, what it hides, and how it says no.

PICTURES names a folder for pictures of the views. ROLES and SPOKEN name roles and languages, if not all are tried.
"""
import os
import pathlib
import subprocess

from selenium.webdriver.common.by import By

from gate_trial import reasons
from gate_trial.base import SETTINGS, filing, plan
from gate_trial.browsing import LANGUAGES, Browser, texts
from gate_trial.deeds import Stage, Stages, all_done, all_forged, by_form
from kit.companions import companion
from kit.judging import judge, same
from gate_trial.proxy import PASSWORD, Proxy
from gate_trial.roles import MAY, READS
from gate_trial.world import OFFICE, World, today

ROLES = ("legal", "archive", "auditor", "registry", "records-manager", "department")
VIEWS = ("todo", "due", "overdue", "outlook", "record", "sent", "file", "import", "plan", "run",
         "certificate?number=1", "holds", "catalogue", "fault")
# where the page offers an act of each kind, if the name may do it
FORMS = {"plan": {"add-schedule": "#plan-schedule", "add-class": "#plan-class", "set-class-schedule": "#plan-rule",
                  "add-aggregation": "#plan-aggregation", "close-aggregation": "#plan-close",
                  "set-record-schedule": "#plan-own", "reclassify": "#plan-reclassify"},
         "file": {"add-record": "#file-drop"},
         "holds": {"place-hold": "#hold-place", "hold-on": "#hold-on", "hold-off": "#hold-off",
                   "lift-hold": "#hold-lift"},
         "run": {"open-run": "#run-open", "resume": "#run-resume"},
         "record": {"event": "#record-event-part", "review": "#record-review-part",
                    "set-record-schedule": "#record-schedule-part", "reclassify": "#record-class-part"},
         "sent": {"receipt": "#record-receipt-part"},
         "due": {"confirm": "#due-confirm", "event": "#due-list [data-deed=event]",
                 "review": "#due-list [data-deed=review]",
                 "set-record-schedule": "#due-list [data-deed=schedule]", "hold-on": "#due-list [data-deed=hold]"},
         "overdue": {"confirm": "#overdue-confirm", "event": "#overdue-list [data-deed=event]",
                     "review": "#overdue-list [data-deed=review]",
                     "set-record-schedule": "#overdue-list [data-deed=schedule]",
                     "hold-on": "#overdue-list [data-deed=hold]"},
         "catalogue": {"confirm": "#catalogue-panel [data-deed=confirm]",
                       "event": "#catalogue-panel [data-deed=event]",
                       "review": "#catalogue-panel [data-deed=review]",
                       "set-record-schedule": "#catalogue-panel [data-deed=schedule]",
                       "receipt": "#catalogue-panel [data-deed=receipt]",
                       "hold-on": "#catalogue-panel [data-deed=hold]"}}
# what each of these views is about, without which it offers nothing
ABOUT = {"record": "records", "sent": "records", "due": "lists", "overdue": "lists", "catalogue": "catalogue"}
# what each role reads in the views: the thing, the view, and where the answer is
READINGS = (("records", "record", "#record-told"), ("lists", "due", "#due-list"), ("lists", "overdue", "#overdue-list"),
            ("lists", "outlook", "#outlook-there"), ("certificates", "certificate?number=1", "#certificate-told"),
            ("catalogue", "catalogue", "#catalogue-there"))
# forms that only read
ASKING = {"due-form", "overdue-form", "record-form", "certificate-form", "certificate-file-form", "run-form",
          "catalogue-search"}
# the forms and deeds whose buttons are seen, by their names
BUTTONS = """
return [...document.querySelectorAll("section:not([hidden]) button")].filter((it) => it.checkVisibility())
  .map((it) => it.dataset.deed ? `deed ${it.dataset.deed}` : it.type === "submit" ? it.form?.id ?? "no form" : "")
  .filter(Boolean)
"""
ACTING = {"plan-schedule": "add-schedule", "plan-class": "add-class", "plan-rule": "set-class-schedule",
          "plan-aggregation": "add-aggregation", "plan-close": "close-aggregation", "plan-own": "set-record-schedule",
          "plan-reclassify": "reclassify", "hold-place": "place-hold", "hold-on": "hold-on", "hold-off": "hold-off",
          "hold-lift": "lift-hold", "run-open": "open-run", "run-resume": "resume", "record-event": "event",
          "record-review": "review", "record-schedule": "set-record-schedule", "record-class": "reclassify",
          "record-receipt": "receipt", "due-confirm": "confirm", "overdue-confirm": "confirm", "file-send": "add-record",
          "deed event": "event", "deed review": "review", "deed schedule": "set-record-schedule", "deed hold": "hold-on",
          "deed receipt": "receipt", "deed close": "close-aggregation", "deed confirm": "confirm",
          "record-misfiled": "set-record-schedule"}


def tried(folder: pathlib.Path) -> None:
    settings = SETTINGS + reasons.NAMES + reasons.RULE
    world = World(folder / "world", settings)
    catalogues = folder / "catalogues"
    catalogues.mkdir(parents=True)
    world.catalogue = catalogues
    proxy = Proxy(folder / "nginx", "gated.conf", [*ROLES, reasons.NAME], world.place, world.port, catalogues / "now")
    world.settings.write_text(f"site {proxy.here}\nzone UTC\n" + settings)
    world.start_office()
    world.start_gate()
    world.place.chmod(0o666)
    proxy.start()
    fill(world, proxy, catalogues)
    stages = Stages(proxy)
    for role in os.environ.get("ROLES", " ".join(ROLES)).split():
        for language in os.environ.get("SPOKEN", " ".join(LANGUAGES)).split():
            signed_in(world, proxy, role, language, stages.stage())
    reasons.tried(world, proxy, stages.stage(), folder)
    monitor(proxy)
    judge("the chain holds", world.check().returncode == 0, world.check().stderr)
    proxy.stop()
    world.end()


def fill(world: World, proxy: Proxy, catalogues: pathlib.Path) -> None:
    """Records of two classes, a run and its certificate, and a catalogue of all that."""
    day = {"day": today()}
    rule = {"act": "add-schedule", "unit": "days", "count": 0, "offset": "none"}
    more = ({**rule, "code": "REV", "trigger": "added", "action": "review"},
            {**rule, "code": "O0", "trigger": "origin", "action": "destroy"})
    acts = [*plan(), *more, *(filing(it, 1 + it % 2) for it in range(3, 8))]
    same("the plan", proxy.act("records-manager", [{**it, **day} for it in acts])[0], 200)
    same("a decision", proxy.act("records-manager", [{"act": "confirm", "record": 7, "action": "destroy", **day},
                                                     {"act": "open-run", **day}])[0], 200)
    same("a run", proxy.ask("records-manager", "POST", "/city/run/resume", b"")[0], 200)
    same("a hold", proxy.act("legal", [{"act": "place-hold", "code": "H", "reason": "a lawsuit", **day}])[0], 200)
    for command, *places in (("office-backup", world.file, world.folder / "copy.db"),
                             ("office-catalogue", world.folder / "copy.db", catalogues)):
        done = subprocess.run([companion(str(command)), *places], capture_output=True, text=True, check=False,
                              env={**os.environ, "OFFICE": OFFICE})
        judge(f"{command}", done.returncode == 0, done.stderr)


def signed_in(world: World, proxy: Proxy, role: str, language: str, stage: Stage) -> None:
    it = Browser(proxy, role, language)
    try:
        for view in VIEWS:
            it.open(address(view, stage))
            if view == "catalogue":
                marked(it, role)
            it.picture(view)
            offered(it, role, view)
            buttons(it, role, view)
            read(it, role, view)
        contents(it, role, stage)
        foreign(it, role)
        if language == "en-US":
            all_forged(it, role, stage, world)
            it.driver.refresh()
            all_done(it, role, stage, world, world.folder)
        else:
            # what may be done does not depend on the language; what is said does
            by_form(it, role, stage, world, 1)
        same(f"{role}, {it.language}: the console complains of nothing", it.complaints(), [])
    finally:
        it.driver.quit()


def address(view: str, stage: Stage) -> str:
    """A record that is here, and may be reviewed; or one that was sent to an archive."""
    number = {"record": "review", "sent": "sent"}.get(view)
    return f"record?number={stage.records[number]}" if number else view


def offered(it: Browser, role: str, view: str) -> None:
    """A form is there for each kind of act that is the role's, and for no other."""
    forms = FORMS.get(view, {})
    # what the archive reads is what a run sent
    has = view not in ABOUT or ABOUT[view] in READS[role] or role == "archive" and view == "sent"
    for kind, css in forms.items():
        same(f"{role}, {it.language}: {view} offers {kind}", it.is_seen(css), has and kind in MAY[role])
    # the view Run is for whoever looks for a run, too
    if view in ("plan", "holds", "file") and MAY[role] and not forms.keys() & MAY[role]:
        same(f"{role}, {it.language}: {view} says that it is for others", it.one("#rights").text,
             texts(it.language, "page")["notYours"])
    elif view in ("plan", "holds", "file", "run"):
        same(f"{role}, {it.language}: {view} says what a reader may", it.one("#rights").text,
             "" if MAY[role] else texts(it.language, "page")["reader"])
    if view == "import":
        # a sheet may have acts of any kind
        same(f"{role}, {it.language}: {view} takes a sheet", it.is_seen("#import-drop"), bool(MAY[role]))
    if view == "plan":
        found = it.driver.find_elements(By.CSS_SELECTOR, "#plan-forms > h2")
        heads = [head.text for head in found if head.is_displayed()]
        judge(f"{role}, {it.language}: no heading of the plan without a form",
              bool(heads) == bool(forms.keys() & MAY[role]), heads)


def buttons(it: Browser, role: str, view: str) -> None:
    """No button that acts is seen but for what the role may do, and each is of a form that is known here."""
    seen = set(it.driver.execute_script(BUTTONS)) - ASKING
    others = {one for one in seen if ACTING.get(one) not in MAY[role]}
    same(f"{role}, {it.language}: {view} has no other button", others, set())


def marked(it: Browser, role: str) -> None:
    """Marks records in the catalogue, so that it offers what can be done with them."""
    if "catalogue" in READS[role]:
        it.open("catalogue?part=records")
        it.press("#catalogue-mark")


def read(it: Browser, role: str, view: str) -> None:
    """A view shows what is the role's to read, and else says in words that it is not."""
    words = texts(it.language)
    for thing, css in [(thing, css) for thing, place, css in READINGS if place == view]:
        there = thing in READS[role]
        seen = it.one("#main").text
        # what the archive may read is what a run sent alone
        word = "403 class" if role == "archive" and thing == "records" else "403 right"
        same(f"{role}, {it.language}: {view} shows its {thing}", it.is_seen(css), there)
        if not there:
            # the catalogue has a sentence of its own: there may be one that others read
            own = texts(it.language, "catalogue")
            why = [own["unread"], own["unreadDo"]] if view == "catalogue" else [words[word][part]
                                                                                for part in ("meaning", "do")]
            both = all(sentence in seen for sentence in why)
            judge(f"{role}, {it.language}: {view} says why not", both, seen[:600])


def contents(it: Browser, role: str, stage: Stage) -> None:
    """The content of a record is offered to whoever may read it, and then it is read."""
    kind = "sent" if role == "archive" else "due"
    it.open(f"record?number={stage.records[kind]}")
    may = "contents" in READS[role] or role == "archive"
    same(f"{role}, {it.language}: a content is offered", it.is_seen("#record-save"), may)
    if may:
        it.press("#record-look")
        place = it.one("#record-saved")
        judge(f"{role}, {it.language}: a content is read", "done" in (place.get_attribute("class") or ""), place.text)


def foreign(it: Browser, role: str) -> None:
    """What is of a foreign class has a text of its own."""
    if role == "department":
        words = texts(it.language)
        it.open("record?number=2")
        seen = it.one("#record-outcome").text
        judge(f"department, {it.language}: a foreign record", words["403 class"]["meaning"] in seen
              and words["403 class"]["do"] in seen and words["403 right"]["meaning"] not in seen, seen)
        it.picture("foreign")


def monitor(proxy: Proxy) -> None:
    """The name of a monitor opens no page."""
    it = Browser(proxy, "monitor", "en-US")
    try:
        judge("a monitor opens no page", "views" not in it.driver.page_source, it.driver.page_source[:300])
        it.driver.get(f"https://monitor:{PASSWORD.replace(' ', '%20')}@localhost:{proxy.port}/city/alive")
        judge("but sees that all is well", '"records":true' in it.driver.page_source, it.driver.page_source[:300])
    finally:
        it.driver.quit()
