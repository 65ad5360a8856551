"""The page in Chromium, through nginx and the gate, by people: who did what, what the journal has, titles, what is new.

PICTURES names a folder for pictures of the views.
"""
import os
import pathlib
import subprocess
import time

from selenium.webdriver.common.by import By

from gate_trial.base import SETTINGS, filing, plan
from gate_trial.browsing import LANGUAGES, Browser, texts
from kit.companions import companion
from kit.judging import judge, same
from gate_trial.proxy import Proxy
from gate_trial.world import OFFICE, World, today

NAMES = ("legal", "auditor", "registry", "records-manager", "department")
MORE = "name records-manager signs R. Halloran, records manager\nrule reason-for lift-hold\n"
DAY = today()


def tried(folder: pathlib.Path) -> None:
    world = World(folder / "world", SETTINGS + MORE)
    catalogues = folder / "catalogues"
    catalogues.mkdir(parents=True)
    world.catalogue = catalogues
    proxy = Proxy(folder / "nginx", "gated.conf", list(NAMES), world.place, world.port, catalogues / "now")
    world.settings.write_text(f"site {proxy.here}\nzone UTC\n" + SETTINGS + MORE)
    world.start_office()
    world.start_gate()
    world.place.chmod(0o666)
    proxy.start()
    fill(proxy)
    # what got another class within two seconds of the catalogue's moment is left out of one that is limited to classes
    time.sleep(3.1)
    make(world)
    for language in os.environ.get("SPOKEN", " ".join(LANGUAGES)).split():
        histories(proxy, language)
        signed_out(proxy, language)
        sentences(proxy, language)
        department(proxy, language)
        fresh(proxy, language, {"en-US": "100", "de-DE": "200"}[language])
    judge("the chain holds", world.check().returncode == 0, world.check().stderr)
    proxy.stop()
    world.end()


def fill(proxy: Proxy) -> None:
    """Records of two classes, a hold that was placed and lifted, a run, and a change of class, each with a reason."""
    def did(name: str, reason: str, *acts: dict) -> None:
        status, said = proxy.act(name, [{"day": DAY, **it} for it in acts], Office_Reason=reason.replace(" ", "%20"))
        same(f"{name}: {reason}", status, 200)
    did("records-manager", "the plan", *plan(), *(filing(it, 1 + it % 2) for it in range(3, 8)))
    did("legal", "court order of 3 March", {"act": "place-hold", "code": "H", "reason": "a lawsuit"},
        {"act": "hold-on", "hold": "H", "target": "record:1"}, {"act": "hold-on", "hold": "H", "target": "record:2"})
    did("records-manager", "a mistake", {"act": "set-class-schedule", "class": "BLDG1", "schedule": "T0"})
    did("records-manager", "put right", {"act": "set-class-schedule", "class": "BLDG1", "schedule": "D0"})
    did("records-manager", "filed wrongly", {"act": "reclassify", "target": "record:3", "class": "BLDG1"})
    did("records-manager", "as each month", {"act": "confirm", "record": 6, "action": "destroy"}, {"act": "open-run"})
    same("a run", proxy.ask("records-manager", "POST", "/city/run/resume", b"")[0], 200)
    did("legal", "judgment of 3 November", {"act": "lift-hold", "hold": "H"})


def make(world: World) -> None:
    copy = world.folder / "copy.db"
    copy.unlink(missing_ok=True)
    for command, *places in (("office-backup", world.file, copy), ("office-catalogue", copy, world.catalogue)):
        done = subprocess.run([companion(str(command)), *places], capture_output=True, text=True, check=False,
                              env={**os.environ, "OFFICE": OFFICE})
        judge(f"{command}", done.returncode == 0, done.stderr)


def rows_of(it: Browser, css: str) -> list[list[str]]:
    """The rows of a table as the texts of their cells."""
    return it.driver.execute_script("return [...document.querySelectorAll(`${arguments[0]} tbody tr`)].map((row) => "
                                    "[...row.cells].map((cell) => cell.textContent))", css)


def unfold(it: Browser, css: str) -> None:
    it.press(f"{css} > summary")
    time.sleep(0.3)
    it.settled()


def histories(proxy: Proxy, language: str) -> None:
    """Record, aggregation, hold and run say who did what, when and why; to nobody else than may know it."""
    it = Browser(proxy, "auditor", language)
    words = texts(language, "history")
    try:
        it.settled()
        judge("who is signed in", "auditor" in it.one("#signed-in").text, it.one("#signed-in").text)
        it.open("record?number=1")
        unfold(it, "#record-history")
        rows = rows_of(it, "#record-history")
        same("record 1: who", [row[1] for row in rows], ["legal", "R. Halloran, records manager · records-manager"])
        same("record 1: why", [row[3] for row in rows], ["court order of 3 March", "the plan"])
        judge("record 1: when", all(row[0].startswith(DAY) for row in rows), rows)
        same("record 1: what", rows[1][2], words["kinds"]["add-record"].format(number=1, ref="r1"))
        it.picture("record-history")
        narrow(it)
        it.open("record?number=3")
        judge("record 3: the class of the moment, and before", words["own"] in rows_of(it, "#record-history")[0][2]
              and "BLDG1" in rows_of(it, "#record-history")[0][2], rows_of(it, "#record-history"))
        said = it.one("#record-told").text
        judge("record 3: that its history has the rest", texts(language, "page")["inHistory"] in said and texts(language, "record")["more"] not in said, said)
        it.open("catalogue?part=classes")
        it.press("#catalogue-part a[href*='code=BLDG1']")
        it.settled()
        same("class BLDG1: alone", [row[0] for row in rows_of(it, "#catalogue-part > table")], ["BLDG1"])
        unfold(it, "#catalogue-history")
        given = [words["kinds"]["set-class-schedule"].format(**{"class": "BLDG1", "schedule": code}) for code in ("D0", "T0")]
        same("class BLDG1: who gave it which schedule, and why",
             [(row[1].split(" · ")[-1], row[3]) for row in rows_of(it, "#catalogue-history") if row[2].startswith(tuple(given))],
             [("records-manager", "put right"), ("records-manager", "a mistake")])
        it.picture("class-history")
        it.open("catalogue?part=schedules&code=D0")
        unfold(it, "#catalogue-history")
        judge("schedule D0: who added it", rows_of(it, "#catalogue-history")[-1][2] == words["kinds"]["add-schedule"].format(code="D0"))
        it.open("catalogue?part=records&aggregation=1")
        unfold(it, "#catalogue-history")
        same("aggregation 1", len(rows_of(it, "#catalogue-history")), 4)
        it.picture("aggregation-history")
        it.open("holds?code=H")
        unfold(it, "#hold-history")
        rows = rows_of(it, "#hold-history")
        same("hold H: who lifted it, and why", rows[0][1:], ["legal", words["kinds"]["lift-hold"].format(hold="H"),
                                                            "judgment of 3 November"])
        same("hold H: all of it", len(rows), 4)
        it.picture("hold-history")
        it.open("run?number=1")
        unfold(it, "#run-history")
        same("run 1", [row[1].split(" · ")[-1] for row in rows_of(it, "#run-history")], ["records-manager"] * 2)
        it.picture("run-history")
        it.open("run")
        judge("no run, no history", not it.is_seen("#run-history"))
        for state in (False, True):
            it.driver.execute_script("document.querySelector('#run-history').open = arguments[0]", state)
            time.sleep(0.3)
        same("the console complains of nothing", it.complaints(), [])
    finally:
        it.driver.quit()
    it = Browser(proxy, "registry", language)
    try:
        for view in ("record?number=1", "catalogue?part=records&aggregation=1", "holds?code=H", "run?number=1"):
            it.open(view)
            judge(f"registry: {view} has no history", not it.is_seen(".history"))
    finally:
        it.driver.quit()


def narrow(it: Browser) -> None:
    """No cell of a history lies over the next one on a small screen."""
    size = {"width": 400, "height": 900, "deviceScaleFactor": 1, "mobile": False}
    it.driver.execute_cdp_cmd("Emulation.setDeviceMetricsOverride", size)
    wide = it.driver.execute_script("return [...document.querySelectorAll('#record-history tbody :is(th, td)')]"
                                    ".filter((cell) => cell.scrollWidth > cell.clientWidth).map((cell) => cell.textContent)")
    same("record 1: each cell has room at 400 pixels", wide, [])
    it.driver.execute_cdp_cmd("Emulation.clearDeviceMetricsOverride", {})


def signed_out(proxy: Proxy, language: str) -> None:
    """Once somebody signed out the browser does not know name and password any more."""
    it = Browser(proxy, "auditor", language)
    address = f"https://localhost:{proxy.port}/city/web/"
    try:
        it.driver.get(address)
        it.settled()
        same("a page that is opened again asks nobody", it.is_seen("#signed-in"), True)
        it.driver.execute_script("document.querySelector('#sign-out').click()")
        time.sleep(2)
        it.driver.get(address)
        judge("once signed out, it is not opened without a password", "signed-in" not in it.driver.page_source,
              it.driver.page_source[:300])
    finally:
        it.driver.quit()


def sentences(proxy: Proxy, language: str) -> None:
    """Nowhere does the page say that nobody knows who did it: the journal does, and has the reason of what needs one."""
    words = texts(language, "page")
    it = Browser(proxy, "records-manager", language)
    it.settled()
    false = [texts(language, "holds")["unrecorded"], texts(language, "run")["resumeUnrecorded"],
             texts(language, "plan")["rule"]["unrecorded"], texts(language, "fields")["noReason"],
             texts(language, "due")["confirmAbout"], texts(language, "file")["sendAbout"]]
    try:
        same("who is signed in, with the role", it.one("#signed-in > span").text, words["signedInAs"].format(
            by="R. Halloran, records manager", roles="records-manager"))
        seen = it.driver.execute_script("return document.body.textContent")
        same("none is there that is not so", [one for one in false if one in seen], [])
        judge("the journal has name and time", seen.count(words["journaled"]) > 8, seen.count(words["journaled"]))
        lift = it.driver.execute_script("return document.querySelector('#hold-lift').textContent")
        judge("and the reason of a lift", words["journaledReason"] in lift, lift)
        same("the console complains of nothing", it.complaints(), [])
    finally:
        it.driver.quit()


def department(proxy: Proxy, language: str) -> None:
    """A name with classes sees the titles of these in each view, and nothing of others anywhere."""
    it = Browser(proxy, "department", language)
    foreign = ("title 2", "title 5", "title 7", "PER1")
    try:
        it.open("catalogue?part=records")
        rows = rows_of(it, "#catalogue-part")
        same("department: refs and titles of its class", [row[2:4] for row in rows],
             [[f"r{number}", f"title {number}"] for number in (1, 3, 4, 6)])
        judge("department: it says whose classes", texts(language, "catalogue")["own"] in it.one("#catalogue-moment").text)
        links = [link.text for link in it.driver.find_elements(By.CSS_SELECTOR, "#catalogue-parts a")]
        judge("department: no list of runs", len(links) == 5, links)
        it.picture("catalogue")
        it.write(catalogue_text="title 4")
        it.settled()
        time.sleep(0.5)
        same("department: a search", [row[2] for row in rows_of(it, "#catalogue-part")], ["r4"])
        for view in ("due", "todo", "holds", "record?number=4", "catalogue?part=aggregations", "catalogue?part=classes",
                     "catalogue?part=holds", "run"):
            it.open(view)
            seen = it.driver.execute_script("return document.querySelector('main > section:not([hidden])').textContent")
            same(f"department: {view} names nothing of others", [one for one in foreign if one in seen], [])
            if view == "due":
                judge("department: Due has the titles", "title 1" in seen and "title 4" in seen, seen[:600])
                it.picture("due-titles")
            if view == "todo":
                judge("department: To do does not say that there is no catalogue",
                      texts(language, "todo")["noCatalogue"] not in seen and texts(language, "todo")["noRight"] not in seen)
        same("the console complains of nothing", it.complaints(), [])
    finally:
        it.driver.quit()


def fresh(proxy: Proxy, language: str, mark: str) -> None:
    """What somebody has just made is in each list at once, whoever made it, without a new catalogue."""
    day = {"day": DAY}
    made = proxy.act("records-manager", [
        {"act": "add-schedule", "code": f"NEW{mark}", "trigger": "added", "unit": "days", "count": 0, "offset": "none",
         "action": "destroy", **day},
        {"act": "add-class", "code": f"C{mark}", "title": f"class of {mark}", "schedule": "D0", **day},
        {"act": "add-aggregation", "ref": f"file-{mark}", "title": f"file of {mark}", "class": f"C{mark}", **day}])
    same("something new", made[0], 200)
    number = made[1][2]["number"]
    same("a record in it", proxy.act("registry", [{**filing(int(mark), number), "ref": f"new-{mark}", **day}])[0], 200)
    it = Browser(proxy, "legal", language)
    try:
        it.open("holds")
        it.write(hold_place_code=f"H{mark}", hold_place_reason=f"lawsuit {mark}")
        it.press("#hold-place > button:last-of-type")
        time.sleep(0.5)
        it.settled()
        rows = rows_of(it, "#hold-list > table")
        judge("the hold that was placed stands in the list", [f"H{mark}", f"lawsuit {mark}"] in [row[:2] for row in rows], rows)
        it.picture("hold-list")
        it.open(f"holds?code=H{mark}")
        judge("and is shown", f"lawsuit {mark}" in it.one("#hold-told").text, it.one("#hold-told").text)
        it.open("catalogue?part=records")
        it.write(catalogue_text=f"new-{mark}")
        time.sleep(0.5)
        it.settled()
        rows = rows_of(it, "#catalogue-part")
        judge("a record of a minute ago is found by its ref", len(rows) == 1 and f"new-{mark}" in rows[0], rows)
        judge("with its class and its due day", f"C{mark}" in rows[0] and DAY in rows[0], rows)
        it.open("catalogue?part=classes")
        judge("a new class", [f"C{mark}", f"class of {mark}", "D0"] in rows_of(it, "#catalogue-part"))
        it.open("catalogue?part=schedules")
        judge("a new schedule", f"NEW{mark}" in [row[0] for row in rows_of(it, "#catalogue-part")])
        it.open(f"catalogue?part=aggregations&text=file-{mark}")
        rows = rows_of(it, "#catalogue-part")
        judge("a new file, with what is in it", len(rows) == 1 and "1" in rows[0][-1], rows)
        run = proxy.act("records-manager", [{"act": "open-run", **day}])[1][0]["number"]
        it.open("run")
        rows = rows_of(it, "#run-list")
        judge("a run that somebody opened is the first of the list", rows[0][0] == str(run)
              and rows[0][3] == texts(language, "catalogue")["openRun"], rows)
        it.picture("run-list")
        same("carried out", proxy.ask("records-manager", "POST", "/city/run/resume", b"")[0], 200)
        it.open("todo")
        judge("what others have to confirm is folded", it.driver.execute_script(
            "return document.querySelector('#todo-others > .tasks [data-task=confirm]') !== null")
            and not it.driver.execute_script("return document.querySelector('#todo-others').open"))
        it.picture("todo")
        it.open("run")
        judge("and is closed then", rows_of(it, "#run-list")[0][3] == texts(language, "catalogue")["closedRun"])
        same("the console complains of nothing", it.complaints(), [])
    finally:
        it.driver.quit()
