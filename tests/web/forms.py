"""Forms as people fill them: reasons of a gate, bookmarks of today, a list that comes back, days and names to look at."""
from __future__ import annotations

import datetime
import os
import pathlib
import urllib.parse

import town
from browser import Browser
from kit.judging import judge, same
from late import after
from place import Office, Proxy
from story import TEXTS, WHO, Story, says

REASON = "judgment § 3"
# a page at an office with a gate: what this name signs, and which acts need a reason; each request that acts is noted
GATE = """
const there = window.fetch;
window.sent = [];
window.fetch = async (...words) => {
  const [place, request] = words;
  if (String(place).endsWith("/rights")) {
    const rights = { acts: true, by: BY, reasons: REASONS };
    return new Response(JSON.stringify(rights), { status: 200, headers: { "Content-Type": "application/json" } });
  }
  if (request?.method === "POST") window.sent.push([request.body ?? "", request.headers["Office-Reason"] ?? null]);
  return there(...words);
};
"""
# a page to which the catalogue comes a second late
SLOW = """
const there = window.fetch;
window.fetch = async (...words) => {
  if (String(words[0]).endsWith("/about.json")) await new Promise((go) => setTimeout(go, 1000));
  return there(...words);
};
"""
FIELDS = """
return [...document.querySelectorAll("[data-field=why] > input")].filter((it) => it.checkVisibility()).map((it) => it.form.id)
"""
NAMELESS = """
const nameOf = (it) => document.getElementById(it.getAttribute("aria-labelledby"))?.textContent.trim();
return [...document.querySelectorAll("form")].filter((it) => !nameOf(it)).map((it) => it.id);
"""
LINES = """
const back = getComputedStyle(document.querySelector("header")).backgroundColor;
return [...document.querySelectorAll("nav #views a")].filter((it) => getComputedStyle(it).borderBottomColor !== back).map((it) => it.hash)
"""
# the fields in which what is chosen is cut
CUT = """
const paint = document.createElement("canvas").getContext("2d");
return [...document.querySelectorAll("section:not([hidden]) select")].filter((it) => {
  const style = getComputedStyle(it);
  paint.font = style.font;
  const room = it.clientWidth - parseFloat(style.paddingLeft) - parseFloat(style.paddingRight) - 20;
  return it.selectedOptions.length > 0 && paint.measureText(it.selectedOptions[0].text).width > room;
}).map((it) => it.id);
"""
OFFERED = "return [...(document.querySelector(arguments[0]).list?.options ?? [])].map((it) => it.value)"
WROTE = "const it = document.querySelector(arguments[0]); it.value = arguments[1]; it.dispatchEvent(new Event('input', { bubbles: true }));"


def gate(reasons: list[str], signs: str = "") -> str:
    return GATE.replace("BY", repr(signs)).replace("REASONS", str(reasons))


def sent(it: Browser) -> list[tuple[str, str | None]]:
    """The first kind of act of each request that acted, and its reason."""
    found = it.driver.execute_script("return window.sent.map(([body, reason]) => [body ? JSON.parse(body)[0].act : '', reason])")
    return [(kind, reason and urllib.parse.unquote(reason)) for kind, reason in found]


def chosen(it: Browser, file: pathlib.Path, text: str) -> None:
    """Chooses a sheet in the view Import."""
    file.write_text(text)
    it.one("#import-choose").send_keys(str(file))
    it.wait(lambda: it.text("#import-heading") == file.name, f"{file.name} is not read")
    it.settled()


# ---- reasons


def reasons(story: Story) -> None:
    it = story.browser
    with it.before_each_page(gate(["lift-hold", "add-class"])):
        it.open(f"{story.proxy.page}#holds?code={town.HELD}")
        same("reason: only the form of an act that needs one has a field", it.driver.execute_script(FIELDS), ["hold-lift"])
        says("reason: which it says before it is pressed", it.seen("#hold-lift-why-hint"), TEXTS["fields"]["whyHint"])
        it.press("#hold-sure")
        it.press("#hold-lift button:not([type])")
        same("reason: without one nothing is sent", (sent(it), it.text("#hold-lift-why-wrong")), ([], TEXTS["fields"]["whyWrong"]))
        it.write(hold_lift_why=REASON)
        it.press("#hold-lift button:not([type])")
        same("reason: with one it goes along", sent(it), [("lift-hold", REASON)])
        same("reason: and is empty again once that is done", it.one("#hold-lift-why").get_attribute("value"), "")
        same("reason: and offered again", it.driver.execute_script(OFFERED, "#hold-lift-why"), [REASON])
        it.write(hold_lift_why="again")
        it.press("#hold-sure")
        it.press("#hold-lift button:not([type])")
        says("reason: what is lifted cannot be lifted", it.seen("#hold-lift-outcome"), TEXTS["refusals"]["12"]["meaning"])
        same("reason: a refusal leaves the tick and the reason",
             (it.one("#hold-sure").is_selected(), it.one("#hold-lift-why").get_attribute("value")), (True, "again"))
        it.write(hold_lift_code="LAW-9")
        same("reason: but a tick is for one hold alone", it.one("#hold-sure").is_selected(), False)
        it.go("#import")
        plan = "act,code,title,schedule,begins,unit,length,offset,then\n"
        plan += "schedule,NEW-9,,,added,years,9,none,destroy\nclass,NEW,New,NEW-9,,,,,\n"
        chosen(it, story.folder / "plan.csv", plan)
        same("reason: a list asks for one if one of its acts needs it", it.driver.execute_script(FIELDS), ["import-send"])
        it.driver.execute_script("window.sent = []")
        it.write(import_send_why="new law")
        it.press("#import-submit")
        same("reason: it goes with the requests of these acts alone", sent(it), [("add-schedule", None), ("add-class", "new law")])


# ---- a list that comes back


def returned(story: Story) -> None:
    """A due list with decisions is known by its header, in both languages; where a gate signs, nobody is asked who acts."""
    it = story.browser
    day = after(0)
    lists = {
        "english": f"Record,Ref,Class,Schedule,Action,Due,Held by,Confirmed,decision\n3,LET/3,LET,D-1,destroy,{day},,no,yes\n",
        "german": f"Unterlage;Aktenzeichen;Klasse;Regel;Maßnahme;Fällig;Sperre;Freigabe;Entscheidung\n4;LET/4;LET;D-1;vernichten;{day};;nein;ja\n",
    }
    with it.before_each_page(gate([], WHO)):
        it.open(f"{story.proxy.page}#import")
        for name, text in lists.items():
            chosen(it, story.folder / f"{name}.csv", text)
            kind = it.driver.execute_script("return document.getElementById('import-kind').options[0].text")
            says(f"list: {name}: it is known as one of decisions", kind, TEXTS["sheetActs"]["kinds"]["confirm"])
            judge(f"list: {name}: nobody is asked who acts", it.all("#import-column-by") == [])
            it.press("#import-submit")
            says(f"list: {name}: it is confirmed", it.seen("#import-send-outcome"), TEXTS["sheetActs"]["whole"]["one"])
        same("list: in the name that signed in", [story.told(f"/records/{at}")["confirmed"]["by"] for at in (3, 4)], [WHO, WHO])


# ---- a bookmark


def bookmark(story: Story) -> None:
    """A filter and an order are read without a day, which means today, and the view's own address has no day while it is today."""
    it = story.browser
    rows = [row for row in story.told(f"/due/{after(0)}") if row["class"] == "MAP"]
    it.open(f"{story.proxy.page}#due?class=MAP&sort=-record")
    wanted = sorted((str(row["record"]) for row in rows), key=int, reverse=True)
    same("bookmark: a filter and an order without a day", [row[1] for row in it.table("#due-table")], wanted)
    it.choose("#due-action", "transfer")
    place = urllib.parse.urlparse(it.driver.current_url).fragment
    same("bookmark: the view's own address has no day", place, "due?class=MAP&action=transfer&sort=-record")
    it.write(due_day=after(9))
    it.press("#due-form button")
    says("bookmark: that of another day has one", it.driver.current_url, f"day={after(9)}")
    it.press("#due-all")
    it.write(due_day=after(0))
    it.press("#due-form button")
    same("bookmark: today again has none", "day=" in it.driver.current_url, False)
    numbers = sorted((row["record"] for row in story.told(f"/due/{after(0)}")), reverse=True)
    same("bookmark: and the list is that of today, whole and in the order that was chosen",
         [int(row[1]) for row in it.table("#due-table")], numbers)


# ---- what somebody should look at


def dated(file: pathlib.Path, days: int) -> pathlib.Path:
    """A file that was changed last so many days from now."""
    file.write_text(file.name)
    moment = (datetime.datetime.now() + datetime.timedelta(days)).timestamp()
    os.utime(file, (moment, moment))
    return file


def looks(story: Story) -> None:
    it = story.browser
    answers = lambda: [row[-1] for row in it.table("#file-table")]
    it.open(f"{story.proxy.page}#file")
    names = {"tomorrow.txt": 1, "today.txt": 0, "Meier, geb. 12.3.1961.txt": 0}
    it.one("#file-choose").send_keys("\n".join(str(dated(story.folder / name, days)) for name, days in names.items()))
    it.wait(lambda: len(it.all("#file-table tbody tr")) == 3, "the files are not listed")
    future = TEXTS["sheetActs"]["look"]["future"].format(today=after(0))
    same("look: a day after today", [future in text for text in answers()], [True, False, False])
    birthday = TEXTS["import"]["look"]["birthday"]
    same("look: a date of birth in a title", [birthday in text for text in answers()], [False, False, True])
    says("look: refs and titles stay, which is said where they are written", it.seen("#file-common"), TEXTS["fields"]["persons"])
    it.write(file_send_day=after(-1))
    later = TEXTS["file"]["afterFiling"].format(day=after(-1))
    same("look: a day after that of filing", [later in text for text in answers()], [False, True, True])
    it.go("#import")
    says("look: in Import too", it.seen("#import-drop"), TEXTS["fields"]["persons"])
    chosen(it, story.folder / "persons.csv", f"ref,title,originated,aggregation\nP/1,\"Meier, *12.3.1961\",{after(-9)},1\nP/2,Letter,{after(-9)},1\n")
    same("look: a date of birth in a sheet", [birthday in row[-1] for row in it.table("#import-table")], [True, False])
    it.go("#plan")
    says("look: at an aggregation too", it.seen("#plan-aggregation"), TEXTS["fields"]["persons"])
    it.write(plan_aggregation_title="Meier, born 1961-03-12")
    says("look: a date of birth in its title", it.seen("#plan-aggregation-title-look"), birthday)
    it.go("#holds")
    says("look: at a hold too", it.seen("#hold-place"), TEXTS["holds"]["persons"])


# ---- what is said of a refusal, and of what is done


def refused(story: Story) -> None:
    it = story.browser
    it.open(f"{story.proxy.page}#plan")
    it.write(plan_class_code="NEWER", plan_class_title="Newer", plan_class_schedule="d-2")
    it.press("#plan-class button:not([type])")
    told = it.seen("#plan-class-outcome")
    says("refusal: it begins with words", told.split("\n")[0], "Refusal 5")
    judge("refusal: the raw answer is behind a summary", '"refused":5' not in told and '"refused":5' in it.text("#plan-class-outcome"), told)
    same("refusal: the field that names what is not there says so, and what is", it.text("#plan-class-schedule-wrong"),
         TEXTS["fields"]["otherThere"].format(text="d-2", other="D-2"))
    same("refusal: and no other one", it.text("#plan-class-title-wrong"), "")
    it.go("#file")
    place = story.folder / "taken"
    place.mkdir()
    (place / "LET").write_text("a letter")
    it.one("#file-choose").send_keys(str(place / "LET"))
    it.wait(lambda: len(it.all("#file-table tbody tr")) == 1, "the file is not listed")
    it.write(file_all_aggregation="1")
    it.driver.execute_script(WROTE, "#file-table tbody input", "LET/5")
    it.press("#file-submit")
    says("refusal: a taken ref says which record has it", it.seen("#file-table tbody"), "LET/5 is that of record 5 in LET")
    it.driver.execute_script(WROTE, "#file-table tbody input", "LET/new")
    it.press("#file-submit")
    tiles = [words for words in it.seen("#file-totals").lower().splitlines() if words]
    same("done: only totals that are not 0", tiles, ["files", "1", "in all", "8 b", "filed", "1"])
    same("done: the button says that all is done, and is not the one to press", (it.seen("#file-submit"), it.one("#file-submit").get_attribute("class")),
         (TEXTS["file"]["allFiled"], "quiet"))


def wrong(story: Story) -> None:
    """What is wrong with a text is said, with what may have been meant; below a day of today it says that it is."""
    it, words = story.browser, TEXTS["fields"]
    before = story.posted()
    it.open(f"{story.proxy.page}#holds")
    for text, said in (("", words["codeEmpty"]), ("BAU.7", words["codeStrangeOther"].format(strange=".", other="BAU-7")),
                       ("Q 1", words["codeSpaceOther"].format(other="Q-1")), ("Straße", words["codeStrangeOther"].format(strange="ß", other="Strasse")),
                       ("x" * 17, words["codeLong"].format(count=17, most=16))):
        it.write(hold_lift_code=text)
        it.press("#hold-lift button:not([type])")
        same(f"wrong: {text or 'nothing'} as a code", it.text("#hold-lift-code-wrong"), said)
    for text, said in (("", words["textEmpty"]), ("ü" * 101, words["textLong"]["many"].format(count=2))):
        it.driver.execute_script(WROTE, "#hold-place-reason", text)
        it.press("#hold-place > button:last-of-type")
        same(f"wrong: {len(text)} letters as a reason", it.text("#hold-place-reason-wrong"), said)
    same("wrong: nothing of it is sent", story.posted(), before)
    weekday = datetime.date.today().strftime("%A")
    same("day: today is said in words", it.text("#hold-lift-day-hint"), words["dayToday"].format(weekday=weekday))
    it.write(hold_lift_day=after(-1))
    same("day: of another one it says how days are written", it.text("#hold-lift-day-hint"), words["dayHint"])


def named(story: Story) -> None:
    it = story.browser
    it.open(f"{story.proxy.page}#holds")
    it.write(hold_place_code="LAW-77", hold_place_reason="A lawsuit", hold_place_by=WHO)
    it.press("#hold-place button:not([type])")
    it.choose("#hold-on-kind", "record")
    it.write(hold_on_target="8")
    it.press("#hold-on button:not([type])")
    says("named: a target is said in words, with its ref", it.seen("#hold-on-outcome"),
         TEXTS["holds"]["isOn"].format(hold="LAW-77", target="record 8, LET/8"))
    with it.before_each_page(SLOW):
        it.open(f"{story.proxy.page}#import")
        chosen(it, story.folder / "targets.csv", "hold,target\nLAW-77,record:9\n")
        it.choose("#import-kind", "hold-on")
        it.settled()
        there = it.table("#import-table")
        judge("named: in a sheet too, once the catalogue is read", any("record 9" in row for row in there), str(there))
    it.open(f"{story.proxy.page}#due?class=LET")
    it.press("#due-mark")
    it.press("#due-record-hold-choose")
    it.write(due_record_hold_code="LAW-78")
    says("named: a hold that is not placed yet will be", it.seen("#due-record-hold-preview"), TEXTS["marked"]["hold"]["placed"])


# ---- for those who do not see the page as it is drawn


def access(story: Story) -> None:
    it = story.browser
    it.open(f"{story.proxy.page}#holds?code={town.HELD}")
    same("access: each form has a name", it.driver.execute_script(NAMELESS), [])
    says("access: that a hold is shown is reported", it.text("#hold-status"), TEXTS["holds"]["isShown"].format(hold=town.HELD))
    it.go("#run")
    it.press("#run-forecast summary")
    tables = lambda: it.driver.execute_script("return document.querySelectorAll('[role=status] table').length")
    same("access: what is reported has no table in it", (tables(), len(it.all("#run-forecast table")) > 1), (0, True))
    it.open(f"{story.proxy.page}#due?class=LET")
    it.press("#due-mark")
    it.press("#due-record-schedule-choose")
    it.write(due_record_schedule_schedule="KEEP")
    it.press("#due-record-schedule-submit")
    same("access: nor have the answers to many acts", (tables(), len(it.all("#due-answer table"))), (0, 1))
    it.go("#plan")
    same("access: what is chosen is cut in no field", it.driver.execute_script(CUT), [])
    it.driver.execute_cdp_cmd("Emulation.setEmulatedMedia", {"features": [{"name": "forced-colors", "value": "active"}]})
    same("access: in forced colours only the view that is shown has a line", it.driver.execute_script(LINES), ["#plan"])
    it.driver.execute_cdp_cmd("Emulation.setEmulatedMedia", {"features": []})


def tell(office: Office, proxy: Proxy, browser: Browser, folder: pathlib.Path) -> None:
    town.fill(office)
    town.renew(proxy, office)
    story = Story(office, proxy, browser, folder)
    for part in (bookmark, looks, refused, wrong, named, returned, reasons, access):
        try:
            part(story)
        except Exception as error:  # noqa: BLE001 -- one part that cannot be tried keeps no other one from being tried
            judge(f"{part.__name__}: {str(error).splitlines()[0]}", False)
