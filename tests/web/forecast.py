"""Forecasts: what a run, a lift, a closing and another schedule would do, beside what the office then does."""
from __future__ import annotations

import pathlib

import town
from browser import Browser
from kit.judging import judge, same
from late import after
from place import Office, Proxy
from shots import shots
from story import TEXTS, WHO, Story, says

WORDS = TEXTS["forecast"]
TOTALS = "return Array.from(document.querySelectorAll('#run-forecast .totals dd'), (it) => Number(it.textContent))"
LAST = "/due/2999-12-31"


def run_shown(it: Browser) -> list[int]:
    """How many would be destroyed, sent, at the end of their transfer, and skipped."""
    return it.driver.execute_script(TOTALS)


def certified(office: Office, number: int) -> list[int]:
    """The same by a certificate."""
    text = office.ask("GET", f"/certificates/{number}")[2].decode()
    outcomes = [line.split("\t")[2] for line in text.splitlines() if line.startswith("ENTRY\t")]
    return [outcomes.count(it) for it in ("destroyed", "sent", "transferred", "skipped")]


def run(it: Browser, proxy: Proxy, office: Office) -> None:
    """Before a run is opened, before it is carried out, and what it then did."""
    it.open(f"{proxy.page}#run")
    first = run_shown(it)
    same("run: what it would do is shown before it is opened", first, [2, 1, 1, 2])
    says("run: as a forecast", it.seen("#run-forecast").lower(), WORDS["is"].lower())
    it.press("#run-forecast summary")
    same("run: with the list of its records", [row[0] for row in it.table("#run-forecast .taken")], list("123") + ["4", "15", "14"])
    it.write(run_open_day=after(-1000))
    it.wait(lambda: run_shown(it) != first, "the forecast of another day does not come")
    same("run: on a day on which nothing is due it would end the transfer that is received", run_shown(it), [0, 0, 1, 0])
    it.write(run_open_day=after(0), run_open_by=WHO)
    it.press("#run-open button:not([type])")
    says("run: after the opening it says which run it is", it.seen("#run-forecast"), "run 2")
    town.send(office, town.confirm(after(0), [5], "destroy"))
    it.press("#run-sure")
    it.press("#run-resume button")
    says("run: what somebody confirms meanwhile keeps it from being carried out", it.seen("#run-resume-outcome"), WORDS["changed"])
    same("run: nothing was destroyed", office.ask("GET", "/certificates/2")[0], 404)
    second = run_shown(it)
    same("run: the forecast is as it is now", second, [3, 1, 1, 2])
    it.press("#run-sure")
    it.press("#run-resume button")
    same("run: it did what the forecast said", certified(office, 2), second)
    it.settled()
    ended(it, second)
    it.write(run_open_day=after(1))
    it.wait(lambda: WORDS["is"] in it.text("#run-forecast"), "no forecast comes after the run")
    judge("run: what comes after it is forecast once another day is written", run_shown(it) != second)


def ended(it: Browser, fates: list[int]) -> None:
    """After a run the view says what it did, and no sentence says that one is open, or would do something, or did nothing."""
    same("run: its result is in the place of the forecast, in the same words", run_shown(it), fates)
    shown = [it.text(f"#run-{name}") for name in ("forecast", "open-outcome", "resume-outcome")]
    runs = TEXTS["run"]
    others = [WORDS["is"], runs["tookNone"], *(WORDS["run"][name] for name in ("none", "noneOpen", "isOfNow")),
              runs["opened"].format(number=2), WORDS["run"]["open"].split("{")[0]]
    wrong = [words for words in others if any(words in text for text in shown)]
    same("run: no sentence says open or nothing once it is closed", wrong, [])


def quiet_day(it: Browser, proxy: Proxy) -> None:
    """On a day on which a run would take nothing the forecast says so of a run that has not been."""
    it.open(f"{proxy.page}#run")
    it.write(run_open_day=after(-1000))
    it.wait(lambda: after(-1000) in it.text("#run-forecast"), "the forecast of another day does not come")
    says("run: of a day on which nothing is due it says what a run would do", it.seen("#run-forecast"),
         WORDS["run"]["noneOf"].format(day=after(-1000)))
    judge("run: and not what one did", TEXTS["run"]["tookNone"] not in it.text("#run-forecast"), it.text("#run-forecast"))


def lift(it: Browser, proxy: Proxy, office: Office) -> None:
    """A lift, with how many it lets go, and since when they are confirmed."""
    it.open(f"{proxy.page}#holds?code={town.HELD}")
    told = it.seen("#hold-lift-forecast")
    says("lift: how many the hold covers, and how many are confirmed, since when", told,
         WORDS["lift"]["all"]["many"].format(count=2), f"for 2 records that have a due day. Due by {after(0)}: 2", "Of these 2 are confirmed", f"is of {after(-400)}")
    says("lift: the hold is shown before the forms", it.seen("#hold-told"), "A lawsuit", "2 records", "LET/1 · Title of LET/1")
    town.send(office, [{"act": "hold-off", "day": after(0), "hold": town.HELD, "target": "record:1"}])
    it.press("#hold-sure")
    it.press("#hold-lift button:not([type])")
    says("lift: what has changed since is said, and nothing is sent", it.seen("#hold-lift-outcome"), WORDS["changed"])
    it.press("#hold-sure")
    it.press("#hold-lift button:not([type])")
    says("lift: then it is lifted", it.seen("#hold-lift-outcome"), TEXTS["holds"]["lifted"].format(hold=town.HELD))
    it.open(f"{proxy.page}#run")
    same("lift: a run would destroy both now", run_shown(it)[0], 2)


def closing(it: Browser, proxy: Proxy, story: Story) -> None:
    """A closing: what it is, what is open in it, the tick, the due days that follow."""
    it.open(f"{proxy.page}#plan?close=4")
    says("close: what the number is, and what is still open in it", it.seen("#plan-close-forecast"),
         "4 · CASE · Files of CASE", "6 · CASE/1 · The case of the mill")
    before = story.posted()
    it.press("#plan-close button.grave")
    same("close: without the tick nothing is sent", (story.posted() - before, it.text("#plan-close-sure-wrong")),
         (0, TEXTS["fields"]["sureWrong"]))
    it.press("#plan-close-sure")
    it.press("#plan-close button.grave")
    says("close: a refusal says what has to be closed first", it.seen("#plan-close-outcome"), "6 · CASE/1 · The case of the mill")
    it.one("#plan-close-outcome ul a").click()
    it.settled()
    row = it.table("#plan-close-forecast table")[0]
    same("close: the due days that follow", (row[0], row[3]), ("CLOSED-2", "2"))
    it.press("#plan-close-sure")
    it.press("#plan-close button.grave")
    says("close: the answer says what was closed", it.seen("#plan-close-outcome"), "6 · CASE/1 · The case of the mill")
    same("close: the office has that due day", story.told("/records/18")["due"], row[1])


def rule(it: Browser, proxy: Proxy, story: Story) -> None:
    """Another schedule of a class: the due days that move, and the confirmations that no longer count."""
    town.send(story.office, town.confirm(after(0), [6, 7], "destroy"))
    before = {row["record"]: row for row in story.told(LAST) if row["class"] == "LET"}
    it.open(f"{proxy.page}#plan")
    it.write(plan_rule_class="LET", plan_rule_schedule="D-2")
    it.wait(lambda: it.all("#plan-rule-forecast table"), "no forecast of the schedule comes")
    moves = it.table("#plan-rule-forecast .bydue")
    said = it.seen("#plan-rule-forecast")
    shown = {int(row[0]) for row in it.table("#plan-rule-forecast .fallen")}
    sent = story.posted()
    it.press("#plan-rule button:not([type])")
    same("rule: without a tick no due day moves", (story.posted() - sent, it.text("#plan-rule-sure-wrong")), (0, TEXTS["fields"]["sureWrong"]))
    it.press("#plan-rule-sure")
    it.press("#plan-rule button:not([type])")
    says("rule: the forecast says of when the class's schedule is", said, "By the catalogue of ", "class LET has schedule D-1.")
    says("rule: it is set", it.seen("#plan-rule-outcome"), TEXTS["plan"]["rule"]["done"].format(**{"class": "LET", "schedule": "D-2"}))
    now = {row["record"]: row for row in story.told(LAST) if row["class"] == "LET"}
    moved = [it for it in before if now[it]["due"] != before[it]["due"]]
    pairs = sorted({(before[it]["due"], now[it]["due"]) for it in moved})
    same("rule: the due days moved as the forecast said", [tuple(row[:2]) for row in moves], pairs)
    same("rule: so many of them", sum(int(row[2]) for row in moves), len(moved))
    there = {it for it in before if before[it]["confirmed"] and not now[it]["confirmed"]}
    fallen = len(there)
    judge("rule: some confirmations fell", fallen > 0)
    same("rule: those that the forecast listed", there, shown)
    says("rule: as many as the forecast said", said, WORDS["rule"]["fall"]["one" if fallen == 1 else "many"].format(count=fallen))


def newer(it: Browser, proxy: Proxy, story: Story) -> None:
    """A schedule that is newer than the catalogue: the page knows its own; of another's it says so, and asks for a tick."""
    it.open(f"{proxy.page}#plan")
    it.write(plan_schedule_code="OWN-3", plan_schedule_count="3")
    it.choose("#plan-schedule-trigger", "added")
    it.press("#plan-schedule button:not([type])")
    same("rule: a schedule that was added is written where one is asked for",
         [it.one(f"#plan-{form}-schedule").get_attribute("value") for form in ("class", "rule")], ["OWN-3"] * 2)
    it.write(plan_rule_class="LET")
    it.wait(lambda: it.all("#plan-rule-forecast table"), "no forecast of the page's own schedule comes")
    judge("rule: the page knows the schedule that it has added", it.all("#plan-rule-forecast .bydue") != [])
    rule_ = {"trigger": "added", "unit": "years", "count": 4, "offset": "none", "action": "destroy"}
    town.send(story.office, [{"act": "add-schedule", "day": after(0), "code": "OTHERS-4", **rule_}])
    it.write(plan_rule_schedule="OTHERS-4")
    it.wait(lambda: "OTHERS-4" in it.text("#plan-rule-forecast"), "the page says nothing of a schedule that it does not know")
    says("rule: of one that it does not know it says that there is no forecast", it.seen("#plan-rule-forecast"),
         "No forecast: schedule OTHERS-4 is newer than the catalogue of ")
    before = story.posted()
    it.press("#plan-rule button:not([type])")
    same("rule: without the tick nothing of it is sent", (story.posted() - before, it.text("#plan-rule-blind-wrong")),
         (0, TEXTS["fields"]["sureWrong"]))
    it.press("#plan-rule-blind")
    it.press("#plan-rule button:not([type])")
    says("rule: with the tick it is done", it.seen("#plan-rule-outcome"),
         TEXTS["plan"]["rule"]["done"].format(**{"class": "LET", "schedule": "OTHERS-4"}))
    it.write(plan_rule_schedule="D-2")
    it.wait(lambda: "OTHERS-4." in it.text("#plan-rule-forecast"), "the forecast goes by an old schedule")
    due = [row for row in story.told(LAST) if row["class"] == "LET"]
    says("rule: a next forecast is of the schedule that the class has now", it.seen("#plan-rule-forecast"),
         WORDS["rule"]["dues"]["many"].format(count=len(due), schedule="OTHERS-4", **{"class": "LET"}))


def pictures(it: Browser, proxy: Proxy) -> None:
    shots(it, "run-forecast", f"{proxy.page}#run")
    shots(it, "hold", f"{proxy.page}#holds?code={town.HELD}")
    shots(it, "close", f"{proxy.page}#plan?close=6",
          lambda: it.driver.execute_script("document.getElementById('plan-close').scrollIntoView()"))


def tell(office: Office, proxy: Proxy, browser: Browser, folder: pathlib.Path) -> None:
    town.fill(office)
    town.renew(proxy, office)
    pictures(browser, proxy)
    story = Story(office, proxy, browser, folder)
    run(browser, proxy, office)
    town.renew(proxy, office)
    quiet_day(browser, proxy)
    lift(browser, proxy, office)
    closing(browser, proxy, story)
    rule(browser, proxy, story)
    town.renew(proxy, office)
    newer(browser, proxy, story)
