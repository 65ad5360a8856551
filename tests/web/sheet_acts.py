"""Acts from a sheet through the page: a plan of 60 rules and 673 files in few clicks, and sheets of each other kind."""
from __future__ import annotations

import json
import pathlib

import catalogue
import layout
import looks
from browser import Browser
from importing import View
from kit.judging import judge, same
from place import Office, Proxy
from shots import SIZES, shot
from story import TEXTS, Story, says

WORDS, PART = TEXTS["import"], TEXTS["sheetActs"]
RULES, CLASSES, FILES = 60, 79, 673
MOST_CLICKS = 12


class Acts(View):
    """The view Import with a sheet of acts; each click and each choice is counted."""

    clicks = 0

    def chosen(self, name: str, lines: list[str], kind: str | None = None) -> None:
        """Chooses a file, and what each row is where the sheet does not show it."""
        self.choose(name, ("\n".join(lines) + "\n").encode())
        self.browser.wait(lambda: self.browser.one("#import-rows").is_displayed() or kind, "the sheet is not read")
        self.clicks += 1
        if kind and self.browser.one("#import-kind").get_attribute("value") != kind:
            self.browser.choose("#import-kind", kind)
            self.clicks += 1
        sheet = self.browser.one("#import-sheet")
        self.browser.wait(lambda: not kind or sheet.get_attribute("data-kind") == kind, f"{name} is not read as {kind}")

    def send(self) -> int:
        self.clicks += 1
        return self.press()

    def outcome(self) -> dict[str, str]:
        names = {word: name for name, word in PART["counts"].items()}
        return {names[word]: count.replace(",", "") for word, count in self.browser.facts("#import-send-outcome").items()
                if word in names}

    def sums(self) -> dict[str, str]:
        script = ("return Array.from(document.querySelectorAll('#import-totals > div'),"
                  " (it) => [it.children[0].textContent, it.children[1].textContent])")
        names = {word: name for name, word in PART["totals"].items()}
        # what is 0 is not shown
        zeros = dict.fromkeys(PART["totals"], "0")
        return zeros | {names[word]: number.replace(",", "") for word, number in self.browser.driver.execute_script(script)}

    def kind(self) -> str:
        script = "const it = document.getElementById('import-kind'); return it.options[it.selectedIndex].text"
        return self.browser.driver.execute_script(script)


def rules() -> list[str]:
    return ["Code;Trigger;Unit;Count;Offset;Action",
            *(f"R-{n};{'event' if n % 2 else 'closed'};Jahre;{n + 1};from-month-1;vernichten" for n in range(RULES))]


def files() -> list[str]:
    """The files; those that are in others stand before them."""
    rows = [f"BP/{n};File {n};{f'BP/{n // 10}' if n >= 10 else ''};K-{n % CLASSES}" for n in range(FILES)]
    return ["Ref;Title;Parent;Class", *reversed(rows)]


def plan(view: Acts) -> None:
    """The plan is made by three sheets, whose kinds are found."""
    view.open()
    view.clicks = 1
    for name, lines, kind, count in (
            ("rules.csv", rules(), "add-schedule", RULES),
            ("classes.csv", ["Code;Title;Schedule", *(f"K-{n};Class {n};R-{n % RULES}" for n in range(CLASSES))], "add-class", CLASSES),
            ("files.csv", files(), "add-aggregation", FILES)):
        view.chosen(name, lines)
        same(f"{name}: what each row is, is found", view.kind(), WORDS["foundIs"].format(value=PART["kinds"][kind]))
        same(f"{name}: all rows are to be sent", (view.sums()["ready"], view.sums()["wrong"]), (str(count), "0"))
        view.send()
        same(f"{name}: all are done", view.outcome(), {"added": str(count)})
    judge(f"the plan of {RULES} rules, {CLASSES} classes and {FILES} files took {view.clicks} clicks, at most {MOST_CLICKS}",
          view.clicks <= MOST_CLICKS)
    first = next(row for row in view.rows() if row[1] == f"BP/{FILES - 1}")
    judge("a file in another one has a number of its own", first[-1].startswith(PART["numbered"]["added"].split("{")[0]), str(first))


def tree(view: Acts, office: Office) -> None:
    """Each file is in the one that the sheet names, by the office's own tables."""
    rows = {it["number"]: it for it in catalogue_rows(view, "aggregations")}
    wrong = [it for it in rows.values() if it["parent"] and rows[it["parent"]]["ref"] != f"BP/{int(it['ref'][3:]) // 10}"]
    same("each file is in its parent", (len(rows), wrong), (FILES, []))


def catalogue_rows(view: Acts, name: str) -> list[dict]:
    script = "const [name, done] = arguments; fetch(`/catalogue/${name}.json`).then((it) => it.json()).then((it) => done(it[name]))"
    return view.browser.driver.execute_async_script(script, name)


def posted_records(office: Office) -> None:
    acts: list[dict] = [{"act": "add-record", "day": "2020-01-01", "ref": f"BP/{n}/1", "title": f"Letter {n}", "originated": "2015-01-01",
                         "aggregation": number, "class": None, "schedule": None, "content": ""} for n, number in enumerate(range(1, 31))]
    day = json.loads(office.ask("POST", "/acts", json.dumps(acts).encode())[2])
    assert day[0].get("refused") == 1, day
    today = [{**it, "day": TODAY[0]} for it in acts]
    told = json.loads(office.ask("POST", "/acts", json.dumps(today).encode())[2])
    assert all("number" in it for it in told), told


TODAY = [""]


def by_refs(view: Acts) -> None:
    """Closings, events and holds name things by their refs; what the catalogue lacks is named, or to be looked at."""
    it = view.browser
    view.open()
    view.chosen("closings.csv", ["Aktenzeichen", *(f"BP/{n}" for n in range(614, FILES)), "BP/9999", "7000"], "close-aggregation")
    sums = view.sums()
    same("59 closings, a ref that is not there, a number to look at", (sums["ready"], sums["wrong"]), (str(FILES - 614), "2"))
    says("which says why", view.filtered("wrong")[0][-1], PART["wrong"]["noRef"])
    view.filtered("all")
    view.send()
    same("they are closed", view.outcome(), {"added": str(FILES - 614)})
    view.chosen("events.csv", ["Record;Date;Who", "BP/1/1;31.12.2020;M. Vane", "5;01.02.1799;M. Vane", "3;01.02.2999;M. Vane"], "event")
    looked = view.filtered("look")
    says("a day of long ago is to be looked at", looked[0][-1], PART["look"]["old"].split("{")[0])
    says("and one that has not come", looked[1][-1], PART["look"]["future"].split("{")[0])
    view.filtered("all")
    view.send()
    same("the office decides", view.outcome(), {"added": "2", "refused": "1"})
    same("the event is that of the record with this ref", view.story.told("/records/2")["event"], "2020-12-31")
    view.chosen("events-again.csv", ["Record;Ref;Date;Who", "1;BP/1/1;31.12.2020;M. Vane"], "event")
    says("a number and a ref that do not go together", view.rows()[0][-1], "BP/0/1")
    judge("and nothing of it can be sent", view.sums()["ready"] == "0")
    it.choose("#import-kind", "")


def held(view: Acts) -> None:
    """A hold, and what it covers; the hold is the same in each row."""
    it = view.browser
    view.chosen("hold.csv", ["Code,Reason,By", "LAW-1,a lawsuit,court"], "place-hold")
    view.send()
    view.chosen("targets.csv", ["Ref", *(f"BP/{n}/1" for n in range(20))], "hold-on")
    says("the hold is missing, and said so", it.seen("#import-outcome"), PART["columns"]["hold"])
    it.choose("#import-column-hold", "same")
    it.write(import_same_hold="LAW-1")
    it.driver.execute_script("document.activeElement.blur()")
    view.send()
    same("20 records are put on it", view.outcome(), {"added": "20"})
    same("it covers the last of them", view.story.told("/records/20")["held"], "LAW-1")
    view.send()
    same("nothing is sent twice", it.seen("#import-send-outcome"), WORDS["nothing"])


def decided(view: Acts) -> None:
    """A due list that came back: what says yes is sent, and nothing else."""
    head = "record,ref,class,schedule,action,due,held,confirmed,decision"
    rows = [f"{n},BP/{n - 1}/1,K-1,R-1,destroy,2020-01-01,,no,{word}" for n, word in ((1, "yes"), (2, "no"), (3, ""), (4, "perhaps"))]
    view.chosen("due-list.csv", [head, *rows], "confirm")
    says("a decision needs a name", view.browser.seen("#import-outcome"), PART["columns"]["by"])
    view.browser.choose("#import-column-by", "same")
    view.browser.write(import_same_by="M. Vane")
    view.browser.driver.execute_script("document.activeElement.blur()")
    sums = view.sums()
    same("one is to be sent, two are not confirmed, one is wrong", (sums["ready"], sums["left"], sums["wrong"]), ("1", "2", "1"))
    view.send()
    same("the office says that it is not due", view.outcome(), {"added": "0", "refused": "1"})


def readable(view: Acts) -> None:
    """The view with acts: contrast, sizes, names, widths; and its pictures."""
    it = view.browser
    view.open()
    lines = ["Record;Date;Who;Note", "BP/1/1;31.12.2020;M. Vane;x", "NO/REF;01.02.2020;M. Vane;x", "3;01.02.2999;M. Vane;x"]
    for scheme in ("light", "dark"):
        it.light(scheme)
        for size, (width, height) in SIZES.items():
            it.width(width, height)
            view.open()
            view.chosen("events-seen.csv", lines, "event")
            looks.judge_view(it, f"import of acts, {scheme}, {width} pixels", width)
            shot(it, "import-acts", size, scheme)
    it.light("light")
    layout.words_there(it, "import of acts")


def tell(office: Office, proxy: Proxy, browser: Browser, folder: pathlib.Path) -> None:
    view = Acts(Story(office, proxy, browser, folder))
    plan(view)
    TODAY[0] = browser.one("#import-send-day").get_attribute("value")
    posted_records(office)
    view.open()
    view.chosen("no-catalogue.csv", ["Ref", "BP/1"], "close-aggregation")
    says("without a catalogue a ref is no number", view.rows()[0][-1], PART["wrong"]["noCatalogue"])
    with catalogue.made(proxy, office):
        view.open()
        tree(view, office)
        by_refs(view)
        held(view)
        decided(view)
        readable(view)
