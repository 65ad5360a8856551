"""The views of a clerk's day in English and in German, at two widths, in light and in dark: what is said and how it looks.

Each is judged by its contrast, its sizes, its names and its width; in German no English text is left. With --pictures
each is a picture too, for somebody to look at.
"""
from __future__ import annotations

import base64
import pathlib
from collections.abc import Callable

import german
import looks
import shots
import town
from browser import Browser, browser
from deciding import PDF, png
from kit.judging import same
from late import after
from place import Office, Proxy
from story import WHO

SIZES = {"1280x900": (1280, 900), "400": (400, 900)}
SCHEMES = ("light", "dark")
LANGUAGES = {"en": "en-US", "de": "de-DE"}
SHEET = "Record;Date;Who\nLET/3;31.12.2020;M. Vane\nNO/REF;01.02.2020;M. Vane\n5;01.02.2999;M. Vane\n"

Prepare = Callable[[Browser, pathlib.Path], None]


def pressed(*all_css: str) -> Prepare:
    """Presses these, one after another."""
    def prepare(it: Browser, _: pathlib.Path) -> None:
        for css in all_css:
            it.press(css)
    return prepare


def written(**fields: str) -> Prepare:
    """Writes into these fields, and waits for what is said of it."""
    def prepare(it: Browser, _: pathlib.Path) -> None:
        it.write(**fields)
        it.settled()
    return prepare


def chosen(it: Browser, folder: pathlib.Path) -> None:
    file = folder / "events.csv"
    file.write_text(SHEET)
    it.one("#import-choose").send_keys(str(file))
    it.wait(lambda: it.one("#import-sheet").is_displayed(), "the sheet is not shown")
    it.choose("#import-kind", "event")
    it.wait(lambda: "LET/3" in it.seen("#import-table") or it.table("#import-table"), "the rows are not shown")
    it.settled()


def dropped(it: Browser, folder: pathlib.Path) -> None:
    place = folder / "post"
    (place / "2018").mkdir(parents=True, exist_ok=True)
    (place / "2018/fence.eml").write_text("Subject: The fence\nDate: Mon, 31 Dec 2018 12:00:00 +0000\n\nA letter.\n")
    (place / "scan.pdf").write_bytes(b"%PDF-" + bytes(300_000))
    it.one("#file-folder").send_keys(str(place))
    it.wait(lambda: len(it.all("#file-table tbody tr")) == 2, "the folder is not listed")
    it.write(file_all_aggregation="1")


# the views: the address, and what is done there first
VIEWS: dict[str, tuple[str, Prepare]] = {
    "todo": ("todo", pressed()),
    "due-marked": ("due", pressed("#due-mark", "#due-mark-held")),
    "due-groups": ("due", pressed("#due-group")),
    "due-hold": ("due", pressed("#due-mark-all", "#due-record-hold-choose")),
    "due-review": ("due", pressed("#due-mark-all", "#due-record-review-choose")),
    "overdue-event": ("overdue", pressed("#overdue-mark-all", "#overdue-record-event-choose")),
    "run-forecast": ("run", pressed()),
    "hold": (f"holds?code={town.HELD}", pressed()),
    "lift": (f"holds?code={town.HELD}", pressed()),
    "hold-place": ("holds", written(hold_place_code="LAW-9", hold_place_target="1")),
    "close": ("plan?close=6", pressed()),
    "rule": ("plan", written(plan_rule_class="LET", plan_rule_schedule="D-2")),
    "catalogue-hold": ("catalogue?text=let", pressed("#catalogue-mark", "#catalogue-record-hold-choose")),
    "catalogue-receipt": ("catalogue?status=sent", pressed("#catalogue-mark", "#catalogue-record-receipt-choose")),
    "catalogue-found": ("catalogue?class=LET&sort=-due", pressed()),
    "catalogue-close": ("catalogue?part=aggregations&state=open",
                        pressed("#catalogue-mark", "#catalogue-aggregation-close-choose")),
    "catalogue-holds": ("catalogue?part=holds", pressed()),
    "record": ("record?number=22", pressed("#record-look")),
    "record-document": ("record?number=23", pressed("#record-look")),
    "record-sent": ("record?number=13", pressed("#record-receipt-part summary")),
    "certificate": ("certificate?number=1", pressed()),
    "import-acts": ("import", chosen),
    "file-folder": ("file", dropped),
}
# what scrolls into sight before a picture is made
SHOWN = {"rule": "plan-rule", "close": "plan-close", "lift": "hold-lift"}
# on how many lines each code of an answer is
CODES = "return Array.from(document.querySelectorAll('.answers td .day'), (it) => it.getClientRects().length)"


def looked(it: Browser, proxy: Proxy, folder: pathlib.Path, name: str, language: str) -> None:
    """One view at each size and in each scheme."""
    address, prepare = VIEWS[name]
    for size, (width, height) in SIZES.items():
        it.width(width, height)
        it.open(f"{proxy.page}#{address}")
        prepare(it, folder)
        it.settled()
        it.driver.execute_script("document.getElementById(arguments[0])?.scrollIntoView()", SHOWN.get(name, ""))
        for scheme in SCHEMES:
            it.light(scheme)
            looks.judge_view(it, f"{name}, {language}, {scheme}, {width} pixels", width)
            shots.shot(it, f"{name}-{language}", size, scheme)
            it.width(width, height)
        it.light("light")
    if language == "de":
        _, _, read = it.driver.execute_script(german.READ)
        same(f"{name}: in German no English text is left", sorted(set(read) & german.foreign()), [])
    it.width(1280)


def empty(it: Browser, proxy: Proxy, language: str) -> None:
    """An office without a record."""
    for size, (width, height) in SIZES.items():
        it.width(width, height)
        it.open(proxy.page)
        for scheme in SCHEMES:
            it.light(scheme)
            looks.judge_view(it, f"todo-empty, {language}, {scheme}, {width} pixels", width)
            shots.shot(it, f"todo-empty-{language}", size, scheme)
            it.width(width, height)
        it.light("light")
    it.width(1280)


def fill(office: Office) -> None:
    """The town, a picture and a document to look at, and a confirmation under the rule that changes."""
    town.fill(office)
    day = {"act": "add-record", "day": after(0), "originated": after(-30), "aggregation": 1}
    contents = [("PIC/1", "A red field", png()), ("DOC/1", "A contract", PDF)]
    town.send(office, [{**day, "ref": ref, "title": title, "content": base64.b64encode(content).decode()}
                       for ref, title, content in contents])


def answers(it: Browser, proxy: Proxy, language: str, hold: str) -> None:
    """What came of a deed, with a refusal among it: there is no picture of it in another language of the same office."""
    it.open(f"{proxy.page}#catalogue?text=LET")
    it.press("#catalogue-mark")
    it.press("#catalogue-record-hold-choose")
    it.write(catalogue_record_hold_code=hold)
    if it.all("#catalogue-record-hold-reason"):
        it.write(catalogue_record_hold_reason="A dig", catalogue_record_hold_by=WHO)
    it.press("#catalogue-record-hold-submit")
    for size, (width, height) in SIZES.items():
        it.width(width, height)
        for scheme in SCHEMES:
            it.light(scheme)
            looks.judge_view(it, f"answers, {language}, {scheme}, {width} pixels", width)
            same(f"answers, {language}, {width} pixels: each code is on one line", set(it.driver.execute_script(CODES)), {1})
            shots.shot(it, f"answers-{language}", size, scheme)
            it.width(width, height)
        it.light("light")
    it.width(1280)


def tell(office: Office, proxy: Proxy, browser_: Browser, folder: pathlib.Path) -> None:
    with browser(folder, LANGUAGES["de"]) as other:
        other.know(proxy.page)
        both = (("en", browser_), ("de", other))
        for language, it in both:
            empty(it, proxy, language)
        fill(office)
        town.renew(proxy, office)
        (proxy.folder / "name.json").write_text('{"name": "Stadtarchiv Alderquay", "colour": "#7a1f3d"}')
        for name in VIEWS:
            for language, it in both:
                looked(it, proxy, folder, name, language)
        for (language, it), hold in zip(both, ("NEW-1", "NEW-2"), strict=True):
            answers(it, proxy, language, hold)
        same("gallery: the German browser's console complains of nothing", other.complaints(), [])
