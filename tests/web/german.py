"""The page in German: each view has the words of page/texts/de.json and no English one; acts are explained in it."""
import json
import pathlib
from collections.abc import Callable
from contextlib import AbstractContextManager

import catalogue
import layout
import looks
from browser import Browser
from kit.judging import judge, same
from place import TOP, Proxy
from texts import flat

ENGLISH = flat(json.loads((TOP / "page/texts/en.json").read_text()))
# what follows the names of pictures; their sizes and schemes
GERMAN_PICTURES = ("-german", ("1280x900",), ("light",))
GERMAN = flat(json.loads((TOP / "page/texts/de.json").read_text()))
# every text that is seen or read out, but for what the office reports and for codes
READ = """
const found = []; const walk = document.createTreeWalker(document.body, NodeFilter.SHOW_TEXT);
while (walk.nextNode()) {
  const node = walk.currentNode;
  if (!node.parentElement.closest("code, pre, script, #loading")) found.push(node.data.trim());
}
const named = document.querySelectorAll("[aria-label], [title]");
for (const it of named) found.push((it.getAttribute("aria-label") ?? it.title).trim());
return [document.documentElement.lang, document.title, found.filter(Boolean)];
"""
# what the page says of one of something
OF_ONE = """
const [keys, done] = arguments;
import(new URL("page.js", document.baseURI)).then(({ plural }) => done(keys.map((key) => plural(key, 1))));
"""
ONES = {
    "catalogue.minutes": "vor 1 Minute",
    "catalogue.showAll": "Die andere zeigen",
    "forecast.run.more": "1 weitere steht in der Liste des Fälligen.",
    "forecast.run.grave": "1 Inhalt würde endgültig gelöscht.",
    "forecast.rule.more": "1 weiteres Paar von Tagen.",
    "todo.more": "1 weitere Zeile steht im Katalog.",
    "approval.marked": "1, die ausgewählte",
}
NAMED = "return Array.from(document.querySelectorAll('[data-text]'), (it) => [it.dataset.text, it.textContent])"


def foreign() -> set[str]:
    """The English texts that are not German too."""
    return {text for text in ENGLISH.values() if len(text) > 2 and text not in GERMAN.values()}


def views(it: Browser, proxy: Proxy, addresses: dict[str, str]) -> None:
    for name, address in addresses.items():
        it.open(proxy.page + address)
        lang, title, read = it.driver.execute_script(READ)
        same(
            f"German: {name}: the page says its language and its title",
            (lang, title),
            ("de", GERMAN["page.title"].format(view=GERMAN[f"{name.split()[0]}.title"])),
        )
        same(f"German: {name}: no English text is left", sorted(set(read) & foreign()), [])
        strange = [(key, text) for key, text in it.driver.execute_script(NAMED) if text != GERMAN.get(key)]
        same(f"German: {name}: each part has the words of the file", strange, [])
        for width in (1280, 400, 320):
            it.width(width)
            it.open(proxy.page + address)
            there, most = it.driver.execute_script(looks.WIDE)
            judge(f"German: {name}: nothing is wider than {width} pixels", there <= most, str(there))
            same(f"German: {name}: no text reaches over its box at {width}", it.driver.execute_script(looks.OVER), [])
        it.width(1280)


def acts(it: Browser, proxy: Proxy) -> None:
    """What the office refuses, and what a certificate's sum says, in German."""
    it.open(f"{proxy.page}#holds")
    it.write(hold_place_code="Q-2020-17", hold_place_reason="Noch ein Rechtsstreit", hold_place_by="Rechtsamt")
    it.press("#hold-place button:not([type])")
    seen = it.seen("#hold-place-outcome")
    wanted = [
        GERMAN["said.refusal"].format(number=4, name="Exists"),
        GERMAN["refusals.4.meaning"],
        GERMAN["refusals.4.do"],
    ]
    judge("German: a refusal is explained in German", all(word in seen for word in wanted), seen)
    whole, own = it.text("#hold-place-outcome"), '[{"refused":4}]'
    judge("German: the office's own answer is behind a summary", own in whole and own not in seen, whole)
    it.write(hold_lift_code="Q 1")
    it.press("#hold-lift button")
    same("German: a wrong field is explained in German", it.text("#hold-lift-code-wrong"), GERMAN["fields.codeSpaceOther"].format(other="Q-1"))
    it.open(f"{proxy.page}#certificate?number=1")
    seen = it.seen("#certificate-verdict")
    judge(
        "German: a certificate agrees, in German",
        GERMAN["certificate.agrees"] in seen and GERMAN["certificate.wellFormed"] in seen,
        seen,
    )
    same("German: one of something is said in the singular", it.driver.execute_async_script(OF_ONE, list(ONES)), list(ONES.values()))
    it.open(f"{proxy.page}#record?number=8")
    seen = it.seen("#record-words")
    judge("German: a record is described in German", GERMAN["record.status.destroyed"].format(run=1) in seen, seen)


def listed(it: Browser, proxy: Proxy) -> None:
    """The catalogue in German."""
    parts = ("records", "aggregations", "classes", "schedules", "holds", "runs")
    views(it, proxy, {f"catalogue {part}": f"#catalogue?part={part}" for part in parts})
    it.open(f"{proxy.page}#catalogue?part=schedules")
    shown = {row[0]: row[1:] for row in it.table("#catalogue-part .schedules")}
    same(
        "German: a schedule in words",
        shown["COR-3"],
        ["mit dem letzten Zugang der Akte", "3 Jahre", "ab dem nächsten Quartalsersten", "vernichten"],
    )
    catalogue.pictures(it, proxy, *GERMAN_PICTURES, "park")


def tell(proxy: Proxy, folder: pathlib.Path, open_browser: Callable[..., AbstractContextManager[Browser]]) -> None:
    """All of it, while the first run of the city archive is closed, its hold in force, and a catalogue there."""
    with open_browser(folder, "de-DE") as it:
        it.know(proxy.page)
        views(it, proxy, looks.VIEWS)
        for name in ("due", "overdue", "certificate"):
            layout.words(it, proxy.page + looks.VIEWS[name], f"German: {name}")
        acts(it, proxy)
        looks.pictures(it, proxy, [name for name in looks.VIEWS if name != "catalogue"], *GERMAN_PICTURES)
        listed(it, proxy)
        same("German: the browser's console complains of nothing", it.complaints(), [])
