"""The view To do: what waits for somebody, beside the office's own lists and its tables; an empty office; its name."""
from __future__ import annotations

import json
import pathlib
import subprocess

import town
from browser import Browser
from kit.judging import judge, same
from late import after
from place import Office, Proxy
from shots import shots
from story import TEXTS, Story, says

WORDS = TEXTS["todo"]
NAME = {"name": "City archive \"Alder\\quay\"", "colour": "#7a1f3d"}
ADDRESSES = {"contact": "mailto:archive@alderquay.example", "help": "https://intranet.example/records", "statement": "javascript:alert(1)"}
FOOT = "return Array.from(document.querySelectorAll('#foot a'), (it) => it.getAttribute('href'))"
CURRENT = "return document.querySelector('nav a[aria-current]')?.hash"
COLOUR = "return getComputedStyle(document.querySelector('header')).borderTopColor"


def empty(it: Browser, proxy: Proxy) -> None:
    it.open(proxy.page)
    same("todo: it is the first view", it.driver.execute_script(CURRENT), "#todo")
    says("todo: an empty office says what to do first", it.seen("#todo-tasks"), WORDS["empty"])
    links = [link.get_attribute("href").split("#")[1] for link in it.all("#todo-tasks a")]
    same("todo: by links, the plan before all else", links, ["plan", "file", "import", "due"])


def counts(it: Browser) -> dict[str, int]:
    """How much there is of each task that is shown."""
    return {card.get_attribute("data-task"): int(card.find_element("css selector", ".count").text)
            for card in it.all("#todo-tasks > article")}


def wanted(story: Story) -> dict[str, int]:
    """The same by the office's own lists."""
    due = story.told(f"/due/{after(0)}")
    free = [row for row in due if row["held"] is None]
    counts_ = {
        "overdue": len(story.told(f"/overdue/{after(0)}/30")),
        "confirm": sum(not row["confirmed"] and row["action"] != "review" for row in free),
        "review": sum(row["action"] == "review" for row in due),
        "ready": sum(row["confirmed"] and row["action"] != "review" for row in free),
    }
    return {name: count for name, count in counts_.items() if count}


def without(it: Browser, proxy: Proxy, story: Story) -> None:
    # what is held and not confirmed waits for nobody
    town.send(story.office, [{"act": "hold-on", "day": after(0), "hold": town.HELD, "target": "record:5"}])
    it.open(proxy.page)
    same("todo: without a catalogue it has what the office lists", counts(it), wanted(story))
    says("todo: and says what it lacks", it.seen("#todo-none"), WORDS["noCatalogue"])


def whole(it: Browser, proxy: Proxy, story: Story) -> None:
    it.open(proxy.page)
    of_catalogue = {"sent": 1, "received": 1, "waiting": 2, "idle": 5, "holds": 1}
    same("todo: with a catalogue it has all", counts(it), {**wanted(story), **of_catalogue})
    says("todo: what waits for a receipt, since when", it.seen("[data-task=sent]"), f"on {after(-500)}")
    says("todo: of what there is nothing is said too", it.seen("#todo-none"), WORDS["names"]["run"])
    it.press("[data-task=waiting] summary")
    same("todo: what waits for an event, by class", it.table("[data-task=waiting] table"), [["LEASE", "EVENT-5", "2"]])
    it.press("[data-task=idle] summary")
    row = it.table("[data-task=idle] table")[0]
    same("todo: an open file with its last addition", row[1:4], ["LET", "Files of LET", after(-1100)])
    it.choose("#todo-months", "60")
    it.settled()
    judge("todo: nothing was without addition for five years", "idle" not in counts(it))


def opened(it: Browser, proxy: Proxy, office: Office) -> None:
    """An open run is told first."""
    town.send(office, [{"act": "open-run", "day": after(0), "by": "Registrar"}])
    town.renew(proxy, office)
    it.open(proxy.page)
    same("todo: an open run comes first", next(iter(counts(it))), "run")
    assert office.ask("POST", "/run/resume")[0] == 200


def paper(it: Browser, folder: pathlib.Path) -> None:
    """What is folded on a screen is on paper, with the name of the office."""
    it.paper(folder / "todo.pdf")
    text = subprocess.run(["pdftotext", "-layout", folder / "todo.pdf", "-"], check=True, stdout=subprocess.PIPE).stdout
    says("todo: on paper it has the name of the office, the page and what is folded", text.decode(),
         NAME["name"], "Page 1 of", "The case of the mill")


def named(it: Browser, proxy: Proxy) -> None:
    it.open(f"{proxy.page}#run")
    same("without a name the office is called as every one", it.seen("#office-name"), TEXTS["page"]["name"])
    (proxy.folder / "name.json").write_text(json.dumps(NAME))
    for view in ("todo", "run", "certificate"):
        it.open(f"{proxy.page}#{view}")
        same(f"{view}: the name of the office is at its head and in its title", (it.seen("#office-name"), it.driver.title),
             (NAME["name"], f"{TEXTS[view]['title']} · {NAME['name']}"))
    same("and its colour", it.driver.execute_script(COLOUR), "rgb(122, 31, 61)")
    same("foot: without addresses it leads to accessibility alone", it.driver.execute_script(FOOT), ["#accessibility"])
    it.one("#foot a").click()
    it.settled()
    says("foot: which says whom to tell", it.seen("#accessibility"), TEXTS["accessibility"]["feedback"]["nobody"])
    (proxy.folder / "name.json").write_text(json.dumps({**NAME, **ADDRESSES}))
    it.open(f"{proxy.page}#accessibility")
    same("foot: the administrator's addresses are there, and no other ones", it.driver.execute_script(FOOT),
         [ADDRESSES["help"], ADDRESSES["contact"], "#accessibility"])
    says("foot: the contact is who is told", it.seen("#accessibility"), "Write to archive@alderquay.example.")
    (proxy.folder / "name.json").write_text('{"name": 7, "colour": "url(x)"}')
    it.open(f"{proxy.page}#run")
    same("a name that is none is not taken", it.seen("#office-name"), TEXTS["page"]["name"])
    (proxy.folder / "name.json").write_text(json.dumps(NAME))


def tell(office: Office, proxy: Proxy, browser: Browser, folder: pathlib.Path) -> None:
    story = Story(office, proxy, browser, folder)
    empty(browser, proxy)
    shots(browser, "todo-empty", proxy.page)
    named(browser, proxy)
    town.fill(office)
    without(browser, proxy, story)
    town.renew(proxy, office)
    whole(browser, proxy, story)
    browser.open(proxy.page)
    paper(browser, folder)
    shots(browser, "todo", proxy.page)
    opened(browser, proxy, office)
