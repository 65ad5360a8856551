"""The outlook: the chart and its table against the due list, by year and by month; where a period leads."""
import collections
import datetime
import json
import pathlib

import looks
from browser import Browser
from interface import city
from kit.judging import judge, same
from place import Office, Proxy
from shots import shots
from story import TEXTS

# each bar: what it says, and the height of each part by its look; the axis
BARS = """
return Array.from(document.querySelectorAll("#outlook-chart .bar"), (bar) => ({
  says: bar.querySelector("title").textContent,
  href: bar.querySelector("a").getAttribute("href"),
  parts: Array.from(bar.querySelectorAll("rect.line"), (it) => {
    const look = it.hasAttribute("fill") ? "held" : it.classList.contains("full") ? "confirmed" : "open";
    return [it.getAttribute("class").split(" ").pop(), look, Number(it.getAttribute("height"))];
  }) }));
"""
SCALE = """
const lines = Array.from(document.querySelectorAll("#outlook-chart line"), (it) => Number(it.getAttribute("y1")));
const texts = Array.from(document.querySelectorAll("#outlook-chart text"), (it) => it.textContent);
const told = texts.slice(0, lines.length).map((it) => Number(it.replace(/[^0-9]/g, "")));
return (lines[0] - lines[1]) / (told[1] - told[0]);
"""
COUNT = 1200


def more() -> list[dict]:
    """Records whose due days are in many years, so that some years are shown together."""
    day = {"day": "2022-05-02"}
    acts = [
        {
            "act": "add-schedule",
            **day,
            "code": f"F{n}",
            "trigger": "origin",
            "unit": "years",
            "count": n,
            "offset": "none",
            "action": action,
        }
        for n, action in ((1, "destroy"), (8, "transfer"), (12, "review"), (60, "destroy"))
    ]
    acts += [
        {"act": "add-class", **day, "code": f"F{n}", "title": f"For {n} years", "schedule": f"F{n}"}
        for n in (1, 8, 12, 60)
    ]
    acts += [
        {"act": "add-aggregation", **day, "ref": f"F/{n}", "title": f"For {n} years", "class": f"F{n}"}
        for n in (1, 8, 12, 60)
    ]
    originated = lambda n: str(datetime.date(2014, 1, 1) + datetime.timedelta(days=n * 37 % 2900))
    acts += [
        {
            "act": "add-record",
            **day,
            "ref": f"F/{n}",
            "title": f"Paper {n}",
            "originated": originated(n),
            "aggregation": 13 + n * n % 4 if n % 7 else 16,
            "content": "",
        }
        for n in range(COUNT)
    ]
    acts += [{"act": "hold-on", **day, "hold": "Q-2020-17", "target": f"record:{34 + n}"} for n in range(0, COUNT, 9)]
    due = [n for n in range(COUNT) if n % 7 and n * n % 4 == 0 and n % 3 == 0 and originated(n) < "2021-05-01"]
    acts += [{"act": "confirm", **day, "record": 34 + n, "action": "destroy", "by": "R. Halloran"} for n in due]
    return acts


def sums(rows: list[dict]) -> list[str]:
    """The cells of the table for these rows of the due list."""
    action = lambda name: sum(row["action"] == name for row in rows)
    counts = [
        len(rows),
        action("destroy"),
        action("transfer"),
        action("review"),
        sum(row["held"] is not None for row in rows),
        sum(row["confirmed"] for row in rows),
    ]
    return [f"{it:,}" for it in counts]


def state(row: dict) -> tuple[str, str]:
    return row["action"], "held" if row["held"] else "confirmed" if row["confirmed"] else "open"


def drawn_as(it: Browser, groups: list[list[dict]], name: str) -> None:
    """Each bar's parts are as high as there are rows of that action and state."""
    scale, bars = it.driver.execute_script(SCALE), it.driver.execute_script(BARS)
    same(f"{name}: there is a bar for each", len(bars), len(groups))
    wrong = []
    for bar, rows in zip(bars, groups, strict=False):
        wanted = collections.Counter(state(row) for row in rows)
        seen = {(action, look): round(height / scale) for action, look, height in bar["parts"]}
        if seen != dict(wanted):
            wrong.append((bar["says"], seen, dict(wanted)))
    same(f"{name}: each part is as high as there are records", wrong, [])


def years(it: Browser, proxy: Proxy, rows: list[dict]) -> None:
    it.open(f"{proxy.page}#outlook")
    there = it.table("#outlook-table .outlook")
    now = datetime.date.today().year
    found = sorted({int(row["due"][:4]) for row in rows})
    first = max(found[0], min(now - 3, found[-1] - 29))
    last = max(year for year in found if year < first + 30)
    judge(
        "outlook: the list is of more years than are shown one by one",
        found[0] < first and found[-1] > last,
        str(found),
    )
    of = lambda year: [row for row in rows if int(row["due"][:4]) == year]
    before, after = [row for row in rows if int(row["due"][:4]) < first], [
        row for row in rows if int(row["due"][:4]) > last
    ]
    wanted = [
        [f"before {first}", *sums(before), ""],
        *([str(year), *sums(of(year)), f"Months of {year}"] for year in range(first, last + 1) if of(year)),
        [f"after {last}", *sums(after), ""],
    ]
    same("outlook: the table has what GET /due tells, year by year", there, wanted)
    drawn_as(it, [before, *(of(year) for year in range(first, last + 1)), after], "outlook")
    same(
        "outlook: no bar is reached by the keyboard, since the table is",
        it.driver.execute_script(
            "return document.querySelectorAll('#outlook-chart a:not([tabindex=\"-1\"])').length"
        ),
        0,
    )
    year = next(year for year in range(now - 3, last) if of(year))
    it.driver.execute_script(
        "const bar = document.querySelectorAll('#outlook-chart .bar')[arguments[0]].querySelector('a');"
        "bar.dispatchEvent(new MouseEvent('click', {bubbles: true, cancelable: true}))",
        1 + year - first,
    )
    it.settled()
    same(
        "outlook: a click opens Due for that time",
        it.driver.execute_script("return location.hash"),
        f"#due?day={year}-12-31&sort=-due",
    )
    shown = it.table("#due-table")
    same("outlook: with its records first", shown[0][6][:4], str(year))
    same("outlook: all of them", sum(row[6][:4] == str(year) for row in shown), len(of(year)))


def months(it: Browser, proxy: Proxy, rows: list[dict]) -> None:
    year = max({int(row["due"][:4]) for row in rows}, key=lambda it: sum(int(row["due"][:4]) == it for row in rows))
    it.open(f"{proxy.page}#outlook")
    it.choose("#outlook-year", str(year))
    names = "Jan Feb Mar Apr May Jun Jul Aug Sep Oct Nov Dec".split()
    groups = [[row for row in rows if row["due"].startswith(f"{year}-{month:02}-")] for month in range(1, 13)]
    wanted = [[f"{name} {year}", *sums(group)] for name, group in zip(names, groups, strict=True) if group]
    same("outlook: a year by month", it.table("#outlook-table .outlook"), wanted)
    drawn_as(it, groups, "outlook of a year")
    address = it.driver.current_url
    it.open(address)
    same("outlook: its address brings it again", it.table("#outlook-table .outlook"), wanted)
    it.press("#outlook-table tbody tr:last-child a")
    last = it.driver.execute_script("return location.hash")
    month = max(at for at, group in enumerate(groups, 1) if group)
    end = (datetime.date(year + month // 12, month % 12 + 1, 1) - datetime.timedelta(days=1)).isoformat()
    same("outlook: a row of the table opens Due for its month", last, f"#due?day={end}&sort=-due")


def tell(office: Office, proxy: Proxy, it: Browser, _folder: pathlib.Path) -> None:
    it.open(f"{proxy.page}#outlook")
    same(
        "outlook: of an empty office it says that nothing falls due",
        it.seen("#outlook-outcome"),
        TEXTS["outlook"]["none"],
    )
    for name in ("1-schedule", "2-holdings", "3-lawsuit"):
        office.ask("POST", "/acts", city(name))
    answers = json.loads(office.ask("POST", "/acts", json.dumps(more()))[2])
    same("outlook: its records are there", [answer for answer in answers if "refused" in answer], [])
    rows = json.loads(office.ask("GET", "/due/2999-12-31")[2])
    years(it, proxy, rows)
    months(it, proxy, rows)
    looks.readable_view(it, proxy, "outlook", "#outlook")
    looks.readable_view(it, proxy, "outlook of a year", "#outlook?year=2024")
    shots(it, "outlook", f"{proxy.page}#outlook")
