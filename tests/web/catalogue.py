"""The catalogue: what the page says without one, and what it lists and offers with one."""
import contextlib
import functools
import json
import os
import pathlib
import shutil
import sqlite3
import subprocess
from collections.abc import Collection, Iterator

import big_office
import looks
from browser import Browser
from interface import city
from kit.companions import companion
from kit.judging import judge, same
from place import OFFICE, Office, Proxy
from shots import SCHEMES, SIZES, shots
from story import TEXTS, says

WORDS = TEXTS["catalogue"]
# so many records are there for how it looks
MANY = 2000
VIEWS = {"records": "", "aggregations": "?part=aggregations", "schedules": "?part=schedules", "holds": "?part=holds"}
OFFERS = "return Array.from(document.querySelectorAll('#offers option'), (it) => [it.value, it.label])"


def make(proxy: Proxy, copy: pathlib.Path) -> None:
    """The catalogue of a copy, where nginx looks for it, for nginx's group alone."""
    place = proxy.folder / "catalogue"
    if not place.exists():
        place.mkdir()
        shutil.chown(place, group="www-data")
        place.chmod(0o2750)
    subprocess.run([companion("office-catalogue"), copy, place], check=True, env={**os.environ, "OFFICE": OFFICE})


def renew(proxy: Proxy, office: Office) -> None:
    """The catalogue of an office that is served, as it is now."""
    copy = proxy.folder / "catalogued.db"
    copy.unlink(missing_ok=True)
    subprocess.run([companion("office-backup"), office.file, copy], check=True, env={**os.environ, "OFFICE": OFFICE})
    make(proxy, copy)


@contextlib.contextmanager
def made(proxy: Proxy, office: Office) -> Iterator[None]:
    """The catalogue of an office that is served, for as long as it is wanted."""
    renew(proxy, office)
    try:
        yield
    finally:
        shutil.rmtree(proxy.folder / "catalogue")


def without(it: Browser, proxy: Proxy) -> None:
    it.open(f"{proxy.page}#catalogue")
    says("without a catalogue the view says so", it.seen("#catalogue-outcome"), WORDS["missing"], WORDS["missingDo"])
    judge("and shows no lists", not it.one("#catalogue-there").is_displayed())
    it.go("#run")
    it.one("#run-number").click()
    same("and no field offers anything", it.one("#run-number").get_attribute("list"), None)


def found(it: Browser) -> list[list[str]]:
    """The records that are shown: number, ref, title, aggregation, status."""
    return [[*row[1:5], row[8]] for row in it.table("#catalogue-part .records")]


def rows_of(copy: pathlib.Path, question: str) -> list[list[str]]:
    conn = sqlite3.connect(f"file:{copy}?immutable=1", uri=True)
    found = [["" if cell is None else str(cell) for cell in row] for row in conn.execute(question)]
    conn.close()
    return found


def lists(it: Browser, proxy: Proxy, copy: pathlib.Path) -> None:
    """Each list has what the tables of the copy have."""
    it.open(f"{proxy.page}#catalogue")
    says(
        "the catalogue says of which moment it is",
        it.seen("#catalogue-moment"),
        "As of ",
        " min ago.",
        WORDS["day"].format(day="2022-05-02"),
    )
    records = rows_of(
        copy,
        "SELECT r.num, r.ref, r.title, a.num || ' · ' || a.ref, r.status FROM records r"
        " JOIN aggregations a ON a.num = aggregation ORDER BY r.num",
    )
    same("records: each is there", found(it), records)
    same("records: and counted", it.seen("#catalogue-count"), WORDS["found"].format(count=33, all=33, shown=33))
    it.write(catalogue_text="park")
    same(
        "records: those with a word in ref or title, whatever its case",
        found(it),
        [row for row in records if "park" in (row[1] + row[2]).lower()],
    )
    it.write(catalogue_text="fair report")
    same(
        "records: each word must be there",
        found(it),
        [row for row in records if all(word in (row[1] + " " + row[2]).lower() for word in ("fair", "report"))],
    )
    it.write(catalogue_text="22")
    same("records: the one whose number is written comes first", found(it)[0], records[21])
    it.write(catalogue_text="no such record")
    same(
        "records: and where there is none nothing is shown",
        (it.table("#catalogue-part"), it.seen("#catalogue-count")),
        ([], WORDS["found"].format(count=0, all=33, shown=0)),
    )
    it.one("#catalogue-text").clear()
    it.choose("#catalogue-status", "ended")
    same("records: by status", found(it), [row for row in records if row[4] == "ended"])
    it.wait(lambda: "status=ended" in it.driver.current_url, "the address has no status")
    address, kept = it.driver.current_url, found(it)
    it.open(address)
    same("records: the address brings the same rows again", found(it), kept)
    for part, columns, question in (
        ("classes", 3, "SELECT code, title, schedule FROM classes ORDER BY code"),
        ("schedules", 1, "SELECT code FROM schedules2 ORDER BY code"),
        (
            "holds",
            5,
            "SELECT code, reason, date(placed * 86400, 'unixepoch'), placed_by,"
            " coalesce(date(lifted * 86400, 'unixepoch'), 'in force') FROM holds ORDER BY code",
        ),
        ("runs", 3, "SELECT num, date(day * 86400, 'unixepoch'), opened_by FROM runs ORDER BY num"),
    ):
        it.open(f"{proxy.page}#catalogue?part={part}")
        same(
            f"{part}: each is there",
            [row[:columns] for row in it.table("#catalogue-part ." + part)],
            rows_of(copy, question),
        )
    same(
        "runs: with the counts of its certificate",
        it.table("#catalogue-part .runs")[0][3:],
        ["closed", "17", "1", "4"],
    )
    it.open(f"{proxy.page}#catalogue?part=schedules")
    shown = {row[0]: row[1:] for row in it.table("#catalogue-part .schedules")}
    same(
        "schedules: a rule in words",
        shown["COR-3"],
        ["with the last addition to the aggregation", "3 years", "from the next first of a quarter", "destroy"],
    )
    it.open(f"{proxy.page}#catalogue?part=holds")
    says("holds: its targets, with their count", it.table("#catalogue-part .holds")[0][5], "1 record, 1 aggregation, 1 class",
         "aggregation 2 · EVT/2018-01 · River fair 2018", "class FIN-INV", "record 23")


def tree(it: Browser, proxy: Proxy) -> None:
    it.open(f"{proxy.page}#catalogue?part=aggregations")
    summaries = lambda: [node.text for node in it.all("#catalogue-part summary") if node.is_displayed()]
    same(
        "tree: the roots, with the records of all that is in them",
        summaries()[0],
        "EVT Events in public places here: 4, ended: 2",
    )
    it.all("#catalogue-part summary")[0].send_keys("\n")
    it.wait(lambda: len(summaries()) > 10, "the aggregation does not open")
    same(
        "tree: it opens by the keyboard to what is in it",
        summaries()[1:3],
        ["EVT/2018-01 River fair 2018 here: 4", "EVT/2018-02 Lantern walk 2018 ended: 2"],
    )
    it.all("#catalogue-part summary")[1].click()
    node = "#catalogue-part .tree .tree .node"
    it.wait(lambda: it.all(node), "the aggregation does not open")
    says(
        "tree: with its number, its class, whether it is closed",
        it.seen(node),
        "Number 2, class EVT-PER, closed on 2018-12-17.",
        "Records in it: 4",
    )
    it.all(f"{node} a")[0].click()
    it.settled()
    same(
        "tree: its records are a click away",
        [row[0] for row in found(it)],
        ["1", "2", "3", "5"],
    )
    says(
        "tree: and the view says that it shows these alone",
        it.seen("#catalogue-within"),
        "aggregation 2: EVT/2018-01, River fair 2018",
    )


def offers(it: Browser, proxy: Proxy) -> None:
    """Each form offers codes and numbers, as one types."""

    def offered(view: str, field: str, text: str) -> list[list[str]]:
        it.go(view)
        it.write(**{field: text})
        it.wait(lambda: it.one(f"#{field.replace('_', '-')}").get_attribute("list"), f"{field} offers nothing")
        it.wait(lambda: it.driver.execute_script(OFFERS), f"{field} offers nothing")
        return it.driver.execute_script(OFFERS)

    it.open(proxy.page)
    it.wait(lambda: it.all("#offers"), "there are no offers")
    same(
        "offers: a hold by its code",
        offered("#holds", "hold_lift_code", "Q-"),
        [["Q-2020-17", "Lawsuit on the accident at the landing stage"]],
    )
    same(
        "offers: a class",
        offered("#holds", "hold_on_target", "perm"),
        [["BLD-PER", "Building permits"], ["EVT-PER", "Permits for events"]],
    )
    it.choose("#hold-on-kind", "aggregation")
    same(
        "offers: an aggregation by its title",
        offered("#holds", "hold_on_target", "river"),
        [["2", "EVT/2018-01 · River fair 2018"]],
    )
    it.choose("#hold-on-kind", "record")
    same(
        "offers: a record by its title",
        offered("#holds", "hold_on_target", "gardener"),
        [["8", "APP/18-07 · Application of a gardener"]],
    )
    same(
        "offers: records by the first digits of their numbers",
        [value for value, _ in offered("#record", "record_number", "3")][:5],
        ["3", "30", "31", "32", "33"],
    )
    same(
        "offers: a run",
        offered("#certificate", "certificate_number", "1"),
        [["1", "2022-05-02 · R. Halloran, records manager"]],
    )
    it.go("#holds")
    it.write(hold_place_code="Q")
    same("offers: none for the code of a new hold", it.one("#hold-place-code").get_attribute("list"), None)


def pictures(
    it: Browser,
    proxy: Proxy,
    more: str = "",
    sizes: Collection[str] = tuple(SIZES),
    schemes: Collection[str] = tuple(SCHEMES),
    question: str = "bau goethe",
) -> None:
    """Each part; `more` follows its name. Records are those that the question finds."""
    def prepare(part: str) -> None:
        if part == "aggregations":
            it.driver.execute_script("document.querySelector('#catalogue-part details').open = true")
        if part == "records":
            it.write(catalogue_text=question)

    for part, words in VIEWS.items():
        address = f"{proxy.page}#catalogue{words}"
        shots(it, f"catalogue-{part}{more}", address, functools.partial(prepare, part), sizes, schemes)


def readable(it: Browser, proxy: Proxy, name: str, address: str) -> None:
    """What looks.py asks of each view: contrast, sizes, names, widths."""
    looks.readable_view(it, proxy, name, address)


def tell(office: Office, proxy: Proxy, it: Browser, folder: pathlib.Path) -> None:
    without(it, proxy)
    for name in ("1-schedule", "2-holdings", "3-lawsuit", "4-confirmed"):
        office.ask("POST", "/acts", city(name))
    office.ask("POST", "/run/resume")
    copy = folder / "copy.db"
    subprocess.run([companion("office-backup"), office.file, copy], check=True, env={**os.environ, "OFFICE": OFFICE})
    make(proxy, copy)
    same("without a password nobody gets it", proxy.ask("GET", "/catalogue/records.json", named=False)[0], 401)
    status, body = proxy.ask("GET", "/catalogue/about.json", fields={"Accept-Encoding": "identity"})
    same(
        "a program that takes nothing compressed gets it too",
        (status, json.loads(body)["about"][0]["records"]),
        (200, 33),
    )
    status, body = proxy.ask("GET", "/catalogue/nothing.json")
    same("what is not in it is answered as elsewhere", (status, body), (404, b'{"error":"path"}'))
    lists(it, proxy, copy)
    tree(it, proxy)
    offers(it, proxy)
    big = folder / "big.db"
    big_office.make(big, MANY)
    make(proxy, big)
    for part, words in VIEWS.items():
        readable(it, proxy, f"catalogue, {part}", f"#catalogue{words}")
    pictures(it, proxy)
