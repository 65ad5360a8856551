"""Deciding: titles, files for spreadsheet programs, the list for approval, contents looked at, and the search by details."""
import csv
import json
import pathlib
import shutil
import struct
import subprocess
import zlib

import at_once
import catalogue
import layout
import looks
from browser import Browser
from kit.judging import judge, same
from late import TODAY
from place import TOP, Office, Proxy
from shots import shots
from story import TEXTS, says

WORDS = TEXTS["content"]
# milliseconds
MOST = 1000
NAMES = ("originated", "added", "class", "schedule", "length", "due", "held")
PIXELS = """
const it = document.querySelector("#record-looked canvas");
return [it.width, it.height, ...it.getContext("2d").getImageData(0, 0, 1, 1).data];
"""


def png() -> bytes:
    """A picture of two by three red pixels."""
    chunk = lambda name, data: struct.pack(">I", len(data)) + name + data + struct.pack(">I", zlib.crc32(name + data))
    rows = (b"\0" + b"\xff\0\0" * 2) * 3
    head = chunk(b"IHDR", struct.pack(">IIBBBBB", 2, 3, 8, 2, 0, 0, 0))
    return b"\x89PNG\r\n\x1a\n" + head + chunk(b"IDAT", zlib.compress(rows)) + chunk(b"IEND", b"")


PDF = b"""%PDF-1.4
1 0 obj<</Type/Catalog/Pages 2 0 R>>endobj
2 0 obj<</Type/Pages/Kids[3 0 R]/Count 1>>endobj
3 0 obj<</Type/Page/Parent 2 0 R/MediaBox[0 0 200 200]/Contents 4 0 R/Resources<</Font<</F 5 0 R>>>>>>endobj
4 0 obj<</Length 41>>stream
BT /F 24 Tf 20 100 Td (A contract) Tj ET
endstream endobj
5 0 obj<</Type/Font/Subtype/Type1/BaseFont/Helvetica>>endobj
trailer<</Root 1 0 R>>
"""
# the contents: ref, title, the bytes, the name under which they are saved
CONTENTS = [
    ("PIC/1", "A red field", png(), "PIC-1 A red field.png"),
    ("BP/2018/contract.PDF", "contract", PDF, "BP-2018-contract.pdf"),
    ("L/7", "Letter: to the mayor", "Grüße\n<b>not bold</b>\u202e".encode(), "L-7 Letter- to the mayor.txt"),
    ("D/1", "Unknown", b"\0\1\2\3", "D-1 Unknown.bin"),
    ("P/1", "Broken", b"\x89PNG\r\n\x1a\n and no more", "P-1 Broken.png"),
    ("F/1.mp4", "The fair", b"\0\0\0\x18ftypmp42", "F-1 The fair.mp4"),
]


def fill(office: Office) -> list[int]:
    acts = [at_once.record(ref, title, 1, content) for ref, title, content, _ in CONTENTS]
    for act in acts:
        act["day"] = TODAY.isoformat()
    status, _, body = office.ask("POST", "/acts", json.dumps(acts))
    assert status == 200, body
    return [it["number"] for it in json.loads(body)]


def details(office: Office, it: Browser, proxy: Proxy) -> None:
    """The catalogue's details are what the office reports of each record, whatever its status."""
    status, body = proxy.ask("GET", "/catalogue/details.json", fields={"Accept-Encoding": "identity"})
    it.open(f"{proxy.page}#catalogue")
    js = """const done = arguments[0];
      Promise.all([import("/web/catalogue.js")]).then(async ([it]) => {
        await it.refresh(); const known = await it.details();
        const rows = (await it.part("records")).length;
        done(Array.from({length: rows}, (_, at) => known.at(at)));
      });"""
    there = it.driver.execute_async_script(js)
    told = [at_once.told(office, number) for number in range(1, len(there) + 1)]
    # of what is no longer here it is what the last run said
    wanted = [{name: row[name] for name in NAMES} for row in told]
    same("details: each is what the office reports", [pair for pair in zip(there, wanted, strict=True) if pair[0] != pair[1]], [])
    same("details: they are served", (status, body[:11]), (200, b'{"moment":"'))


def searched(office: Office, it: Browser, proxy: Proxy) -> None:
    """The search by each detail, and in each order, finds what the office says."""
    it.open(f"{proxy.page}#catalogue")
    rows = [at_once.told(office, n) for n in range(1, int(it.seen("#catalogue-count").split(" of ")[1].split(".")[0]) + 1)]
    shown = lambda: [int(row[1]) for row in it.table("#catalogue-part .records")]
    for name, value, takes in (
        ("class", "CONTRACTS", lambda row: row["class"] == "CONTRACTS"),
        ("schedule", "KEEP-30", lambda row: row["schedule"] == "KEEP-30"),
        ("year", "2023", lambda row: row["originated"].startswith("2023")),
        ("status", "received", lambda row: row["status"] == "received"),
        ("due", "none", lambda row: row["due"] is None),
        ("due", "2030-01-01", lambda row: row["due"] is not None and row["due"] <= "2030-01-01"),
    ):
        it.open(f"{proxy.page}#catalogue?{name}={value}&sort=-number")
        if it.one("#catalogue-whole").is_displayed():
            it.press("#catalogue-whole")
        same(f"search: by {name} {value}", shown(), [row["number"] for row in reversed(rows) if takes(row)])
    it.open(f"{proxy.page}#catalogue?class=SITES")
    it.press("#catalogue-part [data-column=due] button")
    same("search: the heading says the order", it.one("#catalogue-part [data-column=due]").get_attribute("aria-sort"), "ascending")
    it.wait(lambda: "sort=due" in it.driver.current_url, "the address has no order")


def files(it: Browser, proxy: Proxy, folder: pathlib.Path) -> None:
    """What is found is saved as CSV; a ref that is a formula has an apostrophe."""
    it.open(f"{proxy.page}#catalogue?class=SITES")
    it.press("#catalogue-csv")
    says("CSV: it is said", it.seen("#catalogue-answer"), "Saved as records-", "apostrophe", ": 1.")
    name = it.seen("#catalogue-answer").split("Saved as ")[1].split(" ")[0].rstrip(".")
    it.wait((folder / name).exists, "no file was saved")
    rows = list(csv.reader((folder / name).read_text("utf-8-sig").splitlines()))
    same("CSV: the columns", rows[0][:4], ["Record", "Ref", "Title", "Originated"])
    judge("CSV: the formula is none any more", "'=1+1" in [row[1] for row in rows], str(rows[-3:]))
    judge("CSV: all that is found is in it", len(rows) > at_once.CASTLE, str(len(rows)))
    it.open(f"{proxy.page}#due?day=2999-12-31")
    it.press("#due-csv")
    name = "due-2999-12-31.csv"
    it.wait((folder / name).exists, "no file was saved")
    rows = list(csv.reader((folder / name).read_text("utf-8-sig").splitlines()))
    same("CSV: the list has titles too", rows[0], ["Record", "Ref", "Title", "Class", "Schedule", "Action", "Due", "Held by", "Confirmed"])
    same("CSV: and each row that is shown", len(rows) - 1, len(it.table("#due-table")))


def by_aggregation(office: Office, it: Browser, proxy: Proxy, folder: pathlib.Path) -> None:
    """The list by aggregations: each with its title, and its records below it; one press marks them."""
    it.open(f"{proxy.page}#due?day=2999-12-31&sort=-record")
    plain = [int(row[1]) for row in it.table("#due-table")]
    it.press("#due-group")
    rows = it.driver.execute_script(
        "return Array.from(document.querySelectorAll('#due-table tbody tr'), (row) => row.matches('.group')"
        " ? row.querySelector('a').textContent : Number(row.cells[1].textContent))")
    heads = [row for row in rows if isinstance(row, str)]
    there: dict[int, list[int]] = {}
    for row in rows:
        if isinstance(row, str):
            own: list[int] = []
            there[int(row.split(" ")[0])] = own
        else:
            own.append(row)
    office_has = {number: at_once.told(office, number)["aggregation"] for number in plain}
    wanted = {at: [number for number in plain if office_has[number] == at] for at in sorted(set(office_has.values()))}
    same("groups: each record is below its aggregation, in the list's order", there, wanted)
    judge("groups: which has its ref and title", heads[0] == "1 · SITES · All sites", str(heads))
    it.press("#due-table tr.group:first-child button")
    same("groups: one press marks what is in it", it.text("#due-submit"), f"Confirm {len(there[1])}")
    it.press("#due-csv")
    file = folder / "due-2999-12-31.csv"
    it.wait(file.exists, "no file was saved")
    rows = list(csv.reader(file.read_text("utf-8-sig").splitlines()))
    same("groups: the file has the aggregation of each", (rows[0][3], {row[3] for row in rows[1:]}), ("Aggregation", set(heads)))
    file.unlink()
    it.press("#due-group")
    same("groups: off again the list is as before", [int(row[1]) for row in it.table("#due-table")], plain)


def approval(it: Browser, proxy: Proxy, folder: pathlib.Path) -> None:
    """The list for approval is on paper with the office, the day, counts and lines to sign."""
    it.open(f"{proxy.page}#due?day=2999-12-31&class=SITES")
    it.driver.execute_script("window.print = () => {}")
    it.press("#due-approval")
    paper = folder / "approval.pdf"
    it.paper(paper)
    text = subprocess.run(["pdftotext", "-layout", paper, "-"], stdout=subprocess.PIPE, check=True).stdout.decode()
    words = TEXTS["approval"]
    says("approval: on paper", text, words["title"], "Records disposal office", "2999-12-31", "Class: SITES", words["signature"], words["owner"], "Castle Hill, find 40", "destroy")
    judge("approval: and nothing of the page", TEXTS["due"]["about"][:30] not in text, text[:500])
    judge("approval: it goes from the page", not it.all("#approval"))


def looked(it: Browser, proxy: Proxy, numbers: list[int], folder: pathlib.Path) -> None:
    """Contents are looked at by their first bytes, and saved under ref, title and an extension."""
    picture, pdf, text, other, broken, film = numbers
    def look(number):
        it.open(f"{proxy.page}#record?number={number}")
        it.press("#record-look")
        return it.seen("#record-saved")
    says("content: a picture is shown", look(picture), WORDS["looked"]["agrees"].split("{")[0])
    same("content: as it is", it.driver.execute_script(PIXELS), [2, 3, 255, 0, 0, 255])
    look(text)
    same("content: a text is text, with marks", it.text("#record-looked pre"), "Grüße\n<b>not bold</b>[U+202E]")
    says("content: what is none of these is not", look(other), "Content of this kind is not shown", "D-1 Unknown.bin")
    says("content: nor what begins like a picture and is none", look(broken), WORDS["broken"])
    it.open(f"{proxy.page}#record?number={film}")
    same("content: a film is not offered to be looked at", it.one("#record-look").is_displayed(), False)
    says("content: which is said at once", it.seen("#record-content"), WORDS["unshown"])
    look(pdf)
    frame = it.one("#record-looked iframe")
    same("content: a PDF is in a frame that may ask for nothing", (frame.get_attribute("allow"), frame.get_attribute("src")[:5]), ("", "blob:"))
    same("content: nothing complains", it.complaints(), [])
    for number, (_, _, content, name) in zip(numbers, CONTENTS, strict=True):
        it.open(f"{proxy.page}#record?number={number}")
        it.press("#record-save")
        it.wait((folder / name).exists, f"{name} was not saved")
        same(f"content: saved as {name}", (folder / name).read_bytes(), content)


def large(folder: pathlib.Path) -> None:
    """200,000 records are found and ordered by the page's own modules, under node."""
    place = folder / "modules"
    place.mkdir()
    for name in ("plain", "sheet"):
        shutil.copytree(TOP / "page" / name, place / name)
    (place / "package.json").write_text('{"type":"module"}')
    script = pathlib.Path(__file__).with_name("finding.mjs")
    done = subprocess.run(["node", script, place], stdout=subprocess.PIPE, check=True)
    told = json.loads(done.stdout)
    same("200,000: what is found is what a plain search finds, in each order", told["wrong"], [])
    slow = max(told["times"].items(), key=lambda it: it[1])
    judge(f"200,000: nothing takes a second of the processor, at most {slow[0]} {slow[1]:.0f} ms", slow[1] < MOST, str(told["times"]))


def pictures(it: Browser, proxy: Proxy, number: int) -> None:
    def hold(view):
        it.press(f"#{view}-mark" if view == "catalogue" else "#due-mark-all")
        it.press(f"#{view}-record-hold-choose")
    sizes = ("1280x900", "400")
    shots(it, "many-catalogue", f"{proxy.page}#catalogue?text=castle", lambda: hold("catalogue"), sizes)
    shots(it, "many-due", f"{proxy.page}#due?day=2999-12-31", lambda: hold("due"), sizes)
    shots(it, "many-found", f"{proxy.page}#catalogue?class=SITES&sort=-due", lambda: None, sizes)
    shots(it, "many-record", f"{proxy.page}#record?number={number}", lambda: it.press("#record-look"), sizes)
    shots(it, "many-holds", f"{proxy.page}#holds", lambda: it.write(hold_place_target="1"), sizes)


def tell(office: Office, proxy: Proxy, it: Browser, folder: pathlib.Path) -> None:
    at_once.fill(office)
    numbers = fill(office)
    catalogue.renew(proxy, office)
    details(office, it, proxy)
    searched(office, it, proxy)
    by_aggregation(office, it, proxy, folder)
    files(it, proxy, folder)
    approval(it, proxy, folder)
    looked(it, proxy, numbers, folder)
    large(folder)
    layout.words(it, f"{proxy.page}#catalogue?sort=due", "what is found")
    for name, address in (("what is found", "#catalogue?sort=due"), ("aggregations found", "#catalogue?part=aggregations&state=open")):
        looks.readable_view(it, proxy, name, address)
    pictures(it, proxy, numbers[1])
