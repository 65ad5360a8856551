"""Files through the page: 40 are dropped, one of them too large; refusals, the same again, answers that are lost."""
from __future__ import annotations

import collections
import hashlib
import pathlib
import time

from selenium.webdriver.common.keys import Keys

import layout
import looks
from browser import Browser
from kit.judging import judge, same
from late import after
from place import TOP, Office, Proxy, full
from shots import SIZES, shot
from story import TEXTS, Story, says

WORDS, FILING = TEXTS["file"], TEXTS["filing"]
MOST, BODY = 262_144, 1_048_576
# the bodies of the requests, as the page sends them
WATCHED = """
window.bodies = [];
const there = window.fetch;
window.fetch = (...words) => { if (words[1]?.body) window.bodies.push(words[1].body); return there(...words); };
"""
# so many requests are answered; then one is sent whose answer never comes back to the page
LOST = """
let left = arguments[0];
const there = window.fetch;
window.fetch = async (...words) => {
  if (words[1]?.body && left-- === 0) { await there(...words); window.fetch = there; throw new TypeError("no answer"); }
  return there(...words);
};
"""

# the top of the view, or where the list begins
SHOWN = """
document.activeElement.blur();
const list = document.querySelector("section:not([hidden]) :is(#file-common, #import-totals)");
scrollTo(0, arguments[0] ? list.getBoundingClientRect().top + scrollY - 12 : 0);
"""


def fill(office: Office) -> None:
    """An office with a schedule, a class and an open aggregation."""
    assert office.ask("POST", "/acts", (TOP / "examples/import/office.json").read_bytes())[0] == 200


def size_of(number: int) -> int:
    """Of 40 files: one of no byte, one of the most, one of one byte more, some large ones, and small ones."""
    return {1: 0, 7: MOST, 23: MOST + 1, 30: 250_000, 31: 250_000, 32: 20_000, 33: 20_000}.get(number, number * 100)


def make(folder: pathlib.Path) -> list[pathlib.Path]:
    """The 40 files, in a folder of their own."""
    place = folder / "scans"
    place.mkdir()
    files = [place / (f"letter {number:02}.pdf" if number != 5 else "Straße 05.txt") for number in range(1, 41)]
    for number, file in enumerate(files, 1):
        file.write_bytes((f"{number} ".encode() * MOST)[:size_of(number)])
    return files


def digits(text: str) -> str:
    return "".join(part for part in text if part.isdigit())


def in_short(count: int) -> str:
    """A number of bytes as the page shows it: with one digit behind the point where it is below ten of its unit."""
    size, units = float(count), ["B", "kB", "MB", "GB"]
    while size >= 1000 and len(units) > 1:
        size, units = size / 1000, units[1:]
    return f"{size:.1f} {units[0]}".replace(".0 ", " ") if size < 10 else f"{size:.0f} {units[0]}"


class View:
    """The view File, as somebody sees it."""

    def __init__(self, story: Story) -> None:
        self.story, self.browser = story, story.browser

    def open(self) -> None:
        self.browser.open(f"{self.story.proxy.page}#file")

    def drop(self, files: list[pathlib.Path], where: str = "#file-drop") -> None:
        """Drops files as from the windows of a desktop."""
        place = self.browser.one(where)
        self.browser.driver.execute_script("arguments[0].scrollIntoView({block: 'center'})", place)
        script = "const it = arguments[0].getBoundingClientRect(); return [it.x, it.y]"
        box = self.browser.driver.execute_script(script, place)
        data = {"items": [], "files": [str(it) for it in files], "dragOperationsMask": 1}
        for kind in ("dragEnter", "dragOver", "drop"):
            at = {"type": kind, "x": box[0] + 20, "y": box[1] + 20, "data": data}
            self.browser.driver.execute_cdp_cmd("Input.dispatchDragEvent", at)
        time.sleep(0.3)
        self.browser.settled()

    def choose(self, files: list[pathlib.Path]) -> None:
        self.browser.one("#file-choose").send_keys("\n".join(str(it) for it in files))
        self.browser.settled()

    def rows(self) -> list[list[str]]:
        """Each row: the file's name, what is in its fields, and its answer."""
        return self.browser.driver.execute_script(
            "return Array.from(document.querySelectorAll('#file-table tbody tr'), (row) => ["
            "row.querySelector('.named').textContent, ...Array.from(row.querySelectorAll('input'), (it) => it.value),"
            " row.lastChild.firstChild.textContent])")

    def answers(self) -> list[str]:
        return [row[-1] for row in self.rows()]

    def totals(self) -> dict[str, int]:
        names = {word: name for name, word in WORDS["totals"].items()}
        facts = self.browser.driver.execute_script(
            "return Array.from(document.querySelectorAll('#file-totals > div'),"
            " (it) => [it.children[0].textContent, it.children[1].textContent])")
        # what is 0 is not shown, and bytes are shown in short
        whole = {names[word]: int(number.replace(",", "")) for word, number in facts if names[word] != "bytes"}
        return collections.defaultdict(int, whole)

    def size(self) -> str:
        word = WORDS["totals"]["bytes"]
        return self.browser.driver.execute_script(
            "return Array.from(document.querySelectorAll('#file-totals > div'))"
            ".find((it) => it.children[0].textContent === arguments[0]).children[1].textContent", word)

    def file(self) -> int:
        """Presses the button; how many requests were sent."""
        before = self.story.posted()
        self.browser.press("#file-submit")
        return self.story.posted() - before

    def outcome(self) -> str:
        return self.browser.seen("#file-send-outcome")

    def counts(self) -> dict[str, str]:
        names = {word: name for name, word in FILING["counts"].items()}
        return {names[word]: count for word, count in self.browser.facts("#file-send-outcome").items() if word in names}

    def focus(self) -> str:
        return self.browser.driver.execute_script("return document.activeElement.id")


def listed(view: View, files: list[pathlib.Path]) -> None:
    """What is told before anything is sent."""
    view.open()
    view.drop(files)
    sizes = [size_of(number) for number in range(1, 41)]
    totals = view.totals()
    same("40 files are dropped: their sizes are told", (totals["count"], view.size()), (40, in_short(sum(sizes))))
    same("one of them is too large", (totals["large"], totals["ready"], totals["filed"]), (1, 39, 0))
    says("which is said, and what to do", view.browser.seen("#file-large"), "262,144", WORDS["tooLargeDo"])
    judge("where large files are kept is not asked yet", not view.browser.one("#file-place").is_displayed())
    rows = view.rows()
    same("its row says so", [row[0] for row in rows if row[-1] == WORDS["large"]], ["letter 23.pdf"])
    same("ref and title begin as the name of the file", rows[4][:3], ["Straße 05.txt", "Straße 05.txt", "Straße 05"])
    same("and originated as the day of its last change", {row[3] for row in rows}, {after(0)})
    same("a file that is dropped beside the place leaves the page there", dropped_beside(view, files[0]), 40)


def dropped_beside(view: View, file: pathlib.Path) -> int:
    view.drop([file], "#file-title")
    return view.totals()["count"]


def wrong(view: View) -> None:
    """What is wrong is said where it is, and nothing is sent."""
    it = view.browser
    same("without an aggregation nothing is sent", view.file(), 0)
    views = {name: TEXTS[name]["title"] for name in ("plan", "catalogue")}
    words = f"{WORDS['noAggregation']} {WORDS['whereAggregation'].format(**views)}"
    same("that one is needed, and where its number comes from, is said at its field",
         it.text("#file-all-aggregation-wrong"), words)
    same("and it has the focus", view.focus(), "file-all-aggregation")
    says("and so it is beside the button", view.outcome(), WORDS["wrong"], words)
    links = [link.get_attribute("hash") for link in it.all("#file-send-outcome a")]
    same("with links to both views", links, ["#plan", "#catalogue"])
    says("the field's hint says that it is needed", it.text("#file-all-aggregation-hint"), "required", "Plan")
    it.write(file_all_aggregation="04")
    same("a number of another form: nothing is sent", view.file(), 0)
    same("which is another text", it.text("#file-all-aggregation-wrong"), TEXTS["fields"]["numberWrong"])
    judge("and the outcome does not say that one is needed", WORDS["noAggregation"] not in view.outcome())
    it.write(file_all_prefix="LET/2024/", file_all_aggregation="1", file_all_originated="2024-01-01")
    rows = view.rows()
    same("what is written for all is in each row", {(row[1].startswith("LET/2024/"), row[3], row[4]) for row in rows},
         {(True, "2024-01-01", "1")})
    second = it.all("#file-table tbody tr:nth-child(2) input")
    second[0].clear()
    second[0].send_keys("LET/2024/letter 01.pdf")
    second[2].clear()
    second[2].send_keys("31.12.2023")
    rowless = it.all("#file-table tbody tr:nth-child(3) input")[3]
    rowless.send_keys(Keys.BACKSPACE)
    same("a row alone without an aggregation: nothing is sent", view.file(), 0)
    said = [node.text for node in it.all("#file-table tbody tr:nth-child(3) strong.wrong") if node.text]
    same("which is said in that row", said, [WORDS["noAggregation"]])
    rowless.send_keys("1")
    same("a ref twice, and a day of another form: nothing is sent", view.file(), 0)
    said = [node.text for node in it.all("#file-table tbody tr:nth-child(2) strong.wrong") if node.text]
    same("which is said at both fields", said, [WORDS["twice"], TEXTS["fields"]["dayWrong"]])
    same("the first has the focus", view.focus(), second[0].get_attribute("id"))
    for field, value in ((second[0], "LET/2024/second"), (second[1], "The second letter"), (second[2], "2023-12-31")):
        field.clear()
        field.send_keys(value)
    it.write(file_all_prefix="LET/2023/")
    stays = ["LET/2024/second", "The second letter", "2023-12-31", "1"]
    same("what is written in a row stays", view.rows()[1][1:5], stays)
    # a row of an aggregation that is not there
    it.all("#file-table tbody tr:nth-child(3) input")[3].clear()
    it.all("#file-table tbody tr:nth-child(3) input")[3].send_keys("9")


def filed(view: View, files: list[pathlib.Path]) -> None:
    """39 are sent, in few requests; one of them is refused, corrected and filed."""
    it = view.browser
    it.driver.execute_script(WATCHED)
    requests = view.totals()["requests"]
    same("so many requests were sent as it said", view.file(), requests)
    bodies = it.driver.execute_script("return window.bodies.map((it) => new TextEncoder().encode(it).length)")
    is_below = max(bodies) < BODY and len(bodies) == requests
    judge(f"each body is below 1 MiB, the longest {max(bodies)}", is_below, str(bodies))
    judge(f"more than one request was needed, {requests}", requests > 1)
    same("38 are filed, one is refused", view.counts(), {"added": "38", "refused": "1"})
    row = TEXTS["refusals"]["5"]
    says("which its row says in words", view.rows()[2][-1], "Refusal 5, NoSuch", row["meaning"], row["do"])
    same("the outcome has the focus", view.focus(), "file-send-outcome")
    it.all("#file-table tbody tr:nth-child(3) input")[3].clear()
    it.all("#file-table tbody tr:nth-child(3) input")[3].send_keys("1")
    same("the button says what is left", it.seen("#file-submit"), WORDS["again"].format(count=1))
    same("corrected it is sent alone", (view.file(), view.counts()), (1, {"added": "1"}))
    numbers = [int(digits(answer)) for answer in view.answers() if answer != WORDS["large"]]
    first = min(numbers)
    same("each has a number of its own", sorted(numbers), list(range(first, first + 39)))
    wrong_ = []
    fit = [(number, file) for number, file in enumerate(files, 1) if number != 23]
    for record, (number, file) in zip(numbers, fit, strict=True):
        told = view.story.told(f"/records/{record}")
        wanted = hashlib.sha256(file.read_bytes()).hexdigest(), size_of(number)
        if (told["digest"], told["length"]) != wanted:
            wrong_.append((record, file.name))
    same("each has the bytes of its file", wrong_, [])
    told = view.story.told(f"/records/{numbers[1]}")
    same("and what was written", (told["ref"], told["title"], told["originated"], told["aggregation"], told["class"]),
         ("LET/2024/second", "The second letter", "2023-12-31", 1, "LETTERS"))
    same("nothing is left to be filed", view.file(), 0)
    says("which is said", view.outcome(), WORDS["nothing"])


def again(view: View, files: list[pathlib.Path]) -> None:
    """The same files again: each is there already."""
    it = view.browser
    before = view.answers()
    it.press("#file-off-all")
    same("the list is empty", (it.one("#file-list").is_displayed(), view.focus()), (False, "file-choose"))
    view.choose(files)
    it.write(file_all_prefix="LET/2023/", file_all_aggregation="1", file_all_originated="2024-01-01")
    fields = it.all("#file-table tbody tr:nth-child(2) input")
    for field, value in zip(fields, ("LET/2024/second", "The second letter", "2023-12-31"), strict=False):
        field.clear()
        field.send_keys(value)
    requests = view.totals()["requests"]
    same("the same again: so many requests", view.file(), requests)
    same("each is there already", view.counts(), {"added": "0", "same": "39"})
    same("under the same numbers", [digits(it) for it in view.answers()], [digits(it) for it in before])
    it.press("#file-off-filed")
    same("what is filed is taken off, and the large one stays", [row[0] for row in view.rows()], ["letter 23.pdf"])
    it.press("#file-off-all")


def manifest(view: View, files: list[pathlib.Path]) -> None:
    """In place of the file that is too large its manifest is filed, on demand."""
    it, large = view.browser, files[22]
    view.open()
    view.choose([large])
    same("alone it makes no request", (view.totals()["ready"], view.file()), (0, 0))
    it.write(file_all_aggregation="1", file_all_prefix="MANIFEST/")
    buttons = lambda: [button.text for button in it.all("#file-table button")]
    same("its row offers its manifest", buttons(), [WORDS["manifest"], WORDS["off"]])
    it.all("#file-table button")[0].click()
    same("then it is asked where the file is kept", view.focus(), "file-all-place")
    same("and it can be left out again", (buttons(), view.totals()["ready"]), ([WORDS["leave"], WORDS["off"]], 1))
    it.write(file_all_place="//server/scans/")
    same("while it is to be filed no file is said to be left out", it.text("#file-large"), "")
    same("the manifest is filed", (view.file(), view.counts()), (1, {"added": "1"}))
    words = FILING["manifestAdded"].split("{")[0]
    judge("its row says that the manifest is, and not the file", view.answers()[0].startswith(words), view.answers()[0])
    number = int(digits(view.answers()[0]))
    digest = hashlib.sha256(large.read_bytes()).hexdigest()
    wanted = f"SHA256 {digest}\nLENGTH {MOST + 1}\nPLACE //server/scans/{large.name}\n"
    content = view.story.office.ask("GET", f"/records/{number}/content")[2].decode()
    same("it is the one that CSV.md has", content, wanted)


def lost(view: View, folder: pathlib.Path) -> None:
    """The second of three answers never comes: what is known is shown, and the rest is tried again."""
    it = view.browser
    place = folder / "lost"
    place.mkdir()
    files = [place / f"page {number}.bin" for number in range(1, 6)]
    for number, file in enumerate(files):
        file.write_bytes(bytes([number]) * MOST)
    view.open()
    view.choose(files)
    it.write(file_all_aggregation="1")
    same("five of the most bytes: two fit into a request", view.totals()["requests"], 3)
    it.driver.execute_script(LOST, 1)
    same("two requests are sent, and none a second time", view.file(), 2)
    same("what is known of them", view.counts(), {"added": "2", "unknown": "2", "left": "1"})
    says("it says what to do", view.outcome(), TEXTS["statuses"][-1]["meaning"], FILING["retryUnknown"])
    same("the rows say so too", view.answers()[2:], [FILING["unknown"]] * 2 + [FILING["left"]])
    same("tried again, without harm", (view.file(), view.counts()), (2, {"added": "1", "same": "2"}))
    same("five records are there, with numbers of their own", len(set(view.answers())), 5)


def stopped(view: View, folder: pathlib.Path) -> None:
    """A disk that takes no more, an office that has ended, a file that is gone."""
    it, office = view.browser, view.story.office
    place = folder / "stopped"
    place.mkdir()
    files = [place / f"sheet {number}.bin" for number in range(1, 9)]
    for number, file in enumerate(files):
        file.write_bytes(bytes([100 + number]) * 40_000)
    view.open()
    view.choose(files)
    it.write(file_all_aggregation="1")
    office.close()
    office.start(before=full(office.file, 300))
    sent = view.file()
    counts = view.counts()
    in_the_middle = counts["added"] != "0" and counts.get("unknown") == "1" and sent == 1
    judge("a fault stops it in the middle", in_the_middle, str(counts))
    says("which is said in words", view.outcome(), TEXTS["faults"]["31"]["meaning"], FILING["retryUnknown"])
    office.stop()
    view.file()
    says("an office that has ended, too", view.outcome(), TEXTS["proxy"]["502"]["meaning"])
    office.start()
    files[7].unlink()
    view.file()
    same("then one is left, whose file is gone", view.counts()["unread"], "1")
    same("its row says so", view.answers()[-1], FILING["unread"])
    same("the others are filed", len({it for it in view.answers()[:-1] if it.startswith(("Filed", "There"))}), 7)


def keyboard(view: View, files: list[pathlib.Path]) -> None:
    """Each part is reached by the keyboard, in the order of the page, outlined and in sight; Enter files."""
    it = view.browser
    view.open()
    view.choose(files[:2])
    it.driver.execute_script("document.getElementById('file-title').focus()")
    stops = looks.stops(it, 40)
    part = [f"file-all-{name}" for name in ("prefix", "title", "originated", "aggregation", "class", "schedule")]
    rows = [field.get_attribute("id") for field in it.all("#file-table input")]
    wanted = ["file-choose", *part, "file-off-all", *rows, "file-send-day", "file-submit"]
    same("keyboard: each part is reached, in the order of the page", [name for name in stops if name in wanted], wanted)
    it.one("#file-table .off").send_keys(Keys.ENTER)
    same("keyboard: a file is taken off, and the next one has the focus", (len(view.rows()), focused(it)), (1, "1"))
    it.one("#file-table .off").send_keys(Keys.ENTER)
    same("keyboard: without a file the field to choose some has it", view.focus(), "file-choose")


def focused(it: Browser) -> str:
    """In which row of the list the focus is."""
    script = "return String(document.activeElement.closest('tr')?.rowIndex)"
    return it.driver.execute_script(script)


def readable(view: View, files: list[pathlib.Path]) -> None:
    """The view with files: contrast, sizes, names, widths; and its pictures."""
    it = view.browser
    for scheme in ("light", "dark"):
        it.light(scheme)
        for size, (width, height) in SIZES.items():
            it.width(width, height)
            view.open()
            shown = [files[0], files[4], files[8], files[22]]
            view.choose(shown)
            # other refs each time, so that they are new
            prefix = f"LET/{width}-{height}{scheme[0]}/"
            it.write(file_all_prefix=prefix, file_all_aggregation="1", file_all_originated="2024-01-01")
            it.all("#file-table tbody tr:nth-child(1) input")[3].clear()
            it.all("#file-table tbody tr:nth-child(1) input")[3].send_keys("9")
            view.file()
            looks.judge_view(it, f"file, {scheme}, {width} pixels", width)
            it.driver.execute_script(SHOWN, size == "1280x900")
            shot(it, "file", size, scheme)
    it.light("light")
    layout.words_there(it, "file")


def tell(office: Office, proxy: Proxy, browser: Browser, folder: pathlib.Path) -> None:
    fill(office)
    view = View(Story(office, proxy, browser, folder))
    # first, while the office's file is small
    stopped(view, folder)
    files = make(folder)
    listed(view, files)
    wrong(view)
    filed(view, files)
    again(view, files)
    manifest(view, files)
    lost(view, folder)
    keyboard(view, files)
    readable(view, files)
