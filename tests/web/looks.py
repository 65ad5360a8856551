"""How the page looks and is reached: contrast, names of fields, the keyboard, another language, paper, pictures."""
import json
import shutil
import subprocess
import time

from kit.judging import judge, same
from place import TOP
from shots import SCHEMES, SIZES, shots

VIEWS = {
    "todo": "#todo",
    "due": "#due?day=2022-05-02",
    "overdue": "#overdue?day=2022-05-02&count=30",
    "outlook": "#outlook",
    "record": "#record?number=1",
    "file": "#file",
    "import": "#import",
    "plan": "#plan",
    "run": "#run?number=1",
    "certificate": "#certificate?number=1",
    "holds": "#holds?code=Q-2020-17",
    "catalogue": "#catalogue",
    "fault": "#fault",
    "accessibility": "#accessibility",
}

# the least contrast of any text that is seen with what is behind it, with that text
CONTRAST = """
const channel = (it) => { it /= 255; return it <= 0.03928 ? it / 12.92 : ((it + 0.055) / 1.055) ** 2.4; };
const numbers = (color) => color.match(/[\\d.]+/g).map(Number);
const light = (color) => { const [r, g, b] = numbers(color).map(channel); return 0.2126 * r + 0.7152 * g + 0.0722 * b; };
const behind = (node) => { for (let it = node; it; it = it.parentElement) { const color = getComputedStyle(it).backgroundColor; const [, , , a] = numbers(color); if (a === undefined || a > 0) return color; } return "rgb(255, 255, 255)"; };
let least = [21, ""];
const walk = document.createTreeWalker(document.body, NodeFilter.SHOW_TEXT);
while (walk.nextNode()) {
  const node = walk.currentNode.parentElement;
  if (!walk.currentNode.data.trim() || !node.checkVisibility({checkOpacity: true, checkVisibilityCSS: true}) || node.closest("script, option")) continue;
  const [one, other] = [light(getComputedStyle(node).color), light(behind(node))].sort((a, b) => b - a);
  const ratio = (one + 0.05) / (other + 0.05);
  if (ratio < least[0]) least = [ratio, `${walk.currentNode.data.trim().slice(0, 40)} in ${node.tagName} ${node.className}`];
}
return least;
"""
# edges of fields against what is behind them
EDGES = """
const channel = (it) => { it /= 255; return it <= 0.03928 ? it / 12.92 : ((it + 0.055) / 1.055) ** 2.4; };
const light = (color) => { const [r, g, b] = color.match(/[\\d.]+/g).map(Number).map(channel); return 0.2126 * r + 0.7152 * g + 0.0722 * b; };
const at = (node) => { for (let it = node.parentElement; it; it = it.parentElement) { const color = getComputedStyle(it).backgroundColor; if (!/, 0\\)$/.test(color)) return color; } };
return Math.min(21, ...Array.from(document.querySelectorAll("section:not([hidden]) input[type=text], section:not([hidden]) select"), (node) => {
  const [one, other] = [light(getComputedStyle(node).borderTopColor), light(at(node))].sort((a, b) => b - a); return (one + 0.05) / (other + 0.05); }));
"""
NAMELESS = """
return Array.from(document.querySelectorAll("section:not([hidden]) :is(input, select, button, a, table)"))
  .filter((node) => node.checkVisibility() && !(node.labels?.length || node.getAttribute("aria-label") || node.caption || node.textContent.trim())).map((node) => node.outerHTML)
"""
SMALL = """
return Array.from(document.querySelectorAll("section:not([hidden]) :is(input, select, button:not(.inner)), section:not([hidden]) :is(td, th) a, nav ul a"))
  .filter((node) => node.checkVisibility()).filter((node) => { const it = node.getBoundingClientRect(); return it.width && (it.height < 24 || it.width < 24); }).map((node) => node.outerHTML)
"""
WIDE = "return [document.documentElement.scrollWidth, innerWidth]"
# the texts that reach over the right edge of the box around them; what scrolls or is clipped has its own way to be seen
OVER = """
const boxOf = (node) => {
  for (let it = node; it; it = it.parentElement) {
    const style = getComputedStyle(it);
    if (style.overflowX !== "visible" || style.clipPath !== "none") return null;
    if (style.display !== "inline" && parseFloat(style.borderRightWidth) > 0) return it;
  }
  return null;
};
const over = [];
const range = document.createRange();
const walk = document.createTreeWalker(document.body, NodeFilter.SHOW_TEXT);
while (walk.nextNode()) {
  const { data, parentElement } = walk.currentNode;
  if (!data.trim() || !parentElement.checkVisibility({checkVisibilityCSS: true}) || parentElement.closest("script, select")) continue;
  const box = boxOf(parentElement);
  range.selectNodeContents(walk.currentNode);
  if (box && range.getBoundingClientRect().right > box.getBoundingClientRect().right + 1) over.push(data.trim());
}
return over;
"""
# the places of the view that is shown at which something is said later
LIVE = "return Array.from(document.querySelectorAll('section:not([hidden]) [role=status], #clocks, #rights'))"
# what is behind a summary is looked at too
UNFOLD = "for (const it of document.querySelectorAll('section:not([hidden]) details')) it.open = true"


def unfolded(browser, address):
    browser.open(address)
    browser.driver.execute_script(UNFOLD)


def readable_view(browser, proxy, name, address):
    """One view: contrast in light and dark; widths, sizes and names."""
    for scheme in ("light", "dark"):
        browser.light(scheme)
        unfolded(browser, proxy.page + address)
        ratio, where = browser.driver.execute_script(CONTRAST)
        judge(f"{name}, {scheme}: each text has a contrast of 4.5 at least, the least {ratio:.1f}", ratio >= 4.5, where)
        edge = browser.driver.execute_script(EDGES)
        judge(f"{name}, {scheme}: each field's edge has 3 at least, the least {edge:.1f}", edge >= 3)
    browser.light("light")
    for width in (1280, 400, 320):
        browser.width(width)
        unfolded(browser, proxy.page + address)
        there, wanted = browser.driver.execute_script(WIDE)
        judge(f"{name}: nothing is wider than {width} pixels", there <= wanted, f"{there}")
        same(f"{name}: no text reaches over its box at {width}", browser.driver.execute_script(OVER), [])
        same(f"{name}: nothing that is pressed is smaller than 24 pixels at {width}", browser.driver.execute_script(SMALL), [])
    browser.width(1280)
    same(f"{name}: each field, button, link and table has a name", browser.driver.execute_script(NAMELESS), [])
    same(f"{name}: one heading of the first level is seen", len([it for it in browser.all("h1") if it.is_displayed()]), 1)


def live(browser, proxy, name, address):
    """What says something later is known to a screen reader before, though it is empty and has no room."""
    unfolded(browser, proxy.page + address)
    there = browser.driver.execute_script(f"{LIVE}.filter((it) => !it.closest('[hidden], :has(> .act[hidden])')).length")
    ax = browser.driver.execute_cdp_cmd("Accessibility.getFullAXTree", {})["nodes"]
    known = [node for node in ax if not node["ignored"] and node["role"]["value"] == "status"]
    same(f"{name}: a screen reader knows each place where something is said later", len(known), there)
    high = f"{LIVE}.filter((it) => it.matches('.outcome:empty') && it.offsetHeight > 0).map((it) => it.id)"
    same(f"{name}: and an empty one takes no room", browser.driver.execute_script(high), [])


def readable(browser, proxy):
    for name, address in VIEWS.items():
        readable_view(browser, proxy, name, address)
        live(browser, proxy, name, address)
    browser.width(400)
    browser.open(proxy.page + VIEWS["due"])
    # rows that are far from what is seen are not drawn
    browser.driver.execute_script("document.getElementById('due-table').scrollIntoView()")
    time.sleep(0.5)
    roles = [node["role"]["value"] for node in browser.driver.execute_cdp_cmd("Accessibility.getFullAXTree", {})["nodes"] if not node["ignored"]]
    rows = len(browser.table("#due-table"))
    there = {role: roles.count(role) for role in ("table", "row", "columnheader", "rowheader", "cell")}
    same("a narrow list is still a table for a screen reader", there, {"table": 1, "row": rows + 1, "columnheader": 9, "rowheader": rows, "cell": 8 * rows})
    browser.width(1280)


def judge_view(browser, name, width):
    """What is seen of a view, as it is just now: contrast, edges, sizes, names, and that nothing is too wide."""
    ratio, where = browser.driver.execute_script(CONTRAST)
    judge(f"{name}: each text has a contrast of 4.5 at least, the least {ratio:.1f}", ratio >= 4.5, where)
    edge = browser.driver.execute_script(EDGES)
    judge(f"{name}: each field's edge has 3 at least, the least {edge:.1f}", edge >= 3)
    there, _ = browser.driver.execute_script(WIDE)
    judge(f"{name}: nothing is wider", there <= width, f"{there}")
    same(f"{name}: no text reaches over its box", browser.driver.execute_script(OVER), [])
    same(f"{name}: nothing that is pressed is smaller than 24 pixels", browser.driver.execute_script(SMALL), [])
    same(f"{name}: each field, button, link and table has a name", browser.driver.execute_script(NAMELESS), [])


FOCUSED = """const it = document.activeElement; const style = getComputedStyle(it); const box = it.getBoundingClientRect();
return [it.id || it.textContent || it.getAttribute("aria-label"), style.outlineStyle !== "none" && parseFloat(style.outlineWidth) >= 2, box.bottom > 0 && box.top < innerHeight, it.tagName]"""


def stops(browser, most):
    """The stops of the keyboard from the focus on, each by its id or name; each is outlined and in sight."""
    from selenium.webdriver import ActionChains
    from selenium.webdriver.common.keys import Keys
    names, wrong = [], []
    for _ in range(most):
        # not to an element: what is sent to a field for files is the name of one
        ActionChains(browser.driver).send_keys(Keys.TAB).perform()
        name, outlined, inside, tag = browser.driver.execute_script(FOCUSED)
        if tag == "BODY" or name == "skip":
            break
        names.append(name)
        if not outlined or not inside:
            wrong.append(name)
    same("keyboard: each stop is outlined and in sight", wrong, [])
    return names


def keyboard(browser, proxy):
    """The list is asked for, marked and left by the keyboard alone."""
    from selenium.webdriver.common.keys import Keys
    browser.open(proxy.page)
    keys = lambda *them: browser.driver.switch_to.active_element.send_keys(*them)
    focus = lambda: browser.driver.execute_script(FOCUSED)
    keys(Keys.TAB)
    same("keyboard: the first stop is the link over the heading", focus()[0], "skip")
    keys(Keys.ENTER)
    same("keyboard: it leads to the view", focus()[0], "main")
    browser.go("#due")
    keys(Keys.TAB)
    same("keyboard: then comes the day of the list", focus()[0], "due-day")
    keys(Keys.CONTROL, "a")
    keys("2022-05-02", Keys.ENTER)
    browser.settled()
    same("keyboard: the list is shown", len(browser.table("#due-table")), 22)
    stops, unseen, hidden = [], [], []
    for _ in range(90):
        keys(Keys.TAB)
        name, outlined, inside, tag = focus()
        if tag == "BODY" or name == "skip":
            break
        stops.append(name)
        if not outlined:
            unseen.append(name)
        if not inside:
            hidden.append(name)
    wanted = ["due-class", "due-schedule", "due-action", "due-held", "due-confirmed", "due-all", "due-mark", "due-mark-held", "due-unmark", "due-print", "due-skip", "Mark record 19", "due-confirm-day", "due-confirm-by", "due-submit"]
    same("keyboard: each part is reached, in the order of the page", [name for name in stops if name in wanted], wanted)
    same("keyboard: each stop is outlined", unseen, [])
    same("keyboard: and in sight", hidden, [])
    browser.one("#due-skip").send_keys(Keys.ENTER)
    same("keyboard: one stop leads past the rows", focus()[0], "due-confirm-day")
    browser.driver.execute_script("document.querySelector('#due-table input').focus()")
    keys(Keys.SPACE)
    same("keyboard: the space bar marks a row", browser.text("#due-submit"), "Confirm 1")


def written(part):
    """All texts of a file in a language that nobody speaks: each between brackets."""
    if isinstance(part, dict):
        return {name: written(value) for name, value in part.items()}
    if isinstance(part, list):
        return [{**written(row), "status": row["status"], "body": row["body"]} for row in part]
    return f"⟦{part}⟧" if part else part


FOREIGN = """
const found = []; const walk = document.createTreeWalker(document.body, NodeFilter.SHOW_TEXT);
while (walk.nextNode()) { const it = walk.currentNode; if (/[a-z]{2}/i.test(it.data) && !it.parentElement.closest("td, th[scope=row], code, pre, dd, script, #loading")) found.push(it.parentElement.textContent); }
for (const it of document.querySelectorAll("[aria-label], [title]")) found.push(it.getAttribute("aria-label") ?? it.title);
return [document.documentElement.lang, document.title, found.filter((it) => !(it.includes("⟦") && it.includes("⟧")))]
"""


def languages(folder, proxy, open_browser):
    """One more file in texts/ is one more language, and no text stands anywhere else."""
    strange = written(json.loads((TOP / "page/texts/en.json").read_text())) | {"lang": "nl"}
    file = folder / "web/texts/nl.json"
    file.write_text(json.dumps(strange, ensure_ascii=False))
    with open_browser(folder, "nl-BE") as other:
        other.know(proxy.page)
        for name, address in VIEWS.items():
            other.open(proxy.page + address)
            lang, title, left = other.driver.execute_script(FOREIGN)
            same(f"{name}: in another language no English text is left", (lang, "⟦" in title, left), ("nl", True, []))
    file.unlink()
    with open_browser(folder, "fr-FR") as other:
        other.know(proxy.page)
        other.open(proxy.page)
        same("a language without a file is told in English", other.driver.title, "To do · Records disposal office")


def paper(browser, proxy, folder):
    """What is printed of the list and of a certificate, read by Debian's pdftotext where it is there."""
    for name, wanted, not_wanted in (("due", ["Records due by 2022-05-02", "EVT/2018-01/1", "EVT/2018-01/4", "Q-2020-17"], ["Show the list", "Confirm what is marked", "Mark"]),
                                     ("certificate", ["agrees with its last line", "APP/18-07", "SHA256 c046fb1e"], ["Show the certificate", "Save the text"])):
        browser.open(proxy.page + VIEWS[name])
        file = folder / f"{name}.pdf"
        browser.paper(file)
        if not shutil.which("pdftotext"):
            print(f"not done here, without pdftotext: reading what is printed of {name}")
            continue
        text = subprocess.run(["pdftotext", "-layout", file, "-"], stdout=subprocess.PIPE, check=True).stdout.decode()
        judge(f"{name}: on paper is what is to be read", all(it in text for it in wanted), text)
        judge(f"{name}: and nothing that is pressed", not any(it in text for it in not_wanted), text)


def pictures(browser, proxy, names, more="", sizes=tuple(SIZES), schemes=tuple(SCHEMES)):
    """Pictures of each of these views; `more` follows the view's name."""
    def prepare(name):
        if name == "due":
            browser.press("#due-mark")
            browser.write(due_confirm_by="R. Halloran, records manager")
        if name == "record":
            browser.press("#record-save")
        browser.driver.execute_script("scrollTo(0, 0)")

    for name in names:
        shots(browser, f"{name}{more}", proxy.page + VIEWS[name], lambda name=name: prepare(name), sizes, schemes)
