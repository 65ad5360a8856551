"""axe-core over each view: no failure of WCAG 2.2 A or AA, at each size, in each scheme and language, and with forms at work.

axe-core is in the bundle of Lighthouse that Debian's Chromium has in its tools for developers. It is taken out of the browser
that is installed, and is no part of this repository.
"""
from __future__ import annotations

import pathlib
import subprocess
from collections.abc import Callable, Sequence

import looks
import town
from browser import Browser, browser
from kit.judging import judge, same
from late import after
from place import Office, Proxy

BUNDLE = "devtools://devtools/bundled/third_party/lighthouse/lighthouse-dt-bundle.js"
BEGINS = "`/*! axe v"
# a text of the bundle as the JavaScript that it is
MEANT = "let text = ''; process.stdin.on('data', (it) => (text += it)).on('end', () => process.stdout.write((0, eval)(text)))"
TAGS = ["wcag2a", "wcag2aa", "wcag21a", "wcag21aa", "wcag22aa", "best-practice"]
# what fails, with the first elements that do
RUN = """
const [tags, left, done] = arguments;
const rules = Object.fromEntries(left.map((it) => [it, { enabled: false }]));
axe.run(document, { runOnly: tags, rules, resultTypes: ["violations"] }).then(({ violations }) => done(violations.map(({ id, impact, nodes }) =>
  `${id} (${impact}): ${nodes.slice(0, 3).map(({ target }) => target.join(" ")).join(", ")}`)));
"""
# the size of the window, and the scheme
LOOKS = {"1280, light": (1280, 900, "light"), "320, dark": (320, 640, "dark")}


def taken(it: Browser) -> str:
    """The program, as the browser's own bundle has it: a template of JavaScript from its first line to the next backtick."""
    it.driver.get(BUNDLE)
    bundle = it.driver.execute_script("return document.body.innerText")
    begins = bundle.find(BEGINS)
    judge("axe: Chromium has it", begins > 0, bundle[:200])
    ends = begins + 1
    while bundle[ends] != "`":
        ends += 2 if bundle[ends] == "\\" else 1
    done = subprocess.run(["node", "-e", MEANT], input=bundle[begins:ends + 1].encode(), stdout=subprocess.PIPE, check=True)
    return done.stdout.decode()


def failures(it: Browser, program: str, left: Sequence[str] = ()) -> list[str]:
    it.driver.execute_script(program)
    return it.driver.execute_async_script(RUN, TAGS, list(left))


def views(it: Browser, proxy: Proxy, program: str, name: str) -> None:
    """Each view with all that is folded open."""
    for view, address in {**looks.VIEWS, "due": "#due", "holds": f"#holds?code={town.HELD}"}.items():
        looks.unfolded(it, proxy.page + address)
        same(f"axe: {view}, {name}", failures(it, program), [])


def marked(it: Browser) -> None:
    it.driver.execute_script("document.querySelector('#due-mark-all').click(); document.querySelector('#due-record-hold-choose').click()")
    it.settled()


def confirmed(it: Browser) -> None:
    it.press("#catalogue-mark")
    it.press("#catalogue-record-confirm-choose")


def wrong(it: Browser) -> None:
    it.write(hold_place_code="A B")
    it.press("#hold-place > button:last-of-type")


def late(it: Browser) -> None:
    it.write(run_open_day=after(3))
    it.settled()


def sheet(it: Browser, file: pathlib.Path) -> None:
    file.write_text(f"ref,title,originated,aggregation\nA/1,One,{after(2)},1\nA/2,Two,x,1\n")
    it.one("#import-choose").send_keys(str(file))
    it.wait(lambda: it.text("#import-heading") == file.name, "the sheet is not read")
    it.settled()


def one_class(_: Browser) -> None:
    """Nothing is pressed."""


def states(it: Browser, proxy: Proxy, program: str, folder: pathlib.Path) -> None:
    """Views with marks, forms that are open, mistakes, forecasts, answers and a sheet."""
    there: dict[str, tuple[str, Callable[[Browser], None]]] = {
        "marks": ("#due", marked),
        "a search to confirm": ("#catalogue?text=title", confirmed),
        "a class": ("#catalogue?part=classes&code=LET", one_class),
        "mistakes": ("#holds", wrong),
        "a late day": ("#run", late),
        "a sheet": ("#import", lambda at: sheet(at, folder / "axe.csv")),
    }
    for name, (address, prepare) in there.items():
        it.open(proxy.page + address)
        prepare(it)
        # a row that the bar covers in part seems to be small; what is pressed is measured instead
        same(f"axe: {name}", failures(it, program, ["target-size"]), [])
        same(f"axe: {name}: nothing that is pressed is smaller than 24 pixels", it.driver.execute_script(looks.SMALL), [])


def tell(office: Office, proxy: Proxy, it: Browser, folder: pathlib.Path) -> None:
    town.fill(office)
    town.renew(proxy, office)
    program = taken(it)
    for name, (width, height, scheme) in LOOKS.items():
        it.width(width, height)
        it.light(scheme)
        views(it, proxy, program, name)
    it.width(1280)
    it.light("light")
    states(it, proxy, program, folder)
    with browser(folder, "de-DE") as german:
        german.know(proxy.page)
        views(german, proxy, program, "German")
