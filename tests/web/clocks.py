"""A wrong clock, the browser's or the server's: no day is sent by it without a tick, and each view that sends one says so."""
from __future__ import annotations

import datetime
import pathlib
import zoneinfo

import looks
from browser import Browser
from kit.judging import judge, same
from late import CLOCKS, FORMS, LATE, Form, after, fill
from place import Office, Proxy
from shots import shots
from story import TEXTS, Story, says

# the views with a form that sends a day
SENDING = {"due", "overdue", "record", "file", "import", "plan", "run", "holds", "catalogue"}
# this browser's clock is so many hours ahead, from the first script of the page on
AHEAD = """
{ const Real = Date, more = 3600000 * %f;
  window.Date = class extends Real {
    constructor(...words) { words.length ? super(...words) : super(Real.now() + more); }
    static now() { return Real.now() + more; }
  }; }
"""
# the server's clock is: each answer has this many hours more in its Date
SERVER_AHEAD = """
{ const there = window.fetch;
  window.fetch = async (...words) => {
    const reply = await there(...words);
    const headers = new Headers(reply.headers);
    headers.set("Date", new Date(Date.parse(headers.get("Date")) + 3600000 * %f).toUTCString());
    return new Response(await reply.arrayBuffer(), { status: reply.status, headers });
  }; }
"""
YEAR = 365 * 24
# what the clock of the page says, and which day is written into a form
NOW = "return new Date().toLocaleDateString('sv')"


def told(it: Browser) -> str:
    return it.text("#clocks")


def differ(here: str, there: str) -> str:
    return CLOCKS["differ"].format(here=here, there=there)


def said(story: Story, words: str) -> None:
    """Each view that sends a day says that the clocks differ, and no other one does."""
    it = story.browser
    for name, address in looks.VIEWS.items():
        it.open(story.proxy.page + address)
        same(f"clocks: {name}: what is said of them", told(it), words if name in SENDING else "")
    it.go("#holds")
    same("clocks: it is said where another view leads to one that sends a day", told(it), words)
    it.go("#certificate")
    same("clocks: and no more where that leads to one that sends none", told(it), "")


def browser_ahead(story: Story) -> None:
    """The browser's clock is a year ahead: its today is a late day, with each form."""
    it = story.browser
    with it.before_each_page(AHEAD % YEAR):
        said(story, differ(after(365), after(0)))
        it.open(f"{story.proxy.page}#due")
        same("clocks: a list of the browser's today looks ahead", it.text("#due-ahead"),
             TEXTS["due"]["ahead"].format(today=after(0)))
        for name in FORMS:
            it.open(f"{story.proxy.page}#certificate")
            form = Form(story, name)
            form.fill()
            same(f"clocks: {name}: its day is today by the browser's clock",
                 it.one(f"#{form.day}").get_attribute("value"), after(365))
            says(f"clocks: {name}: which is late by the server's", form.says_late(),
                 LATE.format(day=after(365), today=after(0), clock=CLOCKS["there"]))
            same(f"clocks: {name}: without the tick nothing is sent", form.press(), 0)
            same(f"clocks: {name}: which is said at the tick", it.text(f"#{form.day}-sure-wrong"),
                 TEXTS["fields"]["sureWrong"])


def server_ahead(story: Story) -> None:
    """The server's clock is a year ahead: that is said, and the browser's clock alone makes a day late."""
    it = story.browser
    with it.before_each_page(SERVER_AHEAD % YEAR):
        said(story, differ(after(0), after(365)))
        form = Form(story, "hold-place")
        form.fill()
        same("clocks: with a server a year ahead today is not late", form.says_late(), "")
        form.write(after(1))
        says("clocks: but tomorrow is, by the browser's clock", form.says_late(),
             LATE.format(day=after(1), today=after(0), clock=CLOCKS["here"]))
    with it.before_each_page(SERVER_AHEAD % -YEAR):
        form.fill()
        it.open(f"{story.proxy.page}#holds")
        same("clocks: with a server a year behind that is said too", told(it), differ(after(0), after(-365)))
        says("clocks: and today is late", form.says_late(),
             LATE.format(day=after(0), today=after(-365), clock=CLOCKS["there"]))


def hours_apart(story: Story) -> None:
    """Clocks that differ by less than a day: nothing is said of them, but the day is late where it is tomorrow's."""
    it, form = story.browser, Form(story, "hold-place")
    hour = datetime.datetime.now().hour
    # so that the day is tomorrow's, and the hours are few
    with it.before_each_page(AHEAD % (24 - hour)):
        it.open(f"{story.proxy.page}#holds")
        form.fill()
        same("clocks: some hours apart: nothing is said of them", told(it), "")
        same("clocks: some hours apart: but the day is tomorrow's", it.one(f"#{form.day}").get_attribute("value"),
             after(1))
        says("clocks: some hours apart: and late by the server's clock", form.says_late(),
             LATE.format(day=after(1), today=after(0), clock=CLOCKS["there"]))
    with it.before_each_page(AHEAD % (4 / 60)):
        it.open(f"{story.proxy.page}#holds")
        same("clocks: four minutes apart they count as one", (told(it), form.says_late()), ("", ""))


def zones(story: Story) -> None:
    """Two right clocks in zones where the day is another one than the server's: nothing is said, and no day is late."""
    it, form = story.browser, Form(story, "hold-place")
    for zone in ("Pacific/Kiritimati", "Etc/GMT+12", "Asia/Kathmandu"):
        it.driver.execute_cdp_cmd("Emulation.setTimezoneOverride", {"timezoneId": zone})
        it.open(f"{story.proxy.page}#holds")
        day = datetime.datetime.now(zoneinfo.ZoneInfo(zone)).date()
        same(f"clocks: in {zone} the day is the one there", it.one(f"#{form.day}").get_attribute("value"), str(day))
        same(f"clocks: in {zone} nothing is said of clocks, nor that it is late", (told(it), form.says_late()), ("", ""))
        tomorrow = str(day + datetime.timedelta(1))
        form.write(tomorrow)
        says(f"clocks: in {zone} the day after it is late", form.says_late(),
             LATE.format(day=tomorrow, today=day, clock=CLOCKS["here"]))
    it.driver.execute_cdp_cmd("Emulation.setTimezoneOverride", {"timezoneId": ""})


def set_meanwhile(story: Story) -> None:
    """The browser's clock is set while the page is open: the server's is asked for before anything is sent."""
    it, form = story.browser, Form(story, "hold-place")
    it.open(f"{story.proxy.page}#holds")
    form.fill()
    it.driver.execute_script(AHEAD % YEAR + 'dispatchEvent(new Event("focus"));')
    same("clocks: set while the page is open: the day is today by it", it.one(f"#{form.day}").get_attribute("value"),
         after(365))
    same("clocks: set while the page is open: nothing is sent without the tick", form.press(), 0)
    same("clocks: set while the page is open: it is said that they differ", told(it), differ(after(365), after(0)))
    it.open(f"{story.proxy.page}#holds")
    form.fill()
    same("clocks: with both right one press sends it", form.press(), 1)
    says("clocks: and it is done", it.seen("#hold-place-outcome"), TEXTS["holds"]["placed"].format(hold="H-1"))


def pictures(story: Story) -> None:
    with story.browser.before_each_page(AHEAD % YEAR):
        shots(story.browser, "clocks-due", f"{story.proxy.page}#due")
        shots(story.browser, "clocks-holds", f"{story.proxy.page}#holds")


def tell(office: Office, proxy: Proxy, browser: Browser, folder: pathlib.Path) -> None:
    fill(office)
    story = Story(office, proxy, browser, folder)
    sending = "return Array.from(document.querySelectorAll('section:has([data-field=day])'), (it) => it.id)"
    browser.open(proxy.page)
    same("clocks: the views that send a day", set(browser.driver.execute_script(sending)), SENDING)
    judge("clocks: the page's clock is that of this trial", browser.driver.execute_script(NOW) == after(0))
    pictures(story)
    browser_ahead(story)
    server_ahead(story)
    hours_apart(story)
    zones(story)
    set_meanwhile(story)
