"""The key of each request that acts: its own, the same again after an answer was lost, and another one for all else."""
from __future__ import annotations

import json
import pathlib
import re

from actions import View as Record
from actions import fill
from browser import Browser
from kit.judging import judge, same
from late import after
from place import Office, Proxy
from story import TEXTS, WHO, Story, says

# The keys of the requests that act, as the page sends them. What is in `answers` becomes of the first of them: with 0 the
# office does it, and no answer comes back; with a status and a word that is the answer, and nothing is sent.
WATCHED = """
window.keys = [];
window.answers = [];
const there = window.fetch;
window.fetch = async (...words) => {
  if (words[1]?.method !== "POST") return there(...words);
  window.keys.push(words[1].headers["Idempotency-Key"]);
  const [status, error] = window.answers.shift() ?? [200];
  if (error) return new Response(JSON.stringify({ error }), { status, headers: { "Content-Type": "application/json" } });
  const reply = await there(...words);
  if (status === 0) throw new TypeError("no answer");
  return reply;
};
"""
UUID = re.compile(r"[0-9a-f]{8}(-[0-9a-f]{4}){3}-[0-9a-f]{12}")
# as on a page that did not come over https
INSECURE = "delete Crypto.prototype.randomUUID;"


class View:
    """The form that places a hold, with the keys of what is sent."""

    def __init__(self, story: Story) -> None:
        self.story, self.browser = story, story.browser

    def open(self, address: str = "#holds") -> None:
        self.browser.open(f"{self.story.proxy.page}{address}")
        self.browser.driver.execute_script(WATCHED)

    def place(self, code: str, *answers: tuple) -> str:
        """Has a hold placed, and its answer be these; the key that was sent."""
        self.browser.driver.execute_script("window.answers = arguments[0]", answers)
        self.browser.write(hold_place_code=code, hold_place_reason="A lawsuit", hold_place_by=WHO)
        self.browser.press("#hold-place button:not([type])")
        return self.keys()[-1]

    def keys(self) -> list[str]:
        return self.browser.driver.execute_script("return window.keys")

    def outcome(self) -> str:
        return self.browser.seen("#hold-place-outcome")


def own(view: View) -> None:
    """Each press has a key of its own, once the one before was answered."""
    view.open()
    keys = [view.place("K-1"), view.place("K-2"), view.place("K-2")]
    judge("keys: each is a UUID", all(UUID.fullmatch(it) for it in keys), str(keys))
    same("keys: an answered act that is asked for again has another key, even if it was refused", len(set(keys)), 3)


def again(view: View) -> None:
    """After an answer was lost the same press has the same key, until the office has answered it."""
    view.open()
    first = view.place("K-3", (0,))
    says("keys: an answer that is lost is told as unknown", view.outcome(), TEXTS["holds"]["lostPlace"])
    same("keys: the same press has the same key", view.place("K-3", (502, "office")), first)
    same("keys: also after an answer of the proxy", view.place("K-3", (503, "quorum")), first)
    same("keys: and after one of a member that did nothing by it", view.place("K-3"), first)
    judge("keys: once it was answered the same press has another key", view.place("K-3") != first)


def other(view: View) -> None:
    """Something else than what was lost has a key of its own, and so has the lost one once another act was answered."""
    view.open()
    first = view.place("K-4", (0,))
    second = view.place("K-5", (0,))
    judge("keys: another hold has another key", second != first, f"{first} {second}")
    same("keys: and both are kept", [view.place("K-4", (0,)), view.place("K-5", (0,))], [first, second])
    third = view.place("K-6")
    judge("keys: once another act was answered, what was lost before is asked for anew",
          len({first, second, third, view.place("K-4"), view.place("K-5")}) == 5)


def tick(it: Browser) -> None:
    """Makes the tick of a run, which a refusal leaves."""
    if not it.one("#run-sure").is_selected():
        it.press("#run-sure")


def resumed(view: View) -> None:
    """The carrying out of a run, which has no body, has a key as well: the same one only until a run is opened."""
    it = view.browser
    view.open("#run")
    for answers in ([(0,)], []):
        it.driver.execute_script("window.answers = arguments[0]", answers)
        tick(it)
        it.press("#run-resume button")
    same("keys: a lost carrying out of a run is sent with the same key", len(set(view.keys())), 1)
    it.driver.execute_script("window.answers = [[0]]")
    tick(it)
    it.press("#run-resume button")
    it.write(run_open_day=after(0), run_open_by=WHO)
    it.press("#run-open button")
    tick(it)
    it.press("#run-resume button")
    keys = view.keys()
    judge("keys: but not once a run was opened since", len(set(keys)) == len(keys) - 1 == 4, str(keys))


def shown(view: View) -> None:
    """A lost review of what is another thing by now is another request."""
    it, record = view.browser, Record(view.story)
    record.open(1)
    it.driver.execute_script(WATCHED)
    it.driver.execute_script("window.answers = [[503, 'busy'], [503, 'busy']]")
    record.ask("review", by=WHO)
    record.ask("review")
    rule = {"act": "set-record-schedule", "day": after(0), "record": 1, "schedule": "ADD-3"}
    assert view.story.office.ask("POST", "/acts", json.dumps([rule]))[0] == 200
    record.ask("review")
    record.ask("review")
    keys = view.keys()
    same("keys: a review of the same record has the same key, and another one once it has changed",
         (len(keys), keys[0] == keys[1], keys[1] == keys[2]), (3, True, False))


def insecure(view: View) -> None:
    with view.browser.before_each_page(INSECURE):
        view.open()
        keys = [view.place("K-7"), view.place("K-8")]
    judge("keys: without randomUUID they are 32 digits", all(re.fullmatch("[0-9a-f]{32}", it) for it in keys), str(keys))
    same("keys: and differ", len(set(keys)), 2)


def tell(office: Office, proxy: Proxy, browser: Browser, folder: pathlib.Path) -> None:
    fill(office)
    view = View(Story(office, proxy, browser, folder))
    own(view)
    again(view)
    other(view)
    resumed(view)
    shown(view)
    insecure(view)
