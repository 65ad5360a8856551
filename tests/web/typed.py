"""How long the search of a catalogue of very many records takes to answer each key: until the rows are drawn.

The time is that of the clock, the best of three; the processor's time of the page's thread is printed beside it.
"""
from __future__ import annotations

import os
import statistics

import big_office
from browser import Browser
from kit.judging import judge, same
from story import TEXTS

# milliseconds
MOST = 300
ROUNDS = 3
QUESTIONS = ("baugenehmigung goethestraße 17", "strasse", "kirchgasschen 99", "2013/st/0", "e", "zzz")
# each letter of a question, from the key until the rows are drawn: milliseconds, and how many were found
TYPED = """
const [question, done] = arguments;
const field = document.getElementById("catalogue-text"), count = document.getElementById("catalogue-count");
const told = [];
const type = (at) => {
  if (at > question.length) return done(told);
  const began = performance.now();
  field.value = question.slice(0, at);
  field.dispatchEvent(new InputEvent("input", { bubbles: true }));
  requestAnimationFrame(() => setTimeout(() => {
    told.push([performance.now() - began, count.textContent]);
    type(at + 1);
  }));
};
type(1);
"""


def worked(it: Browser) -> float:
    """How long the page's thread has worked since the document was opened, in milliseconds of the processor."""
    metrics = it.driver.execute_cdp_cmd("Performance.getMetrics", {})["metrics"]
    return next(metric["value"] for metric in metrics if metric["name"] == "TaskDuration") * 1000


def keys(it: Browser) -> None:
    """Letter by letter, until the rows are drawn."""
    times, every = [], []
    for question in QUESTIONS:
        it.one("#catalogue-text").clear()
        before = worked(it)
        rounds = [it.driver.execute_async_script(TYPED, question) for _ in range(ROUNDS)]
        work = (worked(it) - before) / ROUNDS / len(question)
        spans = list(zip(*[[ms for ms, _ in told] for told in rounds], strict=True))
        times += [min(span) for span in spans]
        every += [ms for span in spans for ms in span]
        most = max(map(max, spans))
        print(f"{question!r}: {work:.0f} ms of the processor a key, at most {most:.0f} ms by the clock; {rounds[0][-1][1]}")
    load = os.getloadavg()[0]
    print(f"{len(every)} keys: median {statistics.median(every):.0f} ms, worst {max(every):.0f} ms, at a load of {load:.0f}")
    words = f"at best of three the worst after {max(times):.0f}, at a load of {load:.0f}"
    judge(f"large: each key is answered within {MOST} ms, {words}", max(times) <= MOST)


def alike(it: Browser) -> None:
    """What is searched for may be written in several ways; more rows come if they are wanted."""
    it.write(catalogue_text="kirchgäßchen")
    one = it.seen("#catalogue-count")
    it.write(catalogue_text="KIRCHGASSCHEN")
    same("large: accents, ß and case do not matter", it.seen("#catalogue-count"), one)
    tenth = big_office.RECORDS // 10
    wanted = TEXTS["catalogue"]["found"].format(count=f"{tenth:,}", all=f"{big_office.RECORDS:,}", shown=min(tenth, 50))
    same("large: a tenth of the records is found", one, wanted)
    it.press("#catalogue-more")
    same("large: more are shown when asked for", len(it.table("#catalogue-part .records")), min(tenth, 250))
