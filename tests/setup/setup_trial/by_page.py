"""The first office as docs/SETUP.md makes it: its commands as they are written, its edits, and the first act of each role."""
from __future__ import annotations

import base64
import hashlib
import pathlib
import re
import time
from typing import NamedTuple

from kit.commands import TOP
from kit.days import today
from kit.judging import judge, same
from setup_trial.city import City

PAGE, OTHER, HEADING = TOP / "docs/SETUP.md", TOP / "docs/INSTALL.md", "\n## The first office\n"
COMMANDS = ("apt-get", "office-setup", "editor", "office-setup", "office-setup")
"""the programs of the page's commands, in their order"""
FILE = "/etc/office/city.toml"
EDITOR = """#!/bin/sh
exec sed -i -e 's/^#builder = /builder = /' -e '/^auditor = /a state-archive = "archive"' "$@"
"""
"""whoever sets up this office gives two more names their roles"""
EDITED = {'builder = { is = "department", in = ["BLDG*"] }', 'state-archive = "archive"'}
LEFT = ("there is no copy", "on the disk of the office", "keeps the clock right")
"""what `doctor` finds before the first night, on a machine with one disk, whose clock perhaps nobody keeps"""
CONTENT = b"A plan of a house."
DIGEST = hashlib.sha256(CONTENT).hexdigest()
NUMBER, DONE = '[{"number":1}] 200', '[{"done":true}] 200'
NAMES = 8


class Asked(NamedTuple):
    """What a name asks of the office, and the answer: its text and its status."""

    name: str
    path: str
    body: object
    wanted: str


def commands(page: pathlib.Path) -> list[str]:
    """Returns the commands of the first office, as a page has them."""
    block = re.search(r"\n\n((?:    .*\n)+)", page.read_text(encoding="utf-8").split(HEADING)[1])
    assert block is not None
    return [line.strip() for line in block[1].replace("\\\n", "").splitlines()]


def plan(day: str) -> list[dict[str, object]]:
    """Returns the acts of the manager: what is filed in the class of the buildings goes to the archive at once."""
    return [{"act": "add-schedule", "day": day, "code": "T0", "trigger": "added", "unit": "days", "count": 0, "offset": "none",
             "action": "transfer"},
            {"act": "add-class", "day": day, "code": "BLDG1", "title": "Buildings", "schedule": "T0"},
            {"act": "add-aggregation", "day": day, "ref": "A", "title": "A", "parent": None, "class": "BLDG1"}]


def asked(day: str) -> list[Asked]:
    """Returns the first act of each role: a record is filed, sent and received, and who has no act reads."""
    def acts(name: str, wanted: str, **act: object) -> Asked:
        return Asked(name, "/city/acts", [{**act, "day": day}], wanted)
    return [Asked("manager", "/city/acts", plan(day), '[{"done":true},{"done":true},{"number":1}] 200'),
            acts("registrar", NUMBER, act="add-record", ref="1", title="A plan", originated=day, aggregation=1, schedule=None,
                 content=base64.b64encode(CONTENT).decode(), **{"class": None}),
            acts("legal", DONE, act="place-hold", code="H", reason="a lawsuit", by="legal"),
            acts("builder", DONE, act="confirm", record=1, action="transfer", by="builder"),
            acts("deputy", NUMBER, act="open-run", by="Deputy records manager"),
            Asked("manager", "/city/run/resume", "", '{"certificate":1} 200'),
            acts("state-archive", DONE, act="receipt", record=1, digest=DIGEST, by="state-archive"),
            Asked("auditor", "/city/due/2000-01-01", None, "[] 200")]


def judge_command(city: City, command: str) -> None:
    """Runs a command of the page. `doctor` ends with 1, since there was no night yet."""
    before = city.text(FILE).splitlines()
    done = city.run(command)
    if command == f"editor {FILE}":
        same("these lines are edited", set(city.text(FILE).splitlines()) - set(before), EDITED)
    if not command.startswith("office-setup doctor"):
        judge(f"the page's command: {command}", done.status == 0, done)
        return
    wrong = [line for line in done.out.splitlines() if line.startswith("WRONG")]
    others = [line for line in wrong if not any(it in line for it in LEFT)]
    judge("`doctor` finds what a first day leaves, and nothing else", "well " in done.out and wrong and not others, done)


def judge_page(city: City) -> None:
    """The page's commands, as they are written, lead to the first act of each role; the steps and seconds are printed."""
    city.put("usr/local/bin/editor", EDITOR, 0o755)
    typed = commands(PAGE)
    same("the page has these commands", tuple(it.split()[0] for it in typed), COMMANDS)
    same(f"{OTHER.name} has the same", commands(OTHER), typed)
    began = time.monotonic()
    for command in typed:
        judge_command(city, command)
    for name, path, body, wanted in asked(today()):
        same(f"the first act of {name}: {path}", city.ask(name, path, body), wanted)
    judge("the monitor sees that all is well", city.ask("monitor", "/city/alive").endswith(" 200"))
    names = {name for name in city.passwords if name}
    judge("from `apt-get install` to the first act of each role by HTTPS", len(names) == NAMES,
          f"{len(typed)} commands, {len(EDITED)} edited lines, {time.monotonic() - began:.0f} seconds, {len(names)} names",
          always=True)
