"""Random acts, and sheets as people would write them for these acts. Nothing here knows the converter."""
from __future__ import annotations

import csv
import datetime
import io
import random
from typing import Any

Act = dict[str, Any]
SEPARATORS = ";,\t"
# one way and another to head a column
HEADS = {"code": ["code", "Code", "Kennung"], "title": ["title", "Title", "Betreff"], "trigger": ["trigger", "Trigger"],
         "unit": ["unit", "Einheit"], "count": ["count", "Length", "Anzahl"], "offset": ["offset"],
         "action": ["action", "Action", "Maßnahme"], "schedule": ["schedule", "Regel"], "class": ["class", "Klasse"],
         "ref": ["ref", "Reference No", "Aktenzeichen"], "parent": ["parent", "Parent"], "by": ["by", "Who"],
         "occurred": ["occurred", "Date", "Datum"], "digest": ["digest", "SHA-256", "Prüfsumme"],
         "hold": ["hold", "Sperre"], "record": ["record", "Record No", "Unterlage"], "reason": ["reason", "Grund"],
         "aggregation": ["aggregation", "Akte"], "decision": ["decision", "Confirm", "Ja/Nein"], "target": ["target"]}
UNITS = {"days": ["days", "Tage", "day"], "weeks": ["weeks", "Wochen"], "months": ["months", "Monate"],
         "years": ["years", "Jahre", "YEARS"]}
ACTIONS = {"destroy": ["destroy", "Vernichten"], "transfer": ["transfer", "abgeben"], "review": ["review"],
           "keep": ["keep", "Keep"]}


def day_text(day: str, form: str) -> str:
    return datetime.date.fromisoformat(day).strftime(form)


class Maker:
    """Makes acts of one kind about an office, of which it knows the things by number and ref."""

    def __init__(self, dice: random.Random, day: str, refs: dict[str, dict[int, str]], codes: dict[str, list[str]]) -> None:
        self.dice, self.day, self.refs, self.codes = dice, day, refs, codes
        self.last = 0

    def new(self, prefix: str) -> str:
        self.last += 1
        return f"{prefix}{self.last}"

    def code(self, what: str) -> str:
        return self.dice.choice([*self.codes[what], "NONE"] if self.dice.random() < 0.1 else self.codes[what])

    def thing(self, what: str) -> int:
        return self.dice.choice(list(self.refs[what]))

    def act(self, kind: str) -> Act:
        pick, act = self.dice, {"act": kind, "day": self.day}
        by = pick.choice(["registrar", "Übeltäter, A.", "M. Vane"])
        makers: dict[str, Any] = {
            "add-schedule": lambda: {
                "code": self.new("S-"), "trigger": pick.choice(["origin", "added", "closed", "last-addition", "review", "event"]),
                "unit": pick.choice(list(UNITS)), "count": pick.randrange(500),
                "offset": pick.choice(["none", "month", "quarter", "from-month-4"]), "action": pick.choice(list(ACTIONS))},
            "add-class": lambda: {"code": self.new("C-"), "title": "Bögen; \"Ä\"", "schedule": self.code("schedule")},
            "set-class-schedule": lambda: {"class": self.code("class"), "schedule": self.code("schedule")},
            "add-aggregation": lambda: {
                "ref": self.new("NEW/"), "title": "File", "parent": pick.choice([None, self.thing("aggregation")]),
                "class": self.code("class")},
            "close-aggregation": lambda: {"aggregation": self.thing("aggregation")},
            "event": lambda: {"record": self.thing("record"), "occurred": pick.choice(["2019-02-28", "2023-12-31"]), "by": by},
            "review": lambda: {"record": self.thing("record"), "schedule": pick.choice([None, self.code("schedule")]), "by": by},
            "confirm": lambda: {"record": self.thing("record"), "action": pick.choice(["destroy", "transfer"]), "by": by},
            "receipt": lambda: {"record": self.thing("record"), "digest": pick.randbytes(32).hex(), "by": by},
            "hold-on": lambda: {"hold": self.code("hold"), "target": self.target(True)},
            "hold-off": lambda: {"hold": self.code("hold"), "target": self.target(True)},
            "place-hold": lambda: {"code": self.new("H-"), "reason": "a lawsuit, \"Vane\"", "by": by},
            "lift-hold": lambda: {"hold": self.code("hold")},
            "reclassify": lambda: {"target": self.target(False), "class": pick.choice([None, self.code("class")])},
            "set-record-schedule": lambda: {"record": self.thing("record"), "schedule": pick.choice([None, self.code("schedule")])}}
        return {**act, **makers[kind]()}

    def target(self, can_be_class: bool) -> str:
        what = self.dice.choice(["record", "record", "aggregation", "class"] if can_be_class else ["record", "aggregation"])
        return f"{what}:{self.code('class') if what == 'class' else self.thing(what)}"


class Writer:
    """Writes acts of a kind as a sheet: names of columns, order, days, refs or numbers as dice have it."""

    def __init__(self, dice: random.Random, refs: dict[str, dict[int, str]]) -> None:
        self.dice, self.refs = dice, refs
        self.form = dice.choice(["%Y-%m-%d", "%d.%m.%Y"])
        self.by_ref = {what: dice.random() < 0.6 for what in ("record", "aggregation", "parent")}
        self.target_alone = dice.random() < 0.5

    def cells(self, act: Act) -> dict[str, str]:
        """The cells of an act, by the names of the columns that they go to."""
        found: dict[str, str] = {}
        for name, value in act.items():
            if name in ("act", "day"):
                continue
            if name == "target" and not self.target_alone:
                what, _, thing = value.partition(":")
                found |= self.thing(what, what, int(thing)) if what != "class" else {"class": thing}
            elif name in ("record", "aggregation", "parent"):
                found |= self.thing(name, "aggregation" if name == "parent" else name, value)
            else:
                found[name] = self.cell(name, value)
        if act["act"] == "confirm":
            found["decision"] = self.dice.choice(["yes", "ja", "X"])
        return found

    def thing(self, name: str, what: str, number: int | None) -> dict[str, str]:
        if number is None:
            return {name: ""}
        return {name: self.refs[what][number] if self.by_ref[name] else str(number)}

    def cell(self, name: str, value: Any) -> str:
        if value is None:
            return ""
        if name == "occurred":
            return day_text(value, self.form)
        if name == "digest":
            return self.dice.choice([value, value.upper()])
        words = {"unit": UNITS, "action": ACTIONS}.get(name, {})
        return self.dice.choice(words.get(str(value), [str(value)]))

    def sheet(self, acts: list[Act], spoil: dict[int, tuple[str, str]]) -> tuple[bytes, dict[str, str]]:
        """The bytes of a sheet, and the heads of its columns; `spoil` puts other cells into some rows."""
        rows = [self.cells(it) for it in acts]
        for row, (name, cell) in spoil.items():
            rows[row][name] = cell
        names = list(dict.fromkeys(name for row in rows for name in row))
        self.dice.shuffle(names)
        heads = {name: self.dice.choice(HEADS[name]) for name in names}
        text = io.StringIO()
        writer = csv.writer(text, delimiter=self.dice.choice(SEPARATORS), lineterminator="\r\n")
        writer.writerow(heads[name] for name in names)
        for row in rows:
            writer.writerow(self.dice.choice(["", " "]) + row.get(name, "") for name in names)
        return text.getvalue().encode(self.dice.choice(["utf-8", "utf-8-sig", "utf-16", "windows-1252"])), heads
