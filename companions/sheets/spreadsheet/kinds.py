"""The kinds of acts that rows of a sheet may be: the columns of each, the names that sheets have for them, and words."""
from __future__ import annotations

from collections.abc import Mapping

from spreadsheet.columns import SYNONYMS, Form, plain

# The columns of each kind: those that each sheet needs, those of which it needs one, and those that it may lack. A
# `ref` is that of the record or aggregation that the act is for, but in `add-aggregation`. page/sheet/kinds.js has the
# same table, and the trial of the cases compares both.
COLUMNS: dict[str, tuple[str, str, str]] = {
    "plan": ("act", "", "code ref title trigger unit count offset action schedule parent class"),
    "add-schedule": ("code trigger unit count offset action", "", ""),
    "add-class": ("code title schedule", "", ""),
    "add-aggregation": ("ref title", "", "parent class"),
    "set-class-schedule": ("class schedule", "", ""),
    "close-aggregation": ("", "aggregation ref", ""),
    "event": ("occurred by", "record ref", ""),
    "review": ("by", "record ref", "schedule"),
    "confirm": ("action by decision", "record ref", ""),
    "receipt": ("digest by", "record ref", ""),
    "hold-on": ("hold", "target record aggregation class ref", ""),
    "hold-off": ("hold", "target record aggregation class ref", ""),
    "place-hold": ("code reason by", "", ""),
    "lift-hold": ("hold", "", ""),
    "reclassify": ("class", "target record aggregation ref", ""),
    "set-record-schedule": ("schedule", "record ref", ""),
}
# other names of columns, as `plain` makes them: in English, then in German
NAMES: dict[str, list[str]] = {
    "act": ["kind", "what", "each row is", "art", "handlung", "vorgang"],
    "code": ["code of the new schedule", "code of the new class", "kennung", "kürzel",
             "kennung der neuen regel", "kennung der neuen klasse"],
    "trigger": ["begins", "the period begins when", "beginn", "auslöser", "die frist beginnt, wenn"],
    "unit": ["einheit"],
    "count": ["length", "length of the period", "period", "anzahl", "dauer", "länge der frist"],
    "offset": ["then wait for", "versatz", "dann warten bis zum"],
    "action": ["then", "disposition", "massnahme", "aktion", "dann"],
    "parent": ["parent ref", "number of the parent", "within", "übergeordnete akte", "nummer der übergeordneten akte"],
    "occurred": ["date", "occurred on", "day of the event", "ended on", "datum", "eingetreten am", "tag des ereignisses"],
    "by": ["who", "name", "von", "durch", "wer"],
    "decision": ["confirm", "yes/no", "yes or no", "entscheidung", "freigeben", "ja/nein", "ja oder nein"],
    "digest": ["sha256", "sha 256", "hash", "sha 256 of the receipt", "prüfsumme", "sha 256 der empfangsbestätigung"],
    "hold": ["code of the hold", "sperre", "kennung der sperre"],
    "target": ["ziel"],
    "record": ["record no", "record number", "number of the record", "unterlage", "nummer der unterlage"],
    "reason": ["grund"],
    "day": ["day of the act", "tag des vorgangs"],
    **{name: SYNONYMS[name] for name in ("ref", "title", "aggregation", "class", "schedule")},
}
# what a column of one kind may be called beside that
OF_KIND: dict[str, dict[str, list[str]]] = {
    "add-schedule": {"code": ["schedule", "schedule code", "regel", "kennung der regel"]},
    "add-class": {"code": ["class", "class code", "klasse", "kennung der klasse"]},
    "close-aggregation": {"aggregation": ["number", "no", "nummer", "nr"]},
    "place-hold": {"code": NAMES["hold"] + ["hold"]},
    **{kind: {"record": ["number", "no", "nummer", "nr"]}
       for kind in ("event", "review", "confirm", "receipt", "set-record-schedule")},
}
# the words of members, and what else means each of them
WORDS: dict[str, dict[str, list[str]]] = {
    "act": {"add-schedule": ["schedule", "rule", "regel"], "add-class": ["class", "klasse"],
            "add-aggregation": ["aggregation", "file", "folder", "akte", "ordner"]},
    "trigger": {"origin": ["entstehung"], "added": ["ablage"], "closed": ["geschlossen"],
                "last-addition": ["letzte ablage"], "review": ["prüfung"], "event": ["ereignis"]},
    "unit": {"days": ["day", "tag", "tage"], "weeks": ["week", "woche", "wochen"],
             "months": ["month", "monat", "monate"], "years": ["year", "jahr", "jahre"]},
    "offset": {"none": ["nothing", "keiner", "nichts"], "month": ["monat"], "quarter": ["quartal"],
               **{f"from-month-{month}": [] for month in range(1, 13)}},
    "action": {"destroy": ["vernichten"], "transfer": ["abgeben"], "review": ["prüfen"],
               "keep": ["aufbewahren", "dauernd aufbewahren"]},
    "decision": {"yes": ["y", "ja", "j", "x"], "no": ["n", "nein"]},
}
LONGEST = {"days": 182_500, "weeks": 26_000, "months": 6_000, "years": 500}
# members that may be empty, and are null then
MAYBE = {("add-aggregation", "parent"), ("add-aggregation", "class"), ("review", "schedule"), ("reclassify", "class"),
         ("set-record-schedule", "schedule")}
# the members of each kind, in the order of docs/ACTS.md
MEMBERS: dict[str, str] = {
    "add-schedule": "code trigger unit count offset action", "add-class": "code title schedule",
    "add-aggregation": "ref title parent class", "set-class-schedule": "class schedule",
    "close-aggregation": "aggregation", "event": "record occurred by", "review": "record schedule by",
    "confirm": "record action by", "receipt": "record digest by", "hold-on": "hold target",
    "hold-off": "hold target", "place-hold": "code reason by", "lift-hold": "hold", "reclassify": "target class",
    "set-record-schedule": "record schedule",
}


def form_of(kind: str, with_day: bool = False) -> Form:
    """Returns the columns of a kind; the day of the act may be one of them."""
    needed, either, more = (it.split() for it in COLUMNS[kind])
    names = [*either, *needed, *more, *(["day"] if with_day else [])]
    own: Mapping[str, list[str]] = OF_KIND.get(kind, {})
    return Form(names, needed, either, {name: [*NAMES[name], *own.get(name, [])] for name in names})


def word_named(member: str, cell: str) -> str | None:
    """Returns the word of a member that a cell means."""
    text = plain(cell)
    return next((word for word, others in WORDS[member].items() if text == plain(word) or text in others), None)


def kind_shown(header: list[str]) -> str | None:
    """Returns the kind of a part of the plan that a header shows, none where it does not."""
    if "act" in named(form_of("plan"), header):
        return "plan"
    kinds = ("add-schedule", "add-class", "add-aggregation")
    return next((kind for kind in kinds if not form_of(kind).missing(named(form_of(kind), header))), None)


def named(form: Form, header: list[str]) -> list[str]:
    """Returns the columns of a form that a header has."""
    return [name for name in map(form.column_named, header) if name]
