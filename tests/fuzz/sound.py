"""When the rows of an office's tables represent an office: the items of docs/MODEL.md, and what docs/TABLES.md says of
columns, in plain Python.

Rows come as SQLite gives them: of each table a list of dictionaries.
"""
import re

from checking.act_forms import ACTS, LONGEST, is_code, is_text
from fuzz.rules import MOST

DAY, DUE, NUMBER = (range(start, end).__contains__ for start, end in ((-719_162, 376_200), (-719_162, 559_156), (0, 2**32)))
SIZE = range(262_145).__contains__


def word(part):
    return lambda value: part(value) is None


def one_of(*words):
    return lambda value: value in words


def or_null(test):
    return lambda value: value is None or test(value)


def is_digest(value):
    return bool(re.fullmatch("[0-9a-f]{64}", value))


def anything(value):
    return True


TRIGGER, OFFSET, ACTION = (word(ACTS["add-schedule"][it]) for it in ("trigger", "offset", "action"))
SCHEDULE = {"code": is_code, "start_at": TRIGGER, "unit": one_of(*LONGEST), "span": NUMBER, "roll": OFFSET, "disposal": ACTION}
OLD_SCHEDULE = {**SCHEDULE, "start_at": one_of("origin", "added", "closed", "last-addition", "review")}
# the last two are of version 2 alone
FORMS = {
    "office": {"one": one_of(1), "version": one_of(1, 2), "day": DAY},
    "schedules": OLD_SCHEDULE,
    "classes": {"code": is_code, "title": is_text, "schedule": is_code},
    "aggregations": {"num": NUMBER, "ref": is_text, "title": is_text, "parent": or_null(NUMBER), "class": or_null(is_code), "closed": or_null(DAY)},
    "records": {
        "num": NUMBER, "ref": is_text, "title": is_text, "originated": DAY, "added": DAY, "aggregation": NUMBER, "size": SIZE, "digest": is_digest,
        "status": one_of("here", "sent", "received", "ended"), "class": or_null(is_code), "schedule": or_null(is_code), "reviewed": or_null(DAY),
        "reviewed_by": or_null(is_text), "conf_action": or_null(one_of("transfer", "destroy")), "conf_due": or_null(DUE), "conf_day": or_null(DAY),
        "conf_by": or_null(is_text), "receipt_day": or_null(DAY), "receipt_by": or_null(is_text)},
    "contents": {"record": NUMBER},
    "holds": {"code": is_code, "reason": is_text, "placed": DAY, "placed_by": is_text, "lifted": or_null(DAY)},
    "targets": {"hold": is_code, "kind": one_of("class", "aggregation", "record"), "target": anything},
    "runs": {"num": NUMBER, "day": DAY, "opened_by": is_text, "place": NUMBER, "closed": one_of(0, 1)},
    "entries": {"run": NUMBER, "record": NUMBER, "outcome": one_of("destroyed", "transferred", "sent", "skipped"), "class": is_code,
                "schedule": is_code, "due": DUE, "confirmed_by": is_text, "hold": or_null(is_code)},
    "certificates": {"run": NUMBER, "body": anything},
    "schedules2": SCHEDULE,
    "events": {"record": NUMBER, "occurred": DAY, "day": DAY, "told_by": is_text},
}


def taken_over(tables):
    """The tables of version 2 that those of version 1 become; those of version 2 stay."""
    if "schedules2" in tables or "schedules" not in tables:
        return tables
    office = [(one, 2, day) for one, _, day in tables["office"]]
    return {**tables, "office": office, "schedules": [], "schedules2": tables["schedules"], "events": []}


class Rows:
    """The tables' rows, by name; without `schedules2` and `events` in version 1."""

    def __init__(self, tables):
        self.__dict__.update(tables)
        self.tables = tables
        self.plans = tables.get("schedules2", tables["schedules"])
        self.events = tables.get("events", [])
        self.status = {it["num"]: it["status"] for it in self.records}

    def fault(self):
        """The name of an item that does not hold; each is asked only where those before it hold."""
        items = (self.forms, self.version, self.limits, self.numbering, self.forest, self.names, self.targets_stand, self.closing,
                 self.contents_stand, self.papers, self.events_stand, self.entries_stand, self.runs_stand, self.days)
        return next((item.__name__ for item in items if not item()), None)

    def forms(self):
        fields = ((form, row[name]) for table, rows in self.tables.items() for row in rows for name, form in FORMS[table].items())
        return len(self.office) == 1 and all(form(value) for form, value in fields)

    def version(self):
        """The tables are those of the version; those of version 2 have nothing in `schedules`."""
        if "schedules2" in self.tables:
            return self.office[0]["version"] == 2 and not self.tables["schedules"]
        return self.office[0]["version"] == 1

    def limits(self):
        held = [it["hold"] for it in self.targets]
        counted = {**self.tables, "schedules": self.plans}
        few = all(len(counted[it]) <= most for it, most in MOST.items() if it != "targets")
        return few and all(held.count(it) <= MOST["targets"] for it in set(held)) and all(it["span"] <= LONGEST[it["unit"]] for it in self.plans)

    def numbering(self):
        return all(sorted(it["num"] for it in rows) == list(range(1, len(rows) + 1)) for rows in (self.aggregations, self.records, self.runs))

    def forest(self):
        depth = {}
        for it in sorted(self.aggregations, key=lambda it: it["num"]):
            if it["parent"] is not None and it["parent"] not in depth:
                return False
            depth[it["num"]] = depth.get(it["parent"], 0) + 1
        return all(it <= 8 for it in depth.values())

    def codes(self, table):
        return {None, *(it["code"] for it in (self.plans if table == "schedules" else self.tables[table]))}

    def names(self):
        classes, schedules, holds = self.codes("classes"), self.codes("schedules"), self.codes("holds")
        homes, runs = {it["num"] for it in self.aggregations}, {it["num"] for it in self.runs}
        return (all(it["schedule"] in schedules for it in [*self.classes, *self.records, *self.entries])
                and all(it["class"] in classes for it in [*self.aggregations, *self.records, *self.entries])
                and all(it["class"] for it in self.aggregations if it["parent"] is None) and all(it["aggregation"] in homes for it in self.records)
                and all(it["run"] in runs and it["record"] in self.status and it["hold"] in holds for it in self.entries))

    def targets_stand(self):
        numbers = {"aggregation": {str(it["num"]) for it in self.aggregations}, "record": {str(it) for it in self.status},
                   "class": self.codes("classes")}
        return all(it["hold"] in self.codes("holds") and it["target"] in numbers[it["kind"]] for it in self.targets)

    def closing(self):
        closed = {it["num"] for it in self.aggregations if it["closed"] is not None}
        return all(it["num"] in closed or it["parent"] not in closed for it in self.aggregations)

    def contents_stand(self):
        return {it["record"] for it in self.contents} == {number for number, status in self.status.items() if status != "ended"}

    def papers(self):
        transferred = {it["record"] for it in self.entries if it["outcome"] == "transferred"}
        return all(self.has_papers(it, it["num"] in transferred) for it in self.records)

    def has_papers(self, record, is_transferred):
        """Columns that belong together are all there or all null, and there where the status asks for them."""
        def there(*names):
            return {record[name] is not None for name in names}
        confirmed, receipted = there("conf_action", "conf_due", "conf_day", "conf_by"), there("receipt_day", "receipt_by")
        whole = all(len(it) == 1 for it in (confirmed, receipted, there("reviewed", "reviewed_by")))
        return (whole and (record["status"] == "here" or True in confirmed)
                and (record["status"] != "received" and not is_transferred or True in receipted))

    def events_stand(self):
        return all(it["record"] in self.status and it["occurred"] <= it["day"] for it in self.events)

    def entries_stand(self):
        ending = [it["record"] for it in self.entries if it["outcome"] in ("destroyed", "transferred")]
        cursors = {it["num"]: it["place"] for it in self.runs}
        return (sorted(ending) == sorted(number for number, status in self.status.items() if status == "ended")
                and all((it["hold"] is not None) == (it["outcome"] == "skipped") and it["record"] <= cursors[it["run"]] for it in self.entries))

    def runs_stand(self):
        open_ones = [it["num"] for it in self.runs if not it["closed"]]
        return open_ones in ([], [len(self.runs)]) and {it["run"] for it in self.certificates} == {it["num"] for it in self.runs if it["closed"]}

    def days(self):
        last = self.office[0]["day"]
        names = {"aggregations": ["closed"], "records": ["added", "reviewed", "conf_day", "receipt_day"], "holds": ["placed", "lifted"],
                 "runs": ["day"], "events": ["day"]}
        rows = ((row, columns) for table, columns in names.items() for row in self.tables.get(table, []))
        return all(row[name] is None or row[name] <= last for row, columns in rows for name in columns)
