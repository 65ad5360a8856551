"""A model of the laws of an office, written apart from office-library: what is added, and what a row shows on a day."""
from __future__ import annotations

Cells = dict[str, str]
RULE = ("trigger", "unit", "count", "offset", "action")
SHOWN = ("title", "schedule", "law", "section", "why", "notation", "checked by")


class Model:
    """The rules of schedules, and for each class what its rows said, by their days."""

    def __init__(self) -> None:
        self.rules: dict[str, tuple[str, ...]] = {}
        self.days: dict[str, dict[str, Cells]] = {}

    def add(self, rows: list[Cells]) -> bool:
        """Adds the rows of a library, and returns whether it may be added. If not, nothing changes."""
        rules, days = dict(self.rules), {code: dict(rows) for code, rows in self.days.items()}
        for row in rows:
            rule = tuple(row[name] for name in RULE)
            own = days.setdefault(row["class"], {})
            known = own.get(row["as of"])
            is_same = known is not None and all(known[name] == row[name] for name in SHOWN)
            is_late = not own or row["as of"] > max(own)
            if rules.setdefault(row["schedule"], rule) != rule or not (is_same or is_late):
                return False
            own.setdefault(row["as of"], row)
        self.rules, self.days = rules, days
        return True

    def law(self, code: str, schedule: str, day: str) -> list[str]:
        """Returns the law of a class as of a day, why, and the day of its row; no law if another rule is in effect."""
        days = [each for each in self.days.get(code, {}) if each <= day]
        if not days:
            return ["", f"no law is on file as of {day}" if code in self.days else "no law is on file", ""]
        row = self.days[code][max(days)]
        if row["schedule"] != schedule:
            return ["", f"another rule than the law's, which is {row['schedule']}", ""]
        return [row["section"], row["why"], row["as of"]]
