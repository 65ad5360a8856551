"""What the office has already, by its catalogue: a second bringing leaves it out, and names what differs."""
from __future__ import annotations

from pathlib import Path
from typing import Any

from office_bring.brought import Brought
from office_common import catalogue
from office_common.errors import USAGE, Refused

MEMBERS = ("trigger", "unit", "count", "offset", "action")
"""of a schedule, in the order of a rule"""


class There:
    """The codes and refs that an office had when its catalogue was made."""

    def __init__(self, folder: Path | None) -> None:
        parts = {name: self.part(folder, name) for name in ("schedules", "classes", "aggregations", "records")}
        try:
            self.schedules = {str(row["code"]): {name: row[name] for name in MEMBERS} for row in parts["schedules"]}
            self.classes = {str(row["code"]): {name: row[name] for name in ("title", "schedule")} for row in parts["classes"]}
            self.files = {str(row["ref"]): {name: row[name] for name in ("title", "closed")} for row in parts["aggregations"]}
            self.titles = {str(row[1]): row[2] for row in parts["records"]}
        except (*catalogue.FAILURES, IndexError) as error:
            raise Refused(USAGE, f"the catalogue in {folder} lacks {error}") from None

    @staticmethod
    def part(folder: Path | None, name: str) -> list[Any]:
        """Reads a file of the catalogue. Without a catalogue the office is new."""
        if folder is None:
            return []
        file = catalogue.file_in(catalogue.newest(folder), name)
        if file is None:
            raise Refused(USAGE, f"there is no {name}.json.gz of a catalogue in {folder}: office-catalogue makes it")
        try:
            return catalogue.part_of(catalogue.data_of(file), name).rows
        except catalogue.FAILURES as error:
            raise Refused(USAGE, f"{file} is no part of a catalogue: {error}") from None

    def codes(self) -> frozenset[str]:
        """Returns all codes of classes."""
        return frozenset(self.classes)

    def leave_out(self, brought: Brought) -> str:
        """Takes away what the office has. Returns the counts, or an empty text if it has none of it."""
        counts = {"rules": self.leave_rules(brought), "classes": self.leave_classes(brought), "files": self.leave_files(brought),
                  "records": self.leave_records(brought)}
        return ", ".join(f"{count} {name}" for name, count in counts.items() if count)

    def leave_rules(self, brought: Brought) -> int:
        """Takes away the rules whose code is there. Another rule under this code must not be meant by it."""
        same = [code for code in brought.rules if code in self.schedules]
        for code in same:
            row, rule = self.schedules[code], brought.rules.pop(code)
            if tuple(row[name] for name in MEMBERS) != rule:
                raise Refused(USAGE, f"the office has another schedule {code}: {row['trigger']} {row['count']} {row['unit']} "
                              f"{row['offset']} {row['action']}, and this source means {' '.join(map(str, rule))}")
        return len(same)

    def leave_classes(self, brought: Brought) -> int:
        same = [code for code in brought.classes if code in self.classes]
        for code in same:
            row, made = self.classes[code], brought.classes.pop(code)
            if made.schedule and row["schedule"] != made.schedule:
                brought.look(f"class {code}", f"the office has the schedule {row['schedule']}, and the source {made.schedule}")
            if row["title"] != made.title:
                brought.look(f"class {code}", f"the office has the title \"{row['title']}\", and the source \"{made.title}\"")
        return len(same)

    def leave_files(self, brought: Brought) -> int:
        same = [ref for ref in brought.files if ref in self.files]
        for ref in same:
            row, made = self.files[ref], brought.files.pop(ref)
            if made.closed and not row["closed"]:
                brought.look(f"file {ref}", f"the source closed it on {made.closed}, and it is open in the office")
            if row["title"] != made.title:
                brought.look(f"file {ref}", f"the office has the title \"{row['title']}\", and the source \"{made.title}\"")
        return len(same)

    def leave_records(self, brought: Brought) -> int:
        same = [ref for ref in brought.records if ref in self.titles]
        for ref in same:
            title, made = self.titles[ref], brought.records.pop(ref)
            brought.events.pop(ref, None)
            if title != made.title:
                brought.look(f"record {ref}", f"the office has the title \"{title}\", and the source \"{made.title}\"")
        return len(same)
