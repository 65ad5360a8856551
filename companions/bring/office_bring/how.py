"""How a source is read: the arguments of the command, and what all kinds share."""
from __future__ import annotations

import argparse
import zoneinfo
from collections.abc import Callable, Mapping
from dataclasses import dataclass, field
from pathlib import Path
from typing import NamedTuple

from office_bring.brought import KEEP, Brought, Rule
from office_bring.moments import Days
from office_bring.tables import Table, table_in
from office_common.errors import USAGE, Refused


class Usual(NamedTuple):
    """What holds for each rule of which the source gives no more than a period. Nothing holds unless the caller says it."""

    trigger: str | None = None
    unit: str | None = None
    offset: str | None = None
    action: str | None = None

    def rule(self, count: int, unit: str | None, trigger: str | None, action: str | None) -> Rule | str:
        """Returns a rule by what the source gives and then by what the caller says, or the name of what neither gives."""
        unit, trigger, action = unit or self.unit, trigger or self.trigger, action or self.action
        if action == "keep":
            return KEEP
        if unit is None or trigger is None or action is None or self.offset is None:
            missing = {"--unit": unit, "--trigger": trigger, "--offset": self.offset, "--action": action}
            return " and ".join(name for name, value in missing.items() if value is None)
        return Rule(trigger, unit, count, self.offset, action)


@dataclass(frozen=True)
class How:
    """How a source is read."""

    days: Days
    usual: Usual = Usual()
    root: str | None = None
    code: str | None = None
    schedule: str | None = None
    columns: Mapping[str, str] = field(default_factory=dict)
    encoding: str | None = None
    is_cut_meant: bool = False
    levels: int | None = None
    has_versions: bool = False
    with_contents: bool = False
    language: str | None = None
    labels: Path | None = None
    schedules: Path | None = None

    def table(self, path: Path, wanted: Mapping[str, tuple[str, ...]], needed: tuple[str, ...]) -> Table:
        """Reads a table by the names that a system gives to its columns."""
        return table_in(path, wanted, needed, self.columns, self.encoding, self.is_cut_meant)

    def other_table(self, path: Path, wanted: Mapping[str, tuple[str, ...]], needed: tuple[str, ...]) -> Table:
        """Reads a table that goes with the source. Its columns have the names of the system."""
        return table_in(path, wanted, needed, {}, self.encoding, self.is_cut_meant)

    def class_code(self) -> str:
        """Returns the class of files for which the source names none."""
        if self.code is None:
            raise Refused(USAGE, "some files have no class in this source: say --class CODE")
        return self.code


Bring = Callable[[Path, How, Brought], None]


def zone(text: str) -> zoneinfo.ZoneInfo:
    """Reads the name of a time zone."""
    try:
        return zoneinfo.ZoneInfo(text)
    except (zoneinfo.ZoneInfoNotFoundError, ValueError, OSError):
        raise argparse.ArgumentTypeError(f"no time zone is named '{text}'; Europe/Berlin and UTC are") from None


def pair(text: str) -> tuple[str, str]:
    """Reads NAME=HEADER."""
    name, _, header = text.partition("=")
    if not name or not header.strip():
        raise argparse.ArgumentTypeError(f"'{text}' is no NAME=HEADER, as ref=Number")
    return name, header
