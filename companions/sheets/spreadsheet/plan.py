"""Rows of one or several sheets in the order in which the office takes them: what a row names comes before it."""
from __future__ import annotations

from spreadsheet.acts import ActRow
from spreadsheet.members import Pending
from spreadsheet.sheet import Unreadable

FIRST = ["add-schedule", "add-class", "add-aggregation"]


def depth_of(row: ActRow, by_ref: dict[str, ActRow]) -> int:
    """How many aggregations of the same sheets the one of a row is in."""
    depth, at = 0, row
    while isinstance(parent := at.act.get("parent"), Pending) and parent.ref in by_ref:
        depth, at = depth + 1, by_ref[parent.ref]
        if depth > len(by_ref):
            raise Unreadable("circle", f"row {row.number}: the aggregation is in itself, by the parents of the sheet")
    return depth


def in_order(rows: list[ActRow]) -> list[ActRow]:
    """Schedules, then classes, then aggregations, those in which others are first; else as the sheets have them."""
    by_ref = {str(it.act["ref"]): it for it in rows if it.act["act"] == "add-aggregation"}

    def turn(row: ActRow) -> tuple[int, int]:
        kind = str(row.act["act"])
        return FIRST.index(kind) if kind in FIRST else len(FIRST), depth_of(row, by_ref)

    return sorted(rows, key=turn)
