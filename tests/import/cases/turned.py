"""What the command line makes of a case: companions/sheets/spreadsheet."""
from __future__ import annotations

import base64
import datetime
import pathlib
import re
import sys

HERE = pathlib.Path(__file__).resolve().parent
COMPANIONS = HERE.parents[2] / "companions"
sys.path[:0] = [str(COMPANIONS / "sheets"), str(COMPANIONS)]

from spreadsheet.acts import ActTurner, Asked  # noqa: E402
from spreadsheet.catalogue import catalogue_of  # noqa: E402
from spreadsheet.columns import RECORD, Columns, columns_of  # noqa: E402
from spreadsheet.kinds import form_of  # noqa: E402
from spreadsheet.members import Pending, Things  # noqa: E402
from spreadsheet.sheet import Row, Unreadable, decoded, separated  # noqa: E402
from spreadsheet.turning import Turner  # noqa: E402

ENCODINGS = {
    "UTF-8": "utf-8", "UTF-8 with a mark": "utf-8-mark", "UTF-16": "utf-16", "Windows-1252": "windows-1252",
}
Case = dict[str, object]


def expanded(text: str) -> str:
    """A text with the base64 of N bytes in place of each <<N>>, and without its last letter in place of <<N-1>>."""
    def content(found: re.Match[str]) -> str:
        whole = base64.b64encode(b"x" * int(found[1])).decode()
        return whole[:-1] if found[2] else whole

    return re.sub(r"<<([0-9]+)(-1)?>>", content, text)


def bytes_of(case: Case) -> bytes:
    """The bytes of the sheet: of a file, of base64, or of a text in an encoding."""
    if "file" in case:
        return (HERE.parent / str(case["file"])).read_bytes()
    if "base64" in case:
        return base64.b64decode(str(case["base64"]))
    return expanded(str(case["text"])).encode(str(case.get("as", "utf-8")))


# what is after today is to be looked at: of all cases today is this day
TODAY = "2026-11-28"


def turned(case: Case) -> Case:
    """What comes of it: the rows that are good, what is wrong with the others, or why the sheet cannot be read."""
    options: dict = {"today": TODAY, **dict(case.get("options", {}))}  # type: ignore[call-overload]
    header, kind = options.get("header", 1), options.get("kind", "add-record")
    form = RECORD if kind == "add-record" else form_of(kind)
    try:
        text, encoding = decoded(bytes_of(case), options.get("encoding"))
        separator, rows = separated(text, form.known, header, options.get("separator"))
        columns = columns_of(rows, header, options.get("columns", {}), options.get("set", {}), form)
        made = records(columns, rows[header:], options) if form is RECORD else acts(kind, columns, rows[header:], options)
    except Unreadable as why:
        return {"unreadable": why.kind}
    return {"encoding": ENCODINGS.get(encoding, encoding), "separator": separator, "columns": columns.places, **made}


def records(columns: Columns, rows: list[Row], options: dict) -> Case:
    today = datetime.date.fromisoformat(options["today"])
    catalogue = catalogue_of(options["catalogue"]) if "catalogue" in options else None
    turner = Turner(columns, None, options.get("years"), options.get("joinLines", False), today, catalogue)
    found = turner.all(rows, options.get("days"))
    return {"order": turner.order.name, "empty": found.empty, "rows": [[row, *values] for row, values in found.good],
            "wrong": [list(it) for it in found.kinds], "looks": [list(it) for it in found.looks]}


def acts(kind: str, columns: Columns, rows: list[Row], options: dict) -> Case:
    """The acts without their days, which a sheet on the page does not say; a number that is still to come is its ref."""
    today = datetime.date.fromisoformat(options["today"])
    catalogue = catalogue_of(options["catalogue"]) if "catalogue" in options else None
    turner = ActTurner(kind, columns, Things(catalogue),
                       Asked(today, options.get("days"), options.get("years"), options.get("joinLines", False)))
    turner.gather([it for it in rows if not it.is_empty()])
    found = turner.all(rows)
    good = [[it.number, {name: {"ref": value.ref} if isinstance(value, Pending) else value
                         for name, value in it.act.items() if name != "day"}] for it in found.good]
    order = turner.orders["occurred"].name if "occurred" in turner.orders else "ymd"
    return {"order": order, "empty": found.empty, "rows": good, "wrong": [list(it) for it in found.kinds],
            "looks": [list(it) for it in found.looks], "left": [found.refused, found.undecided]}
