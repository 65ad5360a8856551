"""An office as sheets that office-convert reads, for another office: what is still here, and what has no place there."""
import csv
import sqlite3
from pathlib import Path
from typing import NamedTuple

from office_exchange import kinds

OPENED = """WITH RECURSIVE began(num, day) AS (
    SELECT aggregation, added FROM records
    UNION SELECT num, coalesce(closed, (SELECT day FROM office)) FROM aggregations
    UNION SELECT parent, day FROM began JOIN aggregations USING (num) WHERE parent IS NOT NULL)
  SELECT num, min(day) AS opened FROM began GROUP BY num"""
HERE = "r.status <> 'ended'"
IN_FORCE = "(SELECT code FROM holds WHERE lifted IS NULL)"


class Sheet(NamedTuple):
    """A sheet: its name, its columns, and the query of its rows, which may have a column more, for their order. `ref(x)`
    has the prefix, `day(x)` is a day or the one that all acts get, and `its(x)` is a day as it is."""

    name: str
    columns: str
    query: str


SHEETS = (
    Sheet("rules", "code trigger unit count offset action",
          "SELECT code, start_at, unit, span, roll, disposal FROM schedules2 ORDER BY code"),
    Sheet("classes", "code title schedule", "SELECT code, title, schedule FROM classes ORDER BY code"),
    Sheet("files", "ref title opened class parent closed", f"""WITH opening AS ({OPENED})
      SELECT ref(a.ref), a.title, day(opened), a.class, ref(p.ref), day(a.closed), a.num AS place FROM aggregations a
      JOIN opening o ON o.num = a.num LEFT JOIN aggregations p ON p.num = a.parent
      UNION ALL SELECT ref('CERTIFICATES'), 'Certificates of the office that was taken over', day(min(day)), :class, NULL,
        NULL, 0 FROM runs WHERE closed HAVING count(*) > 0 ORDER BY place"""),
    Sheet("records", "ref title originated filed aggregation class schedule content", f"""
      SELECT ref(r.ref), r.title, its(originated), day(added), ref(a.ref), r.class, r.schedule,
        'contents/' || substr(digest, 1, 2) || '/' || digest, r.num AS place FROM records r JOIN aggregations a ON a.num = aggregation
      WHERE {HERE}
      UNION ALL SELECT ref('CERTIFICATE-' || num), 'Certificate of run ' || num, its(day), day(day), ref('CERTIFICATES'),
        NULL, NULL, 'certificates/' || num || '.txt', -num FROM runs WHERE closed ORDER BY place"""),
    Sheet("events", "record occurred by", f"""SELECT ref(r.ref), its(occurred), told_by FROM events
      JOIN records r ON num = record WHERE {HERE} ORDER BY num"""),
    Sheet("holds", "code reason by", "SELECT code, reason, placed_by FROM holds WHERE lifted IS NULL ORDER BY code"),
    Sheet("on_classes", "hold class", f"""SELECT hold, target FROM targets WHERE kind = 'class' AND hold IN {IN_FORCE}
      ORDER BY hold, target"""),
    Sheet("on_aggregations", "hold aggregation", f"""SELECT hold, ref(ref) FROM targets
      JOIN aggregations ON num = CAST(target AS INTEGER) WHERE kind = 'aggregation' AND hold IN {IN_FORCE}
      ORDER BY hold, num"""),
    Sheet("on_records", "hold record", f"""SELECT hold, ref(ref) FROM targets
      JOIN records r ON num = CAST(target AS INTEGER) WHERE kind = 'record' AND {HERE} AND hold IN {IN_FORCE}
      ORDER BY hold, num"""),
    Sheet("lost", "what number_or_code ref detail", f"""
      SELECT 'ended record', num, ref, 'title, length, digest: its certificate has them' FROM records WHERE status = 'ended'
      UNION ALL SELECT 'status', num, ref, status || ': it comes in as here' FROM records
        WHERE status IN ('sent', 'received')
      UNION ALL SELECT 'review', num, ref, its(reviewed) || ' ' || reviewed_by FROM records r
        WHERE reviewed IS NOT NULL AND {HERE}
      UNION ALL SELECT 'confirmation', num, ref, conf_action || ' ' || its(conf_day) || ' ' || conf_by FROM records r
        WHERE conf_day IS NOT NULL AND {HERE}
      UNION ALL SELECT 'receipt', num, ref, its(receipt_day) || ' ' || receipt_by FROM records r
        WHERE receipt_day IS NOT NULL AND {HERE}
      UNION ALL SELECT 'lifted hold', code, NULL, reason FROM holds WHERE lifted IS NOT NULL
      UNION ALL SELECT 'day of a hold', code, NULL, its(placed) FROM holds WHERE lifted IS NULL
      UNION ALL SELECT 'open run', num, NULL, its(day) || ' ' || opened_by FROM runs WHERE NOT closed
      UNION ALL SELECT 'day of an event', num, ref, its(day) FROM events JOIN records r ON num = record WHERE {HERE}
      UNION ALL SELECT 'number', num, ref, 'aggregation' FROM aggregations
      UNION ALL SELECT 'number', num, ref, 'record' FROM records r WHERE {HERE}
      UNION ALL SELECT 'day of filing', num, ref, its(added) FROM records r WHERE {HERE} AND :day IS NOT NULL
      UNION ALL SELECT 'day of closing', num, ref, its(closed) FROM aggregations
        WHERE closed IS NOT NULL AND :day IS NOT NULL"""),
)


def write(tables: sqlite3.Connection, folder: Path, prefix: str, code: str, day: str | None) -> dict[str, int]:
    """Writes the sheets of an office into a folder, and returns how many rows each has."""
    def shown(number: int | None) -> str | None:
        return None if number is None else str(kinds.day_of(number))

    def acted(number: int | None) -> str | None:
        return day if number is not None and day else shown(number)
    tables.create_function("ref", 1, lambda ref: None if ref is None else prefix + ref, deterministic=True)
    tables.create_function("its", 1, shown, deterministic=True)
    tables.create_function("day", 1, acted, deterministic=True)
    counts: dict[str, int] = {}
    for sheet in SHEETS:
        counts[sheet.name] = 0
        with (folder / f"{sheet.name}.csv").open("x", encoding="utf-8", newline="") as file:
            writer, columns = csv.writer(file), sheet.columns.split()
            writer.writerow(columns)
            for row in tables.execute(sheet.query, {"class": code, "day": day}):
                writer.writerow(row[:len(columns)])
                counts[sheet.name] += 1
    return counts
