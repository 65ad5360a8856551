#!/usr/bin/env python3
"""The registers of an office's file, by Python's csv and sqlite3, of the records that `make` gives it.

export_registers.py make FOLDER COUNT  the acts after which an office of COUNT records, as tests/save_records.py writes it, has all of them
                                       confirmed and each tenth held, as far as one hold can have targets (held.json), those that leave each second record
                                       without a confirmation (half.json), and those that open a run (run.json)
export_registers.py due FILE DAY       what is due on DAY; each schedule begins with the day of addition and takes years
export_registers.py overdue FILE DAY COUNT  what is overdue on DAY, so many days after the due day
export_registers.py entries FILE       the entries of all runs
"""
import csv
import datetime
import json
import sqlite3
import sys

EPOCH = datetime.date(1970, 1, 1)
DAY = "2025-01-02"


def make(folder, count):
    acts = [{"act": "place-hold", "day": DAY, "code": "H", "reason": "a suit", "by": "counsel"}]
    acts += [{"act": "hold-on", "day": DAY, "hold": "H", "target": f"record:{number}"} for number in range(10, count + 1, 10)][:1000]
    confirms = [{"act": "confirm", "day": DAY, "record": number, "action": "destroy", "by": "registrar"} for number in range(1, count + 1)]
    run = [{"act": "open-run", "day": DAY, "by": "registrar"}]
    for name, them in (("held", acts + confirms), ("half", acts + confirms[::2]), ("run", run)):
        with open(f"{folder}/{name}.json", "w", encoding="utf-8") as out:
            json.dump(them, out)


def years_later(start, years):
    day = EPOCH + datetime.timedelta(days=start)
    try:
        return (day.replace(year=day.year + years) - EPOCH).days
    except ValueError:
        return (day.replace(year=day.year + years, day=28) - EPOCH).days


def named(day):
    return (EPOCH + datetime.timedelta(days=day)).isoformat()


def rows_here(conn):
    """Of each record that is here: due day, number, ref, class, schedule, action, hold, and whether its confirmation counts."""
    rules = {code: (span, action) for code, span, action in conn.execute("SELECT code, span, disposal FROM schedules2")}
    plans = dict(conn.execute("SELECT code, schedule FROM classes"))
    homes = dict(conn.execute("SELECT num, class FROM aggregations"))
    held = {}
    for hold, target in conn.execute("SELECT hold, target FROM targets JOIN holds ON code = hold WHERE kind = 'record' AND lifted IS NULL ORDER BY hold"):
        held.setdefault(int(target), hold)
    rows = []
    for number, ref, added, home, own, plan, action, when in conn.execute(
        "SELECT num, ref, added, aggregation, class, schedule, conf_action, conf_due FROM records WHERE status = 'here' ORDER BY num"
    ):
        group = own or homes[home]
        plan = plan or plans[group]
        reached = years_later(added, rules[plan][0])
        counts = action == rules[plan][1] and when == reached
        rows.append((reached, number, ref, group, plan, rules[plan][1], held.get(number, ""), counts))
    rows.sort()
    return rows


def due(conn, day):
    until = (datetime.date.fromisoformat(day) - EPOCH).days
    out = csv.writer(sys.stdout, lineterminator="\n")
    out.writerow(["record", "ref", "class", "schedule", "action", "due", "held", "confirmed"])
    for reached, number, ref, group, plan, action, hold, counts in rows_here(conn):
        if reached <= until:
            out.writerow((number, ref, group, plan, action, named(reached), hold, "yes" if counts else "no"))


def overdue(conn, day, days):
    before = (datetime.date.fromisoformat(day) - EPOCH).days
    out = csv.writer(sys.stdout, lineterminator="\n")
    out.writerow(["record", "ref", "class", "schedule", "action", "due", "deadline", "held"])
    for reached, number, ref, group, plan, action, hold, counts in rows_here(conn):
        if reached + days < before and not counts:
            out.writerow((number, ref, group, plan, action, named(reached), named(reached + days), hold))


def entries(conn):
    out = csv.writer(sys.stdout, lineterminator="\n")
    out.writerow(["run", "record", "ref", "outcome", "class", "schedule", "due", "hold", "confirmed_by", "length", "digest"])
    for run, number, ref, outcome, group, plan, day, hold, by, length, digest in conn.execute(
        "SELECT run, record, ref, outcome, e.class, e.schedule, due, hold, confirmed_by, size, digest FROM entries e JOIN records ON num = record ORDER BY run, record"
    ):
        out.writerow((run, number, ref, outcome, group, plan, named(day), hold or "", by, length, digest))


if __name__ == "__main__":
    if sys.argv[1] == "make":
        make(sys.argv[2], int(sys.argv[3]))
    elif sys.argv[1] == "due":
        due(sqlite3.connect(sys.argv[2]), sys.argv[3])
    elif sys.argv[1] == "overdue":
        overdue(sqlite3.connect(sys.argv[2]), sys.argv[3], int(sys.argv[4]))
    else:
        entries(sqlite3.connect(sys.argv[2]))
