#!/usr/bin/env python3
"""Writes the rows that an office's tables have with COUNT records, by Python's sqlite3.

save_records.py each FILE COUNT   each record in a transaction of its own, journal WAL, synchronous FULL
save_records.py whole FILE COUNT  all of them in one transaction, the log copied into the file at the end
save_records.py old FILE COUNT    as `whole`, in a file of version 1
save_records.py scan FILE COUNT   nothing is written: the tables are fetched in the order of their keys
save_records.py acts FILE COUNT   the acts that lead to these rows, as one JSON array in place of a database
save_records.py csv FILE COUNT    the records as the rows of an import, in place of a database
save_records.py import FILE CSV   the rows of such a text, read by Python's csv, each record in a transaction of its own
save_records.py import-twice FILE CSV  the same, the office's day in a second transaction, so that each record costs two syncs as the office's does
"""
import base64
import csv
import datetime
import hashlib
import json
import pathlib
import re
import sqlite3
import sys

SOURCE = (pathlib.Path(__file__).resolve().parent.parent / "crates/office_sql/src/tables.rt").read_text()
TABLES = re.findall(r'const CREATE_\w+: &str =\s*"([^"]*)";', SOURCE)
# those of a file of version 1
OLD_TABLES = TABLES[:11]
KEYS = dict(re.findall(r'FROM (\w+) ORDER BY ([^"]*)"', SOURCE))
DAY = 19724
DIGEST = hashlib.sha256(b"abc").hexdigest()


def begin(conn, texts=TABLES):
    """Makes the tables, with a schedule, a class and an aggregation."""
    conn.execute("BEGIN")
    for text in texts:
        conn.execute(text)
    conn.execute("INSERT INTO office VALUES (1, 2, ?)", (DAY,))
    schedules = "schedules2" if texts is TABLES else "schedules"
    conn.execute(f"INSERT INTO {schedules} VALUES ('D1', 'added', 'years', 1, 'none', 'destroy')")
    conn.execute("INSERT INTO classes VALUES ('FIN', 'Finance', 'D1')")
    conn.execute("INSERT INTO aggregations VALUES (1, 'A', 'A', NULL, 'FIN', NULL)")
    conn.execute("COMMIT")


def add(conn, number):
    name = f"r{number - 1}"
    row = (number, name, name, DAY, DAY, 1, 3, DIGEST, "here") + (None,) * 10
    conn.execute("INSERT OR REPLACE INTO records VALUES (?, ?, ?, ?, ?, ?, ?, ?, ?, ?, ?, ?, ?, ?, ?, ?, ?, ?, ?)", row)
    conn.execute("INSERT OR REPLACE INTO contents VALUES (?, ?)", (number, b"abc"))
    conn.execute("INSERT OR REPLACE INTO office VALUES (1, 2, ?)", (DAY,))


def acts(count):
    """The acts that lead to the rows of so many records."""
    day = "2024-01-02"
    yield {"act": "add-schedule", "day": day, "code": "D1", "trigger": "added", "unit": "years", "count": 1, "offset": "none", "action": "destroy"}
    yield {"act": "add-class", "day": day, "code": "FIN", "title": "Finance", "schedule": "D1"}
    yield {"act": "add-aggregation", "day": day, "ref": "A", "title": "A", "parent": None, "class": "FIN"}
    for name in (f"r{number}" for number in range(count)):
        yield {"act": "add-record", "day": day, "ref": name, "title": name, "originated": day, "aggregation": 1, "content": "YWJj"}


def listed(path, count):
    with open(path, "w", encoding="utf-8") as out:
        json.dump(list(acts(count)), out)


def table(path, count):
    with open(path, "w", encoding="utf-8", newline="") as out:
        rows = csv.writer(out, lineterminator="\r\n")
        rows.writerow(["ref", "title", "originated", "aggregation", "class", "schedule", "content"])
        rows.writerows([f"r{number}", f"r{number}", "2024-01-02", 1, "", "", "YWJj"] for number in range(count))


def bring(conn, path, parts):
    epoch = datetime.date(1970, 1, 1)
    with open(path, encoding="utf-8", newline="") as text:
        for number, row in enumerate(csv.DictReader(text), 1):
            content = base64.b64decode(row["content"], validate=True)
            originated = (datetime.date.fromisoformat(row["originated"]) - epoch).days
            told = (number, row["ref"], row["title"], originated, DAY, int(row["aggregation"]), len(content), hashlib.sha256(content).hexdigest(), "here",
                    row["class"] or None, row["schedule"] or None)
            conn.execute("BEGIN")
            conn.execute("INSERT OR REPLACE INTO records VALUES (?, ?, ?, ?, ?, ?, ?, ?, ?, ?, ?, ?, ?, ?, ?, ?, ?, ?, ?)", told + (None,) * 8)
            conn.execute("INSERT OR REPLACE INTO contents VALUES (?, ?)", (number, content))
            if parts == 2:
                conn.execute("COMMIT")
                conn.execute("BEGIN")
            conn.execute("INSERT OR REPLACE INTO office VALUES (1, 2, ?)", (DAY,))
            conn.execute("COMMIT")
    return number


def scan(conn, count):
    for table, wanted in KEYS.items():
        rows = conn.execute(f"SELECT {'record' if table == 'contents' else '*'} FROM {table} ORDER BY {wanted}").fetchall()
        if table == "records" and len(rows) != count:
            sys.exit("another number of records")


def main(how, path, word):
    if how in ("acts", "csv"):
        (listed if how == "acts" else table)(path, int(word))
        return
    conn = sqlite3.connect(path, isolation_level=None)
    if how == "scan":
        scan(conn, int(word))
        return
    conn.execute("PRAGMA journal_mode = WAL")
    conn.execute("PRAGMA synchronous = FULL")
    begin(conn, OLD_TABLES if how == "old" else TABLES)
    if how in ("import", "import-twice"):
        count = bring(conn, word, 2 if how == "import-twice" else 1)
        conn.close()
        print(count, "records")
        return
    count, is_whole = int(word), how in ("whole", "old")
    if is_whole:
        conn.execute("BEGIN")
    for number in range(1, count + 1):
        if how == "each":
            conn.execute("BEGIN")
        add(conn, number)
        if how == "each":
            conn.execute("COMMIT")
    if how == "old":
        conn.execute("UPDATE office SET version = 1")
    if is_whole:
        conn.execute("COMMIT")
        conn.execute("PRAGMA journal_mode = DELETE")
    conn.close()
    print(count, "records")


if __name__ == "__main__":
    main(*sys.argv[1:4])
