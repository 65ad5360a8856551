"""An office of 200,000 records, as SQL writes it into the tables of docs/TABLES.md: building permits of 25 years."""
import hashlib
import pathlib
import sqlite3
import subprocess

from place import OFFICE

RECORDS = 200_000
DAY = 20_000  # 2024-10-04
CONTENT = b"abc"
KINDS = [
    "Baugenehmigung",
    "Abnahme",
    "Statik",
    "Lageplan",
    "Brandschutz",
    "Anhörung der Nachbarn",
    "Bescheid",
    "Rechnung",
    "Schriftwechsel",
    "Vermerk",
]
STREETS = [
    "Goethestraße",
    "Schillerplatz",
    "Am Anger",
    "Mühlgasse",
    "Bahnhofstraße",
    "Löbdergraben",
    "Café am Markt",
    "Kirchgäßchen",
    "Saalufer",
    "Neue Höfe",
]
SCHEDULES = [
    ("BAU-30", "closed", "years", 30, "from-month-1", "transfer"),
    ("RE-10", "added", "years", 10, "from-month-1", "destroy"),
    ("VM-5", "origin", "years", 5, "quarter", "review"),
    ("SW-6", "last-addition", "years", 6, "none", "destroy"),
]
CLASSES = [
    ("BAU-GEN", "Baugenehmigungen", "BAU-30"),
    ("BAU-RE", "Rechnungen", "RE-10"),
    ("BAU-VM", "Vermerke", "VM-5"),
    ("BAU-SW", "Schriftwechsel", "SW-6"),
]
DISTRICTS, YEARS, FILES = 8, 25, 9
HOLDS = [
    ("H-BRAND", "Rechtsstreit nach dem Brand am Anger", DAY - 100, "Rechtsamt", None),
    ("H-ALT", "Prüfung durch das Land", DAY - 900, "Rechnungshof", DAY - 50),
]


def aggregations():
    """Districts, years in them, and files in these; every fourth file is one of invoices."""
    rows = [(n, f"B{n:02}", f"Bezirk {n}", None, "BAU-GEN", None) for n in range(1, DISTRICTS + 1)]
    for year in range(YEARS):
        for district in range(1, DISTRICTS + 1):
            rows.append(
                (len(rows) + 1, f"B{district:02}/{2000 + year}", f"Jahrgang {2000 + year}", district, None, None)
            )
    for parent in range(DISTRICTS + 1, DISTRICTS * (YEARS + 1) + 1):
        for file in range(1, FILES + 1):
            code = CLASSES[file % 4][0] if file % 4 else None
            rows.append(
                (
                    len(rows) + 1,
                    f"{rows[parent - 1][1]}/{file:02}",
                    f"{STREETS[(parent + file) % 10]} {file}",
                    parent,
                    code,
                    DAY - 30 if file % 5 == 0 else None,
                )
            )
    return rows


def records(count: int, files: list[int]):
    digest = hashlib.sha256(CONTENT).hexdigest()
    for n in range(1, count + 1):
        title = f"{KINDS[n % 10]} {STREETS[n // 10 % 10]} {n // 100 % 400 + 1}, Vorgang {n % 997}"
        added = DAY - 200 - n % 4000
        yield n, f"{2000 + n % 25}/{KINDS[n % 10][:2].upper()}/{n:06}", title, added - 20, added, files[
            n % len(files)
        ], len(CONTENT), digest, "here", *(None,) * 10


def make(file: pathlib.Path, count: int | None = None) -> None:
    """An office that the program made, with rows that SQL adds while nobody has it open."""
    subprocess.run([OFFICE, "init", file], check=True, stdout=subprocess.DEVNULL)
    conn = sqlite3.connect(file, isolation_level=None)
    conn.execute("PRAGMA synchronous = OFF")
    conn.execute("BEGIN")
    put = lambda table, rows: [
        conn.execute(f"INSERT INTO {table} VALUES ({', '.join('?' * len(row))})", row) for row in rows
    ]
    conn.execute("UPDATE office SET day = ?", (DAY,))
    put("schedules2", SCHEDULES)
    put("classes", CLASSES)
    there = aggregations()
    put("aggregations", there)
    put("records", records(count or RECORDS, [row[0] for row in there if row[5] is None and row[3] and row[3] > DISTRICTS]))
    conn.execute("INSERT INTO contents SELECT num, ? FROM records", (CONTENT,))
    put("holds", HOLDS)
    put(
        "targets",
        [
            ("H-BRAND", "aggregation", "9"),
            ("H-BRAND", "class", "BAU-VM"),
            *(("H-BRAND", "record", str(n)) for n in range(1, 30)),
            ("H-ALT", "class", "BAU-RE"),
        ],
    )
    conn.execute("COMMIT")
    conn.close()
