#!/usr/bin/env python3
"""Serves two requests of the office by Python's http.server over sqlite3, to be compared with `office serve`.

serve_requests.py FILE PORT COUNT   prints its line, then serves COUNT connections of 127.0.0.1, one after another

FILE is one that `tests/save_records.py each` wrote. GET /records/N is read from its tables; POST /acts adds the records of its acts,
each in a transaction of its own, journal WAL, synchronous FULL. The bytes of these answers are the office's. Nothing else is
there: no check, no refusal, no other act, and no due day but that of a number of years after adding.
"""
import base64
import datetime
import hashlib
import http.server
import json
import sqlite3
import sys

EPOCH = datetime.date(1970, 1, 1)
RECORD = """
SELECT r.num, r.ref, r.title, r.originated, r.added, r.aggregation, r.size, r.digest, r.status, s.span, c.code, s.code, e.occurred
FROM records r JOIN aggregations a ON a.num = r.aggregation JOIN classes c ON c.code = coalesce(r.class, a.class)
JOIN schedules2 s ON s.code = coalesce(r.schedule, c.schedule)
LEFT JOIN events e ON e.record = r.num WHERE r.num = ?"""
ADD = "INSERT INTO records VALUES (?, ?, ?, ?, ?, ?, ?, ?, 'here'" + ", NULL" * 10 + ")"


def number_of(day):
    return (datetime.date.fromisoformat(day) - EPOCH).days


def day_of(number):
    return EPOCH + datetime.timedelta(days=number)


def compact(value):
    return json.dumps(value, separators=(",", ":"), sort_keys=True, ensure_ascii=False).encode()


def record(conn, number):
    row = conn.execute(RECORD, (number,)).fetchone()
    num, ref, title, originated, added, aggregation, size, digest, status, span, code, schedule, occurred = row
    begun = day_of(added)
    return compact({
        "added": str(begun), "aggregation": aggregation, "class": code, "confirmed": None, "digest": digest,
        "due": str(begun.replace(year=begun.year + span)), "ended": None, "event": None if occurred is None else str(day_of(occurred)),
        "held": None, "length": size, "number": num, "originated": str(day_of(originated)), "ref": ref, "schedule": schedule, "status": status,
        "title": title,
    })


def add(conn, act):
    content = base64.b64decode(act["content"], validate=True)
    day = number_of(act["day"])
    conn.execute("BEGIN")
    number = conn.execute("SELECT coalesce(max(num), 0) + 1 FROM records").fetchone()[0]
    digest = hashlib.sha256(content).hexdigest()
    conn.execute(ADD, (number, act["ref"], act["title"], number_of(act["originated"]), day, act["aggregation"], len(content), digest))
    conn.execute("INSERT INTO contents VALUES (?, ?)", (number, content))
    conn.execute("UPDATE office SET day = ?", (day,))
    conn.execute("COMMIT")
    return {"number": number}


class Handler(http.server.BaseHTTPRequestHandler):
    protocol_version = "HTTP/1.1"
    wbufsize = -1

    def answer(self, body):
        self.send_response_only(200)
        self.send_header("Content-Type", "application/json")
        self.send_header("Content-Length", str(len(body)))
        self.send_header("Connection", "close")
        self.end_headers()
        self.wfile.write(body)

    def do_GET(self):
        self.answer(record(self.server.conn, int(self.path.removeprefix("/records/"))))

    def do_POST(self):
        asked = json.loads(self.rfile.read(int(self.headers["Content-Length"])))
        self.answer(compact([add(self.server.conn, act) for act in asked]))

    def log_message(self, form, *words):
        pass


file, port, count = sys.argv[1], int(sys.argv[2]), int(sys.argv[3])
with http.server.HTTPServer(("127.0.0.1", port), Handler) as server:
    server.conn = sqlite3.connect(file, isolation_level=None)
    server.conn.execute("PRAGMA journal_mode = WAL")
    server.conn.execute("PRAGMA synchronous = FULL")
    print(f"listening 127.0.0.1:{port}", flush=True)
    for _ in range(count):
        server.handle_request()
    server.conn.close()
