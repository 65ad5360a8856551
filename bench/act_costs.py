"""The acts on an office in a file of many records by Python's sqlite3 alone, to be compared with `office serve` (bench/act_costs).

The file is one of many_records.py. What an act must look at is asked by SQL, with no index but those that the file has: the keys of its tables and the
refs. Then the act writes its rows; each is a transaction of its own, journal WAL, synchronous FULL. What the acts of the trial do not ask for is not
there.
"""
import base64
import csv
import hashlib
import io
import sqlite3

from fuzz.rules import MOST
from many_records import day_text, due_after, number_of, put

ENDINGS = ("destroyed", "transferred")


class Refused(Exception):
    """A condition for which an act is refused."""


def refuse(number, holds):
    if holds:
        raise Refused(number)


UP = """
WITH RECURSIVE up(num, parent, class, depth) AS (
    SELECT num, parent, class, 1 FROM aggregations WHERE num = ?
    UNION ALL SELECT a.num, a.parent, a.class, depth + 1 FROM up JOIN aggregations a ON a.num = up.parent)
SELECT num, class FROM up ORDER BY depth"""
RECORD = """
SELECT num, ref, title, originated, added, aggregation, size, digest, status, class, schedule, reviewed, conf_action, conf_due, conf_day, conf_by
FROM records """
COVERS = """
SELECT min(code) FROM holds WHERE lifted IS NULL
AND EXISTS (SELECT 1 FROM targets WHERE hold = code AND kind = ? AND target = ?)"""


class PythonOffice:
    def __init__(self, file):
        self.conn = sqlite3.connect(file, isolation_level=None)
        self.conn.row_factory = sqlite3.Row
        self.conn.execute("PRAGMA journal_mode = WAL")
        self.conn.execute("PRAGMA synchronous = FULL")

    def all(self, sql, *values):
        return self.conn.execute(sql, values).fetchall()

    def one(self, sql, *values):
        return self.conn.execute(sql, values).fetchone()

    def value(self, sql, *values):
        """The first column of the first row."""
        row = self.one(sql, *values)
        return None if row is None else row[0]

    def do(self, act):
        """Does an act in a transaction of its own: its answer."""
        self.conn.execute("BEGIN IMMEDIATE")
        if "day" in act:
            day = number_of(act["day"])
            stands = self.value("SELECT day FROM office")
            refuse(1, day < stands)
            if day > stands:
                self.conn.execute("UPDATE office SET day = ?", (day,))
        answer = getattr(self, act["act"].replace("-", "_"))(act) or {"done": True}
        self.conn.execute("COMMIT")
        return answer

    # ---- what is read

    def record(self, number):
        return self.one(RECORD + "WHERE num = ?", number)

    def class_above(self, chain):
        return next((code for _, code in chain if code), None)

    def placed(self, record):
        """The aggregations above a record, its class and its plan."""
        chain = self.all(UP, record["aggregation"])
        code = record["class"] or self.class_above(chain)
        plan = record["schedule"] or self.value("SELECT schedule FROM classes WHERE code = ?", code)
        return chain, code, self.one("SELECT * FROM schedules2 WHERE code = ?", plan)

    def due(self, record, plan):
        home = record["aggregation"]
        if plan["start_at"] == "closed":
            start = self.value("SELECT closed FROM aggregations WHERE num = ?", home)
        elif plan["start_at"] == "last-addition":
            start = self.value("SELECT max(added) FROM records WHERE aggregation = ?", home)
        elif plan["start_at"] == "review":
            start = record["added"] if record["reviewed"] is None else record["reviewed"]
        elif plan["start_at"] == "event":
            start = self.occurred(record["num"])
        else:
            start = record["originated" if plan["start_at"] == "origin" else "added"]
        return None if start is None or plan["disposal"] == "keep" else due_after(start, plan["unit"], plan["span"], plan["roll"])

    def occurred(self, number):
        """The day of a record's event."""
        return self.value("SELECT occurred FROM events WHERE record = ?", number)

    def held(self, record, chain, code):
        """The least hold that covers a record."""
        things = [("record", record["num"]), ("class", code), *(("aggregation", number) for number, _ in chain)]
        return min(filter(None, (self.value(COVERS, kind, str(name)) for kind, name in things)), default=None)

    def told(self, number):
        """What GET /records/N tells."""
        record = self.record(number)
        chain, code, plan = self.placed(record)
        ending = self.one("SELECT outcome, run FROM entries WHERE record = ? AND outcome <> 'sent' AND outcome <> 'skipped'", number) \
            if record["status"] == "ended" else None
        confirmed = record["conf_action"] and {"action": record["conf_action"], "by": record["conf_by"], "day": day_text(record["conf_day"]),
                                               "due": day_text(record["conf_due"])}
        return {
            "added": day_text(record["added"]), "aggregation": record["aggregation"], "class": code, "confirmed": confirmed,
            "digest": record["digest"], "due": day_text(self.due(record, plan)), "ended": ending and dict(ending),
            "event": day_text(self.occurred(number)), "held": self.held(record, chain, code), "length": record["size"], "number": number,
            "originated": day_text(record["originated"]), "ref": record["ref"], "schedule": plan["code"], "status": record["status"],
            "title": record["title"],
        }

    def due_told(self, day):
        """What GET /due/DAY tells, of an office whose schedules begin with the last addition; all tables are read once, in order."""
        until, classes, held, codes = number_of(day), {}, {}, dict(self.all("SELECT code, schedule FROM classes"))
        plans = {it["code"]: it for it in self.all("SELECT * FROM schedules2")}
        last = dict(self.all("SELECT aggregation, max(added) FROM records GROUP BY aggregation"))
        holds = {}
        for code, kind, target in self.all("SELECT code, kind, target FROM targets JOIN holds ON code = hold WHERE lifted IS NULL ORDER BY code DESC"):
            holds[kind, target] = code
        for number, parent, code in self.all("SELECT num, parent, class FROM aggregations ORDER BY num"):
            classes[number] = code or classes[parent]
            held[number] = min(filter(None, (holds.get(("aggregation", str(number))), held.get(parent))), default=None)
        rows = []
        for it in self.all(RECORD + "WHERE status = 'here'"):
            code = it["class"] or classes[it["aggregation"]]
            plan = plans[it["schedule"] or codes[code]]
            due = due_after(last[it["aggregation"]], plan["unit"], plan["span"], plan["roll"])
            if due <= until:
                covering = (holds.get(("record", str(it["num"]))), holds.get(("class", code)), held[it["aggregation"]])
                rows.append((due, it["num"], {
                    "action": plan["disposal"], "class": code, "confirmed": (it["conf_action"], it["conf_due"]) == (plan["disposal"], due),
                    "due": day_text(due), "held": min(filter(None, covering), default=None), "record": it["num"], "ref": it["ref"],
                    "schedule": plan["code"]}))
        return [row for _, _, row in sorted(rows, key=lambda it: it[:2])]

    # ---- acts

    def add_schedule(self, act):
        refuse(4, self.one("SELECT 1 FROM schedules2 WHERE code = ?", act["code"]) is not None)
        refuse(6, self.value("SELECT count(*) FROM schedules2") >= MOST["schedules"])
        put(self.conn, "schedules2", [tuple(act[it] for it in ("code", "trigger", "unit", "count", "offset", "action"))])

    def add_record(self, act):
        content = base64.b64decode(act["content"], validate=True)
        refuse(4, self.value("SELECT num FROM records WHERE ref = ?", act["ref"]) is not None)
        home = self.one("SELECT closed FROM aggregations WHERE num = ?", act["aggregation"])
        refuse(5, home is None)
        number = (self.value("SELECT max(num) FROM records") or 0) + 1
        refuse(6, number > MOST["records"])
        refuse(7, home["closed"] is not None)
        row = (number, act["ref"], act["title"], number_of(act["originated"]), number_of(act["day"]), act["aggregation"], len(content),
               hashlib.sha256(content).hexdigest(), "here")
        put(self.conn, "records", [row + (None,) * 10])
        put(self.conn, "contents", [(number, content)])
        return {"number": number}

    def confirm(self, act):
        record, day = self.record(act["record"]), number_of(act["day"])
        refuse(5, record is None)
        refuse(13, record["status"] == "ended")
        refuse(14, record["status"] != "here")
        _, _, plan = self.placed(record)
        due = self.due(record, plan)
        refuse(15, due is None or due > day)
        refuse(16, act["action"] != plan["disposal"] or act["action"] == "review")
        self.conn.execute("UPDATE records SET conf_action = ?, conf_due = ?, conf_day = ?, conf_by = ? WHERE num = ?",
                          (act["action"], due, day, act["by"], act["record"]))

    def event(self, act):
        record, occurred, day = self.record(act["record"]), number_of(act["occurred"]), number_of(act["day"])
        refuse(5, record is None)
        refuse(13, record["status"] == "ended")
        refuse(14, record["status"] != "here")
        refuse(21, occurred > day)
        self.conn.execute("INSERT OR REPLACE INTO events VALUES (?, ?, ?, ?)", (act["record"], occurred, day, act["by"]))

    def hold_on(self, act):
        kind, _, name = act["target"].partition(":")
        hold = self.one("SELECT lifted FROM holds WHERE code = ?", act["hold"])
        refuse(4, self.one("SELECT 1 FROM targets WHERE hold = ? AND kind = ? AND target = ?", act["hold"], kind, name) is not None)
        refuse(5, hold is None or self.one("SELECT 1 FROM classes WHERE code = ?", name) is None)
        refuse(6, self.value("SELECT count(*) FROM targets WHERE hold = ?", act["hold"]) >= MOST["targets"])
        refuse(12, hold["lifted"] is not None)
        put(self.conn, "targets", [(act["hold"], kind, name)])

    def set_class_schedule(self, act):
        refuse(5, self.one("SELECT 1 FROM classes WHERE code = ?", act["class"]) is None)
        refuse(5, self.one("SELECT 1 FROM schedules2 WHERE code = ?", act["schedule"]) is None)
        self.conn.execute("UPDATE classes SET schedule = ? WHERE code = ?", (act["schedule"], act["class"]))

    def reclassify(self, act):
        """Of an aggregation."""
        number = int(act["target"].removeprefix("aggregation:"))
        chain = self.all(UP, number)
        refuse(5, not chain or self.one("SELECT 1 FROM classes WHERE code = ?", act["class"]) is None)
        old = self.class_above(chain)
        refuse(11, old != act["class"] and self.value(COVERS, "class", old) is not None)
        self.conn.execute("UPDATE aggregations SET class = ? WHERE num = ?", (act["class"], number))

    def close_aggregation(self, act):
        home = self.one("SELECT closed FROM aggregations WHERE num = ?", act["aggregation"])
        refuse(5, home is None)
        refuse(7, home["closed"] is not None)
        refuse(8, self.one("SELECT 1 FROM aggregations WHERE parent = ? AND closed IS NULL LIMIT 1", act["aggregation"]) is not None)
        self.conn.execute("UPDATE aggregations SET closed = ? WHERE num = ?", (number_of(act["day"]), act["aggregation"]))

    # ---- runs

    def open_run(self, act):
        last = self.one("SELECT num, closed FROM runs ORDER BY num DESC LIMIT 1")
        number = (last["num"] if last else 0) + 1
        refuse(6, number > MOST["runs"])
        refuse(17, last is not None and not last["closed"])
        put(self.conn, "runs", [(number, number_of(act["day"]), act["by"], 0, 0)])
        return {"number": number}

    def run_step(self, act):
        run = self.one("SELECT * FROM runs ORDER BY num DESC LIMIT 1")
        refuse(18, run is None or run["closed"])
        # of a record that was told to be received there is none here; no other one is ready without a confirmation
        for record in self.conn.execute(RECORD + "WHERE num > ? AND status = 'here' AND conf_action IS NOT NULL ORDER BY num", (run["place"],)):
            chain, code, plan = self.placed(record)
            due = self.due(record, plan)
            if due is not None and due <= run["day"] and (record["conf_action"], record["conf_due"]) == (plan["disposal"], due):
                return self.take(run, record, code, plan["code"], self.held(record, chain, code))
        return self.close_run(run)

    def take(self, run, record, code, plan, held):
        """Of a record that is here to be destroyed."""
        number, outcome = record["num"], "skipped" if held else "destroyed"
        put(self.conn, "entries", [(run["num"], number, outcome, code, plan, record["conf_due"], record["conf_by"], held)])
        if not held:
            self.conn.execute("UPDATE records SET status = 'ended' WHERE num = ?", (number,))
            self.conn.execute("DELETE FROM contents WHERE record = ?", (number,))
        self.conn.execute("UPDATE runs SET place = ? WHERE num = ?", (number, run["num"]))
        return {"outcome": outcome, "record": number}

    def close_run(self, run):
        put(self.conn, "certificates", [(run["num"], self.certificate(run))])
        self.conn.execute("UPDATE runs SET closed = 1 WHERE num = ?", (run["num"],))
        return {"certificate": run["num"]}

    def certificate(self, run):
        entries = self.all("SELECT record, outcome, ref, e.class, e.schedule, due, hold, confirmed_by, size, digest FROM entries e"
                           " JOIN records ON num = record WHERE run = ? ORDER BY record", run["num"])
        outcomes, spent = [it["outcome"] for it in entries], self.spent(run["num"])
        lines = [f"CERTIFICATE {run['num']}", f"DAY {day_text(run['day'])}", f"BY {run['opened_by']}", f"ENDED {sum(map(outcomes.count, ENDINGS))}",
                 f"SENT {outcomes.count('sent')}", f"SKIPPED {outcomes.count('skipped')}"]
        for record, outcome, ref, code, plan, due, hold, by, size, digest in entries:
            lines.append("\t".join(["ENTRY", str(record), outcome, ref, code, plan, day_text(due), hold or "-", by, str(size), digest]))
        lines += [f"SPENT {len(spent)}", *(f"AGGREGATION\t{number}\t{ref}" for number, ref in spent)]
        body = "".join(f"{line}\n" for line in lines)
        return body + f"SHA256 {hashlib.sha256(body.encode()).hexdigest()}\n"

    def spent(self, run):
        """The aggregations that are closed, with no record below them that is not ended and one that the run ended; below a closed one all are closed."""
        closed = {number: (parent, ref) for number, parent, ref in self.conn.execute("SELECT num, parent, ref FROM aggregations WHERE closed IS NOT NULL")}

        def above(homes):
            found = set()
            for (number,) in homes:
                while number in closed and number not in found:
                    found.add(number)
                    number = closed[number][0]
            return found

        named = above(self.all("SELECT DISTINCT aggregation FROM entries JOIN records ON num = record WHERE run = ? AND outcome IN (?, ?)", run, *ENDINGS))
        kept = above(self.all("SELECT DISTINCT aggregation FROM records WHERE status <> 'ended'")) if named else set()
        return [(number, closed[number][1]) for number in sorted(named - kept)]


def due_register(rows):
    """The register of what is due, as `export` writes it."""
    out = io.StringIO()
    lines = csv.writer(out, lineterminator="\n")
    columns = ["record", "ref", "class", "schedule", "action", "due", "held", "confirmed"]
    lines.writerow(columns)
    lines.writerows([*(it[name] or "" for name in columns[:-1]), "yes" if it["confirmed"] else "no"] for it in rows)
    return out.getvalue().encode()
