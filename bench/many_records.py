"""An office of many records in a file that Python's sqlite3 writes (bench/act_costs).

Its aggregations stand eight deep, and the roots alone have a class, so that a record's class is found by walking up.
"""
import datetime
import functools
import sqlite3

from fuzz.rules import MOST, offset_from, plus
from save_records import DAY, DIGEST, TABLES

EPOCH = datetime.date(1970, 1, 1)
# the day on which all is asked, and as a text; records were added in the 365 days to DAY, so that a year later all of them are due by then
TODAY = DAY + 366
LATER = "2025-01-02"
BY = "registrar of records"
DEPTH = 8
# of the schedules, and of the classes in the same order
TRIGGERS = ("added", "origin", "added", "last-addition", "added", "closed", "added", "origin", "added", "last-addition", "added", "review")


def number_of(day):
    return (datetime.date.fromisoformat(day) - EPOCH).days


def day_text(number):
    return None if number is None else (EPOCH + datetime.timedelta(days=number)).isoformat()


@functools.lru_cache(100_000)
def due_after(start, unit, span, roll):
    """The due day of a start day."""
    return (offset_from(plus(EPOCH + datetime.timedelta(days=start), unit, span), roll) - EPOCH).days


def text(letter, number):
    """A text of 20 bytes."""
    return f"{letter}{number:019}"


class Layout:
    """How many of all there are, and where a record stands."""

    def __init__(self, count, triggers=TRIGGERS):
        self.count, self.triggers = count, triggers
        self.homes = min(count // 4, MOST["aggregations"])
        self.roots = -(-self.homes // DEPTH)
        # the ready records of the acts: five a hundredth of all apart, then five that are nine times as far apart
        self.ready = [self.near(count * part // 100, "added") for part in (1, 2, 3, 4, 5, 14, 23, 32, 41, 50)] if "added" in triggers else []

    def kind(self, number):
        """The place of a record's class among all, and of its schedule."""
        return (number - 1) % self.homes % self.roots % len(self.triggers)

    def of_kind(self, number, kind):
        """The greatest record up to that number of the class at that place."""
        while self.kind(number) != kind:
            number -= 1
        return number

    def near(self, number, trigger):
        """The greatest record up to that number under such a schedule."""
        while self.triggers[self.kind(number)] != trigger:
            number -= 1
        return number

    def aggregation(self, number):
        is_root = number <= self.roots
        code = f"C{(number - 1) % len(self.triggers) + 1:02}"
        return (number, text("a", number), text("b", number), None if is_root else number - self.roots, code if is_root else None, None)

    def record(self, number):
        added = DAY - number % 365
        row = (number, text("r", number), text("t", number), added - 30, added, (number - 1) % self.homes + 1, 3, DIGEST, "here")
        # a tenth or so have a confirmation that does not count, since its due day is another one by now: none of all is due so early
        is_confirmed = number % 5 == 0 and self.triggers[self.kind(number)] == "added"
        confirmed = ("destroy", DAY - 365, TODAY, BY) if is_confirmed else (None,) * 4
        return (*row, *(None,) * 4, *confirmed, None, None)


def put(conn, table, rows):
    rows = iter(rows)
    first = next(rows)
    statement = f"INSERT INTO {table} VALUES ({', '.join('?' * len(first))})"
    conn.execute(statement, first)
    conn.executemany(statement, rows)


def confirm(conn, condition):
    """Records have a confirmation that counts; they are under a year after their addition."""
    conn.create_function("due_after", 1, lambda added: due_after(added, "years", 1, "none"))
    conn.execute(f"UPDATE records SET conf_action = 'destroy', conf_due = due_after(added), conf_day = {TODAY}, conf_by = '{BY}' WHERE {condition}")


def made(file, layout, ended=False):
    """Writes an office; all of it but its last record ended by the run that is open, where that is asked for."""
    conn = sqlite3.connect(file, isolation_level=None)
    conn.execute("PRAGMA synchronous = OFF")
    conn.execute("BEGIN")
    for table in TABLES:
        conn.execute(table)
    numbers = range(1, layout.count + 1)
    put(conn, "office", [(1, 2, TODAY)])
    kinds = list(enumerate(layout.triggers, 1))
    put(conn, "schedules2", ((f"S{n:02}", it, "years", 1, "none", "review" if it == "review" else "destroy") for n, it in kinds))
    put(conn, "classes", ((f"C{n:02}", text("c", n), f"S{n:02}") for n, _ in kinds))
    put(conn, "aggregations", map(layout.aggregation, range(1, layout.homes + 1)))
    put(conn, "records", map(layout.record, numbers))
    put(conn, "contents", ((number, b"abc") for number in numbers))
    if ended:
        end_all(conn, layout)
    else:
        confirm(conn, f"num IN ({', '.join(map(str, layout.ready))})")
        hold_some(conn, layout)
    conn.execute("COMMIT")
    conn.close()
    return file


def hold_some(conn, layout):
    """Three holds in force, one that is lifted, and one that has no target."""
    put(conn, "holds", ((f"H-{n}", text("h", n), DAY, BY, TODAY if n == 4 else None) for n in range(1, 6)))
    put(conn, "targets", (("H-1", "record", str(layout.count * part // 20 - 3)) for part in range(1, 21)))
    put(conn, "targets", [("H-2", "aggregation", "3"), ("H-3", "class", "C12"), ("H-4", "class", "C01")])


def end_all(conn, layout):
    """What a run that is open has made of all records but the last, and the acts before it of the aggregations."""
    confirm(conn, "1")
    conn.execute("UPDATE aggregations SET closed = ?", (TODAY,))
    conn.execute("UPDATE records SET status = 'ended' WHERE num < ?", (layout.count,))
    conn.execute("DELETE FROM contents WHERE record < ?", (layout.count,))
    put(conn, "runs", [(1, TODAY, BY, layout.count - 1, 0)])
    ending = ((number, layout.kind(number) + 1, layout.record(number)[4]) for number in range(1, layout.count))
    put(conn, "entries", ((1, number, "destroyed", f"C{kind:02}", f"S{kind:02}", due_after(added, "years", 1, "none"), BY, None)
                          for number, kind, added in ending))
