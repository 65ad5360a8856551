"""Mutated files of an office, and what the program may say of them.

Three offices are mutated: one in a file that was closed, the same without its events in a file of version 1 that SQLite writes, and one in a file
and a log as a killed `serve` leaves them. Their bytes are changed, or by SQLite their rows or their tables. What SQLite reads of a file decides,
where it finds the file sound, what `init` must say of it.
"""
import hashlib
import pathlib
import shutil
import sqlite3
import subprocess
import tempfile

from fuzz.offices import LAST, Service, run, story, told_story
from fuzz.rules import Office, compact, day_text
from fuzz.sound import FORMS, Rows, taken_over
from real_files import lowered

OPENED = (0, b"version 2\n", b"")
FAULTS = {number: (3, b"", b"office: fault %d\n" % number) for number in (31, 33, 34)}
PAGE = 4_096
CONTENTS = [9, 27]
MORE = [{"act": "receipt", "day": LAST, "record": 5, "digest": None, "by": "archive"},
        {"act": "place-hold", "day": LAST, "code": "H-9", "reason": "x", "by": "court"}, {"act": "open-run", "day": LAST, "by": "registrar"},
        {"act": "run-step"}]
WORDS = [b"here", b"sent", b"received", b"ended", b"destroyed", b"transferred", b"skipped", b"office", b"records", b"contents", b"CREATE TABLE",
         b"INTEGER", b"TEXT", b"class", b"record", b"event", b"registrar", b"CERTIFICATE", b"SHA256", b"ENTRY", b"D1", b"FIN1", b"H-1", b"2024/1",
         b"years", b"destroy", b"NOT NULL", b"STRICT"]
VALUES = [None, 0, 1, 2, 8, 9, -1, 3_650, 19_724, 20_090, 20_151, 376_199, 376_200, 559_155, 559_156, 2**32 - 1, 2**32, 2**63 - 1, -719_162,
          -719_163, "", "x" * 200, "x" * 201, "a\x01", "here", "sent", "received", "ended", "destroyed", "transferred", "sent", "skipped",
          "destroy", "transfer", "keep", "review", "added", "closed", "origin", "event", "days", "months", "none", "month", "from-month-12", "D1",
          "D2", "D9", "FIN1", "FIN9", "H-1", "H-9", "class", "aggregation", "record", "1", "01", "41", "2024/1", "A/1", "a" * 64]
STATEMENTS = ["DROP TABLE {}", "DELETE FROM {}", "ALTER TABLE {} RENAME TO other", "ALTER TABLE {} ADD COLUMN more INTEGER",
              "CREATE TABLE notes(id INTEGER PRIMARY KEY)", "CREATE VIEW seen AS SELECT * FROM {}", "CREATE INDEX more ON {}(rowid)",
              "CREATE TABLE {}_too AS SELECT * FROM {}", "ANALYZE", "VACUUM", "PRAGMA user_version = 9", "PRAGMA application_id = 9",
              "PRAGMA journal_mode = DELETE", "INSERT INTO {} SELECT * FROM {} WHERE 0"]


# ---- the offices


def closed_office(room, is_old=False):
    """The file of an office with an open run, closed; and the certificate of its first run."""
    office = Office()
    acts = [*story(is_old), *more_acts()]
    file, (told, expected) = told_story(room, acts, office)
    if told != expected:
        raise OSError("the story has other answers")
    return file, office.certificates[1]


def more_acts():
    """The acts that open another run, of which one record was received."""
    office = Office()
    for act in story():
        office.answer(act)
    return [{**act, "digest": office.records[4]["digest"]} if "digest" in act else act for act in MORE]


def killed_office(room):
    """The file and the log of an office whose `serve` was killed after some acts."""
    file, _ = told_story(room, story(), Office())
    with Service(file, 1_000) as service:
        for act in more_acts():
            body = compact([act])
            service.ask([b"POST /acts HTTP/1.0\r\nContent-Length: %d\r\n\r\n%s" % (len(body), body)])
    return file


# ---- what SQLite reads


def sqlite_reads(file, room):
    """What SQLite finds of a copy of the file and its log: its rows by table, none where it finds fault with the file; and its tables."""
    look = copied(file, room / "look.db")
    conn = sqlite3.connect(look)
    try:
        conn.text_factory = bytes
        if conn.execute("PRAGMA integrity_check").fetchall() != [(b"ok",)]:
            return None, None
        schema = conn.execute("SELECT type, name, sql FROM sqlite_schema ORDER BY name").fetchall()
        names = [table for table in FORMS if (b"table", table.encode()) in [it[:2] for it in schema]]
        return {table: conn.execute(f"SELECT {', '.join(FORMS[table])} FROM {table}").fetchall() for table in names}, schema
    except (sqlite3.Error, UnicodeDecodeError):
        return None, None
    finally:
        conn.close()


def named(tables):
    """The rows with the names of their columns; none where a text is not UTF-8."""
    try:
        return {table: [{name: value.decode() if isinstance(value, bytes) else value for name, value in zip(FORMS[table], row)} for row in rows]
                for table, rows in tables.items()}
    except UnicodeDecodeError:
        return None


def expected_of(tables, schema, schemas):
    """What `init` must say of a file, by what SQLite reads; none where that does not decide it."""
    if tables is None or schema not in schemas:
        return None
    rows = named(tables)
    if rows is not None and len(rows["office"]) == 1 and rows["office"][0]["version"] not in (1, 2):
        return FAULTS[34]
    return FAULTS[33] if rows is None or Rows(rows).fault() else OPENED


def copied(file, to):
    for end in ("", "-wal", "-shm"):
        pathlib.Path(f"{to}{end}").unlink(missing_ok=True)
        if pathlib.Path(f"{file}{end}").exists():
            shutil.copyfile(f"{file}{end}", f"{to}{end}")
    return to


# ---- mutations


class Mutator:
    def __init__(self, random):
        self.random, self.pick = random, random.choice

    def at(self, data):
        return self.random.randrange(len(data))

    def page(self, data):
        return self.random.randrange(-(-len(data) // PAGE)) * PAGE

    def flip_bits(self, data):
        for _ in range(self.pick([1, 1, 2, 8])):
            data[self.at(data)] ^= 1 << self.random.randrange(8)

    def put_bytes(self, data):
        at = self.at(data)
        data[at:at + 4] = self.random.randbytes(len(data[at:at + 4]))

    def change_header(self, data):
        """The first 100 bytes of the file, which say how it is to be read."""
        at = self.random.randrange(min(100, len(data)))
        data[at] = self.pick([0, 1, 2, 3, 127, 128, 255, self.random.randrange(256)])

    def change_page_header(self, data):
        """The kind of a page, its count of cells, where they lie, and the page to the right."""
        at = min(self.page(data) + self.random.randrange(12), len(data) - 1)
        data[at] = self.pick([0, 1, 2, 5, 10, 13, 255, self.random.randrange(256)])

    def change_cells(self, data):
        """Where the cells of a page lie."""
        at = min(self.page(data) + 8 + self.random.randrange(80), len(data) - 1)
        data[at] = self.random.randrange(256)

    def change_word(self, data):
        found, word = [], self.pick(WORDS)
        at = data.find(word)
        while at >= 0:
            found.append(at)
            at = data.find(word, at + 1)
        if found:
            at = self.pick(found)
            data[at:at + len(word)] = self.pick(WORDS)[:len(word)].ljust(len(word), self.pick([b" ", b"\0", b"x"]))

    def move_page(self, data):
        """A page in the place of another."""
        if len(data) >= 2 * PAGE:
            start, end = self.page(data), self.page(data)
            data[end:end + PAGE] = bytes(data[start:start + PAGE]).ljust(len(data[end:end + PAGE]), b"\0")

    def blank(self, data):
        start = self.at(data)
        end = min(len(data), start + self.pick([1, 16, 512, PAGE]))
        data[start:end] = bytes(end - start)

    def blank_page(self, data):
        start = self.page(data)
        data[start:start + PAGE] = bytes(len(data[start:start + PAGE]))

    def cut(self, data):
        del data[self.pick([self.at(data), self.page(data), self.random.randrange(min(len(data), 120))]):]

    def grow(self, data):
        data += self.pick([b"\0", bytes(PAGE), self.random.randbytes(PAGE), bytes(data[:PAGE]), b"x" * 100])

    def move_bytes(self, data):
        start, length, end = self.at(data), self.pick([1, 8, 100]), self.at(data)
        data[end:end + length] = bytes(data[start:start + length]).ljust(len(data[end:end + length]), b"\0")

    BYTES = [flip_bits, flip_bits, flip_bits, put_bytes, put_bytes, change_header, change_page_header, change_page_header, change_cells,
             change_word, change_word,
             move_page, blank, blank_page, cut, grow, move_bytes]

    def change_bytes(self, file):
        data = bytearray(file.read_bytes())
        while data:
            self.pick(self.BYTES)(self, data)
            if self.random.random() < 0.7:
                break
        file.write_bytes(data)

    def change_row(self, conn):
        table = self.pick(list(FORMS))
        rows = [row for (row,) in conn.execute(f"SELECT rowid FROM {table}")]
        if not rows:
            self.fill(conn, table)
            return
        column, row = self.pick(list(FORMS[table])), self.pick(rows)
        if self.random.random() < 0.12:
            conn.execute(f"DELETE FROM {table} WHERE rowid = ?", (row,))
        elif self.random.random() < 0.1:
            self.add_row(conn, table, row, len(rows) + 1)
        elif self.random.random() < 0.3:
            conn.execute(f"UPDATE {table} SET {column} = (SELECT {column} FROM {table} WHERE rowid = ?) WHERE rowid = ?", (self.pick(rows), row))
        elif self.random.random() < 0.3:
            conn.execute(f"UPDATE {table} SET {column} = {column} + ? WHERE rowid = ?", (self.pick([1, -1, 30, 10_000]), row))
        else:
            conn.execute(f"UPDATE {table} SET {column} = ? WHERE rowid = ?", (self.pick(VALUES), row))

    def fill(self, conn, table):
        """A row for the table that must have none."""
        if table == "schedules":
            conn.execute("INSERT INTO schedules SELECT * FROM schedules2 LIMIT 1")

    def add_row(self, conn, table, row, number):
        """A second row like that one, but for its key and another column."""
        values = list(conn.execute(f"SELECT * FROM {table} WHERE rowid = ?", (row,)).fetchone())
        values[0] = number if isinstance(values[0], int) else self.pick(VALUES)
        values[self.random.randrange(len(values))] = self.pick(VALUES)
        conn.execute(f"INSERT INTO {table} VALUES ({', '.join('?' * len(values))})", values)

    def change_tables(self, conn):
        conn.execute(self.pick(STATEMENTS).replace("{}", self.pick(list(FORMS))))

    def change_by_sqlite(self, file, change):
        """Some changes by SQLite, which may refuse each; then the file has them all."""
        conn = sqlite3.connect(file, isolation_level=None)
        try:
            conn.execute("PRAGMA ignore_check_constraints = 1")
            for _ in range(self.pick([1, 1, 1, 2, 3])):
                try:
                    change(conn)
                except sqlite3.Error:
                    pass
            conn.execute("PRAGMA wal_checkpoint(TRUNCATE)")
        finally:
            conn.close()


# ---- what the program says


def seal_agrees(text):
    """Whether the last line of a certificate has the digest of what is before it."""
    before, _, seal = text.rpartition(b"SHA256 ")
    return seal == f"{hashlib.sha256(before).hexdigest()}\n".encode()


def told_by(words):
    """What the program says, or that it came to no end."""
    try:
        return run(*words)
    except subprocess.TimeoutExpired:
        return None, b"", b"no end"


class Case:
    """A mutated file, which is looked at by SQLite and opened by the program."""

    def __init__(self, file, room, has_log, certificate, schemas):
        self.file, self.room, self.has_log, self.certificate, self.schemas = file, room, has_log, certificate, schemas
        self.problems, self.contents = [], []
        self.work = copied(file, room / "work.db")
        self.tables, found = sqlite_reads(self.work, room)
        self.expected = None if has_log else expected_of(self.tables, found, schemas)

    def look(self, is_by_rows):
        """The name of what the program says of it; what is not as it must be goes to `problems`."""
        before, told = self.work.read_bytes(), told_by(("init", self.work))
        said = [OPENED, *FAULTS.values()] if self.expected is None else [self.expected] if is_by_rows else [self.expected, FAULTS[31]]
        if told not in said:
            self.problems.append(f"init says {told}, and not one of {said}")
        if told == OPENED:
            return f"opened, {self.opened()}"
        if not self.has_log and self.work.read_bytes() != before:
            self.problems.append("a file that was refused is not as it was")
        if self.has_log and self.tables is not None and sqlite_reads(self.work, self.room)[0] != self.tables:
            self.problems.append("a file that was refused has other rows")
        return told[2].decode(errors="replace").strip().removeprefix("office: ")

    def opened(self):
        """The name of what is told of the first certificate of a file that opened."""
        tables, schema = sqlite_reads(self.work, self.room)
        if not self.has_log and self.tables and "office" in self.tables and tables != taken_over(self.tables):
            self.problems.append("it has other rows once it was opened")
        expected = expected_of(tables, schema, self.schemas)
        if expected not in (None, OPENED):
            self.problems.append(f"it opens, and its rows stand for no office: {Rows(named(tables)).fault()}")
        self.serve_contents({row[0]: row[1] for row in tables.get("events", [])} if expected == OPENED else None)
        return self.certified(tables)

    def serve_contents(self, events):
        """A `serve` opens the file again and tells some records, each with its event, where these are known, and its content; where the database
        fails it ends."""
        try:
            with Service(self.work, 2 * len(CONTENTS)) as service:
                for number in CONTENTS:
                    record, content = (service.ask([b"GET /records/%d%s HTTP/1.0\r\n\r\n" % (number, it)])[0] for it in (b"", b"/content"))
                    self.contents.append(content[9:12].decode())
                    if content.endswith(b'{"fault":31}'):
                        return
                    self.judge_content(number, record, content)
                    if events is not None:
                        self.judge_event(number, record, events.get(number))
        except OSError as why:
            self.problems.append(f"serve: {why}")

    def judge_content(self, number, record, content):
        head, _, body = content.partition(b"\r\n\r\n")
        status, digest = head[9:12], f'"digest":"{hashlib.sha256(body).hexdigest()}"'.encode()
        is_its = status == b"200" and digest in record
        if not (is_its or status == b"404" or status == b"503" and body == b'{"fault":33}'):
            self.problems.append(f"content {number} is told as {content}, its record as {record}")

    def judge_event(self, number, record, occurred):
        told = f'"event":{compact(None if occurred is None else day_text(occurred)).decode()},'.encode()
        if not (record[9:12] == b"404" or told in record):
            self.problems.append(f"record {number} is told as {record}, its event is {occurred}")

    def certified(self, tables):
        status, text, line = told_by(("certificate", self.work, 1))
        bodies = {run: body for run, body in (tables or {}).get("certificates", [])}
        if (status, line) == (0, b""):
            if tables is not None and bodies.get(1) != text:
                self.problems.append(f"its certificate is another one than SQLite reads: {text}")
            if text != self.certificate and seal_agrees(text):
                self.problems.append(f"another certificate whose digest agrees: {text}")
            return "the certificate" if text == self.certificate else "a certificate whose digest does not agree"
        if (status, text, line) == (1, b"", b"office: refused 5\n"):
            if tables is not None and 1 in bodies:
                self.problems.append("its certificate is not told")
            return "no such run"
        if (status, text, line) not in FAULTS.values():
            self.problems.append(f"certificate 1 says {status}, {text}, {line}")
        return line.decode(errors="replace").strip()


def mutated(mutator, closed, killed, old, file):
    """Makes a mutated file: what was changed, and whether it is one with a log."""
    kind, is_old = mutator.random.random(), mutator.random.random() < 0.3
    copied(killed if kind < 0.2 else old if is_old else closed, file)
    version = ", version 1" if is_old else ""
    if kind < 0.2:
        log = pathlib.Path(f"{file}-wal")
        mutator.change_bytes(log if mutator.random.random() < 0.6 else file)
        return "bytes of a file with a log", True
    if kind < 0.65:
        mutator.change_bytes(file)
        return f"bytes of a closed file{version}", False
    mutator.change_by_sqlite(file, mutator.change_row if kind < 0.95 else mutator.change_tables)
    return f"{'rows' if kind < 0.95 else 'tables'} of a closed file{version}", False


def mutated_files(random, count, tally):
    """So many mutated files."""
    with tempfile.TemporaryDirectory() as name:
        rooms = [pathlib.Path(name) / it for it in ("closed", "killed", "cases", "old")]
        for room in rooms:
            room.mkdir()
        (closed, certificate), killed, room = closed_office(rooms[0]), killed_office(rooms[1]), rooms[2]
        plain, same = closed_office(rooms[3], is_old=True)
        old = lowered(plain, rooms[3] / "old.db")
        tally.judge("events leave the certificate as it is", same == certificate, f"{same!r}\nand not\n{certificate!r}")
        mutator, schemas = Mutator(random), [sqlite_reads(it, room)[1] for it in (closed, old)]
        for _ in range(count):
            file = room / "case.db"
            kind, has_log = mutated(mutator, closed, killed, old, file)
            case = Case(file, room, has_log, certificate, schemas)
            name = f"{kind}: {case.look(kind.startswith('rows'))}"
            for status in case.contents:
                tally.passed(f"a content of a mutated file: {status}")
            if not case.problems:
                tally.passed(name)
                continue
            log = pathlib.Path(f"{file}-wal")
            tally.differs(name, "\n".join(case.problems), {".db": file, **({".db-wal": log} if log.exists() else {})})
