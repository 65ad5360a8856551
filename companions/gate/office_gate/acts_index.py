"""The acts of the journal by the things that they are about: a file beside it, made anew if it is lost or not of it."""
import json
import os
import re
import sqlite3
import threading
from collections.abc import Iterator
from dataclasses import dataclass, field
from pathlib import Path

from office_gate.act_things import changes_of, made_by, members_of, things_of
from office_gate.body import Json, text_of
from office_gate.catching import number_of
from office_gate.chain import START, Head, Line, digest, entry_of, files_of, lines_of
from office_gate.derived import open_derived
from office_gate.words import ACTS, RESUME

TABLES = """
CREATE TABLE IF NOT EXISTS folded (one INTEGER PRIMARY KEY CHECK (one = 1), line INTEGER, sha256 TEXT, file INTEGER,
    place INTEGER);
CREATE TABLE IF NOT EXISTS requests (line INTEGER PRIMARY KEY, at TEXT, ended TEXT, name TEXT, reason TEXT,
    status INTEGER, known INTEGER);
CREATE INDEX IF NOT EXISTS at_end ON requests(ended);
CREATE INDEX IF NOT EXISTS of_name ON requests(name, line);
CREATE TABLE IF NOT EXISTS acts (line INTEGER, place INTEGER, kind TEXT, act TEXT, answer TEXT, done INTEGER,
    change TEXT, PRIMARY KEY (line, place)) WITHOUT ROWID;
CREATE TABLE IF NOT EXISTS things (thing TEXT, line INTEGER, place INTEGER,
    PRIMARY KEY (thing, line, place)) WITHOUT ROWID;
CREATE TABLE IF NOT EXISTS given (thing TEXT, name TEXT, value TEXT, PRIMARY KEY (thing, name)) WITHOUT ROWID;
"""
OTHER = re.compile(rb'\{"before":"[0-9a-f]{64}","line":\d+,"at":"[^"]*","what":"(?:read|put|opened|closed|settings)"')
"""lines of which no history has anything"""
EACH = 2000
"""after so many lines what was read of them is kept"""
MOST_LINE = 1 << 23
"""no line is longer: a request has at most 1 MiB, and a byte of it is at most six letters of JSON"""
DENIAL = ("error", "place", "rule")
"""why an office that decides too stopped a list, and at which act: those from there on were not done"""
OPEN_RUN = "run that is open"
COLUMNS = "line, place, at, name, reason, status, known, kind, act, answer, done, change"


@dataclass(frozen=True)
class Row:
    """One act of one request."""

    line: int
    place: int
    at: str
    name: str
    reason: str | None
    status: int | None
    known: bool
    kind: str
    act: Json
    answer: object
    done: bool
    change: Json = field(default_factory=dict)


def row_of(values: tuple[object, ...]) -> Row:
    line, place, at, name, reason, status, known, kind, act, answer, done, change = values
    return Row(int(str(line)), int(str(place)), str(at), str(name), None if reason is None else str(reason),
               None if status is None else int(str(status)), bool(known), str(kind), json.loads(str(act)),
               None if answer is None else json.loads(str(answer)), bool(done),
               {} if change is None else json.loads(str(change)))


def opened(path: Path) -> sqlite3.Connection:
    db = sqlite3.connect(path, isolation_level=None, check_same_thread=False)
    db.executescript("PRAGMA journal_mode = WAL; PRAGMA synchronous = NORMAL;" + TABLES)
    if db.execute("PRAGMA quick_check(1)").fetchone() != ("ok",):
        raise sqlite3.DatabaseError("its pages are damaged")
    return db


def is_at(path: Path, place: int, head: Head) -> bool:
    """Returns whether that line of a file ends at that place."""
    with path.open("rb") as file:
        file.seek(max(0, place - MOST_LINE))
        data = file.read(min(place, MOST_LINE))
    return data.endswith(b"\n") and digest(data[:-1].rpartition(b"\n")[2]) == head.sha256


class ActsIndex:
    """The tables, and the place in the journal up to which they have all. One thread uses them at a time."""

    def __init__(self, path: Path, journal: Path) -> None:
        self.journal, self.using, self.is_ended = journal, threading.Lock(), False
        self.db = open_derived(path, opened)

    # ---- reading the journal

    def catch_up(self) -> None:
        """Takes the lines that the journal has since."""
        with self.using:
            try:
                self.take_new()
            except BaseException:
                if self.db.in_transaction:
                    self.db.execute("ROLLBACK")
                raise

    def end(self) -> None:
        """Has a long reading of the journal end soon, at a place from which the next one goes on."""
        self.is_ended = True

    def take_new(self) -> None:
        count = 0
        self.db.execute("BEGIN")
        for line, file, place in self.new_lines():
            count += 1
            if OTHER.match(line.data) is None and (entry := entry_of(line)):
                self.fold(entry)
            if count % EACH == 0:
                self.keep(line, file, place)
                self.db.execute("BEGIN")
                if self.is_ended:
                    break
        if count:
            self.keep(line, file, place)
        if self.db.in_transaction:
            self.db.execute("COMMIT")

    def keep(self, line: Line, file: int, place: int) -> None:
        """Notes up to where the journal was read."""
        self.db.execute("INSERT OR REPLACE INTO folded VALUES (1, ?, ?, ?, ?)",
                        (number_of(line), digest(line.data), file, place))
        self.db.execute("COMMIT")

    def new_lines(self) -> Iterator[tuple[Line, int, int]]:
        """Gives each whole line after the last one, with its file and the place of its end there."""
        files = files_of(self.journal)
        head, file, place = self.folded()
        at = next((it for it, path in enumerate(files) if path.stat().st_ino == file), None)
        if head.line and (at is None or not is_at(files[at], place, head)):
            at, place = self.locate(files, head)
        for path in files[at or 0:]:
            yield from self.lines_from(path, place if path == files[at or 0] else 0)

    def lines_from(self, path: Path, place: int) -> Iterator[tuple[Line, int, int]]:
        with path.open("rb") as opened_file:
            file = os.fstat(opened_file.fileno()).st_ino
            opened_file.seek(place)
            for data in opened_file:
                place += len(data)
                line = Line(path, place, data.removesuffix(b"\n"), data.endswith(b"\n"))
                if line.is_whole and number_of(line):
                    yield line, file, place

    def folded(self) -> tuple[Head, int, int]:
        row = self.db.execute("SELECT line, sha256, file, place FROM folded").fetchone()
        return (Head(row[0], row[1]), row[2], row[3]) if row else (START, 0, 0)

    def locate(self, files: list[Path], head: Head) -> tuple[int, int]:
        """Looks for the last line that was read, as in files that were copied. If it is nowhere, all is read anew."""
        for at, path in enumerate(files):
            place = 0
            for line in lines_of(path):
                place += len(line.data) + 1
                if number_of(line) == head.line and digest(line.data) == head.sha256:
                    return at, place
        # older files may have been put away: then the first line that is there names that one
        first = next((entry for path in files[:1] for line in lines_of(path) if (entry := entry_of(line))), None)
        if first and (int(first["line"]) - 1, first["before"]) == (head.line, head.sha256):
            return 0, 0
        for table in ("folded", "requests", "acts", "things", "given"):
            self.db.execute(f"DELETE FROM {table}")
        return 0, 0

    # ---- folding

    def fold(self, entry: Json) -> None:
        what = entry.get("what")
        if what in ("asked", "refused"):
            self.take_request(entry, what == "refused")
        elif what == "answered":
            self.answered(entry)

    def take_request(self, entry: Json, is_refused: bool) -> None:
        """Takes the acts of a request. What the gate refused has its answer in the same line."""
        line, reason = int(entry["line"]), entry.get("reason")
        kinds = [it for it in entry.get("acts") or [] if isinstance(it, dict) and it.get("act") in ACTS]
        acts = [{"act": RESUME}] if entry.get("request") == "POST /run/resume" else kinds
        if not acts:
            return
        status = int(entry.get("status", 0)) if is_refused else None
        self.db.execute("INSERT OR REPLACE INTO requests VALUES (?, ?, ?, ?, ?, ?, 1)",
                        (line, entry["at"], entry["at"] if is_refused else None, str(entry.get("name", "")), reason,
                         status))
        answer = text_of(entry.get("answer")) if is_refused else None
        for place, act in enumerate(acts):
            self.db.execute("INSERT OR REPLACE INTO acts VALUES (?, ?, ?, ?, ?, 0, NULL)",
                            (line, place, act["act"], text_of(members_of(act)), answer))
            self.note(line, place, things_of(act))

    def note(self, line: int, place: int, things: set[str]) -> None:
        self.db.executemany("INSERT OR IGNORE INTO things VALUES (?, ?, ?)", [(it, line, place) for it in things])

    def answered(self, entry: Json) -> None:
        """Takes the answers to a request's acts, each of which was done unless it was refused."""
        line, known = int(entry["of"]), bool(entry.get("known", True))
        self.db.execute("UPDATE requests SET ended = ?, status = ?, known = ? WHERE line = ?",
                        (entry["at"], int(entry.get("status", 0)), known, line))
        answers = entry.get("answers") if "answers" in entry else [entry.get("answer")]
        denial = {name: entry[name] for name in DENIAL} if all(name in entry for name in DENIAL) else None
        rows = self.db.execute("SELECT place, kind, act FROM acts WHERE line = ? ORDER BY place", (line,)).fetchall()
        for place, kind, text in rows:
            act = {"act": kind, **json.loads(text)}
            answer = answers[place] if isinstance(answers, list) and place < len(answers) else denial
            if isinstance(answer, dict):
                self.answer(line, place, act, answer)
            elif not known:
                self.forget(act)

    def answer(self, line: int, place: int, act: Json, answer: Json) -> None:
        kind, done = act["act"], "refused" not in answer and "error" not in answer
        change = self.change(act, answer) if done else None
        self.db.execute("UPDATE acts SET answer = ?, done = ?, change = ? WHERE line = ? AND place = ?",
                        (text_of(answer), done, change and text_of(change), line, place))
        if not done:
            return
        things = made_by(kind, answer)
        if kind == "open-run":
            self.give(OPEN_RUN, "run", next(iter(things), None))
        elif kind in ("run-step", RESUME):
            things |= {it for it in (self.given(OPEN_RUN, "run") or {}).values() if it}
            if "certificate" in answer:
                self.give(OPEN_RUN, "run", None)
        self.note(line, place, things)

    def change(self, act: Json, answer: Json) -> Json | None:
        """Returns what an act changed, with the value before if the journal has it, and notes the new one."""
        changes: list[Json] = []
        for change in changes_of(act, answer):
            before = self.given(change.thing, change.name)
            past = {"from": before[change.name]} if before else {}
            changes.append({"what": change.name, **past, "to": change.value})
            self.give(change.thing, change.name, change.value)
        is_made = act["act"].startswith("add-")
        return None if is_made or not changes else changes[0]

    def given(self, thing: str, name: str) -> dict[str, str | None] | None:
        row = self.db.execute("SELECT value FROM given WHERE thing = ? AND name = ?", (thing, name)).fetchone()
        return {name: row[0]} if row else None

    def give(self, thing: str, name: str, value: str | None) -> None:
        self.db.execute("INSERT OR REPLACE INTO given VALUES (?, ?, ?)", (thing, name, value))

    def forget(self, act: Json) -> None:
        """Forgets the values that an act may have changed, of which nobody knows whether it was done."""
        for change in changes_of(act, {}):
            self.db.execute("DELETE FROM given WHERE thing = ? AND name = ?", (change.thing, change.name))

    # ---- what is known

    def rows(self, query: str, values: tuple[object, ...]) -> list[Row]:
        with self.using:
            return [row_of(it) for it in self.db.execute(f"SELECT {COLUMNS} FROM {query}", values).fetchall()]

    def about(self, things: list[str], before: tuple[int, int], most: int) -> list[Row]:
        """Lists the newest acts on these things, from that place on backwards."""
        marks = ", ".join("?" * len(things))
        return self.rows(f"(SELECT DISTINCT line, place FROM things WHERE thing IN ({marks}) AND (line, place) <= "
                         "(?, ?) ORDER BY line DESC, place DESC LIMIT ?) JOIN acts USING (line, place) JOIN requests "
                         "USING (line) ORDER BY line DESC, place DESC", (*things, *before, most))

    def of_name(self, name: str, before: tuple[int, int], most: int) -> list[Row]:
        """Lists the newest acts of a name in the same way."""
        return self.rows("requests JOIN acts USING (line) WHERE name = ? AND (line, place) <= (?, ?) "
                         "ORDER BY line DESC, place DESC LIMIT ?", (name, *before, most))

    def since(self, at: str, after: tuple[int, int], most: int) -> list[Row]:
        """Lists the acts whose answer came at a moment or later, and after a place, the oldest first."""
        return self.rows("requests JOIN acts USING (line) WHERE ended >= ? AND (line, place) > (?, ?) AND done "
                         "ORDER BY line, place LIMIT ?", (at, *after, most))

    def begins(self) -> str | None:
        """Returns the moment of the first act that the journal has."""
        with self.using:
            row = self.db.execute("SELECT at FROM requests ORDER BY line LIMIT 1").fetchone()
        return str(row[0]) if row else None

    def moved(self, at: str) -> tuple[int, set[str]]:
        """Returns the targets that may have another class since a moment, and the line of the last such act."""
        with self.using:
            rows = self.db.execute("SELECT line, thing FROM requests JOIN acts USING (line) JOIN things USING "
                                   "(line, place) WHERE (ended >= ? OR ended IS NULL) AND kind = 'reclassify' AND "
                                   "(done OR NOT known OR ended IS NULL)", (at,)).fetchall()
        return max((line for line, _ in rows), default=0), {thing for _, thing in rows}
