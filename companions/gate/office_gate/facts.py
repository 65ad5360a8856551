"""What the gate knows from its journal: who did what to which thing, who opened the run, and aggregations of today.

All of it is derived. The file is made anew from the journal if it is lost, or was made from another one.
"""
import datetime
import re
import sqlite3
import time
from pathlib import Path

from office_gate.body import Json, number_in
from office_gate.catalogue import Aggregations
from office_gate.chain import Head
from office_gate.derived import open_derived
from office_gate.possession import Files
from office_gate.scopes import text
from office_gate.words import GIVES, OF_RECORD

TABLES = """
CREATE TABLE IF NOT EXISTS folded (one INTEGER PRIMARY KEY CHECK (one = 1), line INTEGER, sha256 TEXT);
CREATE TABLE IF NOT EXISTS touches (line INTEGER, at REAL, name TEXT, kind TEXT, thing TEXT);
CREATE INDEX IF NOT EXISTS of_thing ON touches(thing);
CREATE INDEX IF NOT EXISTS of_name ON touches(name, at);
CREATE TABLE IF NOT EXISTS aggregations (line INTEGER, place INTEGER, at REAL, kind TEXT, number INTEGER,
    parent INTEGER, class TEXT, PRIMARY KEY (line, place));
CREATE TABLE IF NOT EXISTS runs (line INTEGER, place INTEGER, name TEXT, number INTEGER, PRIMARY KEY (line, place));
CREATE TABLE IF NOT EXISTS parts (line INTEGER, place INTEGER, name TEXT, run INTEGER, PRIMARY KEY (line, place));
CREATE TABLE IF NOT EXISTS closed (one INTEGER PRIMARY KEY CHECK (one = 1), line INTEGER, at REAL);
CREATE TABLE IF NOT EXISTS days (one INTEGER PRIMARY KEY CHECK (one = 1), day TEXT);
"""
VERSION = 3
"""of these tables, and of what is noted in them; what another gate noted is made anew from the journal"""
MARGIN = 120.0
"""so many seconds before its moment the journal is read on from a catalogue: what is done twice makes no difference"""
AGGREGATION = re.compile("aggregation:([1-9][0-9]{0,9})")
NONE_OPEN = "18"
"""the refusal that says that no run is open"""
DAY_BACK = "1"
"""the refusal of a day before that of the office"""


def is_none_open(answer: object) -> bool:
    return isinstance(answer, dict) and str(answer.get("refused")) == NONE_OPEN


def answer_at(answers: object, place: int) -> Json | None:
    """Returns the answer to an act, or None if there is none."""
    answer = answers[place] if isinstance(answers, list) and place < len(answers) else None
    return answer if isinstance(answer, dict) else None


def thing_of(act: Json) -> str | None:
    """Names what an act that decides about disposal is about."""
    kind = act["act"]
    if kind in OF_RECORD:
        number = number_in(act, "record")
        return None if number is None else f"record:{number}"
    if kind == "reclassify":
        return str(act.get("target"))
    if kind == "set-class-schedule":
        return f"class:{act.get('class')}"
    if kind == "close-aggregation":
        number = number_in(act, "aggregation")
        return None if number is None else f"aggregation:{number}"
    return None


def is_early(act: Json) -> bool:
    """Reports whether a record is filed with a day of origin before the day of the act, from which its period may begin."""
    return act["act"] == "add-record" and str(act.get("originated")) < str(act.get("day"))


def made_with(act: Json, number: object) -> str | None:
    """Names what an act made, if it gave it a schedule or a class of its own, or an early day of origin."""
    kind, own = act["act"], (act.get("class"), act.get("schedule"))
    if kind == "add-class":
        return f"class:{act.get('code')}"
    is_own = own != (None, None) or is_early(act)
    if kind in ("add-record", "add-aggregation") and number is not None and is_own:
        return f"{kind.removeprefix('add-')}:{number}"
    return None


def certificate_in(answer: object) -> int | None:
    """Returns the number of the run that an answer says was closed."""
    number = answer.get("certificate") if isinstance(answer, dict) else None
    return number if type(number) is int else None


def opened(path: Path) -> sqlite3.Connection:
    db = sqlite3.connect(path, isolation_level=None)
    db.executescript("PRAGMA journal_mode = WAL; PRAGMA synchronous = NORMAL;")
    is_new = not db.execute("SELECT count(*) FROM sqlite_schema").fetchone()[0]
    if not is_new and db.execute("PRAGMA user_version").fetchone() != (VERSION,):
        raise sqlite3.DatabaseError("it was made by another version of the gate")
    db.executescript(f"PRAGMA user_version = {VERSION};" + TABLES)
    if db.execute("PRAGMA quick_check(1)").fetchone() != ("ok",):
        raise sqlite3.DatabaseError("its pages are damaged")
    return db


class Facts:
    """The tables, in a file beside the journal."""

    def __init__(self, path: Path) -> None:
        # what does not change any more, once the office has reported it: what a run sent, and what a run ended
        self.sent: dict[int, frozenset[int]] = {}
        self.gone: set[int] = set()
        self.db = open_derived(path, opened)
        self.files = Files(self.db)
        if self.files.is_new:
            # the journal has lines that an older gate did not take
            self.forget()

    def folded(self) -> Head | None:
        row = self.db.execute("SELECT line, sha256 FROM folded").fetchone()
        return Head(*row) if row else None

    def forget(self) -> None:
        for table in ("folded", "touches", "aggregations", "runs", "parts", "closed", "days"):
            self.db.execute(f"DELETE FROM {table}")
        self.files.forget()

    def begin(self) -> None:
        self.db.execute("BEGIN")

    def commit(self, head: Head) -> None:
        self.db.execute("INSERT OR REPLACE INTO folded VALUES (1, ?, ?)", (head.line, head.sha256))
        self.db.execute("COMMIT")

    def undo(self) -> None:
        if self.db.in_transaction:
            self.db.execute("ROLLBACK")

    # ---- folding

    def fold(self, request: Json, response: Json, line: int, at: float) -> None:
        """Takes what a request did, or may have done, of its two lines."""
        if response.get("repeated"):
            # a member gave the answer of an earlier request: nothing was done now
            return
        name, answers = str(request["name"]), response.get("answers")
        if request["request"] == "POST /run/resume":
            self.stepped(response.get("answer"), name, (line, 0, at), bool(response.get("known", True)))
            return
        self.files.fold(request, answers)
        for place, act in enumerate(request.get("acts") or []):
            answer = answer_at(answers, place)
            if answer is None and response.get("known", True):
                continue
            if answer is not None:
                self.note_day(act.get("day"), answer)
            if act["act"] == "run-step":
                self.stepped(answer, name, (line, place, at), answer is not None)
            elif answer is None or "refused" not in answer:
                self.done(act, answer, name, (line, place, at))

    def stepped(self, answer: object, name: str, where: tuple[int, int, float], is_known: bool) -> None:
        """Takes a step of a run, or the carrying out of one to its end."""
        line, _, at = where
        number = certificate_in(answer)
        if number is not None or not is_known or isinstance(answer, dict) and "outcome" in answer:
            self.took_part(where, name, None)
        if number is not None or is_none_open(answer):
            self.closed(number, line, at)

    def done(self, act: Json, answer: Json | None, name: str, where: tuple[int, int, float]) -> None:
        kind, (line, place, at) = act["act"], where
        number = answer.get("number") if answer else None
        thing = thing_of(act) or made_with(act, number)
        if thing is not None:
            # of what nobody knows the kind has a mark
            self.db.execute("INSERT INTO touches VALUES (?, ?, ?, ?, ?)",
                            (line, at, name, kind if answer else f"{kind}?", thing))
        if kind == "add-aggregation" and number is not None:
            self.note(where, kind, int(number), act)
        elif kind == "reclassify" and (found := AGGREGATION.fullmatch(str(act.get("target")))):
            self.note(where, kind if answer else "unknown", int(found[1]), act)
        elif kind == "open-run":
            if answer:
                # the office opens none while another is open
                self.db.execute("DELETE FROM runs")
            run = None if number is None else int(number)
            self.db.execute("INSERT OR REPLACE INTO runs VALUES (?, ?, ?, ?)", (line, place, name, run))
            self.took_part(where, name, run)

    def note(self, where: tuple[int, int, float], kind: str, number: int, act: Json) -> None:
        line, place, at = where
        self.db.execute("INSERT OR REPLACE INTO aggregations VALUES (?, ?, ?, ?, ?, ?, ?)",
                        (line, place, at, kind, number, number_in(act, "parent"), text(act.get("class"))))

    def note_day(self, text: object, answer: Json) -> None:
        """Notes the office's day as an answer shows it: that of an act that was done, or a later one than it refused."""
        try:
            day = datetime.date.fromisoformat(str(text))
            if str(answer.get("refused")) == DAY_BACK:
                day = max(day + datetime.timedelta(1), datetime.date.fromisoformat(self.office_day() or str(day)))
            elif "refused" in answer:
                return
        except (ValueError, OverflowError):
            return
        if day.isoformat() != self.office_day():
            self.db.execute("INSERT OR REPLACE INTO days VALUES (1, ?)", (day.isoformat(),))

    def office_day(self) -> str:
        """Returns the office's day as far as the journal shows it: the latest day of an act; nothing if it shows none."""
        row = self.db.execute("SELECT day FROM days").fetchone()
        return str(row[0]) if row else ""

    def took_part(self, where: tuple[int, int, float], name: str, run: int | None) -> None:
        """Notes who opened a run, or carried out a part of it. Without a number it is the run that is closed next."""
        line, place, _ = where
        self.db.execute("INSERT OR REPLACE INTO parts VALUES (?, ?, ?, ?)", (line, place, name, run))

    def closed(self, number: int | None, line: int | None = None, at: float = 0.0) -> None:
        """Takes that a run was closed: that of the number with those before it, or else all that are known."""
        if number is None:
            number = self.db.execute("SELECT max(number) FROM runs").fetchone()[0]
            self.db.execute("DELETE FROM runs")
        self.db.execute("DELETE FROM runs WHERE number IS NULL OR number <= ?", (number,))
        self.db.execute("UPDATE parts SET run = ? WHERE run IS NULL", (number,))
        if line is not None:
            self.db.execute("INSERT OR REPLACE INTO closed VALUES (1, ?, ?)", (line, at))

    # ---- what is known

    def extend(self, base: Aggregations) -> None:
        """Brings the aggregations of a catalogue up to now."""
        rows = self.db.execute("SELECT line, kind, number, parent, class FROM aggregations WHERE line > ? AND at > ? "
                               "ORDER BY line, place", (base.line, base.moment - MARGIN))
        for line, kind, number, parent, code in rows:
            base.line = line
            if kind == "add-aggregation":
                base.add(number, parent, code)
            elif kind == "unknown":
                base.parents.pop(number, None)
            elif number in base.parents:
                base.classes[number] = code

    def opened(self) -> list[tuple[str, int | None]]:
        """Lists who opened the run that is open, as far as the journal says, and its number."""
        return self.db.execute("SELECT name, number FROM runs").fetchall()

    def closed_at(self) -> float:
        """Returns when the office last answered that a run was closed, or that none was open."""
        row = self.db.execute("SELECT at FROM closed").fetchone()
        return float(row[0]) if row else 0.0

    def parts(self, name: str) -> set[int | None]:
        """Lists the runs that a name opened or carried out. None is a run that is not known to be closed."""
        return {run for (run,) in self.db.execute(
            "SELECT DISTINCT CASE WHEN run IN (SELECT number FROM runs) THEN NULL ELSE run END FROM parts WHERE name = ?",
            (name,))}

    def received(self, name: str) -> list[int]:
        """Lists the records of which a name filed a receipt, or may have, but for those that are known to be ended."""
        rows = self.db.execute("SELECT DISTINCT thing FROM touches WHERE name = ? AND kind IN ('receipt', 'receipt?')",
                               (name,))
        return sorted({int(thing.removeprefix("record:")) for (thing,) in rows} - self.gone, reverse=True)

    def confirmers(self, record: int) -> set[str]:
        """Returns who confirmed a record last; more than one name if nobody knows whose was the last."""
        names: set[str] = set()
        for name, kind in self.db.execute("SELECT name, kind FROM touches WHERE thing = ? AND kind IN ('confirm', "
                                          "'confirm?') ORDER BY line DESC", (f"record:{record}",)):
            names.add(name)
            if kind == "confirm":
                break
        return names

    def confirmed(self, name: str) -> set[str]:
        """Lists what a name confirmed, or may have."""
        return {thing for (thing,) in self.db.execute("SELECT DISTINCT thing FROM touches WHERE name = ? AND kind IN "
                                                      "('confirm', 'confirm?')", (name,))}

    def touched(self, name: str, days: int) -> set[str]:
        """Lists what a name gave a schedule or a class within so many days."""
        rows = self.db.execute("SELECT DISTINCT rtrim(kind, '?'), thing FROM touches WHERE name = ? AND at > ?",
                               (name, time.time() - days * 86400))
        return {thing for kind, thing in rows if kind in GIVES}
