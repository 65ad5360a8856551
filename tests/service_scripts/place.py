"""Real offices, and the scripts of copies and registers: what the parts of tests/service_scripts share."""
import base64
import hashlib
import json
import os
import pathlib
import re
import subprocess

from kit.commands import OFFICE, SECONDS, TOP
from kit.companions import companion
from kit.office import Office
from kit.waiting import comes

HERE = TOP / "tests"
NOBODY = 65534
FIRST, LAST = "2024-01-02", "2025-01-02"
RECORDS = 20


def run(*words: object, user: int | None = None, umask: int = 0o022, **env: str) -> tuple[int, str, str]:
    """The status of a command, and what it wrote to standard output and standard error."""
    done = subprocess.run([str(it) for it in words], stdin=subprocess.DEVNULL, capture_output=True, user=user,
                          group=user, extra_groups=None if user is None else [], umask=umask, timeout=SECONDS,
                          env={**os.environ, "OFFICE": OFFICE, **env})
    return done.returncode, done.stdout.decode(), done.stderr.decode()


def script(name: str, *words: object, **how) -> tuple[int, str, str]:
    return run(companion(name), *words, **how)


def text_of(number: int) -> bytes:
    return b"MEDICAL-SECRET-%03d " % number * 170


def first_acts() -> list[dict]:
    """An office with records, each with a text of its own."""
    base = {"day": FIRST}
    acts = [{"act": "add-schedule", "code": "D1", "trigger": "added", "unit": "years", "count": 1, "offset": "none",
             "action": "destroy"},
            {"act": "add-class", "code": "FIN", "title": "Finance", "schedule": "D1"},
            {"act": "add-aggregation", "ref": "2020", "title": "A", "class": "FIN"}]
    acts += [{"act": "add-record", "ref": f"r{n}", "title": f"r{n}", "originated": FIRST, "aggregation": 1,
              "content": base64.b64encode(text_of(n)).decode()} for n in range(1, 2 * RECORDS + 1)]
    return [{**it, **base} for it in acts]


def run_acts() -> list[dict]:
    """The first half of the records is confirmed, and a run opened."""
    acts: list[dict] = [{"act": "confirm", "record": n, "action": "destroy"} for n in range(1, RECORDS + 1)]
    return [{**it, "day": LAST, "by": "registrar"} for it in acts + [{"act": "open-run"}]]


def apply(file: pathlib.Path, acts: list[dict], user: int | None = None) -> None:
    there = file.with_suffix(".json")
    there.write_text(json.dumps(acts))
    status, _, error = run(OFFICE, "apply", file, there, user=user)
    there.unlink()
    assert status == 0, error


def made(folder: pathlib.Path, name: str) -> pathlib.Path:
    """An office in a folder of its own that belongs to nobody, with mode 0640."""
    own = folder / name
    own.mkdir(mode=0o755)
    os.chown(own, NOBODY, NOBODY)
    apply(own / "office.db", first_acts())
    for it in own.iterdir():
        os.chown(it, NOBODY, NOBODY)
        it.chmod(0o640)
    return own / "office.db"


class Served(Office):
    """The office in a file, served as its owner."""

    def __init__(self, file: pathlib.Path):
        super().__init__(file, user=NOBODY)

    def status(self, method: str, path: str, body: bytes = b"") -> int:
        """Returns the status of an answer, 0 without one."""
        try:
            return self.ask(method, path, body).status
        except OSError:
            return 0

    def is_paused(self, wanted: bool) -> bool:
        """Waits until it is paused, or until it goes on, and returns whether that came."""
        return comes(lambda: (self.state() == "T") == wanted)


def mode_of(file: pathlib.Path) -> tuple[str, int]:
    found = file.stat()
    return oct(found.st_mode & 0o777), found.st_uid


def sum_of(file: pathlib.Path) -> str:
    """The checksum of FILE and its log as they are; each opening writes a new head into the log."""
    log = pathlib.Path(f"{file}-wal")
    both = file.read_bytes() + b"|" + (log.read_bytes() if log.exists() else b"")
    return hashlib.sha256(both).hexdigest()


def texts_in(file: pathlib.Path) -> int:
    """How many texts of the records that a run destroyed are found in a file."""
    found = {int(it) for it in re.findall(rb"MEDICAL-SECRET-([0-9]{3}) ", file.read_bytes())}
    return len([it for it in found if it <= RECORDS])


def counted(file: pathlib.Path, table: str) -> str:
    return run("sqlite3", f"file:{file}?immutable=1", f"SELECT count(*) FROM {table}")[1].strip()


def path_with(folder: pathlib.Path, name: str, lines: str) -> str:
    """A PATH on which one tool is another one."""
    folder.mkdir(exist_ok=True)
    tool = folder / name
    tool.write_text(f"#!/bin/sh\n{lines}\n")
    tool.chmod(0o755)
    return f"{folder}:{os.environ['PATH']}"
