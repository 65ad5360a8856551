"""Memory: an office of many records leaves and comes back within a bound that does not grow with them."""
from __future__ import annotations

import hashlib
import os
import pathlib
import re
import sqlite3
import subprocess
import time

from kit.commands import OFFICE
from kit.companions import companion
from kit.judging import judge, same
from place import digest, files_in, rows, unjudging

RECORDS = int(os.environ.get("RECORDS", "20000"))
MOST = 48 << 10
"""kilobytes of the process that exports or imports, beside the longest certificate; Python alone takes some 20,000"""


def peak(*command: object, **env: str) -> tuple[int, int, str]:
    """Runs a command. Returns its status, the most kilobytes of its own process, and its errors."""
    process = subprocess.Popen([str(each) for each in command], stdout=subprocess.DEVNULL, stderr=subprocess.PIPE,
                               env={**os.environ, "OFFICE": OFFICE, **env})
    most = 0
    while process.poll() is None:
        try:
            found = re.search(r"VmHWM:\s+(\d+) kB", pathlib.Path(f"/proc/{process.pid}/status").read_text())
        except OSError:
            found = None
        most = max(most, int(found[1]) if found else 0)
        time.sleep(0.01)
    assert process.stderr
    return process.returncode, most, process.stderr.read().decode()


def filled(file: pathlib.Path, program: str, count: int) -> pathlib.Path:
    """Makes an office of `count` records by SQL: one run ended half of them."""
    subprocess.run([program, "init", file], check=True, stdout=subprocess.DEVNULL)
    base = sqlite3.connect(file)
    base.execute("UPDATE office SET day = 15000")
    base.execute("INSERT INTO schedules2 VALUES ('S', 'added', 'days', 0, 'none', 'destroy')")
    base.execute("INSERT INTO classes VALUES ('C', 'Class', 'S')")
    base.execute("INSERT INTO aggregations VALUES (1, 'A', 'All', NULL, 'C', NULL)")
    base.execute("INSERT INTO runs VALUES (1, 15000, 'R', ?, 1)", (count,))
    lines = ["CERTIFICATE 1", "DAY 2011-01-26", "BY R", f"ENDED {count // 2}", "SENT 0", "SKIPPED 0"]
    for number in range(1, count + 1):
        content, is_ended = f"content {number}".encode() * 40, number % 2 == 0
        sha256 = hashlib.sha256(content).hexdigest()
        conf = ("destroy", 14000, 15000, "P") if is_ended else (None,) * 4
        base.execute(f"INSERT INTO records VALUES ({', '.join('?' * 19)})", (
            number, f"ref/{number}", f"Title of record {number}", 13000, 14000, 1, len(content), sha256,
            "ended" if is_ended else "here", None, None, None, None, *conf, None, None))
        if is_ended:
            base.execute("INSERT INTO entries VALUES (1, ?, 'destroyed', 'C', 'S', 14000, 'P', NULL)", (number,))
            lines.append(f"ENTRY\t{number}\tdestroyed\tref/{number}\tC\tS\t2008-05-01\t-\tP\t{len(content)}\t{sha256}")
        else:
            base.execute("INSERT INTO contents VALUES (?, ?)", (number, content))
    text = "".join(f"{line}\n" for line in [*lines, "SPENT 0"])
    base.execute("INSERT INTO certificates VALUES (1, ?)", (f"{text}SHA256 {digest(text.encode())}\n",))
    base.commit()
    base.close()
    return file


def many(folder: pathlib.Path) -> None:
    program = unjudging(folder)
    done = subprocess.run([OFFICE, "init", filled(folder / "few.db", program, 20)], capture_output=True, check=False)
    judge("the program opens such an office", done.returncode == 0, done)
    file, bag, again = filled(folder / "many.db", program, RECORDS), folder / "bag", folder / "back.db"
    with sqlite3.connect(file) as base:
        longest, = base.execute("SELECT max(length(body)) >> 10 FROM certificates").fetchone()
    base.close()
    began = time.monotonic()
    status, most, error = peak(companion("office-export"), file, bag)
    judge(f"{RECORDS} records leave", status == 0, error)
    judge("within the memory that is allowed", 0 < most <= MOST, f"{most} KB, {time.monotonic() - began:.0f} seconds", always=True)
    began = time.monotonic()
    status, most, error = peak(companion("office-import"), bag, again, OFFICE=program)
    judge(f"{RECORDS} records come back", status == 0, error)
    judge("within the memory that is allowed, too", 0 < most <= MOST + 2 * longest, f"{most} KB, {time.monotonic() - began:.0f} seconds", always=True)
    same("its rows", digest(repr(rows(again)).encode()), digest(repr(rows(file)).encode()))
    judge("each content is a file", len(files_in(bag / "data/contents")) == (RECORDS + 1) // 2)
