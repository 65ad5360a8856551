"""The program and its offices: one that is made by a story, and one that is served."""
import json
import os
import pathlib
import socket
import subprocess

from kit.ports import free_port

TOP = pathlib.Path(__file__).resolve().parent.parent.parent
OFFICE = os.environ.get("OFFICE") or str(TOP / "office")
FIRST, LATER, LAST = "2024-01-02", "2025-01-02", "2025-03-04"
LONGEST_WAIT = 120
SCHEDULES = [("D1", "added", 1, "none", "destroy"), ("D2", "origin", 0, "month", "transfer"), ("D3", "closed", 1, "quarter", "review"),
             ("D4", "last-addition", 30, "from-month-7", "keep"), ("D5", "review", 0, "none", "review"), ("D6", "added", 2, "none", "destroy")]


def run(*words):
    """The exit status of the program, and what it printed on both streams."""
    done = subprocess.run([OFFICE, *map(str, words)], stdin=subprocess.DEVNULL, capture_output=True, timeout=LONGEST_WAIT)
    return done.returncode, done.stdout, done.stderr


# ---- a story


def things():
    """Schedules, classes, aggregations and records."""
    for code, trigger, count, offset, action in SCHEDULES:
        yield {"act": "add-schedule", "day": FIRST, "code": code, "trigger": trigger, "unit": "years", "count": count, "offset": offset,
               "action": action}
    for n in range(1, 7):
        yield {"act": "add-class", "day": FIRST, "code": f"FIN{n}", "title": f"Finance {n}", "schedule": f"D{n}"}
    for n in range(1, 9):
        yield {"act": "add-aggregation", "day": FIRST, "ref": f"A/{n}", "title": "Gebühren", "parent": n - 1 or None if n < 5 else None,
               "class": f"FIN{n % 6 + 1}"}
    for n in range(1, 41):
        content = f"bGV0dGVy{'YWJj' * (n * n if n % 9 else 1_500)}"
        yield {"act": "add-record", "day": FIRST, "ref": f"2024/{n}", "title": f"Letter {n}", "originated": "2023-12-31", "aggregation": n % 8 + 1,
               "class": f"FIN{n % 2 + 1}" if n % 3 else None, "schedule": "D6" if n % 10 == 0 else None, "content": content}


def event(record, occurred):
    return {"act": "event", "day": LATER, "record": record, "occurred": occurred, "by": "lessee"}


def events():
    """Three records whose periods begin at their events, of which one has none; events of others, of which the run sends, skips and destroys some."""
    yield {"act": "add-schedule", "day": LATER, "code": "D7", "trigger": "event", "unit": "years", "count": 1, "offset": "none",
           "action": "destroy"}
    for record in (37, 38, 39):
        yield {"act": "set-record-schedule", "day": LATER, "record": record, "schedule": "D7"}
    for record, occurred in ((1, FIRST), (2, LATER), (8, "2023-06-30"), (9, FIRST), (37, FIRST), (38, "2023-06-30")):
        yield event(record, occurred)
    # once another event is in place, the confirmation counts no longer
    yield {"act": "confirm", "day": LATER, "record": 37, "action": "destroy", "by": "registrar"}
    yield event(37, "2024-03-31")


def disposal():
    """Holds, confirmations, closed aggregations, and a run that sends, skips and destroys."""
    for code in ("H-1", "H-2", "H-3"):
        yield {"act": "place-hold", "day": LATER, "code": code, "reason": "a lawsuit", "by": "court"}
    for hold, target in (("H-1", "record:1"), ("H-1", "record:13"), ("H-2", "aggregation:3"), ("H-2", "class:FIN3"), ("H-3", "class:FIN1")):
        yield {"act": "hold-on", "day": LATER, "hold": hold, "target": target}
    yield {"act": "hold-off", "day": LATER, "hold": "H-1", "target": "record:13"}
    yield {"act": "lift-hold", "day": LATER, "hold": "H-3"}
    for record in range(1, 31):
        for action in ("destroy", "transfer"):
            yield {"act": "confirm", "day": LATER, "record": record, "action": action, "by": "registrar"}
    yield {"act": "review", "day": LATER, "record": 36, "schedule": "D1", "by": "registrar"}
    for number in (8, 7, 4):
        yield {"act": "close-aggregation", "day": LATER, "aggregation": number}
    yield {"act": "open-run", "day": LATER, "by": "registrar"}
    yield from [{"act": "run-step"}] * 40


def story(is_old=False):
    """The acts of an office with records, events, holds in force and lifted, and a run that was closed; without events for a file of version 1."""
    return [*things(), *([] if is_old else events()), *disposal()]


def told_story(room, acts, office):
    """The program does acts at a new file, the model the same; the file, or where their answers differ the two."""
    file, listed = room / "office.db", room / "acts.json"
    listed.write_text(json.dumps(acts))
    told = run("apply", file, listed)[1]
    expected = b"".join(json.dumps(office.answer(it), separators=(",", ":"), sort_keys=True).encode() + b"\n" for it in acts)
    return file, (told, expected)


# ---- a service


class Service:
    """A `serve` of so many connections."""

    def __init__(self, file, count):
        self.port = free_port()
        self.process = subprocess.Popen([OFFICE, "serve", str(file), str(self.port), str(count)], stdin=subprocess.DEVNULL,
                                        stdout=subprocess.PIPE, stderr=subprocess.PIPE)
        if self.process.stdout.readline() != f"listening 127.0.0.1:{self.port}\n".encode():
            raise OSError("serve does not listen")

    def __enter__(self):
        return self

    def __exit__(self, *_):
        if self.process.poll() is None:
            self.process.kill()
        self.process.wait()
        self.process.stdout.close()
        self.process.stderr.close()

    def memory(self):
        """Its resident memory, in KB."""
        lines = pathlib.Path(f"/proc/{self.process.pid}/status").read_text().splitlines()
        return next(int(it.split()[1]) for it in lines if it.startswith("VmRSS:"))

    def ask(self, pieces):
        """All bytes that answer those pieces, each of which is sent by itself; then no more is sent. And whether the connection was reset."""
        told, is_reset = [], False
        with socket.socket() as conn:
            conn.settimeout(LONGEST_WAIT)
            conn.connect(("127.0.0.1", self.port))
            conn.setsockopt(socket.IPPROTO_TCP, socket.TCP_NODELAY, 1)
            try:
                for piece in pieces:
                    conn.sendall(piece)
                conn.shutdown(socket.SHUT_WR)
            except OSError:
                is_reset = True
            try:
                while piece := conn.recv(65536):
                    told.append(piece)
            except ConnectionResetError:
                is_reset = True
        return b"".join(told), is_reset

    def ended(self):
        """Its status and what it wrote on standard error, once it has served its count."""
        status = self.process.wait(timeout=LONGEST_WAIT)
        return status, self.process.stderr.read()
