"""Requests at `office serve`: first such as change nothing, whatever they are, and then all kinds, each answer compared with that of the model."""
import collections
import pathlib
import sqlite3
import tempfile

from fuzz.offices import LAST, Service, run, story, told_story
from fuzz.requests import Maker
from fuzz.rules import Office, day_number
from fuzz.wire import Asked

ROUND = 10_000
# at one `serve`, which takes 1,000,000 connections at most
AT_ONCE = 500_000
SAMPLE = 74


class Diverged(Exception):
    """The office and its model stand no longer alike."""


def bytes_of(file):
    """The bytes of an office's file and of its log."""
    return [pathlib.Path(f"{file}{end}").read_bytes() for end in ("", "-wal")]


def begun(room, tally):
    """An office that the story has made, and the model of it."""
    office = Office()
    file, (told, expected) = told_story(room, story(), office)
    tally.judge("a story by apply", told == expected, f"{told!r}\nand not\n{expected!r}")
    return file, office


class Client:
    """Asks a service, and judges what it answers by the model."""

    def __init__(self, random, tally, service, office):
        self.random, self.tally, self.service, self.office = random, tally, service, office
        self.answers = collections.Counter()

    def pieces(self, data):
        """The request, now and then in several pieces."""
        if self.random.random() < 0.9 or len(data) < 2:
            return [data]
        ends = sorted({0, len(data), *(self.random.randrange(len(data)) for _ in range(self.random.randint(1, 3)))})
        return [data[start:end] for start, end in zip(ends, ends[1:])]

    def ask(self, data):
        asked = Asked(data)
        changes, expected = asked.changes(self.office), asked.answered(self.office)
        told, is_reset = self.service.ask(self.pieces(data))
        kind = asked.name() if asked.refused or asked.is_empty else f"{asked.name()} {expected[9:12].decode()}"
        self.answers.update((it["act"], told_of.get("refused")) for it, told_of in zip(asked.acts, asked.answers))
        if told == expected:
            self.tally.passed(kind)
        elif is_reset and asked.leaves_bytes() and expected.startswith(told):
            self.tally.passed("an answer that was lost, since more was sent than is asked for")
        else:
            self.tally.differs(kind, f"told {told!r}\nand not {expected!r}", {".request": data})
            if changes:
                raise Diverged


def sample(random, office):
    """Requests that read some of the office, always as many."""
    last, runs = len(office.records), len(office.runs)
    numbers = [1, last, last + 1, *(random.randint(1, last) for _ in range(30))]
    found = [path % it for it in numbers for path in ("/records/%d", "/records/%d/content")]
    found += [f"/certificates/{it}" for it in (1, runs, runs + 1)] + [f"/due/{it}" for it in (LAST, "2999-12-31")]
    found += [f"/overdue/{it}" for it in (f"{LAST}/0", f"{LAST}/30", "2999-12-31/3650")]
    return [f"GET {path} HTTP/1.1\r\nHost: x\r\n\r\n".encode() for path in found]


def told_memory(count, before, service):
    print(f"memory of serve before and after {count:,} requests: {before:,} and {service.memory():,} KB", flush=True)


def refused_at_once(random, file, maker, count, tally):
    """So many requests of which none can change the office, at one `serve`: file and log before and after them. What the acts among them were answered."""
    with Service(file, count + SAMPLE) as service:
        client = Client(random, tally, service, maker.office)
        before, memory = bytes_of(file), service.memory()
        for _ in range(count):
            data = maker.request()
            while Asked(data).changes(maker.office):
                data = maker.request()
            client.ask(data)
        told_memory(count, memory, service)
        tally.judge("file and log after requests that change nothing", bytes_of(file) == before, "they are not as they were")
        sampled(random, client)
    return client.answers


def only_refused(random, count, tally):
    """So many of them at one office: its file before and after them. What the acts among them were answered."""
    answers = collections.Counter()
    with tempfile.TemporaryDirectory() as name:
        file, office = begun(pathlib.Path(name), tally)
        closed = bytes_of(file)[0]
        maker = Maker(random, office)
        for done in range(0, count, AT_ONCE):
            answers += refused_at_once(random, file, maker, min(AT_ONCE, count - done), tally)
            tally.judge("the file at the end", bytes_of(file)[0] == closed, "it is not as it was")
        tally.judge("init at the end", run("init", file) == (0, b"version 2\n", b""), "it does not open")
    return answers


def sampled(random, client):
    """Asks for some of the office, which are the last connections of a service."""
    for data in sample(random, client.office):
        client.ask(data)
    ended = client.service.ended()
    client.tally.judge("the end of serve", ended == (0, b""), repr(ended))


def records_in(file):
    """What SQLite finds of a file's soundness, how many records it has, and the rows of events, which no answer tells whole."""
    conn = sqlite3.connect(f"file:{file}?mode=ro&immutable=1", uri=True)
    try:
        events = conn.execute("SELECT record, occurred, day, told_by FROM events ORDER BY record").fetchall()
        return conn.execute("PRAGMA integrity_check").fetchone()[0], conn.execute("SELECT count(*) FROM records").fetchone()[0], events
    finally:
        conn.close()


def records_of(office):
    """The same of the model's file."""
    events = [(it["number"], it["event"]) for it in office.records if it["event"]]
    return "ok", len(office.records), [(number, day_number(it["occurred"]), day_number(it["day"]), it["by"]) for number, it in events]


def of_all_kinds(random, count, tally):
    """So many requests of all kinds at a new office: what its file has then, and what another `serve` tells of it. What the acts were answered."""
    with tempfile.TemporaryDirectory() as name:
        file, office = begun(pathlib.Path(name), tally)
        maker = Maker(random, office)
        with Service(file, count + SAMPLE) as service:
            client = Client(random, tally, service, office)
            memory = service.memory()
            for _ in range(count):
                client.ask(maker.request())
            told_memory(count, memory, service)
            state = random.getstate()
            sampled(random, client)
        tally.judge("records and events in the file", records_in(file) == records_of(office), repr(records_in(file)))
        tally.judge("init at the end", run("init", file) == (0, b"version 2\n", b""), "it does not open")
        with Service(file, SAMPLE) as service:
            random.setstate(state)
            client.service = service
            sampled(random, client)
        return client.answers


def rounds(random, count, tally):
    """Requests of all kinds, a new office every so often. What the acts were answered."""
    answers = collections.Counter()
    for done in range(0, count, ROUND):
        try:
            answers += of_all_kinds(random, min(ROUND, count - done), tally)
        except Diverged:
            print("the office and its model stand no longer alike: another office is begun", flush=True)
    return answers
