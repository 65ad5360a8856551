"""What `doctor` finds: an office that is well, and one thing wrong after another."""
from __future__ import annotations

import contextlib
import datetime
import hashlib
import http.server
import json
import os
import pathlib
import re
import shutil
import socket
import sqlite3
import ssl
import threading
import time
from collections.abc import Callable, Iterator
from zoneinfo import ZoneInfo

from kit.commands import TOP, run
from kit.judging import judge, same
from kit.ports import free_port
from setup_trial.room import SITE, Room, set_log

COPIES = "/var/lib/office-backups/city"
CERTIFICATES, SEALS = "/var/lib/office-certificates/city", "/var/lib/office-seals/city/000001"
DAY = 86_400


@contextlib.contextmanager
def answering(room: Room, port: int, status: int) -> Iterator[None]:
    """Answers HTTPS with the certificate of the machine and a status, in the place of nginx."""
    class Answer(http.server.BaseHTTPRequestHandler):
        """The answer to each request."""

        def do_GET(self) -> None:
            self.send_response(status)
            self.send_header("Content-Length", "0")
            self.end_headers()

        def log_message(self, *_: object) -> None:
            pass
    context = ssl.SSLContext(ssl.PROTOCOL_TLS_SERVER)
    context.load_cert_chain(room.at("/etc/nginx/office/office.crt"), room.at("/etc/nginx/office/office.key"))
    with http.server.ThreadingHTTPServer(("127.0.0.1", port), Answer) as server:
        server.socket = context.wrap_socket(server.socket, server_side=True)
        threading.Thread(target=server.serve_forever, daemon=True).start()
        yield
        server.shutdown()


def name_of(hours: float) -> str:
    """Returns the name of a copy of so many hours ago."""
    return time.strftime("%Y%m%dT%H%M%SZ.db", time.gmtime(time.time() - hours * 3600))


def make_well(room: Room) -> None:
    """Makes the office one in which nothing is wrong, as far as a folder can."""
    room.change("/etc/office/city.toml", "#elsewhere = false", "elsewhere = true")
    room.put(f"{COPIES}/{name_of(1)}", "")
    certificate = room.put(f"{CERTIFICATES}/certificate-1.txt", "CERTIFICATE 1\n")
    room.put(f"{SEALS}/certificate-1.txt", "CERTIFICATE 1\n")
    os.utime(certificate, (time.time() - 2 * DAY, time.time() - 2 * DAY))
    write_journal(room, journal_lines())


def rename_copy(room: Room, hours: float) -> None:
    copy = next(iter(room.at(COPIES).iterdir()))
    copy.rename(copy.with_name(name_of(hours)))


def journal_lines() -> str:
    """Returns two lines of a journal, each with the digest of the one before."""
    first = json.dumps({"before": "0" * 64, "line": 1, "at": "2026-11-28T16:21:47.083841+00:00", "what": "settings"})
    second = json.dumps({"before": hashlib.sha256(first.encode()).hexdigest(), "line": 2,
                         "at": "2026-11-28T16:21:48.083841+00:00", "what": "settings"})
    return f"{first}\n{second}\n"


def write_journal(room: Room, text: str) -> None:
    """Writes the journal anew, which can only be appended to."""
    journal = room.at("/var/log/office/city.journal")
    set_log(journal, False)
    journal.write_text(text)
    set_log(journal, True)


def shorten_certificate(room: Room) -> None:
    """Gives the site a certificate that ends within a month."""
    run("openssl", "req", "-x509", "-newkey", "ec", "-pkeyopt", "ec_paramgen_curve:P-256", "-nodes", "-days", "20", "-subj",
        f"/CN={SITE}", "-addext", f"subjectAltName=DNS:{SITE}", "-keyout", room.at("/etc/nginx/office/office.key"),
        "-out", room.at("/etc/nginx/office/office.crt"))


def judge_each(room: Room, port: int) -> None:
    """One thing after another is wrong, and is the only new line that says so."""
    seal = room.at(f"{SEALS}/certificate-1.txt")
    steps: list[tuple[str, Callable[[], object], str]] = [
        ("a copy of the day before yesterday", lambda: rename_copy(room, 50), "city: the newest copy is 50 hours old"),
        ("a copy of tomorrow", lambda: rename_copy(room, -30), "city: the newest copy is -30 hours old"),
        ("no copy", lambda: next(iter(room.at(COPIES).iterdir())).unlink(), "city: there is no copy"),
        ("a certificate without a seal", seal.unlink, "city: certificates without a seal: 1"),
        ("a unit that failed", lambda: (room.folder / "failed").write_text("office-backup@city.service loaded failed failed x\n"),
         "city: failed: office-backup@city.service"),
        ("a journal of which a line was changed", lambda: write_journal(room, journal_lines().replace("16:21:47", "16:21:46")),
         "city: the journal: "),
        ("a journal that can be rewritten", lambda: set_log(room.at("/var/log/office/city.journal"), False),
         "city: the journal can be rewritten: city.journal"),
        ("a clock that nobody keeps", lambda: (room.commands / "timedatectl").write_text("#!/bin/sh\necho no\n"),
         "nothing keeps the clock right"),
    ]
    lines: list[str] = []
    for name, spoil, wanted in steps:
        spoil()
        done = room.setup("doctor", "--port", port)
        wrong = [line.removeprefix("WRONG ") for line in done.out.splitlines() if line.startswith("WRONG ")]
        new = [line for line in wrong if line not in lines]
        judge(f"{name}: it is wrong, and nothing else is new", done.status == 1 and len(new) == 1 and new[0].startswith(wanted),
              (new, done))
        lines = wrong


def measures(room: Room, port: int) -> dict[str, float]:
    """Returns what `doctor` writes for Prometheus, whose own tool takes it."""
    file = room.folder / "office.prom"
    done = room.setup("doctor", "--port", port, "--prometheus", file)
    same("`doctor --prometheus` prints nothing, and ends well", (done.status, done.out, done.error), (0, "", ""))
    data = file.read_bytes()
    if shutil.which("promtool"):
        done = run("promtool", "check", "metrics", data=data)
        same("promtool takes its lines", (done.status, done.out + done.error), (0, ""))
    same("anybody reads them", file.stat().st_mode & 0o777, 0o644)
    lines = [line.rsplit(" ", 1) for line in data.decode().splitlines() if not line.startswith("#")]
    return {name: float(value) for name, value in lines}


def judge_measures(room: Room, port: int) -> None:
    """Of an office that is well each check is 1, and the numbers are those of its files."""
    found = measures(room, port)
    checks = {name: value for name, value in found.items() if name.startswith("office_check_well")}
    judge("each check is well", len(checks) == 10 and set(checks.values()) == {1}, checks)
    file = room.at("/var/lib/office/city/office.db")
    same("the bytes of FILE", found['office_file_bytes{office="city"}'], file.stat().st_size)
    judge("what is free", abs(found['office_free_bytes{office="city"}'] - shutil.disk_usage(file.parent).free) < 1 << 30)
    judge("the age of the copy", 3_500 < found['office_copy_age_seconds{office="city"}'] < 4_500, found)
    same("no certificate lacks a seal", found['office_certificates_unsealed{office="city"}'], 0)
    judge("the end of the certificate of the site", 364 < (found["office_site_certificate_end_seconds"] - time.time()) / DAY < 366)
    judge("the moment", abs(found["office_doctor_seconds"] - time.time()) < 60)
    copy = next(iter(room.at(COPIES).iterdir()))
    with contextlib.closing(sqlite3.connect(copy)) as database:
        database.executescript("CREATE TABLE runs (num, closed); INSERT INTO runs VALUES (1, 1), (2, 0);")
    same("the open run of the copy", measures(room, port)['office_run_open{office="city"}'], 2)
    judge_names(set(re.findall("^office_[a-z_]+", (room.folder / "office.prom").read_text(), re.M)))


def judge_names(ours: set[str]) -> None:
    """The rules and the dashboard name what somebody writes: `doctor`, the gate, or the probe."""
    gate = {f"office_gate_{name}" for name in re.findall(r'"(waiting|journal_line|journal_well)"', (
        TOP / "companions/gate/office_gate/reading.py").read_text())} | {"office_gate_answers_total", "office_gate_seconds_total"}
    for name in ("office.rules.yml", "office.dashboard.json"):
        named = set(re.findall(r"\b(?:office|probe)_[a-z_]+", re.sub(r"job[^,}]*", "", (TOP / "deploy/monitor" / name).read_text())))
        strange = named - ours - gate - {"probe_success", "probe_duration_seconds", "probe_ssl_earliest_cert_expiry"}
        judge(f"{name} names what is there", len(named) > 5 and not strange, strange)


def judge_wrong_measures(room: Room, port: int) -> None:
    """What is wrong is 0, and the numbers show it."""
    found = measures(room, port)
    wrong = {name.split('check="')[1].rstrip('"}') for name, value in found.items() if name.startswith("office_check") and not value}
    same("the checks that are wrong are 0", wrong, {"append", "clock", "copy", "journal", "seals", "units"})
    same("a certificate lacks its seal", found['office_certificates_unsealed{office="city"}'], 1)
    judge("there is no age of a copy", 'office_copy_age_seconds{office="city"}' not in found)
    folder = room.at("/var/lib/office/city")
    run("chattr", "+i", folder)
    done = room.setup("doctor", "--port", port)
    run("chattr", "-i", folder)
    judge("a FILE that cannot be written is wrong", "WRONG city: FILE cannot be written: " in done.out, done)
    same("nothing stays of the look", [path.name for path in folder.iterdir() if not path.name.startswith("office.db")], [])


def judge_closed(room: Room) -> None:
    """An office is closed up to a moment, which the gate reads, and opened again."""
    note = room.at("/run/office-gate/city/closed")
    done = room.setup("close", "city", "--until", "23:59")
    judge("without its gate no office is closed", done.status == 2 and "the gate of city is off" in done.error, done)
    note.parent.mkdir(parents=True)
    zone = ZoneInfo("Europe/Berlin")
    now = datetime.datetime.now(zone)
    for text in ("soon", "25:00", f"{now - datetime.timedelta(minutes=2):%Y-%m-%d %H:%M}", "2999-01-01 00:00", ""):
        judge(f"nor up to {text!r}", room.setup("close", "city", "--until", text).status == 2 and not note.exists(), is_quiet=True)
    earlier, later = now - datetime.timedelta(hours=1), now + datetime.timedelta(days=2)
    for text, moment in ((f"{earlier:%H:%M}", earlier + datetime.timedelta(days=1)), (f"{later:%Y-%m-%d %H:%M}", later)):
        done = room.setup("close", "city", "--until", text)
        judge(f"up to {text}", done.status == 0 and f"closed until {moment:%Y-%m-%d %H:%M}" in done.out, done)
        same("the gate reads that, with the zone", datetime.datetime.fromisoformat(note.read_text().strip()).astimezone(zone).replace(
            second=0), moment.replace(second=0, microsecond=0))
        same("who reads the note", note.stat().st_mode & 0o777, 0o644)
    judge("the office is stopped, and its gate is not", "office@city.service" not in room.units()
          and "office-gate@city.service" in room.units(), room.units())
    done = room.setup("open", "city")
    judge("it is opened", done.status == 0 and "office@city.service" in room.units() and not note.exists(), done)


def doctor(folder: pathlib.Path) -> None:
    """The office is made, and nothing of it answers but what stands in for nginx."""
    with Room(folder) as room:
        room.made()
        make_well(room)
        port = free_port()
        done = room.setup("doctor", "--port", port)
        judge("no answer of HTTPS is wrong", done.status == 1 and "WRONG city: HTTPS does not answer" in done.out, done)
        with answering(room, port, 200):
            done = room.setup("doctor", "city", "--port", port)
            judge("so is one to a request without a name", "WRONG city: HTTPS answers 200 to a request without a name" in done.out,
                  done)
        with answering(room, port, 401):
            done = room.setup("doctor", "--port", port)
            judge("an office that is well", done.status == 0 and "WRONG" not in done.out and done.out.count("well ") == 10, done)
            judge_measures(room, port)
            # the rules of nftables are a stand-in's, so somebody reaches whatever listens at the port
            with socket.create_server(("127.0.0.1", 8081)):
                done = room.setup("doctor", "--port", port)
                judge("a port that root reaches is wrong", "WRONG city: root reaches the port 8081" in done.out, done)
            room.change("/etc/office/city.toml", "elsewhere = true", "elsewhere = false")
            done = room.setup("doctor", "--port", port)
            judge("copies on the disk of the office are wrong", "WRONG city: copies are on the disk of the office" in done.out
                  and done.status == 1, done)
            room.change("/etc/office/city.toml", "elsewhere = false", "elsewhere = true")
            judge_each(room, port)
            judge_wrong_measures(room, port)
        shorten_certificate(room)
        done = room.setup("doctor", "--port", port)
        judge("a certificate of 20 days is wrong", "WRONG the certificate of the site" in done.out, done)
        judge("an office that is not there", room.setup("doctor", "court").status == 2)
        judge_closed(room)
