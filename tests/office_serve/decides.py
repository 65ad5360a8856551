"""An office behind office-serve that decides who may do what: its port, its socket for readings, and its copies."""
from __future__ import annotations

import json
import pathlib
import subprocess

from kit.commands import run
from kit.companions import companion
from kit.judging import judge, same
from kit.waiting import comes
from served_by import Served, answer_at, answer_of, status_of
from service_scripts.place import FIRST, SECONDS, counted

SECRET, OTHER = "0123456789abcdef" * 3, "fedcba9876543210" * 3
SETTINGS = """site https://localhost
zone UTC
role legal may place-hold
role reads reads records contents lists certificates
name legal is legal
name reader is reads
name all is legal reads
"""
COUNT = 100
"""the connections of one program"""
TOKEN = b'{"error":"token"}'
LINES = {"Office-Token": SECRET, "Office-Name": "reader", "Office-Day": FIRST}
READING = b"GET /records/1 HTTP/1.1\r\nHost: localhost\r\n\r\n"
SERVE = companion("office-serve")


class Door:
    """The files of an office that decides, and the options that name them."""

    def __init__(self, folder: pathlib.Path) -> None:
        self.settings, self.secret, self.copies = folder / "city.access", folder / "city.office-token", folder / "copies"
        self.readings = folder / "run/readings"
        self.settings.write_text(SETTINGS)
        self.secret.write_text(f"{SECRET}\n")

    def hand_over(self) -> None:
        done = run(SERVE, "--hand-over", self.settings, self.secret, self.copies)
        # a machine without the package has no group of the office
        others = [it for it in done.error.splitlines() if "there is no group office" not in it]
        same("copies are handed over", (done.status, done.out, others), (0, "", []))

    def options(self) -> list[str]:
        return ["--access", f"{self.copies}/access", "--token", f"{self.copies}/token", "--readings", f"{self.readings}",
                "--reader", "reader"]


def by(name: str, method: str, path: str, body: bytes = b"", secret: str = SECRET) -> bytes:
    """Writes a request as a proxy sends it for a name."""
    lines = LINES | {"Host": "localhost", "Office-Name": name, "Office-Token": secret, "Content-Length": str(len(body))}
    return f"{method} {path} HTTP/1.1\r\n".encode() + "".join(f"{it}: {lines[it]}\r\n" for it in lines).encode() + b"\r\n" + body


def hold(code: str, name: str = "legal") -> bytes:
    body = json.dumps([{"act": "place-hold", "day": FIRST, "code": code, "reason": "r", "by": name}]).encode()
    return by(name, "POST", "/acts", body)


def decides(folder: pathlib.Path, file: pathlib.Path) -> None:
    """Tries an office in FILE, which has a record."""
    door = Door(folder)
    copies(door)
    with Served(file, *door.options(), "--count", f"{COUNT}") as served:
        port(served)
        copied(file)
        readings(door)
        forged(door)
        again(door, served)
        renewed(door, served)
        judge("SIGTERM ends it", served.stop() == 0)
    noted(door, file)
    usage(door, file)
    wrong(door, file)


def noted(door: Door, file: pathlib.Path) -> None:
    """Serves with a journal: each program that serves begins it anew, and an act has its lines."""
    journal = file.with_name("city.journal")
    door.secret.write_text(f"{SECRET}\n")
    door.hand_over()
    with Served(file, *door.options(), "--count", "2", "--journal", f"{journal}") as served:
        judge("a reading", status_of(answer_of(served.port, by("reader", "GET", "/records/1"))) == 200)
        judge("an act", status_of(answer_of(served.port, hold("NOTED"))) == 200)
        judge("the next program acts", status_of(answer_of(served.port, hold("NOTED2"))) == 200)
        judge("SIGTERM ends it", served.stop() == 0)
    lines = [json.loads(line) for line in journal.read_bytes().splitlines()]
    kinds = [line["what"] for line in lines if line["what"] != "closed"]
    same("the lines", kinds, ["opened", "asked", "answered", "opened", "asked", "answered"])
    same("each is linked to the one before", [line["line"] for line in lines], list(range(1, len(lines) + 1)))


def copies(door: Door) -> None:
    secret = door.secret.read_bytes()
    door.secret.unlink()
    door.hand_over()
    judge("without a secret nothing is made", not door.copies.exists())
    door.secret.write_bytes(secret)
    door.hand_over()
    files = [door.copies / it for it in ("access", "token")]
    same("both are there, and nothing else", sorted(door.copies.iterdir()), sorted(files))
    same("they are equal", [it.read_bytes() for it in files], [door.settings.read_bytes(), secret])
    judge("nobody else reads them", all(it.stat().st_mode & 0o777 in (0o400, 0o440) for it in files))
    with files[0].open() as before:
        door.settings.write_text(SETTINGS + "# more\n")
        door.hand_over()
        same("whoever reads the one before reads all of it", before.read(), SETTINGS)
    same("the new one is there", files[0].read_text(), SETTINGS + "# more\n")


def port(served: Served) -> None:
    """Asks at the port, as the gate does, and as somebody who does not know the secret."""
    judge("an act at the port", status_of(answer_of(served.port, hold("ONE"))) == 200)
    judge("a reading at the port", status_of(answer_of(served.port, by("reader", "GET", "/records/1"))) == 200)
    for data in (READING, by("reader", "GET", "/records/1", secret=OTHER), hold("NONE").replace(SECRET.encode(), b"")):
        answer = answer_of(served.port, data)
        judge("without the secret nothing is answered", status_of(answer) == 403 and answer.endswith(TOKEN), answer)


def copied(file: pathlib.Path) -> None:
    """Takes a copy while the office is served."""
    copy = file.with_name("copy.db")
    done = run(companion("office-backup"), file, copy)
    judge("a backup has the act", done.status == 0 and counted(copy, "holds") == "1", done)


def readings(door: Door) -> None:
    """Asks at the socket for readings, in parts of some sizes: by the rights of the reader."""
    for size in (1, 5, 20, 26, 27, 28, 1000):
        judge(f"a reading in parts of {size} bytes", status_of(answer_at(door.readings, READING, size)) == 200)
    for line_end in (b"\n", b"\r\n"):
        judge("line feeds alone", status_of(answer_at(door.readings, READING.replace(b"\r\n", line_end))) == 200)
    for data, status in ((b"GET /due/2026-01-01 HTTP/1.0\r\n\r\n", 200), (b"GET /certificates/1 HTTP/1.0\n\n", 404),
                         (b"GET /records/1 HTTP/1.1\r\nHost: localhost", 400), (b"GET /records/1", 400), (b"POST /acts HTTP/1.1\r\n", 405),
                         (b"\r\nGET /records/1 HTTP/1.1\r\nHost: localhost\r\n\r\n", 405),
                         (b"GET /records/1 HTTP/1.1\r\nHost: localhost\r\n\r\n" + hold("BEHIND", "all"), 200)):
        answer = answer_at(door.readings, data)
        judge(f"{data[:20]!r}.. is {status}", status_of(answer) == status, answer)


def forged(door: Door) -> None:
    """Sends lines of its own to the socket: none is served by another name, and the secret is in no answer."""
    answers = []
    for name, own in LINES.items():
        for value in (own, "all", "", OTHER):
            for line in (f"{name}: {value}", f"{name.upper()}: {value}", f"{name.lower()}:{value}", f"X: y\n{name}: {value}"):
                answer = answer_at(door.readings, f"GET /records/1 HTTP/1.1\r\n{line}\r\nHost: localhost\r\n\r\n".encode())
                answers.append(answer)
                judge(f"a line of its own: {line!r}", status_of(answer) == 403 and answer.endswith(TOKEN), answer)
    for head in ("GET /records/1 HTTP/1.1\r\n Office-Name: all\r\nHost: localhost\r\n\r\n",
                 "GET /records/1 HTTP/1.1\r\nHost: localhost\r\nOffice-Name : all\r\n\r\n",
                 "GET /records/1 HTTP/1.1\rOffice-Name: all\r\nHost: localhost\r\n\r\n"):
        answers.append(answer_at(door.readings, head.encode()))
        judge(f"no head: {head!r}", status_of(answers[-1]) == 400, answers[-1])
    judge("no answer has the secret", not any(SECRET.encode() in it for it in answers))


def again(door: Door, served: Served) -> None:
    """Goes on once the program has served its COUNT, and after a kill of it."""
    command = pathlib.Path(f"/proc/{served.program()}/cmdline").read_bytes().split(b"\0")
    judge("the program is `office gate`, and its arguments have no secret", command[1] == b"gate" and SECRET.encode() not in command, command)
    served.kill_program()
    judge("after a kill it decides as before", status_of(answer_at(door.readings, READING)) == 200 and
          status_of(answer_of(served.port, READING)) == 403)
    statuses = {status_of(answer_at(door.readings, READING)) for _ in range(COUNT + 10)}
    judge("after COUNT connections too", statuses == {200}, statuses)
    judge("acts go on", status_of(answer_of(served.port, hold("TWO"))) == 200)


def renewed(door: Door, served: Served) -> None:
    """Hands other settings over: they count for the next request."""
    door.settings.write_text(SETTINGS.replace("name reader is reads\n", ""))
    door.hand_over()
    judge("the reader has no rights", answer_at(door.readings, READING).endswith(b'{"error":"name","rule":null}'))
    door.settings.write_text(SETTINGS)
    door.hand_over()
    judge("it has them again", status_of(answer_at(door.readings, READING)) == 200)
    door.secret.write_text(OTHER)
    door.hand_over()
    judge("another secret does not count yet", status_of(answer_at(door.readings, READING)) == 200)
    served.kill_program()
    judge("it counts for the next program, and at the socket too", comes(lambda: status_of(answer_at(door.readings, READING)) == 200) and
          status_of(answer_of(served.port, by("reader", "GET", "/records/1", secret=OTHER))) == 200 and
          status_of(answer_of(served.port, by("reader", "GET", "/records/1"))) == 403)


def usage(door: Door, file: pathlib.Path) -> None:
    options = door.options()
    for given, error in ((options[:2], "--access and --token need each other"), (options[2:4], "--access and --token need each other"),
                         (options[6:], "--access and --token need each other"), (options[:6], "--readings needs --reader"),
                         ([*options[:6], "--reader", "a\r\nOffice-Name: all"], "is no name of settings"),
                         ([*options[:6], "--reader", ""], "is no name of settings")):
        done = run(SERVE, *given, file, 8080)
        judge(f"{' '.join(given[::2])}: {error}", done.status == 2 and error in done.error, done)


def wrong(door: Door, file: pathlib.Path) -> None:
    """Starts with settings and secrets that are wrong: the program names the reason, and nothing is served."""
    door.settings.write_text(SETTINGS + "name nobody is clerk\n")
    door.hand_over()
    with Served(file, *door.options(), waits=False) as served:
        status, error = served.ended(SECONDS)
        judge("wrong settings", status == 3 and "access:8: " in error and "does not open: status 2" in error, (status, error))
    door.settings.write_text(SETTINGS)
    door.secret.write_text("short")
    door.hand_over()
    with Served(file, *door.options(), waits=False) as served:
        status, error = served.ended(SECONDS)
        judge("a short secret", status == 3 and "has no secret of 32 to 200 letters and digits" in error, (status, error))
    (door.copies / "token").unlink()
    done = subprocess.run([str(it) for it in (SERVE, *door.options(), file, served.port)], capture_output=True, text=True, check=False)
    judge("no secret", done.returncode == 3 and "token cannot be read" in done.stderr, done)
