"""Starts that fail: what is printed, the status, and that FILE and PORT stay as they are."""
from __future__ import annotations

import pathlib
import socket

from command_trial.served import DAY, ROLES, SECRET, SITE, Gated
from kit.commands import Done, office
from kit.judging import judge, same
from kit.ports import free_port

SETTINGS = SITE + ROLES + "name manager is records-manager\n"


class Files:
    """The files of one start, each good at first."""

    def __init__(self, folder: pathlib.Path) -> None:
        folder.mkdir()
        self.file, self.access, self.token = folder / "office.db", folder / "access", folder / "token"
        self.access.write_text(SETTINGS)
        self.token.write_text(SECRET)

    def begun(self, *arguments: object) -> Done:
        return office("gate", *(arguments or (self.file, free_port(), 1, self.access, self.token, "-")))

    def refused(self, name: str, status: int, error: str, *arguments: object) -> None:
        """Judges a start that fails: its whole output, and that no office is made."""
        done = self.begun(*arguments)
        same(f"{name}: status and output", (done.status, done.out, done.error), (status, "", error))
        judge(f"{name}: no FILE is made", not self.file.exists(), is_quiet=True)


def starts(folder: pathlib.Path) -> None:
    wrong_settings(folder)
    wrong_secrets(folder)
    arguments(folder)
    good_secrets(folder)


def wrong_settings(folder: pathlib.Path) -> None:
    it = Files(folder / "settings")
    it.access.unlink()
    it.refused("settings missing", 3, "office: file\n")
    it.access.mkdir()
    it.refused("settings are a folder", 3, "office: file\n")
    it.access.rmdir()
    line = 1 + SETTINGS.count("\n")
    for text, reason in (("name manager is clerk", "clerk"), ("role clerk may confrim", "confrim"),
                         ("rule nobody-does", "rule"), ("nonsense", "nonsense")):
        it.access.write_text(f"{SETTINGS}{text}\n")
        done = it.begun()
        is_named = done.error.startswith(f"office: {it.access}:{line}: ") and done.error.count("\n") == 1
        judge(f"a wrong line is named: {reason}", (done.status, done.out) == (2, "") and is_named, done, always=True)
        judge(f"no FILE is made: {reason}", not it.file.exists())
    it.access.write_text("zone UTC\n")
    done = it.begun()
    judge("settings without a site", done.status == 2 and done.error.startswith(f"office: {it.access}"), done, always=True)
    cut_settings(it)
    it.access.write_bytes(SETTINGS.encode() + b"# \xff\n")
    judge("settings that are no UTF-8", it.begun().status == 2, always=True)


def cut_settings(it: Files) -> None:
    """Judges starts with the beginnings of a file that has marks: each line more, and each letter of the last ones."""
    whole = f"begin\n{SETTINGS}rule opener-does-not-carry-out\nend\n"
    lines = [at for at, letter in enumerate(whole[:-5], 1) if letter == "\n"]
    for at in sorted({0, *lines, *range(lines[-2], len(whole) - 1)}):
        it.access.write_text(whole[:at])
        done = it.begun()
        judge(f"the first {at} letters of settings are refused",
              (done.status, done.out, done.error.count("\n")) == (2, "", 1) and not it.file.exists(), done)
    it.access.write_text(whole[:lines[-1]])
    it.refused("settings that are cut off", 2, f"office: {it.access}: the file is cut off: it has 'begin', but no 'end'\n")
    it.access.write_text(f"{whole}rule nothing\n")
    it.refused("a statement below the end", 2,
               f"office: {it.access}:{whole.count(chr(10)) + 1}: no statement stands below 'end'\n")


def wrong_secrets(folder: pathlib.Path) -> None:
    it = Files(folder / "secrets")
    none = f"office: {it.token} has no secret of 32 to 200 letters and digits\n"
    for name, text in (("31 letters", SECRET[:31]), ("201 letters", "a" * 201), ("empty", ""), ("a line feed", "\n"),
                       ("two lines", f"{SECRET}\n{SECRET}\n"), ("a space at the end", f"{SECRET} "),
                       ("two line feeds", f"{SECRET}\n\n"), ("a carriage return", f"{SECRET}\r\n"),
                       ("a hyphen", f"{SECRET}-"), ("a letter of another alphabet", f"{SECRET}ä"),
                       ("a byte 0", f"{SECRET}\0")):
        it.token.write_text(text, newline="")
        it.refused(f"secret: {name}", 2, none)
    it.token.write_bytes(SECRET.encode() + b"\xff")
    it.refused("secret: no UTF-8", 2, none)
    it.token.unlink()
    it.refused("secret missing", 3, "office: file\n")


def arguments(folder: pathlib.Path) -> None:
    it = Files(folder / "arguments")
    for port, count, status, error in (("0", "1", 1, "office: refused 3\n"), ("65536", "1", 1, "office: refused 3\n"),
                                       ("x", "1", 1, "office: refused 2\n"), ("8080", "0", 1, "office: refused 3\n"),
                                       ("8080", "1000001", 1, "office: refused 3\n")):
        it.refused(f"PORT {port}, COUNT {count}", status, error, it.file, port, count, it.access, it.token, "-")
    for missing in range(6):
        given = [it.file, free_port(), 1, it.access, it.token, "-"][:missing]
        done = office("gate", *given)
        judge(f"{missing} operands: usage", done.status == 2 and "Usage" in done.error and not it.file.exists(), done)
    with socket.create_server(("127.0.0.1", 0)) as taken:
        port = taken.getsockname()[1]
        it.refused("PORT is taken", 3, "office: socket\n", it.file, port, 1, it.access, it.token, "-")
    it.file.write_bytes(b"no office" * 1000)
    done = it.begun()
    same("FILE is no office", (done.status, done.error), (3, "office: fault 31\n"))
    same("FILE stays", it.file.read_bytes(), b"no office" * 1000)


def good_secrets(folder: pathlib.Path) -> None:
    """Serves with secrets of the least and the greatest length, with a line feed and without."""
    settings = SETTINGS.removeprefix(SITE)
    with Gated(folder / "good", settings) as gated:
        for secret, end in ((SECRET, ""), (SECRET, "\n"), ("Z" * 200, "\n")):
            gated.end()
            gated.token.write_text(secret + end)
            gated.start(2)
            head = f"GET /records/1 HTTP/1.1\r\nHost: o\r\nOffice-Name: manager\r\nOffice-Day: {DAY}\r\n"
            answers = [gated.raw(f"{head}Office-Token: {it}\r\n\r\n".encode()) for it in (secret, secret[:-1])]
            judge(f"a secret of {len(secret)} letters and {len(end)} line feeds counts",
                  answers[0].endswith(b'{"error":"record"}') and answers[1].endswith(b'{"error":"token"}'), answers)
            same("COUNT connections were served: status 0", gated.served.process.wait(60), 0)
