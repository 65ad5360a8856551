"""Sessions: how long they last, what ends them, and what is kept of them."""
from __future__ import annotations

import datetime
import hashlib
import json
import pathlib
import sys
from zoneinfo import ZoneInfo

from kit.judging import absent, judge, same
from kit.waiting import comes
from signin_trial.room import HEAD, LOCAL_PASSWORD, ROLES, SITE, SOURCES, TOKEN, Room, basic, directory, others, session_of
from signin_trial.slapd import Slapd

sys.path[:0] = [str(SOURCES), str(SOURCES / "signin")]


def sessions(folder: pathlib.Path) -> None:
    slapd = Slapd(folder / "slapd")
    room = Room(folder / "room", HEAD + directory(slapd, folder / "room") + ROLES + others())
    try:
        room.start()
        signed_out(room)
        many(room)
        programs(room)
        kept(room)
    finally:
        room.stop()
        slapd.stop()


def signed_out(room: Room) -> None:
    """Signing out, and signing in anew."""
    cookie = session_of(room.sign_in("anna"))
    same("a session goes on", [room.who(cookie).status for _ in range(3)], [204] * 3)
    same("whoever has a session needs no form", room.ask("GET", "/sign-in?to=/city/web/", {"Cookie": cookie}).status, 303)
    for title, lines in (("another site", {"Origin": "https://evil.example"}), ("a page elsewhere", {"Sec-Fetch-Site": "cross-site"}),
                         ("a site below", {"Sec-Fetch-Site": "same-site"})):
        same(f"{title} signs nobody out", (room.ask("GET", "/sign-out", {"Cookie": cookie, **lines}).status, room.who(cookie).status),
             (403, 204))
    out = room.ask("GET", "/sign-out", {"Cookie": cookie, "Sec-Fetch-Site": "same-origin", "Origin": SITE})
    same("the page signs out as before", (out.status, out.body), (401, '{"error": "password"}'))
    judge("the browser drops the cookie", "Max-Age=0" in out.cookies()["__Host-office"], out.lines)
    same("the session is over", room.who(cookie).status, 401)
    same("the journal has that", [room.entries()[-1][key] for key in ("what", "of")], ["out", room.entries()[-2]["line"]])
    first = session_of(room.sign_in("anna"))
    page = room.ask("GET", "/sign-in")
    name, value = first.split("=", 1)
    form = page.cookies()["__Host-office-form"].split(";")[0]
    mark = page.body.split('name="mark" value="')[1].split('"')[0]
    second = room.ask("POST", "/sign-in", {"Cookie": f"__Host-office-form={form}; {name}={value}", "Origin": SITE,
                                           "Content-Type": "application/x-www-form-urlencoded"},
                      f"name=bert&password=bert-password&mark={mark}&to=/".encode())
    judge("a sign-in has a new key, and ends the session before", second.status == 303 and session_of(second) not in ("", first)
          and room.who(first).status == 401 and room.who(session_of(second)).status == 204, second)


def many(room: Room) -> None:
    """A person has eight sessions at once."""
    cookies = [session_of(room.sign_in("bert")) for _ in range(10)]
    same("the ninth ends the oldest", [room.who(cookie).status for cookie in cookies], [401] * 2 + [204] * 8)
    same("each has a key of its own", len(set(cookies)), 10)


def programs(room: Room) -> None:
    """Programs sign in by a token, and local names by a password of this site, whose use is a mail."""
    who = room.who(Authorization=basic("intake", TOKEN))
    same("a program with its token", (who.status, who.line("Office-Name")), (204, "intake"))
    again = room.who(Authorization=basic("intake", TOKEN)).line("Office-Way")
    same("one line of the journal for each day", (again, room.entries()[-1]["way"]), (f"token:{room.entries()[-1]['line']}", "token"))
    before = len(room.mails())
    reply = room.sign_in("registrar", LOCAL_PASSWORD)
    who = room.who(session_of(reply))
    same("a local name", (who.status, who.line("Office-Name"), who.line("Office-Way").split(":")[0]), (204, "registrar", "local"))
    same("whose use is a mail", (len(room.mails()) - before, "registrar signed in from 192.0.2.7" in room.mails()[-1]), (1, True))
    judge("and a line in the log, as an error", "<3>office-sign-in: The local name registrar" in room.said())
    room.sign_in("registrar", "wrong-password-here")
    judge("a wrong password for it is a mail too", any("wrong password" in text for text in room.mails()))
    same("its password is no token", room.who(Authorization=basic("registrar", LOCAL_PASSWORD)).status, 401)


def kept(room: Room) -> None:
    """What is on the disk opens no session, and a start begins without sessions."""
    cookie = session_of(room.sign_in("anna"))
    texts = "".join(path.read_text(errors="replace") for path in room.folder.rglob("*") if path.is_file())
    absent("no key is on the disk", texts, [cookie.split("=", 1)[1], TOKEN, LOCAL_PASSWORD])
    room.stop()
    room.start()
    same("a start ends all sessions", room.who(cookie).status, 401)
    same("the journal goes on", [entry["what"] for entry in room.entries()[-2:]], ["closed", "opened"])
    room.journal.rename(room.journal.with_name("sign-in.journal-20260101"))
    last = room.journal.with_name("sign-in.journal-20260101").read_bytes().split(b"\n")[-2]
    room.reload()
    judge("a rotated journal goes on in a new file", comes(room.journal.exists, 10))
    room.sign_in("anna")
    first = json.loads(room.journal.read_bytes().split(b"\n")[0])
    same("whose first line has the one before", first["before"], hashlib.sha256(last).hexdigest())


def clock(folder: pathlib.Path) -> None:
    """The end of a working day, of an idle hour and of ten hours, by clocks that are arguments; and a day by faketime."""
    from office_signin.clock import Moment, end_of_day
    from office_signin.sessions import Sessions
    from office_signin.settings import Times
    berlin = ZoneInfo("Europe/Berlin")
    times = Times(berlin, datetime.time(20, 0), 10 * 3600, 3600, 900)

    def at(text: str) -> float:
        return datetime.datetime.fromisoformat(text).replace(tzinfo=berlin).timestamp()
    for begins, ends in (("2026-12-01T08:00", "2026-12-01T20:00"), ("2026-12-01T19:59", "2026-12-01T20:00"),
                         ("2026-12-01T20:00", "2026-12-02T20:00"), ("2026-12-31T23:30", "2027-01-01T20:00"),
                         ("2026-03-28T21:00", "2026-03-29T20:00"), ("2026-10-24T21:00", "2026-10-25T20:00"),
                         ("2026-10-25T02:30", "2026-10-25T20:00"), ("2026-03-29T01:59", "2026-03-29T20:00")):
        same(f"the day of {begins}", end_of_day(times, at(begins)), at(ends))
    for title, wall, machine, is_over in (
            ("at once", 0, 0, False), ("after 59 minutes", 3540, 3540, False), ("after an idle hour", 3600, 3600, True),
            ("if the clock of the wall is set back", -86_400, 3600, True), ("at the end of the day", 12 * 3600, 60, True),
            ("just before it", 12 * 3600 - 1, 60, False)):
        kept_sessions = Sessions(times)
        key, _ = kept_sessions.begin("anna@directory", "directory", 1, Moment(at("2026-12-01T08:00"), 100.0))
        found = kept_sessions.find(key, Moment(at("2026-12-01T08:00") + wall, 100.0 + machine))
        same(f"a session {title}", found is None, is_over)
        same("and is not kept then", len(kept_sessions.kept), 0 if is_over else 1)
    busy = Sessions(times)
    key, _ = busy.begin("anna@directory", "directory", 1, Moment(at("2026-12-01T08:00"), 0.0))
    alive = [busy.find(key, Moment(at("2026-12-01T08:00"), 1800.0 * step)) is not None for step in range(1, 22)]
    same("a busy session ends after ten hours by the machine", alive, [True] * 19 + [False] * 2)
    faked(folder)


def faked(folder: pathlib.Path) -> None:
    """The whole service over the end of a day."""
    stamp = folder / "stamp"
    stamp.write_text("2026-12-01 18:59:00\n")
    slapd = Slapd(folder / "slapd")
    room = Room(folder / "room", HEAD + directory(slapd, folder / "room") + ROLES + others("2026-12-01"),
                FAKETIME_TIMESTAMP_FILE=str(stamp), FAKETIME_NO_CACHE="1", FAKETIME_DONT_FAKE_MONOTONIC="1", TZ="UTC",
                LD_PRELOAD="/usr/lib/x86_64-linux-gnu/faketime/libfaketime.so.1")
    try:
        room.start()
        cookie = session_of(room.sign_in("anna"))
        same("at 19:59 in Berlin a session goes on", room.who(cookie).status, 204)
        same("a token on its last day", room.who(Authorization=basic("intake", TOKEN)).status, 204)
        stamp.write_text("2026-12-01 19:00:01\n")
        same("at 20:00 it is over", room.who(cookie).status, 401)
        late = session_of(room.sign_in("anna"))
        same("whoever comes later stays until the next evening", room.who(late).status, 204)
        stamp.write_text("2026-12-01 22:59:59\n")
        same("the token until midnight in Berlin", room.who(Authorization=basic("intake", TOKEN)).status, 204)
        stamp.write_text("2026-12-01 23:00:01\n")
        same("and no longer", room.who(Authorization=basic("intake", TOKEN)).status, 401)
    finally:
        room.stop()
        slapd.stop()
