"""Signing in by the form: who gets in, with what, and who does not."""
from __future__ import annotations

import pathlib
import re
import time
from functools import partial

from kit.judging import absent, judge, same
from signin_trial.room import HEAD, LOCAL_PASSWORD, ROLES, SITE, Room, directory, others, session_of, together
from signin_trial.slapd import PASSWORDS, Slapd


def forms(folder: pathlib.Path) -> None:
    slapd = Slapd(folder / "slapd")
    room = Room(folder / "room", HEAD + directory(slapd, folder / "room") + ROLES + others())
    try:
        room.start()
        page_of(room)
        right(room, slapd)
        wrong(room)
        strange_forms(room)
        places(room)
        guesses(room)
    finally:
        room.stop()
        slapd.stop()


def page_of(room: Room) -> None:
    """The form: its lines, its cookie and its language."""
    page = room.ask("GET", "/sign-in?to=/city/web/")
    same("the form", (page.status, page.line("Content-Type")), (200, "text/html; charset=utf-8"))
    policy = page.line("Content-Security-Policy")
    judge("the form runs no script and is in no frame", "default-src 'none'" in policy and "frame-ancestors 'none'" in policy, policy)
    same("the form is kept nowhere", page.line("Cache-Control"), "no-store")
    cookie = page.cookies()["__Host-office-form"]
    judge("the cookie of the form", {"Secure", "HttpOnly", "SameSite=Lax", "Path=/"} <= set(cookie.split("; ")), cookie)
    judge("the form is in German for a German browser",
          "Passwort" in room.ask("GET", "/sign-in", {"Accept-Language": "de-AT,de;q=0.9"}).body)
    odd = room.ask("GET", "/sign-in?to=%2Fcity%2F%22%3E%3Cscript%3E")
    absent("no text of an address is markup", odd.body, ["<script"])


def right(room: Room, slapd: Slapd) -> None:
    """A right password: the session, the name for the gate, the groups and the journal."""
    reply = room.sign_in("anna")
    same("anna goes on to the page", (reply.status, reply.line("Location")), (303, "/city/web/"))
    cookie = reply.cookies()["__Host-office"]
    judge("the cookie of a session", {"Secure", "HttpOnly", "SameSite=Lax", "Path=/"} <= set(cookie.split("; "))
          and "Domain" not in cookie and "Max-Age" not in cookie, cookie)
    judge("a key has 256 bits", len(cookie.split(";")[0]) == 43, cookie)
    who = room.who(session_of(reply))
    same("the gate gets the stable id", (who.status, who.line("Office-Name")), (204, f"{slapd.id_of('anna')}@directory"))
    entry = room.entries()[-1]
    same("the journal has id, groups, roles and way", {key: entry[key] for key in ("what", "name", "called", "groups", "roles", "way", "from")},
         {"what": "in", "name": f"{slapd.id_of('anna')}@directory", "called": "anna", "groups": ["canteen", "records-registry"],
          "roles": {"city": ["registry"]}, "way": "directory", "from": "192.0.2.7"})
    same("each request names the line of its sign-in", who.line("Office-Way"), f"directory:{entry['line']}")
    capital = room.who(session_of(room.sign_in("ANNA", PASSWORDS["anna"])))
    same("ANNA is anna", capital.line("Office-Name"), who.line("Office-Name"))
    dora = room.who(session_of(room.sign_in("dora"))).line("Office-Name")
    same("groups with classes, and a comma in a name", room.people()[dora]["grants"],
         {"city": ["registry", "department in BLDG*"]})


def wrong(room: Room) -> None:
    """What is no sign-in."""
    tries = (("a wrong password", "anna", "wrong"), ("no password", "anna", ""), ("a star", "*", PASSWORDS["anna"]),
             ("a filter", "anna)(uid=*", PASSWORDS["anna"]), ("a filter that closes", "*)(|(uid=anna", PASSWORDS["anna"]),
             ("a DN", "uid=anna,ou=people,dc=city,dc=example", PASSWORDS["anna"]), ("no name", "", PASSWORDS["anna"]),
             ("a name with a zero byte", "anna\0", PASSWORDS["anna"]), ("the password of another", "anna", PASSWORDS["bert"]),
             ("a password with a zero byte", "bert", PASSWORDS["bert"] + "\0x"), ("the reader", "reader", "reader-password"),
             ("a name of 2000 letters", "a" * 2000, "x"), ("a local name with a wrong password", "registrar", "wrong"),
             ("a local name in capitals", "REGISTRAR", LOCAL_PASSWORD))
    replies = together(partial(room.sign_in, name, password, address=f"192.0.2.{at + 20}")
                       for at, (_, name, password) in enumerate(tries))
    for (title, *_), reply in zip(tries, replies):
        same(f"{title} is no sign-in", (reply.status, session_of(reply)), (401, ""))
    nobody = room.sign_in("carl", address="192.0.2.9")
    same("whoever has no role has no session", (nobody.status, session_of(nobody)), (403, ""))
    same("the journal has that too", [room.entries()[-1][key] for key in ("what", "why", "called", "groups")],
         ["refused", "no-role", "carl", ["canteen"]])
    began = time.monotonic()
    room.sign_in("nobody-here", "x", address="192.0.2.10")
    judge("a refusal takes a second, whatever was looked at", time.monotonic() - began >= 1.0)
    absent("no password is in the journal or the log", room.journal.read_text() + room.said(),
           [*PASSWORDS.values(), LOCAL_PASSWORD, "reader-password"])
    room.sign_in("anna-password", "anna", address="192.0.2.10")
    absent("a password that was typed as a name is not there either", room.journal.read_text() + room.said(), ["anna-password"])


def strange_forms(room: Room) -> None:
    """A form that this service did not show to this browser."""
    page, other = room.ask("GET", "/sign-in"), room.ask("GET", "/sign-in")
    mark = re.search(r'value="([0-9a-f]{64})"', other.body)
    assert mark
    for title, changed in (("of another browser", {"mark": mark[1]}), ("without a mark", {"mark": ""}),
                           ("with a made-up mark", {"mark": "0" * 64}), ("with letters for a mark", {"mark": "ä" * 9})):
        reply = room.send(page, "anna", PASSWORDS["anna"], **changed)
        same(f"a form {title}", (reply.status, session_of(reply)), (403, ""))
    body = b"name=anna&password=anna-password&mark=" + mark[1].encode()
    cookie = "__Host-office-form=" + other.cookies()["__Host-office-form"].split(";")[0]
    kind = {"Content-Type": "application/x-www-form-urlencoded"}
    for title, lines in (("another site", {"Origin": "https://evil.example"}), ("no site", {}), ("null", {"Origin": "null"}),
                         ("http", {"Origin": "http://records.city.example"}), ("a port", {"Origin": f"{SITE}:8443"}),
                         ("a site below", {"Origin": SITE, "Sec-Fetch-Site": "same-site"}),
                         ("a page elsewhere", {"Origin": SITE, "Sec-Fetch-Site": "cross-site"})):
        reply = room.ask("POST", "/sign-in", {"Cookie": cookie, **kind, **lines}, body)
        same(f"a form from {title}", (reply.status, session_of(reply)), (403, ""))
    twice = room.ask("POST", "/sign-in", {"Cookie": cookie, "Origin": SITE, **kind}, body + b"&name=bert")
    same("a name that is there twice", (twice.status, session_of(twice)), (401, ""))
    long = room.ask("POST", "/sign-in", {"Cookie": cookie, "Origin": SITE, **kind}, body + b"&x=" + b"a" * 20_000)
    same("a form of 20,000 bytes", (long.status, session_of(long)), (413, ""))
    same("a form as it should be", room.send(page, "anna", PASSWORDS["anna"]).status, 303)


def places(room: Room) -> None:
    """Where a browser goes afterwards: nowhere but here."""
    for to in ("//evil.example/", "https://evil.example/", "/\\evil.example", "\\\\evil.example", "javascript:alert(1)",
               "/\t/evil.example", " //evil.example", "", "/" + "a" * 2000, "/ä", "/\r\nSet-Cookie: x=1"):
        reply = room.sign_in("bert", to=to)
        same(f"to {to[:30]!r}", (reply.status, reply.line("Location")), (303, "/"))
    same("to a path of this site", room.sign_in("bert", to="/city/web/?a=1#due").line("Location"), "/city/web/?a=1#due")


def guesses(room: Room) -> None:
    """Guesses wait, by name and by address, and nobody else does."""
    statuses = [reply.status for reply in together(
        partial(room.sign_in, "dora", f"guess-{at}", address="198.51.100.1") for at in range(8))]
    same("five guesses of a name cost nothing, then they wait", sorted(statuses)[:5], [401] * 5)
    judge("of eight at once too", statuses.count(429) in (2, 3), statuses)
    same("the right password waits too", room.sign_in("dora", address="198.51.100.2").status, 429)
    same("others do not", room.sign_in("anna", address="198.51.100.2").status, 303)
    addresses = [reply.status for reply in together(
        partial(room.sign_in, f"name{at}", "guess", address="2001:db8::1" if at % 2 else "2001:db8::2") for at in range(23))]
    judge("an address has 20 guesses, and its neighbours at IPv6 with it", addresses.count(429) in (2, 3), addresses)
    same("another network does not wait", room.sign_in("anna", address="2001:db8:0:1::1").status, 303)
