"""Forged cookies, tokens and lines at the service itself: none is somebody."""
from __future__ import annotations

import base64
import hashlib
import pathlib

from kit.judging import judge, same
from signin_trial.room import HEAD, LOCAL_PASSWORD, ROLES, TOKEN, Room, basic, directory, others, session_of
from signin_trial.slapd import PASSWORDS, Slapd


def forged(folder: pathlib.Path) -> None:
    slapd = Slapd(folder / "slapd")
    room = Room(folder / "room", HEAD + directory(slapd, folder / "room") + ROLES + others())
    try:
        room.start()
        reply = room.sign_in("anna")
        anna, bert = session_of(reply).split("=", 1)[1], session_of(room.sign_in("bert")).split("=", 1)[1]
        cookies(room, anna, bert)
        tokens(room)
        lines(room, anna)
        same("after all that the session goes on", room.who(f"__Host-office={anna}").status, 204)
        same("and nobody else was signed in", {entry["what"] for entry in room.entries()}, {"opened", "in"})
    finally:
        room.stop()
        slapd.stop()


def cookies(room: Room, anna: str, bert: str) -> None:
    """Cookies that are no key, or that are one in a way that no browser sends."""
    name = room.who(f"__Host-office={anna}").line("Office-Name")
    digest = hashlib.sha256(anna.encode())
    tries = {
        "none": "", "an empty one": "__Host-office=", "a made-up key": "__Host-office=" + "A" * 43, "half a key": f"__Host-office={anna[:-1]}",
        "a longer key": f"__Host-office={anna}A", "a key with another case": f"__Host-office={anna.swapcase()}",
        "a key backwards": f"__Host-office={anna[::-1]}", "halves of two keys": f"__Host-office={anna[:21]}{bert[21:]}",
        "the digest of a key": f"__Host-office={digest.hexdigest()}", "its digest in base64": "__Host-office=" + base64.urlsafe_b64encode(digest.digest()).decode(),
        "the stable id": f"__Host-office={name}", "a name": "__Host-office=anna", "a key under another name": f"office={anna}",
        "under a name with small letters": f"__host-office={anna}", "under the name of the form": f"__Host-office-form={anna}",
        "under the name of a way to a provider": f"__Host-office-begun={anna}", "two keys": f"__Host-office={anna}; __Host-office={bert}",
        "a key twice": f"__Host-office={anna}; __Host-office={anna}", "a key and an empty one": f"__Host-office={anna}; __Host-office=",
        "a key in quotes": f'__Host-office="{anna}"', "a key with a space in it": f"__Host-office={anna[:9]} {anna[9:]}",
        "a key with percent signs": f"__Host-office=%{ord(anna[0]):02x}{anna[1:]}", "parted by commas": f"a=b,__Host-office={anna}",
        "a key with a line of its own": f"x=1 __Host-office={anna}", "a key of 5000 letters": "__Host-office=" + "A" * 5000,
        "a key of other bytes": "__Host-office=\xff\xfe\xfd", "a key with a star": "__Host-office=*",
        "SQL": "__Host-office=' OR 1=1 --", "JSON": '__Host-office={"name":"registrar"}', "a path": "__Host-office=../../people.json",
        "the token of a program": f"__Host-office={TOKEN}", "the password of a local name": f"__Host-office={LOCAL_PASSWORD}",
    }
    for title, cookie in tries.items():
        reply = room.ask("GET", "/who", [("Cookie", cookie)])
        same(f"a cookie: {title}", (reply.status, reply.line("Office-Name")), (401, ""))
    twice = room.ask("GET", "/who", [("Cookie", f"__Host-office={anna}"), ("Cookie", f"__Host-office={bert}")])
    same("two lines of cookies", (twice.status, twice.line("Office-Name")), (401, ""))
    same("a cookie beside others", room.who(f"a=b; __Host-office={anna}; c=d").status, 204)


def tokens(room: Room) -> None:
    """Names and tokens that do not belong together, or in another form."""
    whole = basic("intake", TOKEN)
    for title, value in {
            "half a token": basic("intake", TOKEN[:-1]), "a longer one": basic("intake", TOKEN + "x"), "no token": basic("intake", ""),
            "another name": basic("scanner", TOKEN), "no name": basic("", TOKEN), "a name in capitals": basic("INTAKE", TOKEN),
            "a name with a space": basic("intake ", TOKEN), "a name with a realm": basic("intake@directory", TOKEN),
            "the digest of a token": basic("intake", hashlib.sha256(TOKEN.encode()).hexdigest()), "a person's password": basic("anna", PASSWORDS["anna"]),
            "a local name's": basic("registrar", LOCAL_PASSWORD), "a bearer": f"Bearer {TOKEN}", "no base64": f"Basic intake:{TOKEN}",
            "base64 with a line": whole[:20] + "\t" + whole[20:], "base64 with more": whole + "=", "two schemes": f"Basic {whole}",
            "no colon": "Basic " + base64.b64encode(b"intake").decode(), "other bytes": "Basic " + base64.b64encode(b"intake:\xff").decode(),
            "Digest": whole.replace("Basic", "Digest"), "nothing": "Basic", "a token in two": basic("intake", f"{TOKEN[:9]}:{TOKEN[9:]}")}.items():
        reply = room.ask("GET", "/who", [("Authorization", value)])
        same(f"a token: {title}", (reply.status, reply.line("Office-Name")), (401, ""))
    same("two tokens", room.ask("GET", "/who", [("Authorization", whole), ("Authorization", whole)]).status, 401)
    same("one token as it should be", room.ask("GET", "/who", [("Authorization", whole)]).line("Office-Name"), "intake")
    judge("no guess of a token keeps the program waiting", room.ask("GET", "/who", [("Authorization", whole)]).status == 204)


def lines(room: Room, anna: str) -> None:
    """Other lines and paths."""
    for name in ("Office-Name", "Office-Way", "X-Forwarded-User", "Remote-User", "X-Remote-User"):
        reply = room.ask("GET", "/who", [(name, "registrar")])
        same(f"a line {name}", (reply.status, reply.line("Office-Name")), (401, ""))
    for method, path in (("POST", "/who"), ("HEAD", "/who"), ("PUT", "/who"), ("GET", "/who/"), ("GET", "//who"), ("GET", "/WHO"),
                         ("POST", "/sign-out"), ("PUT", "/sign-in"), ("GET", "/sign-in/begin"), ("GET", "/sign-in/back?code=a&state=b"),
                         ("GET", "/"), ("GET", "/counts"), ("GET", "/people.json")):
        reply = room.ask(method, path, {"Cookie": f"__Host-office={anna}"})
        same(f"{method} {path}", (reply.status in (404, 405), reply.line("Office-Name"), session_of(reply)), (True, "", ""))
