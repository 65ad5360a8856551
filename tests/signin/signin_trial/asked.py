"""The directory: what it says later, how it is asked, and what happens while it is away."""
from __future__ import annotations

import pathlib
import time
from functools import partial

from kit.judging import judge, same
from kit.nginx import make_key
from kit.waiting import comes
from signin_trial.room import (
    HEAD, LOCAL_PASSWORD, ROLES, TOKEN, Room, basic, directory, others, session_of, together, tool)
from signin_trial.slapd import BASE, PASSWORDS, Slapd


def asked(folder: pathlib.Path) -> None:
    slapd = Slapd(folder / "slapd")
    room = Room(folder / "room", HEAD + directory(slapd, folder / "room") + ROLES + others())
    try:
        room.start()
        asked_by_hand(room, slapd)
        groups_again(room, slapd)
        names_given_again(room, slapd)
        away(room, slapd)
        waits_for_gates(room)
    finally:
        room.stop()
        slapd.stop()
    ways(folder)


def asked_by_hand(room: Room, slapd: Slapd) -> None:
    """`check --ask` reports whether the directory answers the reader."""
    def ask() -> tuple[int, str]:
        done = tool("check", "--ask", "--settings", room.file)
        return done.status, done.error
    same("the directory answers", ask(), (0, ""))
    reader = room.folder / "reader"
    kept = reader.read_text()
    reader.write_text("another\n")
    judge("it does not take another password of the reader", ask()[0] == 3 and "does not take the password of" in ask()[1], ask())
    reader.write_text(kept)
    slapd.hang()
    judge("it hangs", ask()[0] == 3, is_quiet=True)
    slapd.go_on()


def groups_again(room: Room, slapd: Slapd) -> None:
    """Groups are asked again: who lost one has its roles no more, and who lost all is signed out."""
    anna, dora = session_of(room.sign_in("anna")), session_of(room.sign_in("dora"))
    names = {cookie: room.who(cookie).line("Office-Name") for cookie in (anna, dora)}
    slapd.leave("dora", "records-registry")
    room.reload()
    judge("who lost a group loses its role", comes(
        lambda: room.people()[names[dora]]["grants"] == {"city": ["department in BLDG*"]}, 20), room.people())
    same("and stays signed in", room.who(dora).status, 204)
    judge("the journal has the change", comes(lambda: any(
        entry["what"] == "again" and entry["roles"] == {"city": ["department in BLDG*"]} for entry in room.entries()), 10))
    slapd.leave("anna", "records-registry")
    room.reload()
    judge("who lost the last role is signed out", comes(lambda: room.who(anna).status == 401, 20))
    same("and is in no table", names[anna] in room.people(), False)
    same("the other one is not", room.who(dora).status, 204)
    slapd.join("anna", "records-registry")
    bert = session_of(room.sign_in("bert"))
    slapd.delete("bert")
    room.reload()
    judge("who left is signed out", comes(lambda: room.who(bert).status == 401, 20))
    same("and does not come in", room.sign_in("bert").status, 401)


def names_given_again(room: Room, slapd: Slapd) -> None:
    """A name that somebody else gets later is another person, whether groups were asked again meanwhile or not."""
    old = session_of(room.sign_in("dora"))
    before = room.who(old).line("Office-Name")
    for is_asked in (True, False):
        slapd.delete("dora")
        slapd.hire("dora")
        if is_asked:
            slapd.join("dora", "Records Managers")
            room.reload()
            judge("the session of the one before ends", comes(lambda: room.who(old).status == 401, 20))
        cookie = session_of(room.sign_in("dora"))
        new = room.who(cookie).line("Office-Name")
        judge("the new one has another stable id", new.endswith("@directory") and new != before, (new, before))
        same("and the roles of her groups", room.people()[new]["groups"], ["Building, (works)", "Records Managers"])
        same("nobody else signs by that text", [name for name, entry in room.people().items() if entry["signs"] == "dora"], [new])
        before, old = new, cookie


def away(room: Room, slapd: Slapd) -> None:
    """While the directory hangs, sessions and programs go on, and a local name signs in."""
    anna = session_of(room.sign_in("anna"))
    slapd.hang()
    began = time.monotonic()
    waiting = [partial(room.sign_in, "anna", address=f"203.0.113.{at}") for at in range(5)]
    quick: list[float] = []

    def goes_on() -> object:
        for _ in range(50):
            start = time.monotonic()
            assert room.who(anna).status == 204 and room.who(Authorization=basic("intake", TOKEN)).status == 204
            quick.append(time.monotonic() - start)
        return room.sign_in("registrar", LOCAL_PASSWORD)
    replies = together([*waiting, goes_on])
    same("new sign-ins get a 503", [(reply.status, session_of(reply)) for reply in replies[:5]], [(503, "")] * 5)
    judge("after some seconds", 4 < time.monotonic() - began < 25, time.monotonic() - began)
    judge("no session waits", sorted(quick)[-3] < 0.5, sorted(quick)[-3:])
    same("a local name signs in", replies[5].status, 303)
    room.reload()
    judge("groups that are not asked again end no session",
          comes(lambda: "are not asked again" in room.said(), 30) and room.who(anna).status == 204)
    slapd.go_on()
    same("afterwards people sign in as before", session_of(room.sign_in("anna", address="203.0.113.99")) != "", True)
    slapd.stop()
    reply = room.sign_in("anna", address="203.0.113.98")
    same("no directory at all is a 503 too", (reply.status, session_of(reply)), (503, ""))
    again = together(partial(room.sign_in, "anna", address=f"203.0.113.{at}") for at in range(100, 108))
    same("these attempts are no guesses", [reply.status for reply in again], [503] * 8)
    slapd.start()
    same("and people sign in once it is back", room.sign_in("anna", address="203.0.113.96").status, 303)


def waits_for_gates(room: Room) -> None:
    """A sign-in waits until the gates know the person, and no longer than some seconds."""
    room.stop()
    (room.state / "people.json").unlink()
    room.gives = False
    room.start()
    began = time.monotonic()
    reply = room.sign_in("anna", address="203.0.113.97")
    judge("a sign-in waits for the gates", reply.status == 303 and 4.5 < time.monotonic() - began < 15, time.monotonic() - began)
    room.stop()
    room.gives = True
    room.start()


def ways(folder: pathlib.Path) -> None:
    """How the directory is asked: with TLS whose certificate is looked at, and with settings that say so."""
    slapd = Slapd(folder / "other")
    make_key(folder)
    crt = folder / "other/office.crt"
    try:
        for at, (title, more, status) in enumerate((
                ("ldaps", {"url": f"ldaps://localhost:{slapd.tls_port}", "authority": str(crt)}, 303),
                ("StartTLS", {"url": f"ldap://localhost:{slapd.port}", "start-tls": "true", "authority": str(crt)}, 303),
                ("ldaps by another authority", {"url": f"ldaps://localhost:{slapd.tls_port}", "authority": str(folder / "office.crt")}, 503),
                ("StartTLS by another authority",
                 {"url": f"ldap://localhost:{slapd.port}", "start-tls": "true", "authority": str(folder / "office.crt")}, 503),
                ("ldaps by the system's authorities", {"url": f"ldaps://localhost:{slapd.tls_port}"}, 503),
                ("ldaps of another name", {"url": f"ldaps://127.0.0.1:{slapd.tls_port}", "authority": str(crt)}, 503),
                ("a reader with a wrong password", {"reader": f"cn=other,{BASE}"}, 503),
                ("an attribute that nobody has", {"id": "employeeNumber"}, 503),
                ("an id that is no name for a gate", {"id": "cn"}, 503),
                ("nested groups, as Active Directory asks for them",
                 {"group": "(|(member={})(cn=nobody))", "id": "uid"}, 303))):
            place = folder / f"way-{at}"
            room = Room(place, HEAD + directory(slapd, place, **more) + ROLES)
            room.start()
            reply = room.sign_in("anna")
            same(f"by {title}", (reply.status, session_of(reply) != ""), (status, status == 303))
            judge(f"by {title}: no password in the log", PASSWORDS["anna"] not in room.said(), is_quiet=True)
            room.stop()
    finally:
        slapd.stop()


def settings(folder: pathlib.Path) -> None:
    """Settings that are wrong: each message names the key, and nothing is started."""
    secret = folder / "secret"
    secret.write_text("secret\n")
    provider = f"[provider]\nissuer = \"https://sso.city.example\"\nclient = \"office\"\nsecret = \"{secret}\"\n"
    table = "[directory]\nurl = \"{}\"\npeople = \"ou=people\"\ngroups = \"ou=groups\"\n"
    for title, text, key in (
            ("no site", "zone = \"Europe/Berlin\"\n", "site"), ("http", HEAD.replace("https", "http"), "site"),
            ("no zone", "site = \"https://a.example\"\n", "zone"), ("no such zone", HEAD.replace("Berlin", "Berlim"), "zone"),
            ("a key that is none", HEAD + "hour = 1\n", "hour"), ("no time", HEAD + "day-ends = \"24:00\"\n", "day-ends"),
            ("ldap without TLS", HEAD + table.format("ldap://dc.city.example"), "directory.url"),
            ("a name in an address", HEAD + table.format("ldaps://u:p@dc.city.example"), "directory.url"),
            ("http as a directory", HEAD + table.format("http://dc.city.example"), "directory.url"),
            ("both TLS", HEAD + table.format("ldaps://dc.city.example") + "start-tls = true\n", "directory.start-tls"),
            ("a filter without a name", HEAD + table.format("ldaps://dc") + "person = \"(uid=a)\"\n", "directory.person"),
            ("a reader without a password", HEAD + table.format("ldaps://dc") + "reader = \"cn=a\"\n", "directory.reader"),
            ("directory and provider", HEAD + table.format("ldaps://dc") + provider, "provider"),
            ("a provider without TLS", HEAD + provider.replace("https", "http"), "provider.issuer"),
            ("a provider without a secret", HEAD + provider.replace("secret =", "#"), "provider.secret"),
            ("a realm of two words", HEAD + "realm = \"a b\"\n", "realm"),
            ("a role in capitals", HEAD + "[roles.city]\n\"a\" = \"Registry\"\n", "roles.city.a.is"),
            ("no role", HEAD + "[roles.city]\n\"a\" = []\n", "roles.city.a.is"),
            ("a role with a line feed", HEAD + "[roles.city]\n\"a\" = \"registry\\nname\"\n", "roles.city.a.is"),
            ("a class that is none", HEAD + "[roles.city]\n\"a\" = { is = \"registry\", in = \"A B\" }\n", "roles.city.a.in"),
            ("an office that is none", HEAD + "[roles.\"../x\"]\n\"a\" = \"registry\"\n", "roles.../x"),
            ("a local name with @", HEAD + others().replace("registrar", "\"a@directory\""), "local.a@directory"),
            ("a password as it is", HEAD + "[local]\nkeeper = \"password\"\n", "local.keeper"),
            ("no mail for a local name", HEAD.replace("mail", "#") + others(), "mail"),
            ("one name for two", HEAD + others().replace("registrar", "intake"), "programs.intake"),
            ("a token as it is", HEAD + "[programs.a]\ntoken = \"token\"\nends = 2030-01-01\n", "programs.a.token"),
            ("a token without an end", HEAD + f"[programs.a]\ntoken = \"{'0' * 64}\"\n", "programs.a.ends")):
        file = folder / "settings.toml"
        file.write_text(text)
        done = tool("check", "--settings", file)
        same(f"settings with {title}", (done.status, done.error.startswith(f"office-sign-in: {file}: {key}: ")), (2, True)) or print(done.error)
    file.write_text(HEAD + table.format("ldaps://dc.city.example") + ROLES + others("2020-01-01"))
    same("settings as they should be", tool("check", "--settings", file).out,
         "people sign in by the directory; offices: city; groups with a role: 3; local names: 1; programs: 1\n"
         "the token of intake ended on 2020-01-01\n")
    made = tool("token", "scanner", "--days", "30")
    judge("a token is made", made.status == 0 and "[programs.scanner]" in made.out and made.error.split()[-1] not in made.out, made)
    same("a password of 5 letters is refused", tool("password", "--stdin", data=b"short\n").status, 2)
