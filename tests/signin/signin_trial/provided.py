"""Signing in at a provider: who comes in, and which statements, states and codes are not taken."""
from __future__ import annotations

import hashlib
import hmac
import json
import pathlib
import time
import urllib.parse
from typing import Any

from kit.judging import absent, judge, same
from kit.waiting import comes
from signin_trial.issuer import CLIENT, SECRET, Change, Issuer, Keys, coded
from signin_trial.room import HEAD, LOCAL_PASSWORD, ROLES, Reply, Room, others, session_of


def provider(issuer: Issuer, folder: pathlib.Path, **more: str) -> tuple[str, str]:
    """Returns the realm, and the table of the provider in the settings."""
    folder.mkdir(parents=True, exist_ok=True)
    (folder / "secret").write_text(SECRET + "\n")
    values = {"issuer": issuer.place, "client": CLIENT, "secret": str(folder / "secret"), **more}
    return "realm = \"city\"\n", "[provider]\n" + "".join(f"{key} = {json.dumps(value)}\n" for key, value in values.items())


class Way:
    """A sign-in at the provider, step by step."""

    def __init__(self, room: Room, issuer: Issuer, to: str = "/city/web/") -> None:
        self.room, self.issuer = room, issuer
        self.begun = room.ask("GET", "/sign-in/begin?" + urllib.parse.urlencode({"to": to}))
        self.address = self.begun.line("Location")
        self.cookie = "__Host-office-begun=" + self.begun.cookies().get("__Host-office-begun", "").split(";")[0]
        self.fields = dict(urllib.parse.parse_qsl(urllib.parse.urlsplit(self.address).query))

    def code(self, name: str = "anna") -> str:
        return self.issuer.authorize(self.address, name)

    def back(self, cookie: str | None = None, **fields: str) -> Reply:
        """Comes back from the provider, with the state of this sign-in if no other is given."""
        query = {"state": self.fields["state"], **fields}
        lines = {"Cookie": self.cookie if cookie is None else cookie, "Sec-Fetch-Site": "cross-site"}
        return self.room.ask("GET", "/sign-in/back?" + urllib.parse.urlencode(query), lines)


def provided(folder: pathlib.Path) -> None:
    issuer = Issuer()
    head, table = provider(issuer, folder / "room")
    room = Room(folder / "room", HEAD + head + table + ROLES + others())
    try:
        room.start()
        right(room, issuer)
        states(room, issuer)
        tokens(room, issuer)
        elsewhere(room, issuer)
        again(room, issuer)
        absent("no secret and no token is in the log or the journal", room.said() + room.journal.read_text(), [SECRET, "eyJ", "access-anna"])
    finally:
        room.stop()
        issuer.stop()


def right(room: Room, issuer: Issuer) -> None:
    """Those who may come in."""
    page = room.ask("GET", "/sign-in?to=/city/web/")
    judge("the page has a link to the provider, and no field for a password",
          "/sign-in/begin?to=%2Fcity%2Fweb%2F" in page.body and "password" not in page.body, page.body)
    way = Way(room, issuer)
    judge("the way to the provider has PKCE, state and nonce", way.begun.status == 302 and way.address.startswith(f"{issuer.place}/authorize?")
          and len(way.fields["code_challenge"]) == 43 and len(way.fields["state"]) == 43 and len(way.fields["nonce"]) == 43, way.address)
    cookie = way.begun.cookies()["__Host-office-begun"]
    judge("its cookie", {"Secure", "HttpOnly", "SameSite=Lax", "Path=/", "Max-Age=600"} <= set(cookie.split("; ")), cookie)
    reply = way.back(code=way.code())
    same("anna comes in", (reply.status, reply.line("Location")), (303, "/city/web/"))
    same("by her stable id", room.who(session_of(reply)).line("Office-Name"), "8a1c-anna@city")
    same("with the roles of her groups, in the journal", [room.entries()[-1][key] for key in ("called", "groups", "roles", "way")],
         ["anna", ["canteen", "records-registry"], {"city": ["registry"]}, "provider"])
    way = Way(room, issuer)
    way.back(code=way.code("bert"))
    same("groups as one text, parted by semicolons", room.people()["9b2d-bert@city"]["grants"], {"city": ["records-manager"]})
    way = Way(room, issuer)
    reply = way.back(code=way.code("carl"))
    same("whoever has no role has no session", (reply.status, session_of(reply)), (403, ""))
    issuer.alg = "ES256"
    way = Way(room, issuer)
    same("a token signed by ES256", way.back(code=way.code()).status, 303)
    issuer.alg = "RS256"
    way = Way(room, issuer, "//evil.example/")
    same("nobody goes elsewhere afterwards", way.back(code=way.code()).line("Location"), "/")
    local = room.ask("GET", "/sign-in/local")
    same("a local name has a form of its own", room.send(local, "registrar", LOCAL_PASSWORD).status, 303)
    same("the password of nobody", room.send(local, "anna", "x").status, 401)


def states(room: Room, issuer: Issuer) -> None:
    """A way back that was not begun in this browser, or that came back before."""
    way, other = Way(room, issuer), Way(room, issuer)
    data, mark = way.cookie.split("=", 1)[1].split(".")
    forged = coded(json.dumps([way.fields["state"], "nonce", "verifier", "/", 1e12]).encode())
    for title, reply in (
            ("without a cookie", way.back("", code=way.code())), ("with the cookie of another", way.back(other.cookie, code=way.code())),
            ("with another state", way.back(code=way.code(), state=other.fields["state"])),
            ("without a state", way.back(code=way.code(), state="")),
            ("with letters for a state", way.back(code=way.code(), state="ä")),
            ("with a cookie that was changed", way.back(f"__Host-office-begun={forged}.{mark}", code=way.code(), state="")),
            ("with a mark of nobody", way.back(f"__Host-office-begun={forged}.{'0' * 64}", code=way.code())),
            ("with a mark by another key", way.back(
                f"__Host-office-begun={forged}.{hmac.digest(b'', b'begun' + forged.encode(), 'sha256').hex()}", code=way.code())),
            ("with two cookies", way.back(f"{way.cookie}; {other.cookie}", code=way.code())),
            ("with the mark of a form", way.back(f"__Host-office-begun={data}.{hashlib.sha256(data.encode()).hexdigest()}", code=way.code())),
            ("without a code", way.back()), ("with an error", way.back(error="access_denied")),
            ("with an error and a code", way.back(error="x", code=way.code())),
            ("of another provider", way.back(code=way.code(), iss="https://evil.example")),
            ("with a code of 5000 letters", way.back(code="a" * 5000))):
        same(f"a way back {title}", (reply.status, session_of(reply)), (403, ""))
    same("each for its state", {entry.get("why") for entry in room.entries()[-15:]}, {"state"})
    query = f"state={way.fields['state']}&state={other.fields['state']}&code={way.code()}"
    same("a state that is there twice", room.ask("GET", f"/sign-in/back?{query}", {"Cookie": way.cookie}).status, 403)
    code = way.code()
    same("as it should be, with the provider's name", way.back(code=code, iss=issuer.place).status, 303)
    same("the same once more", way.back(code=code).status, 403)
    same("with another code of the provider", way.back(code=way.code()).status, 403)
    same("a code of another sign-in", other.back(code=way.code()).status, 403)
    asked = len(issuer.asked)
    Way(room, issuer).back("", code="x")
    same("the provider is not asked about what was not begun", len(issuer.asked), asked)


def changed(**claims: Any) -> Change:
    """Changes claims of a token; None takes one out."""
    def change(head: dict[str, Any], own: dict[str, Any]) -> None:
        for key, value in claims.items():
            own.pop(key, None) if value is None else own.update({key: value})
    return change


def headed(**parts: Any) -> Change:
    """Changes the head of a token; None takes a part out."""
    def change(head: dict[str, Any], own: dict[str, Any]) -> None:
        for key, value in parts.items():
            head.pop(key, None) if value is None else head.update({key: value})
    return change


def tokens(room: Room, issuer: Issuer) -> None:
    """Tokens that are not true: none makes a session."""
    now, strangers, signs = int(time.time()), Keys(), issuer.signs
    public = json.dumps(issuer.keys.public()[0]).encode()

    def tried(title: str, wanted: int = 403) -> None:
        way = Way(room, issuer)
        reply = way.back(code=way.code())
        same(f"a token {title}", (reply.status, bool(session_of(reply))), (wanted, wanted == 303))
        same(f"a token {title}: for that reason", room.entries()[-1].get("why"), "provider" if wanted == 403 else None)
    for title, change in (
            ("of another issuer", changed(iss="https://evil.example")), ("without an issuer", changed(iss=None)),
            ("for another client", changed(aud="other")), ("for nobody", changed(aud=None)), ("for no client", changed(aud=[])),
            ("for two clients", changed(aud=[CLIENT, "other"])), ("for two, given to the other", changed(aud=[CLIENT, "other"], azp="other")),
            ("given to another client", changed(azp="other")), ("that is over", changed(exp=now - 120)), ("that never ends", changed(exp=None)),
            ("whose end is a text", changed(exp="soon")), ("of the future", changed(iat=now + 3600)), ("of no time", changed(iat=None)),
            ("not yet to be used", changed(nbf=now + 3600)), ("with another nonce", changed(nonce="x" * 43)), ("without a nonce", changed(nonce=None)),
            ("whose nonce is a number", changed(nonce=7)), ("of nobody", changed(sub=None)), ("of an empty name", changed(sub="")),
            ("whose name is a list", changed(sub=["8a1c-anna"])), ("of a name of 300 letters", changed(sub="a" * 300)),
            ("with groups that are a number", changed(groups=7)), ("with groups of numbers", changed(groups=[7])),
            ("whose groups Entra left out", changed(groups=None, _claim_names={"groups": "src1"})),
            ("by a key that nobody has", headed(kid="x")), ("with a head that nobody knows", headed(crit=["x"], x=1)),
            ("by RS512", headed(alg="RS512")), ("by another kind than its key", headed(alg="ES256"))):
        issuer.change, issuer.signs = change, lambda head, data: issuer.keys.signature("RS256", data)
        tried(title)
    issuer.change, issuer.signs = headed(alg="none"), lambda head, data: b""
    tried("without a signature")
    issuer.change, issuer.signs = headed(alg="HS256"), lambda head, data: hmac.digest(SECRET.encode(), data, "sha256")
    tried("by the secret of this client")
    issuer.signs = lambda head, data: hmac.digest(public, data, "sha256")
    tried("by the public key, as a secret")
    issuer.change, issuer.signs = headed(), lambda head, data: strangers.signature("RS256", data)
    tried("by a stranger's key")
    issuer.change = headed(kid=None, jwk=strangers.public()[0])
    tried("with its own key in its head")
    issuer.change = headed(jku="https://evil.example/jwks", kid="evil")
    tried("with the address of its key")
    issuer.change, issuer.signs = headed(), lambda head, data: signs(head, data)[:-1] + b"\0"
    tried("with a signature that was changed")
    issuer.signs = lambda head, data: signs(head, data + b" ")
    tried("whose signature is of another text")
    issuer.signs, issuer.change = signs, changed()
    for title, answer in (("that is none", {"id_token": "x.y.z"}), ("that is missing", {"id_token": None}),
                          ("of an earlier sign-in", {"id_token": issuer.token("anna", "n" * 43)})):
        issuer.answer = answer
        tried(title)
    issuer.answer = {}
    issuer.change = changed(sub="auth0|anna with a | in it")
    tried("of an id that no gate takes as a name", 303)
    ids = [name for name in room.people() if name.startswith("h-")]
    same("has the SHA-256 of it", (len(ids), len(ids[0])), (1, len("h-@city") + 40))
    issuer.change = changed(sub=ids[0].split("@")[0], preferred_username="eve")
    tried("that takes this name for its own", 303)
    same("is another person", len([name for name in room.people() if name.startswith("h-")]), 2)
    issuer.change = changed(sub="registrar", preferred_username="registrar", groups=["records-registry"])
    tried("of somebody called as a local name", 303)
    judge("is not that local name", "registrar@city" in room.people() and "registrar" not in room.people())
    issuer.change = changed()


def elsewhere(room: Room, issuer: Issuer) -> None:
    """What the provider states in other places, and of itself."""
    issuer.change = changed(groups=None)
    way = Way(room, issuer)
    same("groups that are stated elsewhere", way.back(code=way.code("bert")).status, 303)
    issuer.userinfo = {"sub": "9b2d-bert", "groups": ["Records Managers"]}
    way = Way(room, issuer)
    same("of somebody else", way.back(code=way.code("anna")).status, 403)
    issuer.userinfo, issuer.change = {}, changed()
    place = issuer.place
    for title, stated in (("another issuer", {"issuer": f"{place}/"}), ("no issuer", {"issuer": None}),
                          ("a token endpoint without TLS elsewhere", {"token_endpoint": "ftp://evil.example/token"})):
        room.stop()
        issuer.discovery = stated
        room.start()
        same(f"a provider that states {title}", room.ask("GET", "/sign-in/begin").status, 503)
    issuer.discovery = {}
    room.stop()
    room.start()
    way = Way(room, issuer)
    issuer.discovery = {"token_endpoint": f"{place}/none"}
    same("it is asked as it stated before", way.back(code=way.code()).status, 303)
    issuer.discovery = {}
    issuer.keys = Keys()
    way = Way(room, issuer)
    same("new keys at once, if it asked for keys just now", way.back(code=way.code()).status, 403)


def again(room: Room, issuer: Issuer) -> None:
    """Groups are asked again by what the provider gave for that."""
    room.stop()
    room.start()
    way = Way(room, issuer)
    cookie = session_of(way.back(code=way.code()))
    issuer.change = changed(groups=["Records Managers"])
    room.reload()
    judge("who changed groups has other roles", comes(
        lambda: room.people()["8a1c-anna@city"]["grants"] == {"city": ["records-manager"]}, 20), room.people())
    same("and stays signed in", room.who(cookie).status, 204)
    issuer.change = changed(sub="9b2d-bert")
    room.reload()
    judge("what is of somebody else ends the session", comes(lambda: room.who(cookie).status == 401, 20))
    issuer.change = changed()
    way = Way(room, issuer)
    cookie = session_of(way.back(code=way.code()))
    issuer.refreshing.clear()
    room.reload()
    judge("who is no longer signed in there is signed out here", comes(lambda: room.who(cookie).status == 401, 20))
    issuer.gives_refresh = False
    way = Way(room, issuer)
    cookie = session_of(way.back(code=way.code()))
    room.reload()
    time.sleep(0.5)
    same("without that a session goes on until the evening", room.who(cookie).status, 204)
    out = room.ask("GET", "/sign-out", {"Cookie": cookie, "Sec-Fetch-Site": "same-origin"})
    page = room.ask("GET", "/sign-in")
    judge("whoever signs out may do so at the provider too", out.status == 401 and f"{issuer.place}/out?client_id=office" in page.body, page.body)
    same("signing out ended the session", room.who(cookie).status, 401)
