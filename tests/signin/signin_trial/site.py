"""The whole way: nginx with the site of the repository, office-sign-in, a directory, a gate, an office and a vault."""
from __future__ import annotations

import base64
import hashlib
import http.client
import json
import os
import pathlib
import re
import signal
import threading
import urllib.parse
from collections.abc import Mapping
from typing import Any

from gate_trial.proxy import Proxy
from gate_trial.vault import Vault, digest, manifest
from gate_trial.world import World, end_all, today
from kit import nginx
from kit.judging import absent, judge, same
from kit.waiting import comes
from signin_trial.room import GATE, OWN, ROLES, TOKEN, Reply, Room, basic, directory, others, session_of, tool
from signin_trial.slapd import PASSWORDS, Slapd

nginx.SITES = pathlib.Path(os.environ.get("SIGNIN_SITES", nginx.SITES))
"""the files of nginx that are tried: those of the repository, or a copy with a mistake"""
MANAGERS = "\"Heads, (all)\" = \"records-manager\"\n"
FORGED = {
    "Office-Name": "registrar", "office-name": "registrar", "Office_Name": "registrar", "OFFICE-NAME": "registrar",
    "Office-Token": "0123456789abcdef" * 4, "Office-From": "10.0.0.1", "Office-Way": "local:1", "X-Forwarded-User": "registrar",
    "X-Remote-User": "registrar", "Remote-User": "registrar", "X-Accel-Redirect": "/city/stored", "X-Original-URL": "/sign-in/who",
    "Office-Method": "GET", "Office-Path": "/records/1", "Signed-Name": "registrar", "Connection": "Office-Name, Cookie",
    "X-Forwarded-For": "10.0.0.1",
}
"""lines of a client that could be taken for those of nginx"""


class Site:
    """All of it, with one office."""

    def __init__(self, folder: pathlib.Path) -> None:
        self.slapd = Slapd(folder / "slapd")
        self.world = World(folder / "world", "")
        self.gates, self.own = folder / "gates", folder / "own"
        self.gates.mkdir()
        self.own.mkdir()
        self.world.settings = self.gates / "city.access"
        self.room = Room(folder / "room", "")
        self.room.gives = False
        (folder / "vaulted").mkdir()
        self.vault = Vault(folder / "vaulted", self.world)
        more = {"/run/office-sign-in/socket": str(self.room.socket), **self.vault.proxy.places}
        self.proxy = Proxy(folder / "nginx", "signed.conf", [], self.world.place, self.world.port, folder / "catalogue",
                           {key: value for key, value in more.items() if key.startswith(("/run/office-sign", "/run/office-vault", "/var/lib"))})
        self.proxy.put("sign_in_site.map", "localhost 1;\n")
        head = f"site = \"{self.proxy.here}\"\nzone = \"UTC\"\nmail = \"it@city.example\"\nday-ends = \"23:59\"\n"
        self.room.file.write_text(head + directory(self.slapd, folder / "room") + ROLES + MANAGERS + others())
        own = re.sub(r"^site .*$", f"site {self.proxy.here}", OWN, flags=re.M)
        own = re.sub(r"^end$", "name intake is registry\nend", own, flags=re.M)
        (self.own / "city.access").write_text(re.sub(r"^zone .*$", "zone UTC", own, flags=re.M))
        self.over = threading.Event()

    def start(self) -> None:
        self.reload = self.room.folder / "reload"
        self.reload.write_text("#!/bin/sh\nexit 0\n")
        self.reload.chmod(0o755)
        self.give()
        self.world.start_office()
        self.vault.start()
        self.vault.start_gate()
        assert self.world.gate is not None
        self.reload.write_text(f"#!/bin/sh\nkill -HUP {self.world.gate.pid}\n")
        self.room.start()
        self.room.socket.chmod(0o666)
        self.proxy.start()
        threading.Thread(target=self.give_on, daemon=True).start()

    def give(self) -> None:
        """Stands for root: gives the gate the table of people."""
        done = tool("gates", "--settings", self.room.file, "--people", self.room.state / "people.json", "--given", self.room.given,
                    "--gates", self.gates, "--own", self.own, "--check", f"/usr/bin/python3 -I {GATE} check", "--reload", self.reload)
        assert done.status == 0, done

    def give_on(self) -> None:
        file = self.room.state / "people.json"
        while not self.over.wait(0.05):
            if file.exists() and hashlib.sha256(file.read_bytes()).hexdigest() != self.room.given.read_text():
                self.give()

    def stop(self) -> None:
        self.over.set()
        self.room.stop()
        self.proxy.stop()
        end_all()
        self.slapd.stop()

    # ---- a browser

    def ask(self, method: str, path: str, cookie: str = "", body: bytes | None = None, lines: Mapping[str, str] = {}) -> Reply:
        """Asks as a browser does, with its cookie."""
        link = http.client.HTTPSConnection("localhost", self.proxy.port, timeout=60, context=self.proxy.context())
        own = {"Cookie": cookie} if cookie else {}
        post = {"Origin": self.proxy.here, "Sec-Fetch-Site": "same-origin"} if method != "GET" else {}
        link.request(method, path, body, {**post, **own, **lines})
        answer = link.getresponse()
        reply = Reply(answer.status, answer.getheaders(), answer.read().decode(errors="replace"))
        link.close()
        return reply

    def sign_in(self, name: str, password: str | None = None) -> Reply:
        page = self.ask("GET", "/sign-in?to=/city/web/")
        mark = re.search(r'name="mark" value="([0-9a-f]+)"', page.body)
        assert mark, page
        fields = {"name": name, "password": PASSWORDS[name] if password is None else password, "to": "/city/web/", "mark": mark[1]}
        cookie = "__Host-office-form=" + page.cookies()["__Host-office-form"].split(";")[0]
        return self.ask("POST", "/sign-in", cookie, urllib.parse.urlencode(fields).encode(),
                        {"Content-Type": "application/x-www-form-urlencoded"})

    def act(self, cookie: str, *acts: dict[str, Any], **lines: str) -> tuple[int, Any]:
        reply = self.ask("POST", "/city/acts", cookie, json.dumps([{"day": today(), **act} for act in acts]).encode(),
                         {key.replace("_", "-"): value for key, value in lines.items()})
        return reply.status, json.loads(reply.body)


def site(folder: pathlib.Path) -> None:
    it = Site(folder)
    try:
        it.start()
        pages(it)
        bert = session_of(it.sign_in("bert"))
        acts(it, bert)
        forged_lines(it, bert)
        files(it, bert)
        others_on_site(it)
        ended(it, bert)
        judge("the chain of the gate holds", it.world.check().returncode == 0, it.world.check().stderr)
        judge("the chain of the sign-ins holds", len(it.room.entries()) > 3)
    finally:
        it.stop()


def pages(it: Site) -> None:
    """What somebody without a session gets."""
    page = it.ask("GET", "/city/web/")
    same("whoever opens the page signs in first", (page.status, page.line("Location").removeprefix(it.proxy.here)),
         (302, "/sign-in?to=/city/web/"))
    same("the files of the page are for everybody", it.ask("GET", "/city/web/office.js").status, 200)
    for method, path in (("GET", "/city/rights"), ("GET", "/city/records/1"), ("POST", "/city/acts"), ("GET", "/city/history?record=1"),
                         ("GET", "/city/since"), ("GET", "/city/vault/limits"), ("PUT", f"/city/vault/{'a' * 64}"),
                         ("GET", "/city/catalogue/records.json"), ("GET", "/city/records/1/files/1"), ("GET", "/city/name.json"),
                         ("GET", "/city/alive")):
        reply = it.ask(method, path, body=b"[]" if method == "POST" else None)
        same(f"{method} {path} without a session", (reply.status, reply.body), (401, '{"error":"password"}'))
    same("no browser asks for a password by itself", it.ask("GET", "/city/rights").line("WWW-Authenticate"), "")
    for path in ("/sign-in/who", "/city/may", "/city/sign-may", "/city/stored", "/who", "/sign-in/../who", "/sign-in%2fwho", "/sign-out"):
        same(f"nobody asks {path} from outside", it.ask("GET", path).status, 404)
    page = it.ask("GET", "/sign-in")
    judge("the form has its own lines", "form-action 'self'" in page.line("Content-Security-Policy")
          and page.line("Strict-Transport-Security") and [key for key, _ in page.lines].count("Content-Security-Policy") == 1, page.lines)
    same("its style", it.ask("GET", "/sign-in/style.css").status, 200)
    wrong = it.sign_in("anna", "wrong")
    judge("a wrong password shows the form again", wrong.status == 401 and "not right" in wrong.body, wrong)
    same("a form from elsewhere", it.ask("POST", "/sign-in", body=b"name=a", lines={"Origin": "https://evil.example"}).status, 403)


def acts(it: Site, bert: str) -> None:
    """Somebody who signed in acts by the roles of the groups, and the journal of the gate has the stable id."""
    name = f"{it.slapd.id_of('bert')}@directory"
    rights = json.loads(it.ask("GET", "/city/rights", bert).body)
    same("the page learns who it is", (rights["name"], rights["by"], rights["roles"]), (name, "bert", ["records-manager"]))
    same("the page opens", it.ask("GET", "/city/web/", bert).status, 200)
    status, said = it.act(bert, {"act": "add-schedule", "code": "D0", "trigger": "added", "unit": "days", "count": 0, "offset": "none",
                                 "action": "destroy"}, {"act": "add-class", "code": "BLDG1", "title": "B", "schedule": "D0"},
                          {"act": "add-class", "code": "PER1", "title": "P", "schedule": "D0"},
                          {"act": "add-aggregation", "ref": "A", "title": "A", "class": "BLDG1"},
                          {"act": "add-aggregation", "ref": "B", "title": "B", "class": "PER1"})
    same("a manager makes the plan", status, 200)
    line, entry = it.world.last("asked"), it.room.entries()[-1]
    same("the gate's journal has the stable id, the way, and the line of the sign-in", (line["name"], line["from"]),
         (name, f"127.0.0.1 directory:{entry['line']}"))
    same("that line has the groups", (entry["name"], entry["called"], entry["groups"]), (name, "bert", ["Records Managers"]))
    record = {"act": "add-record", "title": "t", "originated": today(), "content": base64.b64encode(b"abc").decode()}
    same("records", it.act(bert, {**record, "ref": "1", "aggregation": 1}, {**record, "ref": "2", "aggregation": 2})[0], 200)
    dora = session_of(it.sign_in("dora"))
    same("another one reads by her groups", it.ask("GET", "/city/records/1", dora).status, 200)
    same("and does not rule", it.act(dora, {"act": "add-class", "code": "X", "title": "X", "schedule": "D0"})[0], 403)
    same("from elsewhere nobody acts", it.ask("POST", "/city/acts", bert, b"[]", {"Origin": "https://evil.example", "Sec-Fetch-Site": "cross-site"}).status, 403)
    signed = it.act(bert, {"act": "confirm", "record": 1, "action": "destroy", "by": "dora"})
    same("nobody signs as another", signed, (403, {"error": "by", "place": 0}))


def forged_lines(it: Site, bert: str) -> None:
    """Lines of a client: none is a name."""
    wanted = json.loads(it.ask("GET", "/city/rights", bert).body)["name"]
    for name, value in FORGED.items():
        same(f"{name} without a session", it.ask("GET", "/city/rights", lines={name: value}).status, 401)
        reply = it.ask("GET", "/city/rights", bert, lines={name: value})
        same(f"{name} beside a session", reply.status == 401 or json.loads(reply.body)["name"] == wanted, True)
        vault = it.ask("GET", "/city/vault/limits", lines={name: value})
        same(f"{name} at the vault", vault.status, 401)
    for title, value in (("a password of the directory", basic("bert", PASSWORDS["bert"])), ("a name alone", basic("registrar", "")),
                         ("a stable id", basic(wanted, "x")), ("a token as a bearer", f"Bearer {TOKEN}"),
                         ("the token of another", basic("registrar", TOKEN))):
        same(f"{title} as a password", it.ask("GET", "/city/rights", lines={"Authorization": value}).status, 401)


def files(it: Site, bert: str) -> None:
    """Files of the vault, for which nginx asks twice: who it is, and whether that name may."""
    data = os.urandom(500_000)
    put = it.ask("PUT", f"/city/vault/{digest(data)}", bert, data)
    same("a file goes in", (put.status, json.loads(put.body)), (201, {"length": 500_000, "sha256": digest(data)}))
    same("by the stable id", it.world.last("stored")["name"], f"{it.slapd.id_of('bert')}@directory")
    content = base64.b64encode(manifest(data)).decode()
    status, said = it.act(bert, {"act": "add-record", "ref": "3", "title": "t", "originated": today(), "aggregation": 2, "content": content})
    same("its record", status, 200)
    number = said[0]["number"]
    reply = it.ask("GET", f"/city/records/{number}/files/1", bert)
    judge("it comes out", reply.status == 200 and len(reply.body) > 1000, reply.status)
    anna = session_of(it.sign_in("anna"))
    same("for whom the gate lets have it", it.ask("GET", f"/city/records/{number}/files/1", anna).status, 200)
    same("not without a session", it.ask("GET", f"/city/records/{number}/files/1").status, 401)
    same("nor by a session that is none", it.ask("GET", f"/city/records/{number}/files/1", "__Host-office=" + "A" * 43).status, 401)
    other = os.urandom(1000)
    same("other bytes are refused", it.ask("PUT", f"/city/vault/{digest(data[:-1])}", bert, other).status, 422)
    same("from elsewhere no file goes in", it.ask("PUT", f"/city/vault/{digest(other)}", bert, other, {"Origin": "https://evil.example"}).status, 403)


def others_on_site(it: Site) -> None:
    """Programs by token, and the monitor by its password."""
    intake = {"Authorization": basic("intake", TOKEN)}
    same("a program reads", it.ask("GET", "/city/records/1", lines=intake).status, 200)
    record = {"act": "add-record", "ref": "4", "title": "t", "originated": today(), "aggregation": 1, "day": today(),
              "content": base64.b64encode(b"abc").decode()}
    same("and files", it.ask("POST", "/city/acts", body=json.dumps([record]).encode(), lines=intake).status, 200)
    judge("by its own name", it.world.last("asked")["name"] == "intake" and " token:" in it.world.last("asked")["from"], it.world.last("asked"))
    monitor = {"Authorization": basic("monitor", "one for all")}
    same("the monitor keeps its password", it.ask("GET", "/city/alive", lines=monitor).status, 200)
    same("which opens nothing else", it.ask("GET", "/city/records/1", lines=monitor).status, 401)
    log = (it.proxy.folder / "log/office.access.log").read_text()
    judge("nginx's log has the stable id", f"- {it.slapd.id_of('bert')}@directory [" in log)
    absent("and no key", log, [TOKEN])


def ended(it: Site, bert: str) -> None:
    """What ends a session ends it for nginx too."""
    out = it.ask("GET", "/city/sign-out", bert, lines={"Sec-Fetch-Site": "same-origin", "Authorization": basic("nobody", "nobody")})
    same("the page signs out", out.status, 401)
    same("and is signed out", [it.ask("GET", path, bert).status for path in ("/city/rights", "/city/vault/limits", "/city/web/")], [401, 401, 302])
    anna = session_of(it.sign_in("anna"))
    it.room.stop()
    statuses = [it.ask("GET", path, anna).status for path in ("/city/rights", "/city/vault/limits", "/city/records/1")]
    judge("without the service nobody comes in", all(status in (500, 502, 503) for status in statuses), statuses)
    same("the files of the page are there", it.ask("GET", "/city/web/office.js").status, 200)
    it.room.start()
    it.room.socket.chmod(0o666)
    same("a start ended the session", it.ask("GET", "/city/rights", anna).status, 401)
    assert it.world.gate is not None
    it.world.gate.send_signal(signal.SIGHUP)
    judge("and people sign in again", comes(lambda: it.ask("GET", "/city/rights", session_of(it.sign_in("anna"))).status == 200, 20))
