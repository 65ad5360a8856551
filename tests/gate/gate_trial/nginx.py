"""The gate behind nginx, with the site of the repository: names, what nginx has itself, and a client's tricks."""
import base64
import gzip
import json
import pathlib

from gate_trial.base import SETTINGS, filing, plan
from kit.judging import judge, same
from gate_trial.proxy import PASSWORD, Proxy
from gate_trial.world import TOKEN, World, today

NAMES = ["registry", "records-manager", "legal", "department", "auditor", "archive"]
LIFT = [{"act": "lift-hold", "day": today(), "hold": "H"}]
# how a request line could be written so that nginx and the gate read two things in it; HERE is the site
ACTING = ["HERE/city/acts", "http://localhost/city/acts", "/city/../city/acts", "//city//acts", "/city/%61cts", "/CITY/acts",
          "/city/ACTS", "/city/acts/", "/city/acts?x", "/city/acts;x", "/city/acts%00", "/city/acts%0a", "/city/acts\xff",
          "city/acts", "*", "POST /city/acts", "POST /city/acts HTTP/1.0", "POST /city/acts HTTP/2.0",
          "post /city/acts HTTP/1.1", "PoST /city/acts HTTP/1.1", "GET /city/acts HTTP/1.1", "PUT /city/acts HTTP/1.1"]
READING = ["/city/records/2", "HERE/city/records/2", "/city/./records/2", "/city/records/1/../2", "/city/%72ecords/2",
           "/city/records/%32", "/city//records/2", "/city/records/2/content", "/city/records/1/files/../../2/files"]
FOLDED = ["X: a\r\n Office-Name: legal\r\n", "Office-Name: a\r\n legal\r\n", "\tOffice-Name: legal\r\n",
          "Office-Name : legal\r\n", "Office-Name:legal\r\nOFFICE-NAME:legal\r\n",
          "Connection: Office-Name, Office-Token\r\n", "Connection: Origin, Host\r\n"]


def tried(folder: pathlib.Path) -> None:
    world = World(folder / "world", SETTINGS)
    catalogue = world.catalogue / "now"
    catalogue.mkdir(parents=True)
    for name, value in (("records", []), ("aggregations", []), ("runs", [])):
        data = json.dumps({"moment": "2026-11-29T06:20:00Z", name: value}, separators=(",", ":")).encode()
        (catalogue / f"{name}.json.gz").write_bytes(gzip.compress(data))
    proxy = Proxy(folder / "nginx", "gated.conf", NAMES, world.place, world.port, catalogue)
    world.settings.write_text(f"site {proxy.here}\nzone UTC\n" + SETTINGS)
    world.start_office()
    world.start_gate()
    world.place.chmod(0o666)
    proxy.start()
    names(proxy, world)
    own(proxy)
    forged(proxy, world)
    smuggled(proxy, world)
    spelled(proxy, world)
    away(proxy, world)
    judge("the chain holds", world.check().returncode == 0, world.check().stderr)
    proxy.stop()
    world.end()


def names(proxy: Proxy, world: World) -> None:
    """The gate knows who signed in, and from where."""
    day = {"day": today()}
    status, found = proxy.act("records-manager", [{**it, **day} for it in plan()])
    same("the plan", status, 200)
    status, found = proxy.act("legal", [{"act": "place-hold", "code": "H", "reason": "r", **day}],
                              Office_Reason="court%20order")
    same("a hold", (status, found), (200, [{"done": True}]))
    line = world.last("asked")
    same("the journal", (line["name"], line["from"], line["reason"], line["acts"][0]["by"]),
         ("legal", "127.0.0.1", "court order", "legal"))
    same("who may not lift", proxy.act("registry", LIFT), (403, {"error": "right", "act": "lift-hold", "place": 0}))
    same("a wrong password", proxy.ask("legal", "POST", "/city/acts", b"[]", password="wrong")[0], 401)
    same("a name of nobody", proxy.ask("nobody", "GET", "/city/records/1")[0], 401)
    same("a reading", json.loads(proxy.ask("department", "GET", "/city/records/1")[1])["class"], "BLDG1")
    same("a foreign record", proxy.ask("department", "GET", "/city/records/2"),
         (403, b'{"error":"class","read":"records"}'))
    same("rights", json.loads(proxy.ask("department", "GET", "/city/rights")[1])["by"], "department")
    same("elsewhere", proxy.ask("legal", "POST", "/city/acts", b"[]", origin="https://evil.example"),
         (403, b'{"error":"origin"}'))
    same("a GET for a page from elsewhere", proxy.ask("legal", "GET", "/city/records/1", None,
                                                      {"Sec-Fetch-Site": "cross-site"})[0], 403)
    same("what nginx's own journal has", (proxy.folder / "log/acts.log").read_text(), "")


def own(proxy: Proxy) -> None:
    """What nginx has itself goes to those whom the gate lets have it."""
    for name, status in (("auditor", 200), ("registry", 200), ("archive", 403)):
        found = proxy.ask(name, "GET", "/city/catalogue/records.json")
        same(f"the catalogue for {name}", found[0], status)
        if status == 403:
            same(f"the word for {name}", found[1], b'{"error":"right","read":"catalogue"}')
    same("what is in it", proxy.ask("auditor", "GET", "/city/catalogue/records.json")[1],
         b'{"moment":"2026-11-29T06:20:00Z","records":[]}')
    same("what is in it for a client that takes it compressed", gzip.decompress(proxy.ask(
        "auditor", "GET", "/city/catalogue/records.json", None, {"Accept-Encoding": "gzip"})[1])[:10], b'{"moment":')
    same("runs of a name with classes", proxy.ask("department", "GET", "/city/catalogue/runs.json"),
         (403, b'{"error":"class","read":"catalogue"}'))
    # a lift without the right to it left no act
    same("a history", kinds(proxy.ask("auditor", "GET", "/city/history?hold=H")[1]), ["place-hold"])
    same("no history", proxy.ask("registry", "GET", "/city/history?hold=H"), (403, b'{"error":"right","read":"history"}'))
    same("what was done since", kinds(proxy.ask("auditor", "GET", "/city/since?moment=2026-11-29T06:20:00Z")[1])[-1:],
         ["place-hold"])
    for path in ("/city/history", "/city/history?hold=H&hold=I", "/city/history/?hold=H", "/city/history?hold=%48",
                 "/city/since", "/city/historyx?hold=H"):
        same(path, proxy.ask("auditor", "GET", path)[0], 404)
    for path in ("/city/catalogue/../records/2", "/city/catalogue/records.json/../../records/2",
                 "/city/catalogue/%2e%2e/may",
                 "/city/catalogue/", "/city/catalogue/other.txt", "/city/may", "/city/catalogue//records.json"):
        status, body = proxy.ask("department", "GET", path)
        judge(f"department: {path}", status in (403, 404, 400), (status, body))
    same("a monitor", proxy.ask("monitor", "GET", "/city/alive"), (200, b'{"records":true}'))
    judge("its counts", b"office_gate_answers_total" in proxy.ask("monitor", "GET", "/city/metrics")[1])
    same("nobody else's password", proxy.ask("auditor", "GET", "/city/metrics")[0], 401)
    same("a monitor reads nothing else", proxy.ask("monitor", "GET", "/city/records/1")[0], 401)
    same("the page without a password", proxy.ask("nobody", "GET", "/city/web/office.js", None,
                                                  {"Authorization": ""})[0], 200)
    same("opening it needs one", proxy.ask("nobody", "GET", "/city/web/")[0], 401)
    # there is no vault here, so what passes comes to nobody
    for name, verb, path, status in (("registry", "PUT", f"/city/vault/{'a' * 64}", 502),
                                     ("department", "PUT", f"/city/vault/{'a' * 64}", 403),
                                     ("department", "GET", "/city/records/1/files", 502),
                                     ("department", "GET", "/city/records/2/files", 403),
                                     ("auditor", "GET", "/city/records/1/files/1", 403),
                                     ("registry", "GET", "/city/vault/limits", 502),
                                     ("auditor", "GET", "/city/vault/limits", 403)):
        found = proxy.ask(name, verb, path, b"x" if verb == "PUT" else None)
        same(f"{verb} {path} of {name}", found[0], status)
        if status == 403:
            word = "class" if path.startswith("/city/records/2") else "right"
            same(f"{verb} {path} of {name}: the word", found[1], f'{{"error":"{word}"}}'.encode())


def kinds(body: bytes) -> list[str]:
    return [it.get("kind") or it["act"]["act"] for it in json.loads(body)["rows"]]


def forged(proxy: Proxy, world: World) -> None:
    """No line that a client sends says who it is."""
    for name, value in (("Office-Name", "legal"), ("office-name", "legal"), ("Office_Name", "legal"),
                        ("Office-Token", TOKEN),
                        ("Office-From", "10.0.0.1"), ("Office-Method", "PUT"), ("Office-Path", "/x"),
                        ("X-Forwarded-User", "legal")):
        same(f"{name} of a client", proxy.act("registry", LIFT, **{name: value})[0], 403)
        same(f"{name}: who it was", (world.last("refused")["name"], world.last("refused")["from"]),
             ("registry", "127.0.0.1"))
    for reason in ("a%0d%0aOffice-Name:%20legal", "%00", "x" * 600):
        same(f"a reason {reason[:12]}", proxy.act("registry", LIFT, Office_Reason=reason)[0], 400)


def smuggled(proxy: Proxy, world: World) -> None:
    """Of two requests in one nothing but the first one, as nginx reads it, comes to the gate."""
    auth = base64.b64encode(f"registry:{PASSWORD}".encode()).decode()
    head = f"Host: localhost:{proxy.port}\r\nAuthorization: Basic {auth}\r\nOrigin: {proxy.here}\r\n"
    body = json.dumps(LIFT).encode()
    before = len(world.lines())
    for lines in ("Content-Length: 4\r\nTransfer-Encoding: chunked", "Transfer-Encoding: chunked\r\nContent-Length: 4",
                  "Content-Length: 4\r\nContent-Length: 60", "Content-Length: 0\r\nContent-Length : 60",
                  "Transfer-Encoding : chunked", "Transfer-Encoding: xchunked", "Content-Length: +60"):
        data = f"POST /city/acts HTTP/1.1\r\n{head}{lines}\r\n\r\n".encode() + b"0\r\n\r\n" + body
        status, found = proxy.raw(data)
        judge(f"{lines!r}", status in (400, 403, 411, 501, 0), (status, found))
    chunks = b"%x\r\n%s\r\n0\r\n\r\n" % (len(body), body)
    status, found = proxy.raw(f"POST /city/acts HTTP/1.1\r\n{head}Transfer-Encoding: chunked\r\n\r\n".encode() + chunks)
    same("chunks, which nginx reads whole", (status, world.last("refused")["kinds"]), (403, {"lift-hold": 1}))
    judge("nobody but registry did any of this", {it["name"] for it in world.lines()[before:]} <= {"registry", ""},
          world.lines()[before:])
    judge("and nothing was sent", all(it["what"] != "asked" for it in world.lines()[before:]))


def spelled(proxy: Proxy, world: World) -> None:
    """Other spellings of a request line, and folded lines: none acts, and none reads another's record."""
    before = len(world.lines())
    for target in ACTING:
        status, found = written(proxy, target if " " in target else f"POST {target} HTTP/1.1")
        judge(f"{target!r}", 400 <= status < 600 or status == 0, (status, found))
    for target in READING:
        status, found = written(proxy, f"GET {target} HTTP/1.1")
        judge(f"{target!r}", status in (400, 403, 404) and b"title" not in found, (status, found))
    for more in FOLDED:
        status, found = written(proxy, "POST /city/acts HTTP/1.1", more)
        judge(f"{more!r}", status in (400, 403), (status, found))
    for host in ("evil.example", "localhost", f"LOCALHOST:{proxy.port}", "", f"localhost:{proxy.port}@evil"):
        status, found = written(proxy, f"POST {proxy.here}/city/acts HTTP/1.1", host=host)
        judge(f"an address, and the host {host!r}", status in (400, 403, 421), (status, found))
    since = world.lines()[before:]
    judge("nobody but department did any of this", {it["name"] for it in since} <= {"department", ""}, since)
    judge("and nothing was sent, nor read", {it["what"] for it in since} == {"refused"}, since)


def written(proxy: Proxy, first: str, more: str = "", host: str | None = None) -> tuple[int, bytes]:
    """Sends a lift of a hold as department, who may not lift, with a request line and further lines as they are written."""
    auth = base64.b64encode(f"department:{PASSWORD}".encode()).decode()
    lines = [first.replace("HERE", proxy.here), f"Host: {f'localhost:{proxy.port}' if host is None else host}",
             f"Authorization: Basic {auth}", f"Origin: {proxy.here}"]
    body = json.dumps(LIFT).encode()
    head = "\r\n".join(lines) + f"\r\n{more}Content-Length: {len(body)}\r\n\r\n"
    return proxy.raw(head.encode("latin-1") + body)


def away(proxy: Proxy, world: World) -> None:
    """A long list of acts, and a gate that is away."""
    many = [{**filing(it, 1), "day": today()} for it in range(100, 400)]
    status, found = proxy.act("registry", many)
    judge("300 acts", status == 200 and len(found) == 300, (status, str(found)[:100]))
    same("too long a body", proxy.ask("registry", "POST", "/city/acts", b"[" + b" " * (1 << 20) + b"]")[0], 413)
    world.stop_gate()
    same("without a gate nothing passes", proxy.ask("legal", "GET", "/city/records/1"), (502, b'{"error":"office"}'))
    judge("not even what nginx has", proxy.ask("auditor", "GET", "/city/catalogue/records.json")[0] >= 500)
    world.start_gate()
    world.place.chmod(0o666)
