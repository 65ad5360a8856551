"""Requests that two readers could take for others: cut, smuggled, doubled; and those that do not come through nginx."""
import pathlib

from gate_trial.base import made
from kit.judging import judge, same
from gate_trial.world import HERE, TOKEN, World, parted, said, until

BODY = b'[{"act":"lift-hold","day":"2001-01-01","hold":"H"}]'
SMUGGLED = b"POST /acts HTTP/1.1\r\nHost: localhost\r\nContent-Length: 2\r\n\r\n[]"


def tried(folder: pathlib.Path) -> None:
    world = made(folder)
    forms(world)
    cut(world)
    second(world)
    elsewhere(world)
    into_the_vault(world)
    nginx_alone(world)
    paths(world)
    same("nothing of all this was sent to the office", sum(it["what"] == "asked" for it in world.lines()), 2)
    judge("the chain holds", world.check().returncode == 0, world.check().stderr)
    world.end()


def head(*more: str, first: str = "POST /acts HTTP/1.1", without: str = "") -> bytes:
    """Writes a head as nginx does for the name legal, with other lines."""
    lines = {**HERE, "Office-Token": TOKEN, "Office-Name": "legal", "Office-From": "192.0.2.7"}
    lines.pop(without, None)
    return "\r\n".join([first, *(f"{name}: {value}" for name, value in lines.items()), *more, "", ""]).encode()


def wanted(world: World, what: str, data: bytes, *statuses: int, half: bool = False, later: float = 0) -> object:
    """Sends bytes that are refused, and looks for their line in the journal."""
    count = len(world.lines())
    status, body = parted(world.raw(data, half, later))
    judge(f"{what}: {statuses}", status in statuses, (status, body))
    until(lambda: world.lines()[count:])
    lines = world.lines()[count:]
    judge(f"{what}: it is in the journal", [it["what"] for it in lines] == ["refused"], lines)
    return said(body)


def forms(world: World) -> None:
    """Two ways to say how long a body is are none."""
    both = head("Content-Length: 2", "Transfer-Encoding: chunked") + b"0\r\n\r\n" + SMUGGLED
    wanted(world, "a length and chunks", both, 400, 501)
    wanted(world, "chunks", head("Transfer-Encoding: chunked") + b"2\r\n[]\r\n0\r\n\r\n", 501)
    for coding in ("identity", "gzip, chunked", "xchunked", "chunked, identity", "CHUNKED", " chunked", "\tchunked"):
        wanted(world, f"coding {coding!r}", head(f"Transfer-Encoding:{coding}", "Content-Length: 2") + b"[]", 400, 501)
    for first, other in (("2", "2"), ("2", "51"), ("51", "2")):
        wanted(world, f"lengths {first} and {other}",
               head(f"Content-Length: {first}", f"Content-Length: {other}") + BODY, 400)
    for length in ("+2", "-2", "2, 2", "0x2", "2 ", "", "\u0662", "2\x0b", "99999999999999999999", "1e1"):
        data = head().replace(b"\r\n\r\n", f"\r\nContent-Length: {length}\r\n\r\n".encode()) + b"[]"
        if length == "2 ":
            continue
        wanted(world, f"length {length!r}", data, 400)
    wanted(world, "no length", head() + BODY, 411, 400)
    wanted(world, "no length and no body", head(), 411)
    wanted(world, "too long", head("Content-Length: 1048577"), 413)
    wanted(world, "a name with a space before its colon", head("Content-Length : 51") + BODY, 400, 411)
    wanted(world, "a folded line", head("Content-Length: 5", " 1") + BODY, 400)
    wanted(world, "a NUL in a line", head("Content-Length: 51", "X: a\0b") + BODY, 400)
    wanted(world, "a CR alone", head("Content-Length: 51", "X: a\rContent-Length: 2") + BODY, 400)
    wanted(world, "many lines", head("Content-Length: 51", *(f"X-{it}: 1" for it in range(200))) + BODY, 400)
    wanted(world, "a long line", head("Content-Length: 51", f"X: {'a' * 70000}") + BODY, 400)
    for name, more in (("nobody", " legal"), ("nobody", "\tlegal"), ("nobody\r\nX: a", " Office-Name: legal"),
                       ("nobody\r\nX: a", "\tOffice-Name: legal")):
        data = head(f"Content-Length: {len(BODY)}", f"Office-Name: {name}", more, without="Office-Name") + BODY
        wanted(world, f"a name and a folded line {more!r}", data, 400, 401, 403)
        judge(f"nobody's: {more!r}", world.last("refused")["name"] in ("", "nobody"), world.last("refused"))
    for other in ("Content-length", "CONTENT-LENGTH"):
        wanted(world, f"also {other}", head(f"Content-Length: {len(BODY)}", f"{other}: 2") + BODY, 400)
    wanted(world, "a compressed body", head(f"Content-Length: {len(BODY)}", "Content-Encoding: gzip") + BODY[::-1], 400)


def cut(world: World) -> None:
    """A body that ends before its length does nothing."""
    # at once, or while the gate waits for more
    for length, later in ((len(BODY) + 1, 0.0), (len(BODY) + 1, 0.3), (len(BODY) + 5000, 0.0), (1048576, 0.3)):
        wanted(world, f"a body cut at {len(BODY)} of {length} after {later} s", head(f"Content-Length: {length}") + BODY,
               400, 0, half=True, later=later)
        same("the word in the journal", world.last("refused")["answer"], {"error": "body"})
    same("a head that is cut gets no answer", world.raw(head("Content-Length: 51")[:40], half=True)[:12] in
         (b"", b"HTTP/1.1 400"), True)


def second(world: World) -> None:
    """A connection brings one request."""
    inner = head("Content-Length: 51") + BODY
    answer = world.raw(head(first="GET /rights HTTP/1.1") + inner)
    same("a second request gets no answer", answer.count(b"HTTP/1.1"), 1)
    answer = world.raw(head("Content-Length: 2", first="GET /rights HTTP/1.1") + b"[]" + inner)
    same("nor does one after a body that is not asked for", answer.count(b"HTTP/1.1"), 1)
    answer = world.raw(head("Upgrade: h2c", "Connection: Upgrade", first="GET /rights HTTP/1.1") + inner)
    same("nor one after an upgrade", answer.count(b"HTTP/1.1"), 1)


def elsewhere(world: World) -> None:
    """A page from elsewhere makes a browser that knows the password send nothing that counts."""
    length = f"Content-Length: {len(BODY)}"
    for origin in ("https://evil.example", "null", "http://localhost", "https://localhost:8443",
                   "https://localhost.evil",
                   "https://LOCALHOST", "https://localhost, https://evil.example"):
        data = head(length, f"Origin: {origin}", without="Origin") + BODY
        same(f"origin {origin}", wanted(world, f"origin {origin}", data, 403), {"error": "origin"})
    wanted(world, "two origins", head(length, "Origin: https://localhost") + BODY, 400)
    wanted(world, "no origin", head(length, without="Origin") + BODY, 403)
    for fetched in ("cross-site", "same-site", "none of these"):
        wanted(world, f"a POST, {fetched}", head(length, f"Sec-Fetch-Site: {fetched}") + BODY, 403)
        wanted(world, f"a GET, {fetched}", head(f"Sec-Fetch-Site: {fetched}", first="GET /records/1 HTTP/1.1"), 403)
    wanted(world, "an address that somebody typed does not act",
           head(length, "Sec-Fetch-Site: none", without="Origin") + BODY, 403)
    for host in ("127.0.0.1", "evil.example", "localhost:8080", "localhost.", ""):
        wanted(world, f"host {host!r}", head(length, f"Host: {host}", without="Host") + BODY, 421, 400)
    wanted(world, "two hosts", head(length, "Host: localhost") + BODY, 400)


def into_the_vault(world: World) -> None:
    """A file goes into the vault by a page of this site, whatever nginx let through: asked for, and reported."""
    path = f"Office-Path: /vault/{'a' * 64}"

    def lines(*more: str, first: str, origin: str) -> bytes:
        given = head("Office-Name: registry", *more, first=first, without="Office-Name")
        return given.replace(b"\r\nOrigin: https://localhost", f"\r\nOrigin: {origin}".encode() if origin else b"")

    for first, more in (("GET /may HTTP/1.1", ("Office-Method: PUT", path)), ("GET /stored?length=1 HTTP/1.1", (path,))):
        for origin, fetched in (("", ""), ("", "none"), ("", "same-site"), ("", "cross-site"), ("null", ""),
                                ("https://evil.example", ""), ("https://localhost", "cross-site")):
            named = f"Sec-Fetch-Site: {fetched}" if fetched else "X-Other: 1"
            same(f"{first[:12]}, origin '{origin}', '{fetched}'",
                 wanted(world, f"{first[:12]}, origin '{origin}', '{fetched}'",
                        lines(*more, named, first=first, origin=origin), 403), {"error": "origin"})
        for origin, named in (("https://localhost", "X-Other: 1"), ("", "Sec-Fetch-Site: same-origin")):
            status, _ = parted(world.raw(lines(*more, named, first=first, origin=origin)))
            judge(f"{first[:12]}, from a page of this site", status in (201, 204), status)
    kept = ("put", "stored")
    same("what was taken is in the journal", [it["what"] for it in world.lines() if it["what"] in kept],
         ["put", "put", "stored", "stored"])


def nginx_alone(world: World) -> None:
    """Who does not know the token is nobody."""
    length = f"Content-Length: {len(BODY)}"
    for token in ("", "0" * 64, TOKEN[:-1], TOKEN + "0", TOKEN.upper(), "\u00e9"):
        wanted(world, f"token {token[:8]!r}", head(length, f"Office-Token: {token}", without="Office-Token") + BODY,
               403)
    wanted(world, "no token", head(length, without="Office-Token") + BODY, 403)
    same("without a token the journal has no name", world.last("refused")["name"], "")
    wanted(world, "two tokens", head(length, f"Office-Token: {TOKEN}") + BODY, 400)
    wanted(world, "two names", head(length, "Office-Name: records-manager") + BODY, 400)
    for other in ("office-name", "OFFICE-NAME", "oFFICE-nAME"):
        wanted(world, f"two names, {other}", head(length, f"{other}: records-manager") + BODY, 400)
        wanted(world, f"{other} alone", head(length, f"{other}: nobody", without="Office-Name") + BODY, 403)
    for other in ("Office_Name", "X-Office-Name", "Office-Name-", "Office.Name"):
        wanted(world, f"{other} is no name", head(length, f"{other}: legal", without="Office-Name") + BODY, 401)
    for name in ("", "a b", "legal\u00e9", "x" * 65, "legal,registry", "*"):
        wanted(world, f"name {name[:8]!r}", head(length, f"Office-Name: {name}", without="Office-Name") + BODY, 401)
    wanted(world, "no name", head(length, without="Office-Name") + BODY, 401)
    wanted(world, "a name that nobody is", head(length, "Office-Name: nobody", without="Office-Name") + BODY, 403)


def paths(world: World) -> None:
    for path in ("/", "/acts/", "//acts", "/ACTS", "/acts?x=1", "/acts#x", "/%61cts", "/./acts", "/x/../acts",
                 "/records",
                 "http://localhost/acts", "*", "/replica", "/vault/" + "a" * 64):
        wanted(world, f"POST {path}", head("Content-Length: 2", first=f"POST {path} HTTP/1.1") + b"[]", 404, 405, 400)
    for first in ("POST http://localhost/acts HTTP/1.1", "POST https://localhost/acts HTTP/1.1", "POST acts HTTP/1.1",
                  "POST localhost:443 HTTP/1.1", "POST /acts HTTP/2.0", "POST /acts HTTP/0.9", "POST /acts",
                  "Post /acts HTTP/1.1", "POST /Acts HTTP/1.1",
                  "POST /acts\t HTTP/1.1", "POST /Run/resume HTTP/1.1", "POST /run/resume/ HTTP/1.1",
                  "POST /run/resume?x HTTP/1.1", "POST /run%2fresume HTTP/1.1", "GET /run/resume HTTP/1.1"):
        wanted(world, first, head("Content-Length: 2", first=first) + b"[]", 404, 405, 400)
    # what follows is no request of HTTP, so this one may get no answer
    wanted(world, "CONNECT", head("Content-Length: 2", first="CONNECT localhost:443 HTTP/1.1") + b"[]", 404, 405, 400, 0)
    for first in ("POST  /acts HTTP/1.1", "POST /acts  HTTP/1.1", "POST /acts HTTP/1.0"):
        length, name = f"Content-Length: {len(BODY)}", "Office-Name: auditor"
        wanted(world, first, head(length, name, first=first, without="Office-Name") + BODY, 403, 400)
        judge(f"{first}: it is the request that the journal has", world.last("refused")["request"]
              in ("POST /acts", "no request"), world.last("refused"))
    for path in (b"/records/\xff", b"/records/\xed\xa0\x80", b"/records/1\xff/content"):
        wanted(world, f"GET {path!r}", head(first="GET @ HTTP/1.1").replace(b"@", path), 404, 400)
        shown = path.decode(errors="surrogateescape").encode(errors="backslashreplace").decode()
        same(f"GET {path!r}: its line is a text", world.last("refused")["request"], f"GET {shown}")
    for path in ("/records/01", "/records/1/", "/records/1/content/", "/records/1%2fcontent", "/records/+1",
                 "/due/2025",
                 "/records/1?x", "/catalogue/records.json", "/records/1/files", "/records/\u0661"):
        wanted(world, f"GET {path}", head(first=f"GET {path} HTTP/1.1"), 404, 400)
    for method in ("PUT", "DELETE", "PATCH", "HEAD", "OPTIONS", "post", "LOCK"):
        wanted(world, f"{method} /acts", head("Content-Length: 2", first=f"{method} /acts HTTP/1.1") + b"[]", 405, 400)
    for path, verb in (("/vault/x", "PUT"), ("/records/1/files", "PUT"), ("/catalogue/../acts", "GET"),
                       ("/acts", "POST"),
                       ("/catalogue/records.json", "POST"), ("", "")):
        wanted(world, f"nginx asks for {verb} {path}",
               head(f"Office-Method: {verb}", f"Office-Path: {path}", first="GET /may HTTP/1.1"), 403)
