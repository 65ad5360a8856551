"""Who comes in, who may act, and what nginx answers by itself."""
import http.client
import json
import socket
import ssl
import threading
import time

from kit.judging import judge, same
from trial import place
from trial.place import HERE, ask, post, reach, run


def error(name: str, answer: place.Answer, status: int, word: str) -> None:
    """An answer of nginx itself: its status, and a body like the office's."""
    same(name, (answer.status, answer.head.get("Content-Type"), answer.body),
         (status, "application/json", json.dumps({"error": word}, separators=(",", ":")).encode()))


def reader(folder: str) -> None:
    same("a reader reads", ask("GET", f"{folder}due/2025-01-01", name="reader").status, 200)
    same("and sees the page", ask("GET", f"{folder}web/", name="reader").status, 200)
    error("but does not act", post(f"{folder}acts", [], "reader"), 403, "name")
    error("nor resume a run", post(f"{folder}run/resume", b"", "reader"), 403, "name")
    error("nor by a doubled slash", post(f"{folder}/acts", [], "reader"), 403, "name")
    error("nor by an escaped letter", post(f"{folder}%61cts", [], "reader"), 403, "name")
    same("a registrar does", post(f"{folder}acts", []).status, 200)
    wrong = post(f"{folder}acts", [], "reader", password="wrong")
    error("without the password nobody learns who may act", wrong, 401, "password")
    error("of a name that is not there neither", post(f"{folder}acts", [], "nobody"), 401, "password")
    for name, acts in (("reader", b'{"acts":false}'), ("registrar", b'{"acts":true}')):
        same(f"the page is told whether a {name} may act", ask("GET", f"{folder}rights", name=name).body, acts)
    error("but nobody without the password", ask("GET", f"{folder}rights", name="reader", password="wrong"), 401, "password")


def shaken(name: str | None) -> bool:
    """Whether nginx goes on with a client that asks for this name."""
    any_name = ssl.create_default_context()
    any_name.check_hostname, any_name.verify_mode = False, ssl.CERT_NONE
    try:
        with socket.create_connection(("127.0.0.1", 443), timeout=10) as conn:
            any_name.wrap_socket(conn, server_hostname=name).close()
            return True
    except ssl.SSLError:
        return False


def names() -> None:
    served = [shaken(it) for it in ("localhost", "evil.example", None)]
    same("TLS for localhost, evil.example, no name", served, [True, False, False])
    other = {"Host": "evil.example", "Origin": "https://evil.example"}
    same("another name in Host", ask("GET", "/", fields={"Host": "evil.example"}).status, 421)
    same("and its Origin", ask("POST", "/acts", b"[]", fields=other).status, 421)
    conn = http.client.HTTPConnection("localhost", timeout=10)
    conn.request("GET", "/web/", headers={"Host": "evil.example"})
    reply = conn.getresponse()
    sent = reply.status, reply.getheader("Location")
    same("port 80 sends to TLS, at the site's own name", sent, (301, "https://localhost/web/"))
    listening = {line.split()[3] for line in run("ss --listening --tcp --numeric").stdout.splitlines()[1:]}
    same("it listens by IPv6 too", {"[::]:80", "[::]:443"} & listening, {"[::]:80", "[::]:443"})


def answers(folder: str) -> None:
    """Each has a body like the office's, and the field lines of the page."""
    first = ask("GET", f"{folder}web/", name=None)
    error("no password", first, 401, "password")
    same("a browser asks for one then", first.head.get("WWW-Authenticate"), 'Basic realm="office"')
    wrong = ask("GET", f"{folder}web/", password="wrong")
    error("a wrong password", wrong, 401, "password")
    same("a browser asks again", wrong.head.get("WWW-Authenticate"), 'Basic realm="office"')
    error("a POST from nowhere", ask("POST", f"{folder}acts", b"[]"), 403, "origin")
    other = {"Origin": "https://evil.example"}
    error("a POST of another page", ask("POST", f"{folder}acts", b"[]", fields=other), 403, "origin")
    error("no such path", ask("GET", "/nothing"), 404, "path")
    error("no such file", ask("GET", f"{folder}web/nothing.js"), 404, "path")
    error("a PUT from nowhere", ask("PUT", f"{folder}web/office.js", b""), 403, "origin")
    error("a method that a file has not", ask("PUT", f"{folder}web/office.js", b"", fields=HERE), 405, "method")
    error("more than 1 MiB", post(f"{folder}acts", b" " * 1_048_577), 413, "size")
    page = ask("GET", f"{folder}web/office.js")
    same("a file of the page", (page.status, page.head.get("Content-Type")), (200, "text/javascript"))
    fields = {"Strict-Transport-Security": "max-age=31536000", "X-Content-Type-Options": "nosniff",
              "Cross-Origin-Opener-Policy": "same-origin", "Permissions-Policy": "camera=(), display-capture=(), "
              "geolocation=(), microphone=(), payment=(), usb=()"}
    for it, kept in ((first, "no-store"), (page, "no-cache"), (ask("GET", f"{folder}records/1"), "no-store")):
        wanted = {**fields, "Cache-Control": kept}
        same(f"its field lines, of {it.status}", {name: it.head.get(name) for name in wanted}, wanted)


def opening(folder: str) -> None:
    """To open the page takes one password; its files take none, and a browser that has them asks whether they changed."""
    error("the page itself takes a password", ask("GET", f"{folder}web/", name=None), 401, "password")
    web = place.TOP / "page"
    files = [str(it.relative_to(web)) for it in sorted(web.rglob("*")) if it.is_file()]
    began = time.monotonic()
    seen = {name: ask("GET", f"{folder}web/{name}", name=None) for name in files}
    print(f"    {len(files)} files of the page took {time.monotonic() - began:.1f} seconds")
    other = [name for name, it in seen.items() if it.body != (web / name).read_bytes()]
    same("its files take none", other, [])
    known = {"If-None-Match": seen["office.js"].head["ETag"]}
    again = ask("GET", f"{folder}web/office.js", name=None, fields=known).status
    same("one that did not change is not sent again", again, 304)
    outside = ["web/%2e%2e/records/1", "web/..%2frecords/1", "catalogue/about.json", "records/1"]
    statuses = [ask("GET", folder + it, name=None).status for it in outside]
    same("nothing else is without a password", statuses, [401] * len(outside))


def gone(folder: str) -> None:
    error("no office", ask("GET", f"{folder}records/1"), 502, "office")


SECONDS = 8
OTHER = ("curl --silent --output /dev/null --write-out '%{http_code}' --max-time 60 --interface 127.0.0.8 "
         f'--cacert {place.CERTIFICATE} --user registrar:"$PASSWORD" https://localhost')


def guess(path: str, began: float, seen: list[int]) -> None:
    """For eight seconds, and longer on a machine that is so busy that eight were not under way at once."""
    conn = place.connection("127.0.0.7", 30)
    while time.monotonic() < began + SECONDS or (429 not in seen and time.monotonic() < began + 10 * SECONDS):
        conn.request("GET", path, headers=place.authorization(password="wrong"))
        reply = conn.getresponse()
        reply.read()
        seen.append(reply.status)
        time.sleep(0.1)


def passwords(folder: str) -> None:
    """48 clients of one address guess for eight seconds; who has a password at another address is served meanwhile."""
    run("nft delete table inet office")
    seen: list[int] = []
    began = time.monotonic()
    guessing = [threading.Thread(target=guess, args=(f"{folder}records/1", began, seen)) for _ in range(48)]
    for it in guessing:
        it.start()
    others = []
    for _ in range(4):
        time.sleep(1)
        others.append(run(f"{OTHER}{folder}records/1").stdout)
    for it in guessing:
        it.join()
    took, tried = time.monotonic() - began, seen.count(401)
    print(f"    guesses in {took:.0f} seconds: {tried} answered 401, {seen.count(429)} answered 429")
    judge("eight guesses in two seconds at most", 0 < tried <= 8 * (took / 2 + 1), tried)
    same("the others are refused before the password is looked at", set(seen), {401, 429})
    same("another address is served", set(others), {"200"})
    run("nft -f /etc/office.nft")


def ports(port: int) -> None:
    """The rules of office.nft, as they were loaded."""
    users = ("www-data", "office", "office-yearend", "nobody", "root")
    same("who reaches the office's port", [user for user in users if reach(port, user)], list(users[:3]))
    done = run("nft -f /etc/nftables.conf && nft list table inet office")
    judge("Debian's nftables.conf loads them too", done.returncode == 0 and "office_ports" in done.stdout, done.stdout)
