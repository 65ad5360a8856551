"""Who may act through nginx, what the page may load, and that nothing is kept."""
import http.server
import json
import threading
import time

from kit.judging import judge, same

OPEN = json.dumps([{"act": "open-run", "day": "2999-12-31", "by": "somebody else"}])
# a page of somebody else, which posts by a form, and one which posts by a script, both with the password that the browser has
FORM = """<!doctype html><title>elsewhere</title><form method=post enctype=text/plain action="%s/acts">
<input type=hidden name='[{"act":"open-run","day":"2999-12-31","by":"form' value='"}]'></form><script>document.forms[0].submit()</script>"""
SCRIPT = """<!doctype html><title>elsewhere</title><script>
fetch("%s%s", {method: "POST", mode: "no-cors", credentials: "include", body: %s}).then(() => document.title = "sent", () => document.title = "failed")</script>"""


def elsewhere(pages):
    """A server of another origin, at a port of its own."""

    class Handler(http.server.BaseHTTPRequestHandler):
        def do_GET(self):
            body = pages.get(self.path, "").encode()
            self.send_response(200)
            self.send_header("Content-Type", "text/html")
            self.send_header("Content-Length", str(len(body)))
            self.end_headers()
            self.wfile.write(body)

        def log_message(self, *_):
            pass

    server = http.server.ThreadingHTTPServer(("127.0.0.1", 0), Handler)
    threading.Thread(target=server.serve_forever, daemon=True).start()
    return server


def programs(proxy):
    """What nginx answers to a POST by what it says of where it comes from."""
    here, other = proxy.address, "https://elsewhere.example"
    for fields, status in (
        ({"Origin": here}, 200),
        ({"Sec-Fetch-Site": "same-origin"}, 200),
        ({"Origin": here, "Sec-Fetch-Site": "same-origin"}, 200),
        ({}, 403),
        ({"Origin": other}, 403),
        ({"Origin": "null"}, 403),
        ({"Origin": here.replace("https", "http")}, 403),
        ({"Origin": here + "0"}, 403),
        ({"Origin": here, "Sec-Fetch-Site": "cross-site"}, 403),
        ({"Origin": here, "Sec-Fetch-Site": "same-site"}, 403),
        ({"Origin": other, "Sec-Fetch-Site": "same-origin"}, 403),
        ({"Sec-Fetch-Site": "none"}, 403),
    ):
        same(f"a POST with {fields}", proxy.ask("POST", "/acts", "[]", fields)[0], status)
        # no run is open, so one that is passed on is 409
        same(f"to take a run up, with {fields}", proxy.ask("POST", "/run/resume", None, fields)[0], 409 if status == 200 else status)
    same("without a password nothing is passed on", proxy.ask("POST", "/acts", "[]", {"Origin": here}, named=False)[0], 401)
    same("nor is the page shown", proxy.ask("GET", "/web/", named=False)[0], 401)


def heads(proxy):
    """The field lines of the page, of an answer and of a refusal."""
    for path in ("/web/", "/web/office.js", "/web/texts/en.json", "/records/1", "/records/99", "/nothing"):
        proxy.ask("GET", path)
        policy = proxy.head.get("Content-Security-Policy", "")
        judge(f"{path}: what it may load", policy.startswith("default-src 'self'; frame-src blob:; base-uri") and "frame-ancestors 'none'" in policy, policy)
        kept = "no-cache" if path.startswith("/web/") and path != "/web/" else "no-store"
        same(f"{path}: what is kept of it", proxy.head.get("Cache-Control"), kept)
        same(f"{path}: and taken for what it is called", proxy.head.get("X-Content-Type-Options"), "nosniff")
        same(f"{path}: no other site may have it", proxy.head.get("Cross-Origin-Resource-Policy"), "same-origin")


def browsers(office, proxy, browser):
    """Other pages of the same browser, which knows the password, act on nothing."""
    here = proxy.address
    pages = {"/form": FORM % here, "/acts": SCRIPT % (here, "/acts", json.dumps(OPEN)), "/resume": SCRIPT % (here, "/run/resume", "null")}
    server = elsewhere(pages)
    log = proxy.folder / "access.log"
    for name in ("localhost", "127.0.0.1"):
        for path in pages:
            before = len(log.read_text())
            browser.driver.get(f"http://{name}:{server.server_port}{path}")
            browser.wait(lambda: '"POST' in log.read_text()[before:], "no POST came")
            time.sleep(0.2)
            lines = [line.split('"')[2].split(" ")[1] for line in log.read_text()[before:].splitlines() if '"POST' in line]
            same(f"a POST of the page http://{name}:..{path} is refused", set(lines), {"403"})
    server.shutdown()
    same("none of them opened a run", office.ask("POST", "/run/resume")[2], b'{"refused":18}')
    browser.open(proxy.page)
    call = "return fetch('../run/resume', {method: 'POST'}).then((it) => it.status)"
    same("the page's own POST is passed on", browser.driver.execute_script(call), 409)
    browser.driver.execute_script("const it = document.createElement('script'); it.textContent = 'window.strange = 1'; document.body.append(it)")
    same("a script within the page is not run", browser.driver.execute_script("return window.strange"), None)
    judge("and that is told on the console", any("Content Security Policy" in line for line in browser.complaints()))


KEPT = """const done = arguments[0]; Promise.all([indexedDB.databases(), caches.keys()]).then(([bases, stores]) =>
  done([localStorage.length, sessionStorage.length, document.cookie, bases.length, stores.length]))"""


def nothing_kept(browser):
    same("nothing is kept in the browser", browser.driver.execute_async_script(KEPT), [0, 0, "", 0, 0])
    elsewhere_ = [name for name in browser.loaded() if not name.startswith(browser.driver.current_url.split("/web/")[0])]
    same("nothing is loaded from elsewhere", elsewhere_, [])
