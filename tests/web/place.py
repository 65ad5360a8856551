"""A place to try the page in: an office that `office serve` serves, and nginx with the site deploy/nginx/office.conf before it.

The site is the one of the repository, with the files that it includes. Ports, folders and files of this trial are put
in place of those that it names.
"""
import base64
import contextlib
import http.client
import json
import os
import pathlib
import shutil
import ssl
import subprocess

from kit.nginx import begin, end, line_of, make_key, without_ipv6
from kit.ports import free_port

TOP = pathlib.Path(__file__).resolve().parent.parent.parent
OFFICE = os.environ.get("OFFICE", str(TOP / "office"))
# the page that is tried; mutants names another one
WEB = pathlib.Path(os.environ.get("WEB", TOP / "page"))
NAME, PASSWORD = "registrar", "a long one"
NGINX = TOP / "deploy/nginx"
# in place of Debian's nginx.conf
MAIN = """load_module modules/ngx_http_js_module.so;
user www-data;
worker_processes 1;
pid {folder}/nginx.pid;
daemon off;
error_log {folder}/error.log;
events {{
    worker_connections 512;
}}
http {{
{site}
}}
"""


def replaced(text, old, new):
    if old not in text:
        raise SystemExit(f"the site of deploy/nginx does not say {old!r}")
    return text.replace(old, new)


def full(file, more=100):
    """Words of a shell: no file may become longer than this one and so many blocks of 512 bytes; a write beyond fails."""
    return f"trap '' XFSZ; ulimit -f {file.stat().st_size // 512 + more};"


class Office:
    """`office serve` over a file, which may be stopped and started again."""

    def __init__(self, file, port):
        self.file, self.port, self.process = file, port, None

    def start(self, before="", env=None):
        """Starts it; `before` are words of a shell that run before it."""
        call = f"{before} exec \"$0\" serve \"$1\" {self.port} 1000000"
        self.process = subprocess.Popen(["sh", "-c", call, OFFICE, str(self.file)], stdin=subprocess.DEVNULL, stdout=subprocess.PIPE,
                                        stderr=subprocess.DEVNULL, env={**os.environ, **(env or {})})
        line = self.process.stdout.readline().decode()
        if line != f"listening 127.0.0.1:{self.port}\n":
            raise SystemExit(f"office serve said {line!r}")

    def stop(self):
        if self.process:
            self.process.kill()
            self.process.wait()
            self.process = None

    def close(self):
        """Stops it, and closes the file, so that it alone has every act."""
        self.stop()
        subprocess.run([OFFICE, "init", self.file], check=True, stdout=subprocess.DEVNULL)

    def ask(self, method, path, body=None):
        """The office itself, past nginx: status, media type, body."""
        conn = http.client.HTTPConnection("127.0.0.1", self.port, timeout=300)
        conn.request(method, path, body)
        reply = conn.getresponse()
        return reply.status, reply.getheader("Content-Type"), reply.read()

    def reads(self, act):
        """Whether it reads an act: the act comes first in a list whose last does not read, so that nothing is done."""
        status, _, body = self.ask("POST", "/acts", json.dumps([act, {"act": "walk"}]))
        told = json.loads(body)
        # half of a character is no JSON
        assert status == 400 and told["error"] in ("act", "json"), told
        return told.get("place") == 1


class Proxy:
    """nginx, with a key, a name and a password of its own."""

    def __init__(self, folder, office_port, conf="office.conf"):
        self.folder, self.port = pathlib.Path(folder), free_port()
        self.address = f"https://localhost:{self.port}"
        self.page = f"{self.address}/web/"
        make_key(self.folder)
        (self.folder / "office.htpasswd").write_text(line_of(NAME, PASSWORD))
        self.conf = self.folder / conf
        self.conf.write_text(MAIN.format(folder=self.folder, site=self.configured((NGINX / conf).read_text(), office_port)))
        self.process = None

    def configured(self, text, office_port):
        self.web = self.folder / "web"
        shutil.copy(NGINX / "acts.js", self.folder)
        # no office has a vault, until a trial names one
        (self.folder / "vaults.conf").write_text("")
        (self.folder / "vault.conf").write_text(replaced((NGINX / "vault.conf").read_text(), "/run/office-vault/", f"{self.folder}/vaults/"))
        for name in ("http.conf", "reject.conf", "server.conf", "actors.conf", "pam.conf"):
            text = replaced(text, f"include /etc/nginx/office/{name};", (NGINX / name).read_text())
        text = without_ipv6(text)
        for old, new in [
            # what the page does with a day that has not come is tried too
            ("js_var $days_ahead 1;", "js_var $days_ahead 400000;"),
            ("listen 443 ssl default_server;", f"listen 127.0.0.1:{self.port} ssl default_server;"),
            ("listen 443 ssl;", f"listen 127.0.0.1:{self.port} ssl;"),
            ("listen 80;", f"listen 127.0.0.1:{free_port()};"),
            ('https://$server_name" $from_here', f'https://$server_name:{self.port}" $from_here'),
            ("127.0.0.1:8080", f"127.0.0.1:{office_port}"),
            ("/usr/local/share/office/web/", f"{self.web}/"),
            ("/var/lib/office-catalogues/city/now/", f"{self.folder}/catalogue/now/"),
            ("/var/lib/office-vaults/", f"{self.folder}/vaults/"),
            ("/etc/nginx/office/", f"{self.folder}/"),
            ("/var/log/nginx/office.error.log", f"{self.folder}/error.log"),
            ("/var/log/nginx/office.access.log", f"{self.folder}/access.log"),
            ("/var/log/office/acts.log", f"{self.folder}/acts.log"),
        ]:
            text = replaced(text, old, new)
        return text

    def start(self):
        subprocess.run(["nginx", "-q", "-t", "-c", self.conf], check=True)
        self.process = begin(self.conf, self.port, self.folder / "start.log")

    def stop(self):
        if self.process:
            end(self.process)
            self.process = None

    def ask(self, method, path, body=None, fields=None, named=True):
        """A program that is no browser asks nginx: status and body."""
        known = ssl.create_default_context(cafile=str(self.folder / "office.crt"))
        conn = http.client.HTTPSConnection("localhost", self.port, context=known, timeout=300)
        who = {"Authorization": "Basic " + base64.b64encode(f"{NAME}:{PASSWORD}".encode()).decode()} if named else {}
        conn.request(method, path, body, {**who, **(fields or {})})
        reply = conn.getresponse()
        self.head = dict(reply.getheaders())
        return reply.status, reply.read()


@contextlib.contextmanager
def served(folder: pathlib.Path, name: str, fill=lambda file: None):
    """An office of its own behind nginx, with the page, in a new folder below; `fill` makes its file first."""
    place = folder / name
    place.mkdir()
    file = place / "office.db"
    fill(file)
    office = Office(file, free_port())
    proxy = Proxy(place, office.port)
    shutil.copytree(WEB, proxy.web)
    try:
        office.start()
        proxy.start()
        yield office, proxy
    finally:
        proxy.stop()
        office.stop()
