"""nginx in front of two offices, of which one has a vault, and what is asked there."""
import pathlib
import re
import shutil
import ssl
import subprocess

from kit.nginx import Sites, line_of
from vault_trial.places import NGINX

ALWAYS = [it.split()[1] for it in (NGINX / "server.conf").read_text().splitlines() if it.startswith("add_header")
          and "$challenge" not in it]
"""the lines that each answer has"""
NAMES = {"registrar": "a long one", "reader": "another", "judge": "of the court"}


class Proxy(Sites):
    """nginx in front of the offices city and court; city has a vault, and court has names of its own."""

    def __init__(self, folder: pathlib.Path, city: int, court: int, port: int, vaults: pathlib.Path,
                 sockets: pathlib.Path, site_name: str = "offices.conf") -> None:
        places = {"/etc/nginx/office": str(folder), "/var/log/nginx": f"{folder}/log",
                  "/var/log/office": f"{folder}/log", "/var/lib/office-vaults/": f"{vaults}/",
                  "/run/office-vault/$vault/socket": f"{sockets}/$vault",
                  "127.0.0.1:8080": f"127.0.0.1:{city}", "127.0.0.1:8081": f"127.0.0.1:{city}",
                  "127.0.0.1:8082": f"127.0.0.1:{court}",
                  "listen 443": f"listen 127.0.0.1:{port}", "listen 80;": f"listen 127.0.0.1:{port + 1};",
                  "|https://$server_name": f"|https://$server_name:{port}"}
        super().__init__(folder, port, places)
        self.put("vaults.conf", '"/city/" city;\n' if site_name == "offices.conf" else '"/" city;\n')
        site = self.put("site.conf", (NGINX / site_name).read_text())
        own = f"location /court/ {{\n auth_basic_user_file {folder}/court.htpasswd;"
        site.write_text(site.read_text().replace("location /court/ {", own))
        self.put("office.htpasswd", self.names("registrar", "reader"))
        self.put("court.htpasswd", self.names("judge"))
        self.put("monitor.htpasswd", "")
        self.configure("sendfile on;", f"include {site};", plain_site(folder, port + 2))

    def names(self, *names: str) -> str:
        """Returns the lines of these names for a file of passwords."""
        return "".join(line_of(it, NAMES[it]) for it in names)

    def __enter__(self) -> "Proxy":
        self.start()
        return self

    def __exit__(self, *_: object) -> None:
        self.stop()

    def curl(self, path: str, *words: object, name: str = "registrar", here: bool = True) -> tuple[int, bytes]:
        """A request by curl: its status and its body."""
        url = path if path.startswith("http") else f"https://localhost:{self.port}{path}"
        call = ["curl", "--silent", "--cacert", self.folder / "office.crt", "--write-out", "\\n%{http_code}", url,
                *words, *(["--user", f"{name}:{NAMES[name]}"] if name else []),
                *(["--header", f"Origin: https://localhost:{self.port}"] if here else [])]
        done = subprocess.run([str(it) for it in call], capture_output=True, check=False)
        body, _, status = done.stdout.rpartition(b"\n")
        return int(status), body

    def journal(self) -> str:
        return (self.folder / "log/acts.log").read_text()

    def temporary(self) -> int:
        """Counts the bytes that nginx has in files of its own."""
        return sum(it.stat().st_size for it in (self.folder / "temp").rglob("*") if it.is_file())

    def context(self) -> ssl.SSLContext:
        return ssl.create_default_context(cafile=str(self.folder / "office.crt"))


def plain_site(folder: pathlib.Path, port: int) -> str:
    """A plain nginx beside it, which takes and serves the same bytes, with the same TLS."""
    (folder / "plain").mkdir()
    return (f"server {{ listen 127.0.0.1:{port} ssl; server_name localhost; ssl_certificate {folder}/office.crt;\n"
            f"ssl_certificate_key {folder}/office.key; location / {{ root {folder}/plain; dav_methods PUT;\n"
            "client_max_body_size 10g; } }\n")


def clean(text: str) -> str:
    return re.sub(r"\s+", " ", text)


def remove(folder: pathlib.Path) -> None:
    shutil.rmtree(folder, ignore_errors=True)
