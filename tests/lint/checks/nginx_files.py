"""The sites of nginx: nginx reads each as docs/SERVICE.md puts it there, with made files in place of the secrets."""
from __future__ import annotations

import pathlib
import re
import subprocess
import tempfile

from checks.finding import Finding, Skipped, call, findings_in, need
from checks.tree import TOP, files

NGINX = "deploy/nginx"
MODULE = "/usr/lib/nginx/modules/ngx_http_js_module.so"
SITES = ("office.conf", "offices.conf", "gated.conf", "signed.conf")
OF_MEMBERS = "companions/members/setup/nginx.conf"
MAIN = """load_module {module};
include {folder}/limits.conf;
pid {folder}/pid;
error_log {folder}/error.log;
events {{}}
http {{
    client_body_temp_path {folder}/body;
    proxy_temp_path {folder}/proxy;
    fastcgi_temp_path {folder}/fastcgi;
    uwsgi_temp_path {folder}/uwsgi;
    scgi_temp_path {folder}/scgi;
    include {folder}/{site};
}}
"""
ERROR = re.compile(r"^nginx: \[(?:emerg|alert|warn)\] (?P<text>.*) in (?P<file>\S+):(?P<line>\d+)$", re.M)
OTHER = re.compile(r"^nginx: \[(?:emerg|alert)\] .*$|^nginx: configuration file .* test failed$", re.M)


def is_nginx(name: str) -> bool:
    """Whether a file is one that nginx reads."""
    is_here = name.startswith(f"{NGINX}/") and name.count("/") == 2
    return is_here and name.endswith((".conf", ".js")) or name == OF_MEMBERS


def placed(text: str, folder: pathlib.Path) -> str:
    """Puts folders of the check in place of those of a machine; no line moves."""
    text = re.sub(r"^( *)listen \[::\]", r"\1#listen [::]", text, flags=re.M)
    # ports that any user may listen at; nginx -t does not mind another that does
    for old, new in (("listen 80;", "listen 127.0.0.1:28080;"), ("listen 443 ", "listen 127.0.0.1:28443 "),
                     ("/etc/nginx/office/", f"{folder}/"), ("/var/log/nginx/", f"{folder}/"),
                     ("/var/log/office/", f"{folder}/")):
        text = text.replace(old, new)
    return text


def secrets(folder: pathlib.Path) -> None:
    """Makes the key, the certificate and the lists of names that no repository has."""
    subprocess.run(["openssl", "req", "-x509", "-newkey", "ec", "-pkeyopt", "ec_paramgen_curve:prime256v1", "-nodes",
                    "-subj", "/CN=localhost", "-keyout", folder / "office.key", "-out", folder / "office.crt"],
                   check=True, stdin=subprocess.DEVNULL, stdout=subprocess.DEVNULL, stderr=subprocess.DEVNULL)
    for name in ("office.htpasswd", "monitor.htpasswd"):
        (folder / name).write_text("nobody:!\n")


def tested(folder: pathlib.Path, site: str, names: dict[str, str]) -> list[Finding]:
    """Has nginx read a site, and returns its complaints at the files of the repository."""
    main = folder / "nginx.main"
    main.write_text(MAIN.format(module=MODULE, folder=folder, site=site))
    done = call(["nginx", "-t", "-q", "-c", main, "-e", folder / "error.log"], cwd=TOP)
    findings = findings_in(done.text, ERROR, names)
    if done.status and not findings:
        lines = OTHER.findall(done.text) or [done.text.strip()]
        findings = [Finding(f"{NGINX}/{site}", 1, lines[0])]
    return findings


def sites(_: list[str]) -> list[Finding]:
    """Has nginx read each site; then again with the lines that are examples, and with those of a member."""
    need("nginx", "openssl")
    if not pathlib.Path(MODULE).exists():
        raise Skipped("there is no libnginx-mod-http-js")
    findings = []
    with tempfile.TemporaryDirectory(prefix="lint-nginx-") as name:
        folder = pathlib.Path(name)
        secrets(folder)
        names = {}
        for file in [item for item in files() if is_nginx(item)]:
            target = folder / ("member.conf" if file == OF_MEMBERS else pathlib.PurePosixPath(file).name)
            target.write_text(placed((TOP / file).read_text(), folder))
            names[str(target)] = file
        for site in SITES:
            findings += tested(folder, site, names)
        # a site before a member includes the member's lines too; each list has its example
        with (folder / "server.conf").open("a") as server:
            server.write(f"include {folder}/member.conf;\n")
        for example in ("vaults.conf", "gate_tokens.conf"):
            text = (folder / example).read_text()
            (folder / example).write_text(re.sub(r"^#(?=\")", "", text, flags=re.M))
        findings += tested(folder, "office.conf", names)
        findings += tested(folder, "gated.conf", names)
    return findings
