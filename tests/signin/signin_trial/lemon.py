"""A machine with LemonLDAP::NG over slapd as the provider, and an office whose people sign in there."""
from __future__ import annotations

import html
import json
import pathlib
import re
import shutil
import urllib.parse

import small_debian
from kit.days import today
from kit.judging import absent, judge, same
from kit.systemd import Boot
from kit.waiting import comes
from setup_trial.by_page import LEFT
from setup_trial.city import CURL, SITE
from signin_trial.machine import Machine
from signin_trial.slapd import BASE, CONF, PASSWORDS, READER, READER_PASSWORD, ROOT, ROOT_PASSWORD, ldif

PORTAL = "auth.city.example"
ISSUER = f"https://{PORTAL}/"
SECRET = "secret-of-the-office-0123456789"
HOSTS = f"127.0.0.1 localhost {SITE} {PORTAL}\n"
KEYS = f"""set -e
cd /root
openssl req -x509 -newkey ec -pkeyopt ec_paramgen_curve:P-256 -nodes -days 30 -subj /CN={PORTAL} -addext subjectAltName=DNS:{PORTAL} \\
    -keyout /etc/nginx/portal.key -out /etc/nginx/portal.crt
openssl genrsa -out signs.key 2048
openssl rsa -pubout -in signs.key -out signs.pub
"""
NGINX = f"""server {{
    listen 443 ssl;
    server_name {PORTAL};
    ssl_certificate /etc/nginx/portal.crt;
    ssl_certificate_key /etc/nginx/portal.key;
    root /usr/share/lemonldap-ng/portal/htdocs/;
    index index.psgi;
    rewrite ^/$ /index.psgi last;
    rewrite ^/(oauth2|\\.well-known)(.*)$ /index.psgi/$1$2 last;
    location ~ ^(?<sc>/.*\\.psgi)(?:$|/) {{
        include /etc/nginx/fastcgi_params;
        fastcgi_pass unix:/run/llng-fastcgi-server/llng-fastcgi.sock;
        fastcgi_param LLTYPE psgi;
        fastcgi_param SCRIPT_FILENAME $document_root$sc;
        fastcgi_param SCRIPT_NAME $sc;
        fastcgi_split_path_info ^(.*\\.psgi)(/.+)$;
        fastcgi_param PATH_INFO $fastcgi_path_info;
    }}
    location /static/ {{
        alias /usr/share/lemonldap-ng/portal/htdocs/static/;
    }}
    location / {{
        rewrite ^ /index.psgi$uri last;
    }}
}}
"""
CLI = "/usr/share/lemonldap-ng/bin/lemonldap-ng-cli -yes 1"
SETTINGS = {
    "domain": "city.example", "portal": ISSUER, "securedCookie": "1", "authentication": "LDAP", "userDB": "LDAP", "passwordDB": "Null",
    "registerDB": "Null", "ldapServer": "ldap://127.0.0.1:3389", "ldapBase": f"ou=people,{BASE}", "managerDn": READER,
    "managerPassword": READER_PASSWORD, "ldapGroupBase": f"ou=groups,{BASE}", "ldapGroupObjectClass": "groupOfNames",
    "ldapGroupAttributeName": "member", "ldapGroupAttributeNameUser": "dn", "ldapGroupAttributeNameSearch": "cn",
    "AuthLDAPFilter": "(&(uid=$user)(objectClass=inetOrgPerson))", "requireToken": "0", "issuerDBOpenIDConnectActivation": "1",
    "oidcServiceKeyIdSig": "key1", "oidcServiceAllowAuthorizationCodeFlow": "1"}
CLAIMS = {"preferred_username": "uid", "name": "cn", "groups": "groups"}
CLIENT = {"ClientID": "office", "ClientSecret": SECRET, "IDTokenSignAlg": "RS256", "BypassConsent": "1", "IDTokenForceClaims": "1",
          "RedirectUris": f"https://{SITE}/sign-in/back", "RequirePKCE": "1"}
EDITOR = f"""#!/bin/sh
case $1 in
*/client) echo {SECRET} >"$1" ;;
*) sed -i -e 's|^issuer = .*|issuer = "{ISSUER}"\\nauthority = "/etc/nginx/portal.crt"|' -e 's|^"Records Registry"|"records-registry"|' \\
    -e 's|^#day-ends = .*|day-ends = "23:59"|' -e 's|^zone = .*|zone = "UTC"|' "$1" ;;
esac
"""


def quoted(text: str) -> str:
    return "'" + text.replace("'", "'\\''") + "'"


class Lemon(Machine):
    """The machine, whose provider is on it too."""

    def __init__(self, top: pathlib.Path, package: pathlib.Path) -> None:
        small_debian.unpack("llng", top)
        self.top, self.passwords = top, {"": ""}
        self.boot = Boot(top, "--private-network")
        shutil.copy(package, top / "root/office.deb")
        self.put("root/city.ldif", ldif())
        self.put("root/slapd.conf", CONF.format(folder="/root/slapd", base=BASE, root=ROOT, password=ROOT_PASSWORD).replace(
            "TLSCertificate", "#TLSCertificate"))
        self.put("etc/hosts", HOSTS)
        # the provider asks for it at each start, for pictures of a captcha that nobody is shown here
        (top / "etc/perl/Image").mkdir(parents=True)
        self.put("etc/perl/Image/Magick.pm", "package Image::Magick;\n1;\n")
        self.put("usr/local/bin/editor", EDITOR, 0o755)

    def browse(self, name: str, url: str, *fields: str) -> tuple[str, str, str]:
        """Asks for an address as the browser of somebody. Returns the status, where it leads, and the page."""
        data = " ".join(f"--data-urlencode {quoted(field)}" for field in fields)
        origin = "" if url.startswith(f"https://{SITE}") else "--header 'Origin:'"
        done = self.run(f"{CURL} {origin} --cacert /root/both.crt --cookie /tmp/{name}.jar --cookie-jar /tmp/{name}.jar --output /tmp/page "
                        f"--write-out '%{{http_code}} %{{redirect_url}}' {data} {quoted(url)}")
        status, _, where = done.out.partition(" ")
        return status, where.strip(), self.run("cat /tmp/page").out

    def sign_in(self, name: str, password: str, back: str | None = None) -> tuple[str, str]:
        """Signs somebody in at the provider, as a browser does. Returns the last status, and where that leads."""
        self.run(f"rm -f /tmp/{name}.jar; touch /tmp/{name}.jar; cat /etc/nginx/office/office.crt /etc/nginx/portal.crt >/root/both.crt")
        status, where, _ = self.browse(name, f"https://{SITE}/sign-in/begin?to=/city/web/")
        assert status == "302" and where.startswith(ISSUER), (status, where)
        status, to, page = self.browse(name, where)
        hidden = {html.unescape(key): html.unescape(value) for key, value in re.findall(
            r'<input[^>]*type="hidden"[^>]*name="([^"]+)"[^>]*value="([^"]*)"', page)}
        fields = [f"{key}={value}" for key, value in {**hidden, "user": name, "password": password}.items()]
        status, to, page = self.browse(name, where, *fields)
        hops = 0
        while to and hops < 6 and not to.startswith(f"https://{SITE}/sign-in/back"):
            status, to, page = self.browse(name, to)
            hops += 1
        if not to.startswith(f"https://{SITE}/sign-in/back"):
            return status, to
        self.last_back = to
        status, to, page = self.browse(back or name, to)
        return status, to


def judge_all(machine: Lemon) -> None:
    judge_provider(machine)
    judge_set_up(machine)
    judge_people(machine)
    judge_forged(machine)
    judge_away(machine)


def judge_provider(machine: Lemon) -> None:
    """LemonLDAP::NG of Debian, over the directory."""
    done = machine.run("mkdir -p /root/slapd/data && slapadd -q -f /root/slapd.conf -l /root/city.ldif && "
                       "slapd -f /root/slapd.conf -h ldap://127.0.0.1:3389/")
    judge("there is a directory", done.status == 0, done)
    done = machine.run(KEYS)
    judge("there are keys", done.status == 0, done)
    pairs = " ".join(f"{key} {quoted(value)}" for key, value in SETTINGS.items())
    claims = " ".join(f"oidcRPMetaDataExportedVars/office {key} {value}" for key, value in CLAIMS.items())
    client = " ".join(f"oidcRPMetaDataOptions/office oidcRPMetaDataOptions{key} {quoted(value)}" for key, value in CLIENT.items())
    for line in (f'{CLI} set {pairs} oidcServicePrivateKeySig "$(cat /root/signs.key)" oidcServicePublicKeySig "$(cat /root/signs.pub)"',
                 f"{CLI} addKey ldapExportedVars uid uid ldapExportedVars cn cn",
                 f"{CLI} addKey {claims} {client} oidcRPMetaDataOptionsExtraClaims/office groups groups"):
        done = machine.run(line)
        judge(f"lemonldap-ng-cli {line.removeprefix(CLI).split()[0]}", done.status == 0, done)
    machine.run("rm -f /etc/nginx/sites-enabled/* /etc/nginx/conf.d/*lemon* /etc/nginx/conf.d/*llng*")
    machine.put("etc/nginx/sites-enabled/portal", NGINX)
    done = machine.run("nginx -t && systemctl restart lemonldap-ng-fastcgi-server nginx && sleep 2; "
                       f"curl --silent --cacert /etc/nginx/portal.crt {ISSUER}.well-known/openid-configuration")
    judge("it states who it is", f'"issuer":"{ISSUER}"' in done.out, done)


def judge_set_up(machine: Lemon) -> None:
    """The commands of docs/SIGNIN.md, with a provider in place of a directory."""
    judge("the package", machine.run("dpkg -i /root/office.deb").status == 0)
    for line in (f"office-setup new city --site {SITE} --sign-in provider", "editor /etc/office/city.toml",
                 "editor /etc/office-sign-in/client", "office-setup apply"):
        done = machine.run(line)
        judge(line, done.status == 0, done)
    done = machine.run("office-setup doctor")
    wrong = [line for line in done.out.splitlines() if line.startswith("WRONG") and not any(text in line for text in LEFT)]
    judge("`doctor` asks the provider, and finds nothing wrong", "well  sign-in: people sign in by a provider" in done.out and not wrong, done)
    machine.judge_same("set up")


def judge_people(machine: Lemon) -> None:
    """Who signs in at the provider has the roles of the groups."""
    same("bert comes back signed in", machine.sign_in("bert", PASSWORDS["bert"]), ("303", f"https://{SITE}/city/web/"))
    judge("with the role of his group, whose name has a space", comes(
        lambda: '"by":"bert"' in machine.as_("bert", "/city/rights") and '"roles":["records-manager"]' in machine.as_("bert", "/city/rights"), 60))
    plan = [{"act": "add-schedule", "code": "D1", "trigger": "added", "unit": "years", "count": 1, "offset": "none", "action": "destroy",
             "day": today()}]
    same("he acts", machine.as_("bert", "/city/acts", plan), '[{"done":true}] 200')
    same("anna comes back", machine.sign_in("anna", PASSWORDS["anna"])[0], "303")
    judge("with the role of one of her groups", comes(lambda: '"roles":["registry"]' in machine.as_("anna", "/city/rights"), 60))
    same("and makes no plan", machine.as_("anna", "/city/acts", plan), '{"act":"add-schedule","error":"right","place":0} 403')
    same("carl has no role", machine.sign_in("carl", PASSWORDS["carl"])[0], "403")
    judge("a wrong password stays at the provider", machine.sign_in("dora", "wrong")[1] == "")
    lines = [json.loads(line) for line in machine.run("cat /var/log/office-sign-in/journal").out.splitlines()]
    groups = [line["groups"] for line in lines if line["what"] == "in" and line["called"] == "bert"]
    same("the journal has the groups", groups, [["Records Managers"]])
    judge("both chains hold", machine.run("office-journal check /var/log/office-sign-in/journal && office-journal check "
                                          "/var/log/office/city.journal").status == 0)


def judge_forged(machine: Lemon) -> None:
    """What comes back counts once, in the browser that began."""
    machine.sign_in("bert", PASSWORDS["bert"])
    used = machine.last_back
    same("the same again", machine.browse("bert", used)[0], "403")
    machine.run("rm -f /tmp/eve.jar; touch /tmp/eve.jar")
    same("in another browser", machine.browse("eve", used)[0], "403")
    same("bert's own, in a browser that did not begin", machine.sign_in("bert", PASSWORDS["bert"], back="eve")[0], "403")
    parts = urllib.parse.urlsplit(used)
    state = urllib.parse.parse_qs(parts.query)["state"][0]
    machine.run("rm -f /tmp/bert.jar; touch /tmp/bert.jar")
    machine.browse("bert", f"https://{SITE}/sign-in/begin")
    same("a code of before with another state", machine.browse("bert", used.replace(state, "0" * len(state)))[0], "403")
    same("nobody is signed in by that", machine.as_("eve", "/city/rights")[-3:], "401")


def judge_away(machine: Lemon) -> None:
    """Without the provider sessions go on, and nobody new comes in."""
    machine.sign_in("bert", PASSWORDS["bert"])
    machine.run("systemctl stop lemonldap-ng-fastcgi-server; systemctl restart office-sign-in; sleep 1")
    same("a restart signs everybody out", machine.as_("bert", "/city/rights")[-3:], "401")
    same("nobody begins", machine.browse("bert", f"https://{SITE}/sign-in/begin")[0], "503")
    done = machine.run("office-setup doctor")
    judge("`doctor` sees it", "WRONG sign-in: nobody signs in: the provider answers 502" in done.out, done)
    log = machine.run("cat /var/log/office-sign-in/journal /var/log/nginx/office.access.log; journalctl -u office-sign-in").out
    absent("no password and no secret is in a log", log, [PASSWORDS["bert"], SECRET])
