"""A machine with the package, an office by office-setup, slapd, and sign-in as docs/SIGNIN.md has it."""
from __future__ import annotations

import json
import pathlib
import re
import shutil

import small_debian
from kit.commands import TOP
from kit.days import today
from kit.judging import judge, same
from kit.systemd import Boot
from kit.waiting import comes
from setup_trial.by_page import LEFT
from setup_trial.city import CURL, OWN_FILES, SITE, City
from signin_trial.slapd import BASE, CONF, PASSWORDS, READER, READER_PASSWORD, ROOT, ROOT_PASSWORD, ldif

PAGE = TOP / "docs/SIGNIN.md"
EDITOR = f"""#!/bin/sh
case $1 in
*/reader) echo {READER_PASSWORD} >"$1" ;;
*) sed -i -e 's|^url = .*|url = "ldap://127.0.0.1:3389"|' -e 's|^reader = .*|reader = "{READER}"|' \\
    -e 's|^people = .*|people = "ou=people,{BASE}"|' -e 's|^groups = .*|groups = "ou=groups,{BASE}"|' \\
    -e 's|^"Records Registry"|"records-registry"|' -e 's|^#day-ends = .*|day-ends = "23:59"|' \\
    -e 's|^#mail = "admin@.*|mail = "it@city.example"|' -e 's|^zone = .*|zone = "UTC"|' \\
    -e 's|^#\\[sign_in|[sign_in|' -e 's|^#keeper|keeper|' -e 's|^#intake|intake|' "$1" ;;
esac
"""
"""whoever sets up sign-in writes where the directory is, and the names of its groups"""


def commands() -> list[str]:
    """Returns the commands by which the page sets sign-in up, but for what needs a network."""
    block = re.search(r"\n\n((?:    .*\n)+)", PAGE.read_text().split("## Set it up\n")[1])
    assert block is not None
    return [line.strip() for line in block[1].splitlines() if not line.startswith("    apt-get ")]


class Machine(City):
    """The machine, which runs from `start` to `end`."""

    def __init__(self, top: pathlib.Path, package: pathlib.Path) -> None:
        small_debian.unpack("signin", top)
        self.top, self.passwords = top, {"": ""}
        self.boot = Boot(top, "--private-network")
        shutil.copy(package, top / "root/office.deb")
        (top / "root/city.ldif").write_text(ldif())
        (top / "root/slapd.conf").write_text(CONF.format(folder="/root/slapd", base=BASE, root=ROOT, password=ROOT_PASSWORD).replace(
            "TLSCertificate", "#TLSCertificate"))
        (top / "var/spool/trial").mkdir()
        (top / "var/spool/trial").chmod(0o1777)
        mail = top / "usr/bin/mail"
        mail.write_text("#!/bin/sh\n{ echo \"$@\"; cat; } >>/var/spool/trial/mails-$(id -un)\n")
        mail.chmod(0o755)
        self.put("etc/hosts", OWN_FILES["etc/hosts"])
        self.put("usr/local/bin/editor", EDITOR, 0o755)

    def end(self) -> None:
        self.run("chattr -a /var/log/office-sign-in/*")
        super().end()

    def form(self, name: str, password: str, path: str = "/sign-in") -> str:
        """Signs somebody in by the form, and returns the status."""
        self.run(f"rm -f /tmp/{name}.jar; {CURL} --cookie-jar /tmp/{name}.jar https://{SITE}{path} >/tmp/form")
        mark = re.search(r'name="mark" value="([0-9a-f]+)"', self.run("cat /tmp/form").out)
        return self.run(f"{CURL} --cookie /tmp/{name}.jar --cookie-jar /tmp/{name}.jar --output /dev/null "
                        f"--write-out '%{{http_code}}' --data-urlencode name={name} --data-urlencode 'password={password}' "
                        f"--data-urlencode to=/city/web/ --data-urlencode mark={mark[1] if mark else ''} https://{SITE}/sign-in").out

    def as_(self, name: str, path: str, body: object = None) -> str:
        """Asks with the cookie of somebody."""
        data = "" if body is None else f"--data-binary '{json.dumps(body)}'"
        return self.run(f"{CURL} --cookie /tmp/{name}.jar {data} --write-out ' %{{http_code}}' "
                        f"https://{SITE}{path}").out


def judge_all(machine: Machine) -> None:
    judge_set_up(machine)
    judge_people(machine)
    judge_watched(machine)
    judge_local(machine)
    judge_rotation(machine)
    judge_power_cut(machine)
    judge_removed(machine)


def judge_set_up(machine: Machine) -> None:
    """The commands of the page."""
    done = machine.run("mkdir -p /root/slapd/data && slapadd -q -f /root/slapd.conf -l /root/city.ldif && "
                       "slapd -f /root/slapd.conf -h ldap://127.0.0.1:3389/")
    judge("there is a directory", done.status == 0, done)
    judge("the package", machine.run("dpkg -i /root/office.deb").status == 0)
    for line in commands():
        done = machine.run(line)
        if not line.startswith("office-setup doctor"):
            judge(line, done.status == 0, done)
    wrong = [line for line in done.out.splitlines() if line.startswith("WRONG") and not any(it in line for it in LEFT)]
    judge("`doctor` asks the directory, and finds nothing wrong", "well  sign-in: people sign in by the directory" in done.out
          and not wrong, done)
    machine.judge_same("set up")
    done = machine.run("systemctl is-active office-sign-in office-sign-in-gates.path office-sign-in-mail.path")
    same("the units are active", done.out, "active\n" * 3)
    done = machine.run("stat --format '%U %G %a' /run/office-sign-in/socket /etc/office/city.access /var/lib/office-sign-in")
    same("who reaches what", done.out, "office-sign-in www-data 660\nroot office-gate 640\noffice-sign-in www-data 700\n")


def judge_people(machine: Machine) -> None:
    """People act by the roles of their groups."""
    judge("the page leads to the form", machine.run(
        f"{CURL} --write-out '%{{http_code}} %{{redirect_url}}' --output /dev/null https://{SITE}/city/web/").out
        == f"302 https://{SITE}/sign-in?to=/city/web/")
    same("bert signs in", machine.form("bert", PASSWORDS["bert"]), "303")
    # a sign-in waits for the gate, but for five seconds at most
    judge("the gate knows bert by his group", comes(lambda: '"by":"bert"' in machine.as_("bert", "/city/rights"), 60)
          and "records-manager" in machine.as_("bert", "/city/rights"))
    plan = [{"act": "add-schedule", "code": "D1", "trigger": "added", "unit": "years", "count": 1, "offset": "none", "action": "destroy",
             "day": today()}]
    same("and lets him act", machine.as_("bert", "/city/acts", plan), '[{"done":true}] 200')
    same("anna signs in too", machine.form("anna", PASSWORDS["anna"]), "303")
    judge("with the role of her group", comes(lambda: '"roles":["registry"]' in machine.as_("anna", "/city/rights"), 60))
    same("and makes no plan", machine.as_("anna", "/city/acts", plan), '{"act":"add-schedule","error":"right","place":0} 403')
    same("a wrong password", machine.form("dora", "wrong"), "401")
    same("whoever has no role", machine.form("carl", PASSWORDS["carl"]), "403")
    line = machine.run("grep -h '\"what\":\"asked\"' /var/log/office/city.journal | tail -n 1").out
    judge("the journal of the gate has the stable id and the way", '@directory"' in line and '"from":"127.0.0.1 directory:' in line, line)
    done = machine.run("office-journal check /var/log/office-sign-in/journal && office-journal check /var/log/office/city.journal")
    judge("both chains hold", done.status == 0, done)
    done = machine.run("office-gate check /etc/office/city.access")
    judge("the gate prints which name alone can destroy", "no name alone can destroy a record" in done.out, done)
    done = machine.run("systemctl reload office-sign-in && sleep 1 && systemctl is-active office-sign-in")
    judge("a reload asks the directory again, and signs nobody out", done.out == "active\n" and machine.as_("bert", "/city/rights")[-3:] == "200", done)
    token = machine.run(f"{CURL} --user intake:{machine.passwords['intake']} --write-out ' %{{http_code}}' https://{SITE}/city/rights").out
    judge("a program comes in by its token", '"name":"intake"' in token and token.endswith(" 200"), token)
    machine.judge_same("after sign-ins")


def judge_watched(machine: Machine) -> None:
    """The unit of doctor finds what the command finds, and a closed office is closed at once."""
    done = machine.run("mkdir -p /var/lib/prometheus/node-exporter && systemctl start office-doctor && cat /var/lib/prometheus/node-exporter/office.prom")
    wells = dict(re.findall(r'office_check_well\{office="\w*",check="([a-z-]+)"\} ([01])', done.out))
    by_hand = machine.run("office-setup doctor").out
    same("the unit of doctor finds what the command finds", sum(it == "0" for it in wells.values()), by_hand.count("WRONG"))
    judge("of sign-in too", wells.get("sign-in-people") == wells.get("https") == wells.get("room") == "1" and len(wells) > 12, (wells, by_hand))
    machine.run("office-setup close city --until 23:59")
    closed = machine.run(f"time {CURL} --cookie /tmp/bert.jar https://{SITE}/city/records/1")
    judge("who asks a closed office gets that at once", '"error":"closed"' in closed.out and "23:59" in closed.out
          and re.search(r"real\s+0m[0-9]\.", closed.error), closed)
    machine.run("office-setup open city")
    same("and it is opened", machine.as_("bert", "/city/records/1"), '{"error":"record"} 404')


def judge_local(machine: Machine) -> None:
    """A local name without the directory is a mail."""
    machine.run("pid=$(cat /root/slapd/pid); kill $pid; while kill -0 $pid 2>/dev/null; do sleep 0.1; done")
    same("without the directory nobody of it comes in", machine.form("anna", PASSWORDS["anna"]), "503")
    same("sessions go on", machine.as_("bert", "/city/rights")[-3:], "200")
    same("a local name comes in", machine.form("keeper", machine.passwords["keeper"]), "303")
    judge("by its own statements", '"name":"keeper"' in machine.as_("keeper", "/city/rights"))
    done = machine.run("for _ in $(seq 100); do [ -s /var/spool/trial/mails-office-mail ] && break; sleep 0.2; done; cat /var/spool/trial/mails-office-mail; "
                       "ls /var/lib/office-sign-in/mails")
    judge("that is a mail", "it@city.example" in done.out and "The local name keeper signed in" in done.out, done)
    judge("an error in the journal of systemd", "keeper signed in" in machine.run("journalctl -p err -u office-sign-in").out)
    judge("the directory is back", machine.run("slapd -f /root/slapd.conf -h ldap://127.0.0.1:3389/").status == 0)


def judge_rotation(machine: Machine) -> None:
    """The journal is rotated, and goes on."""
    done = machine.run("logrotate -f /etc/logrotate.d/office-sign-in; sleep 1; lsattr /var/log/office-sign-in | cut -c 1-20")
    judge("both files can only be appended to", done.status == 0 and done.out.count("a") >= 2, done)
    same("people sign in", machine.form("anna", PASSWORDS["anna"]), "303")
    done = machine.run("office-journal check /var/log/office-sign-in/journal; wc -l </var/log/office-sign-in/journal")
    judge("the chain goes on in the new file", done.status == 0 and done.out.split()[-1] != "0", done)


def judge_power_cut(machine: Machine) -> None:
    """After a power cut all is as before, but for the sessions."""
    machine.boot.lose()
    machine.start()
    machine.run("slapd -f /root/slapd.conf -h ldap://127.0.0.1:3389/")
    machine.judge_same("after a power cut")
    same("sessions are over", machine.as_("bert", "/city/rights")[-3:], "401")
    same("people sign in", machine.form("bert", PASSWORDS["bert"]), "303")
    judge("with their roles", comes(lambda: "records-manager" in machine.as_("bert", "/city/rights"), 60))
    same("no key and no password is in a log", machine.run(
        f"grep -rlE '{PASSWORDS['bert']}|{machine.passwords['keeper']}|{READER_PASSWORD}' /var/log /var/lib/office-sign-in /run/office-sign-in-gates").out, "")


def judge_removed(machine: Machine) -> None:
    """With the last office sign-in ends, and its journal and its secrets stay."""
    done = machine.run("office-setup remove city; systemctl is-active office-sign-in office-sign-in-gates.path office-sign-in-mail.path; "
                       "ls /etc/office-sign-in")
    same("sign-in is off, and nothing of its settings stays", done.out.splitlines()[-5:], ["inactive"] * 3 + ["reader", "secrets.json"])
    judge("the journal stays", machine.run("test -s /var/log/office-sign-in/journal").status == 0)
