"""The units on a small Debian that systemd runs, booted by systemd-nspawn: the vault at work, as it is installed."""
import base64
import hashlib
import json
import pathlib
import shutil
import subprocess

import small_debian
from kit.companions import companion, package
from kit.systemd import Booted
from kit.units import lay_out
from kit.judging import judge, same
from vault_trial.places import OFFICE

CITY = "/var/lib/office-vaults/city"
SECOND = "/var/lib/office-vault-backups/city"
SOCKET = "/run/office-vault/city/socket"
DATA = b"a large file " * 100_000


class Machine(Booted):
    """A Debian of its own, below a folder."""

    def __init__(self, top: pathlib.Path) -> None:
        super().__init__(top)
        small_debian.unpack("vault", top)
        self.install()

    def install(self) -> None:
        """Puts program, scripts and units where the pages put them."""
        places = self.top / "usr/local/bin", self.top / "usr/local/lib/office", self.top / "etc/systemd/system"
        for it in places:
            it.mkdir(parents=True, exist_ok=True)
        shutil.copy(shutil.which(OFFICE) or OFFICE, places[0] / "office")
        for it in ("backup", "encrypt", "failed", "prune", "restore", "serve", "shared", "vault"):
            shutil.copy(companion(f"office-{it}"), places[0])
        for it in ("office_common", "office_serve", "office_vault"):
            shutil.copytree(package(it), places[1] / it)
        lay_out(places[2])
        (self.top / "etc/office").mkdir(exist_ok=True)
        shutil.copy(companion("city.conf"), self.top / "etc/office/city.conf")
        (self.top / "root/file").write_bytes(DATA)

    def run(self, command: str) -> tuple[int, str]:
        """Runs a command there; returns its status and what it printed."""
        done = subprocess.run(self.boot.enter(command), stdin=subprocess.DEVNULL, stdout=subprocess.PIPE,
                              stderr=subprocess.STDOUT, timeout=600, check=False)
        return done.returncode, done.stdout.decode(errors="replace").strip()


def set_up(it: Machine) -> None:
    for command in [*(f"adduser --system --group --no-create-home --home /nonexistent {it}"
                      for it in ("office", "office-mail", "office-vault")), "addgroup --system office-read",
                    "adduser office-vault office-read",
                    "install -d -o office -g office -m 700 /var/lib/office/city",
                    "runuser -u office -- office init /var/lib/office/city/office.db",
                    "install -d -m 755 /var/lib/office-vaults /var/lib/office-vault-backups",
                    # as it was made before the vault had a user of its own
                    f"install -d -o office -g www-data -m 2750 {CITY}",
                    f"runuser -u office -- office-vault make {CITY}",
                    f"install -d -o office -g office -m 700 {SECOND}",
                    f"runuser -u office -- office-vault make {SECOND}", "systemctl daemon-reload",
                    "systemctl start office@city office-vault@city"]:
        status, said = it.run(command)
        judge(command, status == 0, said)


def apart(it: Machine) -> None:
    """The vault changes hands as its service starts; the service reaches the office's readings, and no port."""
    same("all of the vault is of its own user", it.run(f"find {CITY} '!' -user office-vault | wc -l")[1], "0")
    same("and of nginx's group", it.run(f"find {CITY} '!' -group www-data | wc -l")[1], "0")
    inside = ("nsenter -t $(systemctl show -p MainPID --value office-vault@city) -n -m setpriv --reuid office-vault "
              "--regid www-data --groups office-read curl --silent --max-time 5 --output /dev/null --write-out "
              "'%{http_code}' ")
    reading = inside + "--unix-socket /run/office/city/readings "
    same("it asks for a record", it.run(reading + "http://office/records/1")[1], "404")
    same("it acts not", it.run(reading + "--data-binary '[]' http://office/acts")[1], "405")
    same("nor at the port", it.run(inside + "http://127.0.0.1:8081/records/1; true")[1], "000")
    same("others do not ask there", it.run("runuser -u nobody -- curl --silent --unix-socket /run/office/city/readings "
                                          "http://office/records/1")[0], 7)


def used(it: Machine) -> None:
    """A file comes in and is read, as www-data, which nginx is; objects have the modes that nginx needs."""
    name = hashlib.sha256(DATA).hexdigest()
    curl = f"runuser -u www-data -- curl --silent --unix-socket {SOCKET}"
    it.run("chmod 644 /root/file; cp /root/file /tmp/file")
    status, said = it.run(f"{curl} --upload-file /tmp/file http://vault/vault/{name}")
    same("a file comes in", said, f'{{"length":{len(DATA)},"sha256":"{name}"}}')
    place = f"{CITY}/objects/{name[:2]}"
    same("its modes", it.run(f"stat -c '%U %G %a' {place} {place}/{name} {SOCKET}")[1],
         "office-vault www-data 2750\noffice-vault www-data 440\noffice-vault www-data 660")
    same("nginx may read it", it.run(f"runuser -u www-data -- sha256sum {place}/{name}")[1][:64], name)
    same("nobody else may", it.run(f"runuser -u nobody -- cat {place}/{name}")[0], 1)
    acts = filing(name)
    (it.top / "tmp").mkdir(exist_ok=True)
    status, said = it.run(f"curl --silent --data-binary '{acts}' http://127.0.0.1:8081/acts")
    judge("its manifest is filed", "refused" not in said and "number" in said, said)
    status, said = it.run(f"{curl} --head http://vault/records/1/files/1")
    judge("it is served through the record", f"/office-vault-objects/city/objects/{name[:2]}/{name}" in said, said)


def filing(name: str) -> str:
    """The acts of an office with one record that names the file."""
    text = f"SHA256 {name}\nLENGTH {len(DATA)}\nPLACE large\n".encode()
    day = "2024-01-02"
    return json.dumps([
        {"act": "add-schedule", "day": day, "code": "D", "trigger": "added", "unit": "days", "count": 0,
         "offset": "none", "action": "destroy"},
        {"act": "add-class", "day": day, "code": "D", "title": "D", "schedule": "D"},
        {"act": "add-aggregation", "day": day, "ref": "A", "title": "A", "class": "D"},
        {"act": "add-record", "day": day, "ref": "r1", "title": "t", "originated": day, "aggregation": 1,
         "content": base64.b64encode(text).decode()}])


def kept(it: Machine) -> None:
    """Sweep, check, backup and mirror by their units; what they may not see; what a failure is."""
    for unit in ("office-vault-sweep", "office-vault-check", "office-backup", "office-vault-mirror"):
        status, said = it.run(f"systemctl start {unit}@city || journalctl -u {unit}@city --no-pager | tail -n 20")
        judge(f"{unit}@city", it.run(f"systemctl is-failed {unit}@city")[1] == "inactive", said)
    name = hashlib.sha256(DATA).hexdigest()
    command = f"cut -d ' ' -f 1 {CITY}/reports/sweep-000001.txt | head -n 3; stat -c %U {CITY}/state.db"
    same("a report", it.run(command)[1], "SWEEP\nBEGAN\nNAMED\noffice-vault")
    same("the second vault has the file", it.run(f"sha256sum {SECOND}/objects/{name[:2]}/{name}")[1][:64], name)
    same("root checks it by hand, as its owner", it.run(f"office-vault check {CITY} /run/office/city/readings")[1][-7:],
         "wrong 0")
    same("timers start", it.run("systemctl enable --now office-vault-{sweep,check,mirror}@city.timer 2>/dev/null; "
                                "systemctl is-active office-vault-{sweep,check,mirror}@city.timer")[1], "active\n" * 2
         + "active")
    it.run("install -d -o office -m 700 /var/lib/office-vaults/court; touch /var/lib/office-vaults/court/x")
    for place in ("/var/lib/office/city", "/var/lib/office-vaults/court", "/var/lib/office-backups/city", "/root"):
        seen = it.run("nsenter -t $(systemctl show -p MainPID --value office-vault@city) -m ls -A " + place)[1]
        judge(f"the service sees nothing of {place}", not seen or "cannot" in seen, seen)
    # a start takes its time on a busy machine
    it.run("systemctl kill --signal=KILL office-vault@city; sleep 1; for n in $(seq 300); do "
           "systemctl is-active --quiet office-vault@city && break; sleep 0.2; done")
    same("a service that was killed starts again", it.run("systemctl is-active office-vault@city; "
                                                          "systemctl show -P NRestarts office-vault@city")[1], "active\n1")
    it.run(f"rm {CITY}/objects/{name[:2]}/{name}")
    status, said = it.run("systemctl start office-vault-check@city; systemctl is-failed office-vault-check@city; "
                          "journalctl -u office-vault-check@city --no-pager | grep missing; for n in $(seq 300); do "
                          "journalctl -p err --no-pager | grep -c 'office-vault-check@city failed' && break; "
                          "sleep 0.2; done | tail -n 1")
    judge("a file that is missing is a failure that is reported", "failed" in said and "missing" in said
          and said.endswith("1"), said)
    status, said = it.run(f"office-vault mirror {SECOND} {CITY} && stat -c '%U %G %a' {CITY}/objects/{name[:2]}/{name}")
    judge("root brings it back, as the vault's owner", said.endswith("office-vault www-data 440"), said)
    same("from a second vault that this owner cannot read by itself",
         it.run(f"runuser -u office-vault -- ls {SECOND}/objects")[0], 2)
    it.run("systemctl start office-vault-check@city")
    same("and all is well", it.run("systemctl is-failed office-vault-check@city")[1], "inactive")


def tried(folder: pathlib.Path) -> None:
    machine = Machine(folder / "machine")
    folder.chmod(0o755)
    with machine as it:
        set_up(it)
        apart(it)
        used(it)
        kept(it)
    shutil.rmtree(folder / "machine", ignore_errors=True)
