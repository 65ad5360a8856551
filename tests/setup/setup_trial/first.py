"""The first office of a machine: looked at, made, looked at again, made again."""
from __future__ import annotations

import pathlib
import re

from kit.commands import Done, office, run
from kit.judging import judge, same
from setup_trial.room import SITE, Entry, Room

UNITS = {f"{name}@city.{kind}" for kind, names in (
    ("service", ("office", "office-gate", "office-vault")), ("socket", ("office-gate",)),
    ("timer", ("office-catalogue", "office-backup", "office-scrub", "office-compact", "office-overdue",
               "office-journal-check", "office-certificates", "office-renew", "office-vault-sweep",
               "office-vault-check", "office-vault-mirror")), ("target", ("office-all",))) for name in names}
PEOPLE = ("auditor", "deputy", "legal", "manager", "registrar")
PASSWORD = re.compile(r"a first password, shown this once: (\S+) (\S+)")
SECRETS = {"/etc/office/city.token": ("root", "office-gate", 0o640), "/etc/office/city.key": ("root", "root", 0o600),
           "/etc/office/city.access": ("root", "office-gate", 0o640), "/etc/nginx/office/office.key": ("root", "root", 0o600),
           "/etc/nginx/office/gate_tokens.conf": ("root", "root", 0o600),
           "/etc/nginx/office/office.htpasswd": ("root", "www-data", 0o640),
           "/etc/nginx/office/monitor.htpasswd": ("root", "www-data", 0o640),
           "/var/lib/office/city": ("office", "office", 0o700),
           "/var/lib/office-vaults/city": ("office-vault", "www-data", 0o2750),
           "/var/lib/office-vaults/city/objects/ab": ("office-vault", "www-data", 0o2750),
           "/var/lib/office-vault-backups/city/objects/ab": ("office", "office", 0o750),
           "/etc/office/city.key.pub": ("root", "root", 0o644), "/etc/nginx/office/office.crt": ("root", "root", 0o644),
           "/var/lib/office-catalogues/city": ("office", "www-data", 0o2750)}
LOGS = {"/var/log/office/city.journal": "office-gate", "/var/log/office/acts.log": "www-data"}


def judge_secrets(room: Room, tree: dict[str, Entry]) -> None:
    """Each secret is for whom it is for, and logs are only appended to."""
    for path, (user, group, mode) in SECRETS.items():
        entry = tree[path]
        same(f"{path} is for whom it is for", (entry.user, entry.group, entry.mode), (room.uid(user), room.uid(group), mode))
    for path, user in LOGS.items():
        entry = tree[path]
        same(f"{path} is only appended to", (entry.user, entry.group, entry.mode, entry.is_log),
             (room.uid(user), room.uid("adm"), 0o640, True))


def judge_passwords(room: Room, done: Done) -> None:
    """Each name has the password that was shown, and no file has that."""
    shown = dict(PASSWORD.findall(done.out))
    same("a password was shown for each name", sorted(shown), sorted([*PEOPLE, "monitor"]))
    judge("each name has another one", len(set(shown.values())) == len(shown) and min(map(len, shown.values())) >= 20)
    for path, names in (("office.htpasswd", PEOPLE), ("monitor.htpasswd", ("monitor",))):
        lines = dict(line.split(":", 1) for line in room.text(f"/etc/nginx/office/{path}").splitlines())
        same(f"{path} has these names", sorted(lines), sorted(names))
        for name, digest in lines.items():
            again = run("openssl", "passwd", "-6", "-salt", digest.split("$")[2], "-stdin", data=f"{shown[name]}\n".encode())
            same(f"the password of {name} is the one that was shown", again.out.strip(), digest)
    texts = [path.read_bytes() for path in room.root.rglob("*") if path.is_file() and "etc" in path.parts]
    judge("no file has a password", not any(word.encode() in text for word in shown.values() for text in texts))


def judge_nginx(room: Room) -> None:
    """The product's files are links into the package, and the site has the office."""
    links = {path.name: str(path.readlink()) for path in room.at("/etc/nginx/office").iterdir() if path.is_symlink()}
    same("the product's files are links", links, {name: f"/usr/share/office/nginx/{name}" for name in (
        "http.conf", "server.conf", "acts.js", "reject.conf", "pam.conf", "vault.conf", "gate_http.conf", "gate.conf",
        "gate_lines.conf", "signed_gate.conf", "signed_name.conf", "signed_http.conf", "sign_in.conf", "sign_in.js")})
    site = room.text("/etc/nginx/sites-available/office")
    judge("the site has the name of the machine", site.count(f"server_name {SITE};") == 2 and "localhost" not in
          site.split("\n\n", 1)[1], site)
    judge("the site has the office", "location /city/ {" in site and "location = /city/may {" in site, site)
    token = room.text("/etc/office/city.token").strip()
    judge("nginx has the token of the gate", re.fullmatch("[0-9a-f]{64}", token) and
          f'"~^/city/" {token};\n' in room.text("/etc/nginx/office/gate_tokens.conf"))
    same("it has the vault", room.text("/etc/nginx/office/vaults.conf").splitlines()[1:], ['"/city/" city;'])
    judge("it takes more connections", "worker_connections 8192;" in room.text("/etc/nginx/nginx.conf"))


def judge_rules(room: Room) -> None:
    """The rules of nftables are loaded, and are loaded at the next boot."""
    loaded = (room.folder / "loaded/office-gate.nft").read_text()
    judge("the rules leave the port to the gate alone", 'tcp dport { 8081 } meta skuid != "office-gate"' in loaded, loaded)
    rules = (room.folder / "loaded/office.nft").read_text()
    judge("and let the gate through", '"office-yearend", "office-gate" }' in rules, rules)
    same("they are there after a boot", room.text("/etc/nftables.conf").splitlines()[2:],
         ['include "/etc/office.nft"', 'include "/etc/office-gate.nft"'])
    judge("nftables starts with the machine, and was not started", "nftables.service" in room.units("enabled")
          and "nftables.service" not in room.units())


def judge_marks(access: list[str]) -> None:
    statements = [line for line in access if line and not line.startswith("#")]
    same("marks stand around the settings", (statements[0], statements[-1]), ("begin", "end"))


def judge_office(room: Room) -> None:
    """FILE is an office, with its port, its settings and its key."""
    done = office("init", room.at("/var/lib/office/city/office.db"))
    same("FILE is an office", (done.status, done.out), (0, "version 2\n"))
    conf = dict(line.split("=") for line in room.text("/etc/office/city.conf").splitlines()[1:])
    same("its settings", conf, {"PORT": "8081", "OFFICE_DISK": "any", "CONFIRM_DAYS": "30", "STOP_SECONDS": "60",
                                "OFFICE_PAUSE": "60", "BACKUP_DAYS": "30", "BACKUP_COPIES": "7", "BEFORE_DAYS": "30"})
    access = room.text("/etc/office/city.access").splitlines()
    for line in (f"site https://{SITE}", "zone Europe/Berlin", "name manager is records-manager",
                 "name manager signs Records manager", "name monitor is monitor", "rule changer-does-not-open 30",
                 "rule sender-does-not-receive", "limit requests 8", "keep contents 3", "journal readings"):
        judge(f"the gate has: {line}", line in access, access)
    judge_marks(access)
    public = " ".join(room.text("/etc/office/city.key.pub").split()[:2])
    same("its key is known", room.text("/etc/office/city.signers"), f'city namespaces="office-seal" {public}\n')
    for place in ("office-vaults", "office-vault-backups"):
        judge(f"there is a vault in {place}", room.at(f"/var/lib/{place}/city/objects/ab").is_dir())
    same("its units are on", room.units() & room.units("enabled") - {"nginx.service"}, UNITS)


def first(folder: pathlib.Path) -> None:
    """An office is set up by two commands; before and after it `check` says how it differs, and changes nothing."""
    with Room(folder) as room:
        done = room.setup("check")
        judge("without a file there is nothing to do", done.status == 2 and "office-setup new NAME" in done.error, done)
        done = room.setup("new", "city", "--site", SITE)
        judge("`new` writes a file", done.status == 0 and room.at("/etc/office/city.toml").is_file(), done)
        judge("`new` writes none in the place of another", room.setup("new", "city").status == 2)
        before = room.tree()
        done = room.setup("check")
        judge("`check` prints what is missing", done.status == 1 and done.out.endswith(" differences\n")
              and "/etc/office/city.conf: there is no such file" in done.out, done)
        same("`check` changes nothing", room.tree(), before)
        same("and calls nothing", room.called(), [])
        done = room.setup("apply")
        judge("`apply` makes it so", done.status == 0 and done.out.endswith(" changes\n"), done)
        judge_secrets(room, room.tree())
        judge_passwords(room, done)
        judge_nginx(room)
        judge_rules(room)
        judge_office(room)
        judge("nginx was reloaded once", room.called().count("systemctl reload-or-restart nginx.service") == 1, room.called())
        judge("nothing was restarted", not [line for line in room.called() if "restart office" in line], room.called())
        tree = room.tree()
        room.forget_calls()
        done = room.setup("check")
        same("then nothing differs", (done.status, done.out), (0, "0 differences\n"))
        done = room.setup("apply")
        same("a second `apply` changes nothing", (done.status, done.out), (0, "0 changes\n"))
        same("in no file", changed(tree, room.tree()), {})
        same("and calls nothing", room.called(), [])


def changed(before: dict[str, Entry], after: dict[str, Entry]) -> dict[str, tuple[Entry | None, Entry | None]]:
    """Returns what differs between two looks at a machine."""
    return {path: (before.get(path), after.get(path)) for path in sorted({*before, *after})
            if before.get(path) != after.get(path)}
