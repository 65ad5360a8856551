"""What each unit of one office sees of it and of another office: files are planted everywhere, and each unit looks."""
import re
from typing import TYPE_CHECKING

from making import staging
from kit.judging import judge

if TYPE_CHECKING:
    from trying.booted import Booted

FOLDERS = ["/var/lib/office", "/var/lib/office-backups", "/var/lib/office-catalogues", "/var/lib/office-certificates",
           "/var/lib/office-encrypted", "/var/lib/office-gate", "/var/lib/office-intake", "/var/lib/office-member", "/var/lib/office-registers",
           "/var/lib/office-seals", "/var/lib/office-vaults", "/var/lib/office-vault-backups", "/var/lib/office-yearend",
           "/var/cache/office-catalogue", "/var/cache/private/office-journal-check"]
JOURNAL = "/var/log/office/NAME.journal"
KEYS = ["/etc/office/NAME.key", "/etc/office/NAME.token", "/etc/office/NAME.access", "/etc/office/NAME.withdrawn",
        "/etc/office/NAME.recipients", "/etc/office/NAME.tsa.pem", "/etc/office/NAME.intake-login",
        "/etc/office/NAME.cades.key", "/etc/office/NAME.cades.pem",
        JOURNAL, "/etc/nginx/office/gate_tokens.conf"]
# what a unit sees of each office
OF_EACH = {"KEYS": KEYS, "JOURNALS": [JOURNAL]}
# what a unit sees of its own office; of another one it sees nothing
SEES = {
    "office": ["office"],
    "office-backup": ["office", "office-backups", "office-encrypted", "NAME.recipients"],
    "office-catalogue": ["office", "office-catalogues", "office-catalogue"],
    # it looks for seals whose certificates are gone
    "office-certificates": ["office-certificates", "office-seals"],
    "office-compact": [],
    "office-compact-file": ["office"],
    "office-failed": [],
    # its group may read the tokens of the gates, and journals lie in one folder
    "office-gate": ["office-gate", "office-catalogues", "KEYS"],
    "office-intake": ["office-intake"],
    "office-journal-check": ["office-gate", "office-backups", "office-journal-check", "JOURNALS"],
    "office-overdue": ["office", "office-registers", "gate_tokens.conf"],
    "office-overdue-mail": ["office-registers"],
    "office-scrub": ["office-backups"],
    "office-renew": ["office-seals", "NAME.tsa.pem"],
    "office-seal": ["office-certificates", "office-seals", "NAME.withdrawn", "NAME.cades.pem"],
    "office-stamp": ["office-seals", "NAME.tsa.pem"],
    "office-vault": ["office-vaults"],
    "office-vault-check": ["office-vaults"],
    "office-vault-sweep": ["office-vaults"],
    "office-vault-mirror": ["office-vaults", "office-backups", "office-vault-backups"],
    "office-yearend": ["office-yearend"],
}
# it looks as the unit's user, in the unit's own mounts; each planted file may be read by everybody
LOOK = """[Unit]
ConditionPathExists=
OnSuccess=
OnFailure=
[Service]
Type=oneshot
Restart=no
WatchdogSec=0
LoadCredential=
SetCredential=
ExecStartPre=
ExecStart=
ExecStart=/bin/sh -c 'find /var/lib/office* /var/cache/office* /var/cache/private /var/log/office /etc/office /etc/nginx/office -name "planted*" 2>/dev/null | sed "s/^/SEEN /"; find /etc/office /etc/nginx/office /var/log/office -type f 2>/dev/null | sed "s/^/SEEN /"'
ExecStartPost=
ExecStopPost=
ExecReload=
"""


def planted() -> str:
    """The commands that put a file into each folder, of two offices."""
    commands = ["mkdir -p /etc/nginx/office /var/log/office; touch /etc/office/city.mail /etc/office/city.stamp /etc/office/city.seal /etc/office/city.intake"]
    for name in ("city", "court"):
        commands += [f"mkdir -p {it}/{name}; touch {it}/{name}/planted; chmod -R a+rX {it}" for it in FOLDERS]
        commands += [f"touch {it.replace('NAME', name)}; chmod a+r {it.replace('NAME', name)}" for it in KEYS]
    return "; ".join(commands)


def looked(booted: "Booted", unit: str) -> list[str]:
    """Lists what a unit sees, by a start in which it looks around in place of its work."""
    instance = "office-backup@city" if unit == "office-failed" else "city"
    place = f"/run/systemd/system/{unit}@.service.d"
    # systemd starts no unit of a user of its own while others may enter that folder
    mode = 700 if unit == "office-journal-check" else 755
    done = booted.run(f"chmod {mode} /var/cache/private; mkdir -p {place}; cat >{place}/look.conf <<'END'\n{LOOK}END\n"
                      # the unit that looked before may have started this one: no file takes OnSuccess= away
                      f"systemctl daemon-reload; systemctl stop '{unit}@{instance}'; "
                      f"systemctl start '{unit}@{instance}'; journalctl --sync; "
                      f"journalctl -o cat -u '{unit}@{instance}' | grep '^SEEN '; "
                      f"systemctl show -P Result '{unit}@{instance}'; rm -r {place}")
    return sorted(set(re.findall("SEEN (.*)", done.out))) if done.out.endswith("success\n") else [done.out + done.err]


def of(unit: str) -> set[str]:
    """What a unit should see, as paths."""
    wanted = set()
    for it in SEES[unit]:
        wanted |= {key.replace("NAME", name) for key in OF_EACH.get(it, []) for name in ("city", "court")}
        wanted |= {key.replace("NAME", "city") for key in KEYS if key.split("/")[-1] == it}
        wanted |= {f"{folder}/city/planted" for folder in FOLDERS if folder.split("/")[-1] == it}
    return wanted


def judge_apart(booted: "Booted") -> None:
    """Each unit that the package has looks around."""
    booted.run("systemctl stop 'office*'")
    booted.run(planted())
    units = sorted({it.source.name.split("@")[0] for it in staging.listed() if it.source.name.endswith("@.service")})
    judge("systemd: each unit has a line that says what it sees", set(units) <= set(SEES), sorted(set(units) - set(SEES)))
    for unit in [it for it in units if it in SEES]:
        # what names ports and addresses is no secret
        seen = {it for it in looked(booted, unit) if not re.fullmatch(r"/etc/office/\w+\.(conf|mail|stamp|seal|intake)", it)}
        if unit == "office-gate":
            # tokens that only nginx's master reads are hidden
            judge(f"systemd: {unit}@ sees its own office, and journals", seen == of(unit) - {KEYS[-1]}, sorted(seen ^ of(unit)))
        else:
            judge(f"systemd: {unit}@ sees what it needs of its office, and nothing of another", seen == of(unit),
                  sorted(seen ^ of(unit)))
    booted.run("; ".join(f"rm -f {it}/*/planted" for it in FOLDERS) + "; rm -f /etc/office/city.stamp /etc/office/city.seal /etc/office/city.intake; "
               "rm -rf /var/lib/office*/court /var/cache/private/office-journal-check; chmod 700 /var/cache/private; "
               "rm -f "
               + " ".join(it.replace("NAME", name) for it in KEYS for name in ("city", "court")))
    booted.run("systemctl daemon-reload; systemctl reset-failed 'office*'; systemctl start office@city")
