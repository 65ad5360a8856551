"""What comes to an office and is kept beside it: files, encrypted copies, seals, a gate's journal, by units at work."""
import datetime
import json
import pathlib
from typing import TYPE_CHECKING

from making.words import TOP
from kit.judging import judge
from trying.stopping import AS_OFFICE

if TYPE_CHECKING:
    from trying.booted import Booted
    from trying.machine import Machine

TOWN = "/var/lib/office/town"
COPIES, ENCRYPTED, SEALS = (f"/var/lib/office-{it}/town" for it in ("backups", "encrypted", "seals"))
JOURNAL = "/var/log/office/town.journal"
# an office with certificates of two runs
STORY = "/usr/share/doc/office/examples/city_archive/story.json"
# the authority of tests/transfer, within the machine
FILES = [TOP / "tests/transfer/authority.py"]
AUTHORITY = """import pathlib, time
from authority import Authority
with Authority(pathlib.Path("/root/authority")) as it:
    print(it.url, flush=True)
    time.sleep(3600)
"""
GATE = [f"install -d {pathlib.Path(JOURNAL).parent}", f"install -m 640 -o office-gate -g adm /dev/null {JOURNAL}",
        "install -m 640 -g office-gate /usr/share/doc/office/service/gate/city.access /etc/office/town.access",
        "install -m 640 -g office-gate /dev/null /etc/office/town.token",
        "openssl rand -hex 32 >/etc/office/town.token", "systemctl start office-gate@town.socket office-gate@town"]


def put(machine: "Machine") -> None:
    for it in FILES:
        machine.put(it, f"/root/{it.name}")


def started(booted: "Booted", unit: str) -> tuple[str, str]:
    """Starts a unit; returns its result and status, and what the start printed."""
    done = booted.run(f"systemctl start {unit}; systemctl show -P Result {unit}; "
                      f"systemctl show -P ExecMainStatus {unit}; journalctl --sync; "
                      f"journalctl -o cat -u {unit} | tac | sed '/^Starting /q'")
    lines = done.out.splitlines()
    return " ".join(lines[:2]), "\n".join(reversed(lines[2:]))


def judge_started(booted: "Booted", name: str, unit: str, wanted: tuple[str, str]) -> None:
    state, printed = started(booted, unit)
    judge(f"systemd: {name}", state == wanted[0] and wanted[1] in printed, (state, printed))


def judge_reported(booted: "Booted", unit: str) -> None:
    """A failure of a unit is a line with the priority of an error."""
    done = booted.run("for n in $(seq 300); do "
                      f"journalctl -p err -o cat -u office-failed@{unit} | grep '{unit} failed' && break; "
                      "sleep 0.2; done")
    judge(f"systemd: a failure of {unit.split('@')[0]}@ is reported as an error", done.out != "", done)


def judge_encrypted(booted: "Booted") -> None:
    """The nightly unit encrypts each copy once there are public keys, and nothing before."""
    state, printed = started(booted, "office-backup@town")
    done = booted.run(f"find {ENCRYPTED} -mindepth 1; ls {COPIES} | wc -l")
    judge("systemd: without public keys a backup encrypts nothing", state == "success 0" and done.out == "1\n",
          (state, printed, done))
    booted.run("age-keygen -o /root/town.keys && age-keygen -y /root/town.keys >/etc/office/town.recipients; sleep 1")
    state, printed = started(booted, "office-backup@town")
    done = booted.run(f"cd {ENCRYPTED}; for it in *.db.age; do stat -c '%U %a' $it; age --decrypt --identity "
                      f"/root/town.keys $it | cmp - {COPIES}/${{it%.age}} && echo same; done; ls {COPIES} | wc -l")
    judge("systemd: with public keys each copy is encrypted, and the private key gives it back",
          state == "success 0" and done.out == "office 600\nsame\n" * 2 + "2\n", (state, printed, done))
    judge_started(booted, "contents of the newest copy are compared", "office-scrub@town",
                  ("success 0", "contents compared: 12"))


def judge_sealed(booted: "Booted") -> None:
    """Certificates are kept without a key, sealed with one, and nothing passes in silence once the key is gone."""
    state, printed = started(booted, "office-certificates@town")
    _, text = started(booted, "office-seal@town")
    done = booted.run("ls /var/lib/office-certificates/town | grep -c txt; systemctl is-failed office-seal@town; "
                      "journalctl -p err -o cat -u office-failed@office-seal@town")
    judge("systemd: certificates are kept; where there never was a key nothing is sealed, and nothing fails",
          (state, done.out) == ("success 0", "2\ninactive\n")
          and "no trigger condition checks were met" in text and "Starting" not in text,
          (state, printed, text, done))
    booted.run("ssh-keygen -q -t ed25519 -N '' -f /etc/office/town.key; systemctl start office-certificates@town")
    done = booted.run(f"for n in $(seq 300); do [ -e {SEALS}/000002 ] && break; sleep 0.2; done; "
                      f"stat -c '%U %a' {SEALS}/000002/seal.txt.sig")
    judge("systemd: with a key each certificate is sealed, by the unit that follows",
          done.out.startswith("office-seal 6"), done)
    judge_stamped(booted)
    booted.run("mv /etc/office/town.key /root/town.key")
    judge_started(booted, "where an office has seals and the key is gone, sealing fails", "office-seal@town",
                  ("exit-code 2", "the key is lost, and nothing follows seal 2"))
    judge_reported(booted, "office-seal@town")


def judge_stamped(booted: "Booted") -> None:
    """Without the authority's certificate no stamp is taken; with it each seal has one."""
    booted.run("systemd-run --quiet --unit=authority --working-directory=/root "
               f"--property=StandardOutput=file:/root/url python3 -B -c '{AUTHORITY}'; "
               "for n in $(seq 300); do [ -s /root/url ] && break; sleep 0.2; done; "
               'echo "STAMP_URL=$(cat /root/url)" >/etc/office/town.stamp')
    judge_started(booted, "without STAMP_CA nothing is stamped", "office-stamp@town",
                  ("exit-code 2", "STAMP_CA names no file"))
    judge_reported(booted, "office-stamp@town")
    booted.run("install -m 644 /root/authority/ca.pem /etc/office/town.tsa.pem; "
               "echo STAMP_CA=/etc/office/town.tsa.pem >>/etc/office/town.stamp")
    judge_started(booted, "with STAMP_CA each seal has a stamp", "office-stamp@town", ("success 0", "stamps: 2"))
    judge_started(booted, "two days before the authority's certificate ends its renewals are of no use, and somebody gets to know",
                  "office-renew@town", ("exit-code 3", "ends no later"))
    judge_reported(booted, "office-renew@town")
    booted.run("systemctl stop authority")


def judge_taken_in(booted: "Booted") -> None:
    """What came to a folder is filed, and what is half goes to be looked at, by a user who is of no group of the office."""
    place = "/var/lib/office-intake/town"
    booted.run("printf 'ROOT=SCANS\\nCLASS=FIN-INV\\nZONE=UTC\\nOFFICE=http://127.0.0.1:8084\\nWORDS=--changed --settle 0\\n' "
               ">/etc/office/town.intake; install -m 600 /dev/null /etc/office/town.intake-login; "
               "echo intake:secret >/etc/office/town.intake-login; "
               f"install -d -o office-intake -g office-intake -m 710 {place}; install -d -g office-intake -m 2770 {place}/in; "
               f"echo whole >{place}/in/scan.txt; sleep 1")
    judge_started(booted, "a file that came is filed", "office-intake@town", ("success 0", "scan.txt: number "))
    booted.run(f"printf %%PDF-1.4 >{place}/in/half.pdf")
    judge_started(booted, "one that is half is named", "office-intake@town", ("exit-code 1", "to look at: 1 files"))
    judge_reported(booted, "office-intake@town")
    done = booted.run(f"cd {place}; stat -c '%a %n' done look; find in done look -type f | sort")
    judge("systemd: each file is where it belongs", done.out == (
        "700 done\n700 look\ndone/scan.txt\nlook/half.pdf\nlook/half.pdf.why.txt\n"), done)


def judge_journal(booted: "Booted") -> None:
    """The year's end acts through the gate, and the nightly check finds its act between two copies."""
    done = booted.run(" && ".join(GATE))
    judge("systemd: the gate of the package starts", done.status == 0, done)
    today = datetime.datetime.now(datetime.timezone.utc).date().isoformat()
    act = {"act": "add-aggregation", "day": today, "ref": "NEXT", "title": "next", "parent": None, "class": "FIN-INV"}
    booted.run(f"install -d -o office-yearend -m 750 /var/lib/office-yearend/town; echo '{json.dumps([act])}' "
               f">/var/lib/office-yearend/town/{today}-1.json; sleep 1")
    judge_started(booted, "the year's end acts through the gate", "office-yearend@town",
                  ("success 0", "1 done, 0 refused"))
    booted.run("systemctl start office-backup@town")
    judge_started(booted, "the nightly check does the acts between two copies once more", "office-journal-check@town",
                  ("success 0", "differences: 0"))
    place = "/var/cache/private/office-journal-check/town"
    done = booted.run(f"grep -c NEXT {JOURNAL}; find {place} -mindepth 1")
    # the head is what the next seal names
    judge("systemd: the act is in the journal, and no copy is left", done.out == f"1\n{place}/head\n", done)


def judge_kept(booted: "Booted") -> None:
    """All of it, with an office of its own."""
    booted.run("sed s/8081/8084/ /etc/office/city.conf >/etc/office/town.conf; "
               f"install -d -o office -g office -m 700 {TOWN}; "
               f"{AS_OFFICE} office apply {TOWN}/office.db {STORY} >/dev/null; systemctl start office@town")
    judge_encrypted(booted)
    judge_sealed(booted)
    judge_journal(booted)
    judge_taken_in(booted)
    booted.run("systemctl stop 'office*@town*'; systemctl reset-failed 'office*@town*'; rm -rf /var/lib/office*/town "
               f"/etc/office/town.* {JOURNAL}")
