"""The package on a machine: installed, used, upgraded, removed and purged."""
import hashlib
import pathlib

from making import staging
from trying import copies
from kit.judging import judge
from trying.machine import Machine

CITY = "/var/lib/office/city/office.db"
# as the unit runs it
AS_OFFICE = "setpriv --reuid office --regid office --clear-groups --no-new-privs"
# starts the service, and asks it: the body of an answer is its last line
SERVICE = (f"rm -f /tmp/line; {AS_OFFICE} office serve {CITY} 8081 100 >/tmp/line & "
           "until grep -qs listening /tmp/line; do sleep 0.1; done; ")
ASKED = ("exec 3<>/dev/tcp/127.0.0.1/8081; printf 'GET /due/0001-01-01 HTTP/1.0\\r\\n\\r\\n' >&3; tail -n 1 <&3; ")
STAYS = ("/var/lib/office", "/var/lib/office-backups", "/var/lib/office-encrypted", "/var/lib/office-registers",
         "/var/lib/office-catalogues", "/var/lib/office-vaults", "/var/lib/office-vault-backups", "/var/lib/office-gate",
         "/var/lib/office-yearend", "/var/lib/office-intake", "/var/lib/office-setup", "/var/log/office", "/var/cache/office-catalogue",
         "/var/cache/office-journal-check", "/etc/office")
SUMS = "find /var/lib/office /var/lib/office-backups /etc/office -type f -exec sha256sum {} + | sort"
UNIT = "/etc/systemd/system/multi-user.target.wants/office@city.service"


def says(name: str, machine: Machine, command: str, wanted: str, status: int = 0) -> None:
    done = machine.run(command)
    judge(name, (done.status, done.out) == (status, wanted), done)


def sums(machine: Machine) -> dict[str, str]:
    """The checksums of what the office made on this machine."""
    found = {}
    for folder in ("/var/lib/office", "/var/lib/office-backups", "/etc/office"):
        for it in sorted(machine.path(folder).rglob("*")):
            if it.is_file():
                found[str(it.relative_to(machine.top))] = hashlib.sha256(it.read_bytes()).hexdigest()
    return found


def judge_installed(machine: Machine, file: pathlib.Path) -> None:
    machine.put(file, "/root/office.deb")
    done = machine.run("useradd --uid 1500 office; dpkg -i /root/office.deb")
    judge("it is not installed where a person has the name office, and says what to do", done.status != 0
          and "usermod --login NAME office" in done.err, done)
    done = machine.run("usermod --login clerk office && groupmod --new-name clerk office && dpkg --configure office")
    judge("once that person has another name it is installed", done.status == 0, done)
    machine.run("userdel clerk")
    says("dpkg finds each file as it was packed", machine, "dpkg --verify office", "")
    done = machine.run("for it in office-mail office-seal office-gate office-vault office-certificates office-yearend "
                       "office-sign-in office-intake; do "
                       "id -u $it || exit 1; done; getent group office-read")
    judge("so are a user for each service, and the group that asks for readings", done.status == 0, done)
    says("the user office is there, without a home or a shell", machine, "getent passwd office | cut -d: -f6-",
         "/nonexistent:/usr/sbin/nologin\n")
    names = " ".join(it.replace("@*", "@city") for it in staging.units())
    done = machine.run(f"for unit in {names}; do systemctl is-enabled $unit; done")
    judge("no unit is enabled", set(done.out.split()) <= {"disabled", "static"} and done.out != "", done)
    done = machine.run("touch /etc/office.conf && mkdir -p /etc/office && "
                       f"cp /usr/share/doc/office/service/city.conf /etc/office/ && "
                       f"systemd-analyze verify --man=no {names}")
    judge("systemd takes each unit", done.status == 0 and done.err == "", done)
    done = machine.run("grep -rl /usr/local /lib/systemd/system/office* /usr/share/doc/office/service/*.conf "
                       "/usr/share/doc/office/service/*/*.conf")
    judge("units and configurations name the package's places", done.out == "", done)


def judge_used(machine: Machine) -> None:
    says("a due day", machine, "office due years 7 from-month-4 2017-06-30", "2025-04-01\n")
    machine.run(f"install -d -o office -g office -m 700 {CITY.rsplit('/', 1)[0]} /var/lib/office-backups")
    story = "/usr/share/doc/office/examples/city_archive"
    done = machine.run(f"{AS_OFFICE} office apply {CITY} {story}/story.json")
    judge("the office of an example is made by the user office", done.out != "" and machine.path(CITY).exists(), done)
    done = machine.run(f"{SERVICE}{ASKED}"
                       f"{AS_OFFICE} office-backup {CITY} /var/lib/office-backups/city.db && echo copied")
    judge("it serves, and is copied meanwhile", done.out == "[]copied\n", done)
    done = machine.run(f"office-restore {CITY} /var/lib/office-backups/city.db && office-compact {CITY} >/dev/null && "
                       f"stat -c '%U %a' {CITY} && sqlite3 {CITY} 'SELECT count(*) FROM records'")
    judge("it is restored and compacted", done.status == 0 and done.out.endswith("office 600\n33\n"), done)
    machine.run(f"mkdir -p {' '.join(STAYS)}")
    machine.run("systemctl enable office@city office-backup@city.timer")
    judge("a service can be enabled", machine.path(UNIT).is_symlink())


def judge_upgraded(machine: Machine, file: pathlib.Path) -> None:
    machine.put(file, "/root/office.deb")
    copies.put_older(machine)
    done = machine.run(f"{SERVICE}{SUMS} >/tmp/before; dpkg -i /root/office.deb && {SUMS} >/tmp/after; {ASKED}")
    judge("it is upgraded, and says until when services go on with the old program", done.status == 0
          and "systemctl restart 'office@*' 'office-vault@*'" in done.out, done)
    judge("a service that runs answers after it", done.out.endswith("[]"), done)
    copies.judge_named("the upgrade", done.out)
    copies.judge_named("office-copies", machine.run("office-copies").out)
    copies.judge_replaced(machine)
    says("dpkg has the new version", machine, "dpkg-query -W -f '${Version} ${db:Status-Status}' office",
         "1000.0.0 installed")
    before, after = (machine.path(f"/tmp/{it}").read_text() for it in ("before", "after"))
    judge("what was made stays as it was", before == after and before.count("\n") >= 3, before + after)
    judge("and what was enabled stays enabled", machine.path(UNIT).is_symlink())
    says("the office opens", machine, f"{AS_OFFICE} office init {CITY}", "version 2\n")


def judge_removed(machine: Machine, files: list[str], word: str) -> None:
    before = sums(machine)
    done = machine.run(f"dpkg --{word} office")
    judge(f"{word}: done", done.status == 0, done)
    silent = [it for it in STAYS if f"office: {it} stays" not in done.out]
    judge(f"{word}: it names each folder that stays", not silent, done.out)
    judge(f"{word}: each office, each copy and each configuration is as it was", sums(machine) == before, sums(machine))
    left = [it for it in files if machine.path(it).is_file()]
    judge(f"{word}: no file of the package is left", not left, left)
    says(f"{word}: the user stays, who owns the offices", machine, f"stat -c %U {CITY}", "office\n")


def judge_again(machine: Machine, file: pathlib.Path) -> None:
    machine.put(file, "/root/office.deb")
    done = machine.run(f"dpkg -i /root/office.deb && {AS_OFFICE} office init {CITY}")
    judge("installed again, it opens the office that was left", done.out.endswith("version 2\n"), done)


def judge_life(machine: Machine, first: pathlib.Path, second: pathlib.Path) -> None:
    """All of it, in this order."""
    judge_installed(machine, first)
    files = machine.run("dpkg -L office").out.split("\n")
    files = [it for it in files if it and machine.path(it).is_file()]
    judge_used(machine)
    judge_upgraded(machine, second)
    judge_removed(machine, files, "remove")
    judge("remove: what was enabled is found again by a later installation", machine.path(UNIT).is_symlink())
    judge_again(machine, second)
    judge_removed(machine, files, "purge")
    judge("purge: nothing is enabled any more", not machine.path(UNIT).is_symlink())
    done = machine.run("dpkg-query -W office")
    judge("purge: dpkg knows it no more", done.status != 0, done)
