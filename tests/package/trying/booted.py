"""The package on a Debian that systemd runs, booted by systemd-nspawn: the units at work, from enabling to purging."""
import pathlib

from kit import systemd
from trying.apart import judge_apart
from kit.judging import judge
from trying.kept import judge_kept, put
from trying.machine import Done, Machine, run
from trying.stopping import ASK_FILE, judge_compaction, judge_hung, judge_missing, judge_pruned, judge_stopping

CITY = "/var/lib/office/city"
# asks the service, for half a minute at most: the body of an answer is its last line
ASKED = ("for n in $(seq 150); do (exec 3<>/dev/tcp/127.0.0.1/8081) 2>/dev/null && break; sleep 0.2; done; "
         "exec 3<>/dev/tcp/127.0.0.1/8081; printf 'GET /due/0001-01-01 HTTP/1.0\\r\\n\\r\\n' >&3; tail -n 1 <&3; ")
PID = "systemctl show -p MainPID --value office@city"


class Booted(systemd.Booted):
    """A machine that runs. Used by `with`, it is shut down at the end."""

    def __init__(self, machine: Machine) -> None:
        super().__init__(machine.top)

    def run(self, command: str) -> Done:
        return run(list(self.boot.enter(command)))


def judge_units(booted: Booted) -> None:
    done = booted.run("dpkg -i /root/office.deb && mkdir -p /etc/office && "
                      "cp /usr/share/doc/office/service/city.conf /etc/office/ && "
                      "systemctl list-units --all --plain --no-legend 'office*'")
    judge("systemd: after the installation nothing runs", done.status == 0 and "office@" not in done.out, done)
    judge_missing(booted)
    done = booted.run("systemctl enable --now office@city office-backup@city.timer office-compact@city.timer && "
                      + ASKED)
    judge("systemd: the service starts, and answers", done.out == "[]", done)
    done = booted.run("systemctl is-active office@city office-backup@city.timer office-compact@city.timer; "
                      f"stat -c '%U %a' {CITY} {CITY}/office.db")
    judge("systemd: service and timers are active, the office is the user's alone",
          done.out == "active\n" * 3 + "office 700\noffice 600\n", done)
    done = booted.run("systemctl start office-backup@city && ls /var/lib/office-backups/city | grep -c 'Z.db$'")
    judge("systemd: a backup makes a copy while it serves", done.out == "1\n", done)
    judge_stopping(booted)
    judge_compaction(booted)
    judge_kept(booted)
    judge_pruned(booted)
    judge_apart(booted)
    judge_hung(booted)


def judge_upgrade(booted: Booted, second: pathlib.Path) -> None:
    done = booted.run(f"{PID}; dpkg -i /root/second.deb >&2 && {PID}")
    before, _, after = done.out.partition("\n")
    judge("systemd: an upgrade restarts nothing", before == after.strip() != "0", done)
    done = booted.run(f"systemctl restart 'office@*' && {PID} && " + ASKED)
    judge("systemd: somebody restarts it", done.out.endswith("\n[]") and not done.out.startswith(before), done)


def judge_removal(booted: Booted) -> None:
    done = booted.run("dpkg --remove office >&2 && systemctl is-active office@city office-backup@city.timer")
    judge("systemd: removing stops service and timers", done.out == "inactive\ninactive\n", done)
    done = booted.run(f"ls {CITY} /var/lib/office-backups/city")
    judge("systemd: the office, what was there before, and its copy stay", "office.db\n" in done.out
          and "before" in done.out and "Z.db" in done.out, done)
    done = booted.run("dpkg --purge office >&2; find /etc/systemd/system -name 'office*'")
    judge("systemd: after purging nothing of it is enabled", done.out == "", done)


def judge_booted(machine: Machine, first: pathlib.Path, second: pathlib.Path) -> None:
    """All of it."""
    machine.put(first, "/root/office.deb")
    machine.put(second, "/root/second.deb")
    machine.put(ASK_FILE, "/root/ask.py")
    put(machine)
    with Booted(machine) as booted:
        judge_units(booted)
        judge_upgrade(booted, second)
        judge_removal(booted)
