"""The service under systemd: what a stop leaves, what is missing and not made anew, and what comes back by itself."""
import pathlib
import time
from typing import TYPE_CHECKING

from trying.copies import older
from kit.judging import judge

if TYPE_CHECKING:
    from trying.booted import Booted

CITY = "/var/lib/office/city"
SMALL = "/var/lib/office/small"
ASK = "python3 -I /root/ask.py"
ASK_FILE = pathlib.Path(__file__).with_name("ask.py")
AS_OFFICE = "setpriv --reuid office --regid office --clear-groups"
# a copy of an earlier release
OLD = "/etc/nginx/office/http.conf"
LOG = f"stat -c %s {CITY}/office.db-wal"


def new_office(folder: str) -> str:
    return f"install -d -o office -g office -m 700 {folder} && {AS_OFFICE} office init {folder}/office.db >/dev/null"


def judge_missing(booted: "Booted") -> None:
    """FILE is missing, alone and beside a log with acts."""
    log = f"head -c 5000 /dev/zero >{CITY}/office.db-wal"
    for name, before in (("alone", "true"), ("beside a log with acts", log)):
        booted.run(f"install -d -o office -g office -m 700 {CITY}; {before}")
        done = booted.run("systemctl start office@city; sleep 5; systemctl is-active office@city; "
                          "journalctl -u office@city | grep -c 'restore a backup'; "
                          f"find {CITY} -type f -size +0 -printf '%f %s '")
        said, left = done.out.split("\n")[:2], done.out.split("\n")[2]
        judge(f"systemd: FILE is missing {name}: the unit does not start, and says what to do", said[0] == "failed"
              and int(said[1]) > 0, done)
        judge(f"systemd: FILE is missing {name}: nothing is written", left == ("" if name == "alone" else
                                                                              "office.db-wal 5000 "), done)
    booted.run(f"rm -f {CITY}/office.db-wal; systemctl reset-failed office@city; {new_office(CITY)}")


def judge_stopped(booted: "Booted") -> None:
    """A hold is answered, the service stops, and FILE alone is copied; then the same of a service that is killed."""
    done = booted.run(f"{ASK} 8081 - 0 && systemctl stop office@city && {LOG} && cp {CITY}/office.db /root/copy.db && "
                      "office init /root/copy.db && sqlite3 /root/copy.db 'SELECT code FROM holds'")
    judge("systemd: a stop closes FILE: a copy of FILE alone has the hold that was answered", done.status == 0
          and done.out.startswith("200 ") and done.out.endswith("\n41\nversion 2\nCOURT-1\n"), done)
    booted.run("systemctl start office@city")
    done = booted.run(f"{ASK} 8081 killed 1 >&2; {LOG}; systemctl kill --kill-who=main --signal=KILL office@city; "
                      "until systemctl show -p SubState office@city | grep -q auto-restart; do sleep 0.1; done; "
                      f"{LOG}; {ASK} 8081 /records/1")
    logs = done.out.split()[:2]
    judge("systemd: after a kill of office-serve FILE is closed too, and a client waits for the next start",
          int(logs[0]) > 41 == int(logs[1]) and " 200 " in f" {done.out.split()[2]} ", done)


def judge_list(booted: "Booted") -> None:
    """A stop and a restart while clients ask."""
    # a busy machine may need longer for the list than a service may usually take to stop
    booted.run("sed -i 's/^STOP_SECONDS=.*/STOP_SECONDS=600/' /etc/office/city.conf; systemctl restart office@city")
    # it stops once the first of these acts is written
    written = f"stat -c %y {CITY}/office.db-wal 2>/dev/null"
    begun = f"until [ \"$({written})\" != \"$before\" ] || [ -s /tmp/answer ]; do sleep 0.02; done"
    done = booted.run(f"rm -f /tmp/answer; before=$({written}); {ASK} 8081 list 300 >/tmp/answer & {begun}; "
                      "systemctl stop office@city; wait; "
                      f"cut -c 1-3 /tmp/answer; grep -o number /tmp/answer | wc -l; sqlite3 {CITY}/office.db "
                      "\"SELECT count(*) FROM records WHERE ref LIKE 'list-%'\"; systemctl start office@city")
    judge("systemd: a stop within a list: the client has its whole answer, and all acts are there",
          done.out == "200\n300\n300\n", done)
    done = booted.run("systemctl restart office@city & for n in 1 2 3 4 5 6; do "
                      f"{ASK} 8081 /records/1 | cut -c 1-3 & sleep 0.5; done; wait")
    judge("systemd: a restart: no client is refused", done.out == "200\n" * 6, done)


def judge_apart(booted: "Booted") -> None:
    """The network and the files of a service."""
    booted.run(f"sed s/8081/8083/ /etc/office/city.conf >/etc/office/small.conf; mkdir -p {SMALL}; "
               f"mount -t tmpfs -o size=2m,mode=700,uid=$(id -u office),gid=$(id -g office) tmpfs {SMALL}; "
               f"{new_office(SMALL)}; systemctl start office@small")
    pid = "$(systemctl show -P MainPID office@city)"
    done = booted.run(f"nsenter -t {pid} -m ls /var/lib/office; nsenter -t {pid} -n grep -c ' 0A ' /proc/net/tcp; "
                      "grep ' 0A ' /proc/net/tcp | cut -d: -f3 | cut -c 1-4 | sort | tr '\\n' ' '")
    judge("systemd: an office sees no other office, and its program's port is in its own network alone",
          done.out == "city\n1\n1F91 1F93 ", done)


def judge_full(booted: "Booted") -> None:
    """The disk of an office is full for twelve acts, each tried until it has an answer, and gets room again."""
    booted.run(f"{ASK} 8083 - 0; {ASK} 8083 first 1; head -c 3000000 /dev/zero >{SMALL}/other")
    tried = f"for m in $(seq 40); do s=$({ASK} 8083 full-$n 60 | cut -c 1-3); [ $s = 503 ] && break; sleep 0.5; done; "
    done = booted.run(f"for n in $(seq 12); do {tried} echo $s; done; {ASK} 8083 /records/1 | cut -c 1-3")
    judge("systemd: a full disk: acts get 503, and readings go on", done.out == "503\n" * 12 + "200\n", done)
    done = booted.run("journalctl --sync; journalctl -p err -o cat -u office@small | grep 'office: fault'")
    judge("systemd: and its faults are errors of the journal", "fault 3" in done.out, done)
    booted.run(f"rm {SMALL}/other")
    began, last = time.monotonic(), None
    while time.monotonic() - began < 300:
        last = booted.run(f"{ASK} 8083 room 1")
        if last.out.startswith("200 "):
            break
        time.sleep(2)
    judge("systemd: it comes back by itself once there is room", last is not None and last.out.startswith("200 "), last)
    booted.run(f"systemctl stop office@small; umount {SMALL}; rmdir {SMALL}; rm /etc/office/small.conf")


def judge_compaction(booted: "Booted") -> None:
    """A compaction starts only what ran."""
    done = booted.run(f"systemctl start office-compact@city && ls {CITY} | grep -c before; {ASK} 8081 /records/1 | "
                      "cut -c 1-3; systemctl is-active office@city")
    waited = booted.run("until systemctl is-active -q office@city; do sleep 0.5; done; " + f"{ASK} 8081 /records/1")
    judge("systemd: a compaction stops a running office, and starts it again", done.out.startswith("1\n")
          and waited.out.startswith("200 "), (done, waited))
    done = booted.run("systemctl stop office@city; sleep 1; systemctl start office-compact@city; sleep 2; "
                      f"systemctl is-active office@city; ls {CITY} | grep -c before; systemctl start office@city")
    judge("systemd: a compaction of a stopped office leaves it stopped", done.out == "inactive\n2\n", done)


def judge_pruned(booted: "Booted") -> None:
    """The nightly unit removes an old file before it comes to a copy that is not good, which fails it."""
    copies, old = "/var/lib/office-backups/city", "20200101T000000Z"
    booted.run(f"echo old >{CITY}/office.db.before-{old}; echo none >{copies}/{old}.db; "
               f"chown office: {CITY}/office.db.before-{old} {copies}/{old}.db")
    done = booted.run("systemctl start office-backup@city; systemctl is-failed office-backup@city; "
                      f"ls {CITY} {copies} | grep -c {old}; journalctl --sync; "
                      "journalctl -o cat -u office-backup@city; systemctl reset-failed office-backup@city")
    judge("systemd: the nightly unit removes an old file, and fails over a copy that is not good",
          done.out.startswith("failed\n0\n") and f"removed: {CITY}/office.db.before-{old}\n" in done.out
          and f"the office does not open {copies}/{old}.db\n" in done.out, done)


def judge_hung(booted: "Booted") -> None:
    """A program that hangs is started again by office-serve, and office-serve, if it hangs, by systemd."""
    place = "/run/systemd/system/office@city.service.d"
    booted.run(f"mkdir -p {place}; printf '[Service]\\nWatchdogSec=16\\nExecStart=\\nExecStart=/usr/bin/office-serve "
               "--hang-seconds 8 --readings /run/office/%%i/readings /var/lib/office/%%i/office.db ${PORT}\\n' "
               f">{place}/short.conf; systemctl daemon-reload; systemctl restart office@city")
    serve = "$(systemctl show -P MainPID office@city)"
    program = f"$(cut -d ' ' -f 1 /proc/{serve}/task/{serve}/children)"
    restarts = "systemctl show -P NRestarts office@city"
    gone = "for n in $(seq 600); do test -e /proc/$p || break; sleep 0.2; done; test -e /proc/$p || echo ended; "
    done = booted.run(f"sleep 20; {restarts}; p={program}; kill -STOP $p; {gone}"
                      f"{ASK} 8081 /due/0001-01-01 | cut -c 1-3; {restarts}")
    judge("systemd: a program that hangs is started again, by the same service", done.out == "0\nended\n200\n0\n", done)
    again = f"for n in $(seq 600); do [ $({restarts}) = 0 ] || break; sleep 0.2; done; "
    done = booted.run(f"kill -STOP {serve}; {again}{ASK} 8081 /due/0001-01-01 | cut -c 1-3; {restarts}; "
                      "journalctl -o cat -u office@city | grep -ci watchdog")
    judge("systemd: an office-serve that hangs is started again by the watchdog, and clients wait",
          done.out.startswith("200\n1\n") and int(done.out.split()[2]) > 0, done)
    booted.run(f"rm -r {place}; systemctl daemon-reload; systemctl restart office@city")


MAIL = """#!/bin/sh
echo "mail $*"
ls -A /var/lib/office /var/lib/office-backups /var/lib/office-registers 2>&1 | tr '\\n' ' '
cat
"""


def judge_nights(booted: "Booted") -> None:
    """The catalogue makes its folder, a register is mailed by a user who sees nothing else, and a failure is told."""
    done = booted.run("systemctl start office-catalogue@city && stat -c '%U %G %a' /var/lib/office-catalogues/city && "
                      "ls /var/lib/office-catalogues/city/now/about.json.gz")
    judge("systemd: a catalogue makes its folder, which nginx's group may read",
          done.out.startswith("office www-data 2750\n") and done.status == 0, done)
    booted.run(f"cat >/usr/bin/mail <<'END'\n{MAIL}END\nchmod 755 /usr/bin/mail; "
               "mkdir -p /var/lib/office-registers/other; "
               "printf 'MAIL_TO=records@localhost\\nFAILED_TO=\"a@localhost b@localhost\"\\n' >/etc/office/city.mail; "
               f"mkdir -p /etc/nginx/office; cat >{OLD} <<'END'\n{older('nginx/http.conf')}END\n")
    done = booted.run("systemctl start office-overdue@city && stat -c '%U %G %a' /var/lib/office-registers/city/*.csv; "
                      "until journalctl -u office-overdue-mail@city | grep -q 'Finished\\|Failed'; do sleep 0.2; done; "
                      "journalctl -o cat -u office-overdue-mail@city")
    judge("systemd: the register is readable for those who send it",
          done.out.startswith("office office-mail 640\n"), done)
    judge("systemd: it is mailed, by one who sees no office, no copy and no other register",
          "records@localhost" in done.out and "\nrecord," in done.out and "office.db" not in done.out
          and "other" not in done.out and "Z.db" not in done.out, done)
    judge("systemd: it names a configuration of an earlier version", f"\nold {OLD}\n" in done.out, done)
    booted.run(f"rm {OLD}")
    done = booted.run("cp /etc/office/city.conf /etc/office/none.conf; cp /etc/office/city.mail /etc/office/none.mail; "
                      "systemctl start office-backup@none; until journalctl -u 'office-failed@*' | "
                      "grep -q 'Finished\\|Failed'; do sleep 0.2; done; journalctl -o cat -p err -u 'office-failed@*'; "
                      "journalctl -o cat -u 'office-failed@*' | grep mail; rm /etc/office/none.*")
    judge("systemd: a backup that fails is told as an error, and mailed", "office-backup@none failed on " in done.out
          and "mail -s office-backup@none failed a@localhost b@localhost" in done.out, done)


def judge_stopping(booted: "Booted") -> None:
    """All of it, with the service of city running before and after it."""
    judge_stopped(booted)
    judge_list(booted)
    judge_apart(booted)
    judge_full(booted)
    judge_nights(booted)
