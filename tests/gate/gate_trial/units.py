"""The gate under systemd, set up by the commands of the pages: its socket, readiness, watchdog, restarts and logrotate.

All of it goes through nginx, while six clients ask without a break.
"""
import json
import pathlib
import shutil
import subprocess
import time
from typing import Any

from gate_trial.base import filing, plan
from gate_trial.booted import Machine, commands
from kit.judging import judge, same
from gate_trial.world import today, until

GATE = "office-gate@city"
CHECK = "office-journal-check@city"
JOURNAL = "/var/log/office/city.journal"
ACCESS = "/etc/office/city.access"
COPIES = "/var/lib/office-backups/city"
OLDER = "/root/older.db"
"""a copy from before the act past the gate, of which the nights keep none"""
CURL = ("curl --silent --output /dev/null --write-out '%{http_code}' --cacert /etc/nginx/office/office.crt "
        "--header 'Origin: https://localhost' --user")
READ = f"{CURL} 'auditor:one for all' https://localhost/city/records/1"
NAMES = ("manager", "legal", "auditor", "builder")
INSIDE = pathlib.Path(__file__).with_name("inside.py")


def tried(folder: pathlib.Path) -> None:
    machine = Machine(folder / "machine")
    folder.chmod(0o755)
    with machine as it:
        set_up(it)
        apart(it)
        started(it)
        restarted(it)
        killed(it)
        watched(it)
        rotated(it)
        compared(it)
        year_ended(it)
        recovered(it)
        it.run("chattr -a /var/log/office/*")
    shutil.rmtree(folder / "machine", ignore_errors=True)


class Clients:
    """The clients within the machine, while something happens."""

    def __init__(self, it: Machine) -> None:
        self.machine = it
        self.seen: dict[str, Any] = {}

    def __enter__(self) -> "Clients":
        (self.machine.top / "root/end").unlink(missing_ok=True)
        self.process: subprocess.Popen[bytes] = self.machine.begin("exec python3 /root/inside.py /root/end")
        time.sleep(3)
        return self

    def __exit__(self, *_: object) -> None:
        time.sleep(3)
        (self.machine.top / "root/end").touch()
        said, _ = self.process.communicate(timeout=400)
        self.seen = json.loads(said)

    def judge(self, what: str, lost: int = 0) -> None:
        """Looks at what they saw: all was answered, but for so many requests whose answer a kill took."""
        found = self.seen["statuses"]
        others = sum(count for status, count in found.items() if status != "200")
        judge(f"{what}: each request has its answer", found.get("200", 0) > 5 and others <= lost
              and set(found) <= {"200", "502"}, self.seen["statuses"])
        print(f"{what}: {found}, the slowest {self.seen['slowest']:.1f} s", flush=True)


# ---- setting up

def set_up(it: Machine) -> None:
    """Does the commands of the pages, one block after another, as whoever sets it up does."""
    shutil.copy(INSIDE, it.top / "root/inside.py")
    # nginx's site needs a name of its own; all else stands in the pages
    for page, heading in (("SERVICE.md", "A service"), ("SERVICE.md", "TLS and access"), ("ACCESS.md", "Set it up")):
        for at, block in enumerate(commands(page, heading)):
            it.done(block, f"{page}, {heading}, block {at + 1}")
    for name in NAMES:
        it.done(f"htpasswd -ibB -C 4 /etc/nginx/office/office.htpasswd {name} 'one for all' || "
                f"htpasswd -bB -C 4 /etc/nginx/office/office.htpasswd {name} 'one for all'", f"a password for {name}")
    acts = [{"day": today(), **act} for act in [*plan(), *(filing(it, 1) for it in range(3, 9))]]
    (it.top / "root/plan").write_text(json.dumps(acts))
    same("the plan is filed through nginx and the gate",
         it.run(f"{CURL} 'manager:one for all' --data-binary @/root/plan https://localhost/city/acts")[1], "200")
    same("a reading", it.run(READ)[1], "200")
    same("who may not", it.run(f"{CURL} 'auditor:one for all' https://localhost/city/records/1/content")[1], "403")
    it.done("systemctl start office-backup@city", "the first copy")


def apart(it: Machine) -> None:
    """Who reaches the port of the office, and what the gate sees."""
    ask = "curl --silent --max-time 5 http://127.0.0.1:8081/records/1"
    for user in ("root", "www-data", "nobody", "office", "office-yearend", "office-gate"):
        status, said = it.run(f"runuser -u {user} -- {ask}")
        same(f"{user} reaches the port of the office", status == 0 and '"number":1' in said, user == "office-gate")
    socket = "curl --silent --unix-socket /run/office/city/readings http://office"
    judge("root reads at the socket for readings", '"number":1' in it.run(f"{socket}/records/1")[1])
    same("and acts not", it.run(f"{socket}/acts --data-binary '[]'")[1], '{"error":"method"}')
    seen = (f"nsenter -t $(systemctl show -P MainPID {GATE}) -m setpriv --reuid office-gate --regid office-gate "
            "--groups www-data find {} -type f -readable 2>/dev/null || true")
    for place in ("/var/lib/office", "/var/lib/office-backups", "/root", "/var/log/office/acts.log"):
        same(f"the gate reads nothing of {place}", it.run(seen.format(place))[1], "")
    judge("but its journal", JOURNAL in it.run(seen.format("/var/log/office"))[1])
    same("modes", it.run(f"stat -c '%U %G %a' /run/office-gate/city/socket {JOURNAL} /var/lib/office-gate/city "
                         "/var/lib/office-gate/city/contents /etc/office/city.token /etc/nginx/office/gate_tokens.conf"
                         )[1].splitlines(),
         ["office-gate www-data 660", "office-gate adm 640", "office-gate office-gate 700",
          "office-gate office-gate 700", "root office-gate 640", "root root 600"])
    judge("the journal takes lines at its end alone", "a" in it.run(f"lsattr {JOURNAL}")[1].split()[0])
    same("nobody writes over it", it.run(f"runuser -u office-gate -- truncate -s 0 {JOURNAL}")[0], 1)


def restarts(it: Machine) -> int:
    return int(it.run(f"systemctl show -P NRestarts {GATE}")[1])


def reported(it: Machine) -> int:
    """Returns when the gate told the watchdog last, in microseconds as the machine counts."""
    return int(it.run(f"systemctl show -P WatchdogTimestampMonotonic {GATE}")[1])


def added(line: str) -> str:
    """Returns a command that adds a line to the settings, above their end."""
    return f"sed '/^end$/i {line}' {ACCESS} > /root/more; cat /root/more > {ACCESS}"


def started(it: Machine) -> None:
    """The socket starts the gate; a start returns once it answers; wrong settings end it for good, until they are right."""
    same("it tells that it is ready", it.run(f"systemctl show -P Type -P ActiveState {GATE}")[1].split(),
         ["notify", "active"])
    it.done(f"systemctl stop {GATE}")
    same("a request starts it", (it.run(READ)[1], it.run(f"systemctl is-active {GATE}")[1]), ("200", "active"))
    it.done(f"cp {ACCESS} /root/access; {added('rule nothing')}")
    judge("a reload with a wrong line fails", it.run(f"systemctl reload {GATE}")[0] != 0)
    same("and the gate goes on with the settings that it had", it.run(READ)[1], "200")
    judge("a restart with a wrong line fails", it.run(f"systemctl restart {GATE}")[0] != 0)
    said = it.run(f"journalctl -o cat -u {GATE} --no-pager | grep 'city.access:'")[1]
    judge("the journal of systemd has the line", "the rules are" in said, said)
    same("nothing passes", it.run(READ)[1][0], "5")
    it.done(f"cp /root/access {ACCESS}; chgrp office-gate {ACCESS}; systemctl start {GATE}", "put right, it starts")
    same("and answers", it.run(READ)[1], "200")


# ---- stops

def restarted(it: Machine) -> None:
    """Restarts of office and gate, and other settings, under requests: each has its answer."""
    for what, command in (("restarts of the office", "systemctl restart office@city"),
                          ("restarts of the gate", f"systemctl restart {GATE}")):
        with Clients(it) as clients:
            for _ in range(3):
                it.done(command, f"{what}: done")
                time.sleep(1)
        clients.judge(what)
    with Clients(it) as clients:
        for at in range(4):
            it.done(f"{added(f'name extra{at} is auditor')}; systemctl reload {GATE}", "a reload")
            time.sleep(0.5)
    clients.judge("other settings")
    judge("they count", "extra3" in it.run(f"office-gate rights {ACCESS} extra3")[1])


def killed(it: Machine) -> None:
    """Kills: who had a request under way may lose its answer, and is told so; the others wait."""
    with Clients(it) as clients:
        it.done("systemctl kill --signal=KILL office@city", "a kill of the office")
        it.run("until systemctl is-active -q office@city; do sleep 0.2; done")
    clients.judge("a kill of the office", 2)
    before = restarts(it)
    with Clients(it) as clients:
        it.done(f"systemctl kill --signal=KILL {GATE}", "a kill of the gate")
        it.run(f"until systemctl is-active -q {GATE}; do sleep 0.2; done")
    clients.judge("a kill of the gate", 6)
    same("systemd started it again", restarts(it), before + 1)


def watched(it: Machine) -> None:
    """A gate that hangs is started again by the watchdog."""
    place = f"/run/systemd/system/{GATE}.service.d"
    it.done(f"mkdir -p {place}; printf '[Service]\\nWatchdogSec=4\\n' > {place}/short.conf; systemctl daemon-reload; "
            f"systemctl restart {GATE}", "a shorter watchdog")
    began = reported(it)
    judge("it tells the watchdog for longer than that", until(lambda: reported(it) > began + 6_000_000))
    same("it tells the watchdog in time", restarts(it), 0)
    it.done(f"kill -STOP $(systemctl show -P MainPID {GATE})", "it hangs")
    began = time.monotonic()
    while restarts(it) == 0 and time.monotonic() - began < 60:
        time.sleep(0.5)
    same("systemd starts it again", (restarts(it), it.run(READ)[1]), (1, "200"))
    judge("and says why", "watchdog" in it.run(f"journalctl -o cat -u {GATE} --no-pager")[1].lower())
    it.done(f"rm -r {place}; systemctl daemon-reload; systemctl restart {GATE}", "the shipped watchdog")


# ---- the journal

def rotated(it: Machine) -> None:
    """The configuration of logrotate, while requests come: the chain goes on in the new file."""
    with Clients(it) as clients:
        for at in range(2):
            it.done("logrotate --force /etc/logrotate.d/office-journal", f"rotation {at + 1}")
            time.sleep(2)
            old = it.run(f"ls {JOURNAL}-*")[1].splitlines()[-1]
            same("modes and marks", it.run(f"for it in {JOURNAL} {old}; do stat -c '%U %G %a' $it; lsattr $it | "
                                           "cut -c 1-20 | grep -c a; done")[1].split("\n"),
                 ["office-gate adm 640", "1", "office-gate adm 640", "1"])
            # as if it were of another month
            it.done(f"chattr -a {old}; mv {old} {JOURNAL}-2026010{at + 1}; chattr +a {JOURNAL}-2026010{at + 1}", "put away")
    clients.judge("rotations")
    said = it.done(f"office-journal check {JOURNAL}", "the chain holds over all files")
    judge("from its first line", "from line 1," in said, said)
    same("files", len(it.run(f"ls {JOURNAL}*")[1].splitlines()), 3)
    placed = clients.seen["placed"]
    lines = it.run(f"cat {JOURNAL}*")[1]
    judge("each hold that was placed is in it", placed and all(f'"code":"{code}"' in lines for code in placed), len(placed))
    said = it.done(f"journalctl -u {GATE} --grep head > heads; office-journal check {JOURNAL} --heads heads",
                   "with the heads of systemd's journal")
    judge("heads were compared", int(said.split("heads compared: ")[-1].split(",")[0]) > 5, said)
    said = it.run(f"cp {JOURNAL}-20260101 /root/kept; chattr -a {JOURNAL}-20260101; sed -i '3s/\"at\":\"2/\"at\":\"3/' "
                  f"{JOURNAL}-20260101; office-journal check {JOURNAL}")
    same("a line that root changed is found", said[0], 1)
    it.done(f"cat /root/kept > {JOURNAL}-20260101; office-journal check {JOURNAL}", "and put back")


def compared(it: Machine) -> None:
    """The journal's acts on the copy of before give the copy of now; an act past the gate shows."""
    it.done("systemctl start office-backup@city", "a later copy")
    older, newer = it.run(f"ls {COPIES}/*Z.db")[1].splitlines()
    it.done(f"cp {older} {OLDER}", "the older copy is kept for later")
    said = it.done(f"office-journal replay {JOURNAL} {older} /root/replayed.db --state /var/lib/office-gate/city "
                   f"--beside {newer}", "replay beside a later copy")
    judge("no row differs", "differences: 0" in said, said)
    print(said.splitlines()[-1], flush=True)
    checked(it, "the check of the night", 0, "differences: 0")
    act = json.dumps([{"act": "place-hold", "day": today(), "code": "PAST", "reason": "r", "by": "root"}])
    it.done(f"runuser -u office-gate -- curl --silent --data-binary '{act}' http://127.0.0.1:8081/acts; "
            "systemctl start office-backup@city", "an act past the gate")
    status, said = it.run(f"office-journal replay {JOURNAL} {older} /root/past.db --state /var/lib/office-gate/city "
                          f"--beside $(ls {COPIES}/*Z.db | tail -n 1)")
    judge("it shows", status == 1 and "holds code PAST" in said, said)
    checked(it, "the check of the night shows it", 1, "differs: holds code PAST")
    # the unit that reports it runs after the one that failed
    same("its failure is reported", it.run("for n in $(seq 300); do journalctl -o cat -p err --no-pager "
                                           "-u office-failed@office-journal-check@city | grep -c "
                                           "'office-journal-check@city failed' && break; sleep 0.2; done | tail -n 1")[1],
         "1")
    it.done(f"ls {COPIES}/*Z.db | head -n -1 | xargs rm; systemctl start office-backup@city", "one more night")
    checked(it, "the check of the night after", 0, "differences: 0")


def checked(it: Machine, what: str, status: int, word: str) -> None:
    """Starts the unit that checks each night, and looks at what it prints and leaves."""
    seen = it.run(f"systemctl start {CHECK}")[0]
    said = it.run(f"journalctl -o cat -u {CHECK} --no-pager | tac | sed '/^Starting/q' | tac")[1]
    judge(f"{what}: status {status}", (seen != 0) == (status != 0) and word in said, (seen, said[-800:]))
    judge(f"{what}: with the heads of systemd's journal", "heads compared: 0" not in said and "heads compared: " in said, said)
    same(f"{what}: nothing of it stays", it.run("find /var/cache/private/office-journal-check/city -mindepth 1")[1], "")


def year_ended(it: Machine) -> None:
    """The unit of the year's end acts through the gate, by its name; without settings for the name it fails."""
    place = "/var/lib/office-yearend/city"
    unit = "office-yearend@city"
    acts = json.dumps([{"act": "add-aggregation", "day": today(), "ref": "Y/1", "title": "next year", "parent": None,
                        "class": "BLDG1"}])
    it.done(f"cp companions/registers/units/office-yearend@.service /etc/systemd/system/; systemctl daemon-reload; mkdir -p {place}; "
            f"echo '{acts}' > {place}/{today()}-1.json; chmod 644 {place}/*", "a list of today")
    start = (f"systemctl start {unit} || true; systemctl show -P Result {unit}; "
             f"journalctl -o cat -u {unit} --no-pager | tail -n 5")
    said = it.run(start)[1]
    judge("the list is sent", said.startswith("success") and "1 done, 0 refused" in said, said)
    lines = it.run(f"grep -h '\"name\":\"yearend\"' {JOURNAL}")[1]
    judge("the journal has the act, by its name", '"ref":"Y/1"' in lines and "add-aggregation" in lines, lines)
    same("the answer is beside it", it.run(f"cat {place}/*.answers | grep -c number")[1], "1")
    it.done(f"sed -i.before '/yearend/d' {ACCESS}; echo '{acts.replace('Y/1', 'Y/2')}' > {place}/{today()}-1.json")
    said = it.run(start)[1]
    judge("settings without the name: it fails, and does not go past the gate", "exit-code" in said
          and "name yearend is" in said, said)
    it.done(f"mv {ACCESS}.before {ACCESS}; chgrp office-gate {ACCESS}; systemctl start office-backup@city")
    newest = f"$(ls {COPIES}/*Z.db | tail -n 1)"
    same("and no file was made", it.run(f"sqlite3 {newest} \"SELECT ref FROM aggregations WHERE ref LIKE 'Y/%'\"")[1],
         "Y/1")


def recovered(it: Machine) -> None:
    """The steps of the page: an older copy and the journal make the office of now."""
    count = "sqlite3 'file:/var/lib/office/city/office.db?immutable=1' 'SELECT count(*) FROM holds'"
    it.done("systemctl stop office-gate@city.socket office-gate@city office@city", "stopped")
    before = it.run(count)[1]
    it.done(f"office-journal replay {JOURNAL} {OLDER} /root/now.db --state /var/lib/office-gate/city", "the new file")
    status, said = it.run("office-restore /var/lib/office/city/office.db /root/now.db")
    # the hold that was placed past the gate is not in it
    judge("what is missing is told", status == 1 and "PAST" in it.run("cat /var/lib/office/city/*.since")[1], (status, said))
    it.done("office-restore --since-was-read /var/lib/office/city/office.db /root/now.db", "restored")
    it.done("systemctl start office@city office-gate@city.socket office-gate@city", "started")
    same("all holds but the one past the gate", int(it.run(count)[1]) + 1, int(before))
    same("and it answers", it.run(READ)[1], "200")
