"""docs/WATCHING.md: the health check, the probe of a monitor, what to alert on, and the lists of each morning."""
import os
import re
import shutil
import time

from pages import city, service
from pages.expected import Row, run_page
from kit.judging import judge
from pages.shell import Shell

EXPORTER = "prometheus-blackbox-exporter"
MISSING = "" if shutil.which(EXPORTER) else f"without {EXPORTER}"
PAGE = "docs/WATCHING.md"
BACKUPS = "/var/lib/office-backups/city"
PROBE = "curl --silent 'http://127.0.0.1:9115/probe?module=office&target=https://localhost/city/alive'"
RUN = '[{"act":"open-run","day":"2025-11-20","by":"monitor"}]'
OPEN = "\"SELECT num FROM runs WHERE closed = 0\""


def exporter_starts(shell: Shell) -> None:
    """In place of systemd: the exporter as Debian's unit starts it, with the page's line ARGS."""
    if MISSING:
        return
    shell.run(f". /etc/default/{EXPORTER}; {EXPORTER} $ARGS >exporter.log 2>&1 & echo $! >exporter.pid")
    for _ in range(100):
        if shell.run("curl --silent --fail http://127.0.0.1:9115/-/healthy").status == 0:
            break
        time.sleep(0.1)
    judge("the exporter takes the probe", "error" not in shell.path("exporter.log").read_text(),
          shell.path("exporter.log").read_text())
    ports = shell.run("ss -Hltn 'sport = :9115' | tr -s ' ' | cut -d ' ' -f 4").out
    judge("and listens at loopback alone", ports == "127.0.0.1:9115\n", ports)


def value(shell: Shell, name: str) -> str:
    found = re.search(rf"^{name} (\S+)$", shell.run(PROBE).out, re.M)
    return found[1] if found else ""


def is_probed(shell: Shell) -> None:
    """The probe fails where the password is wrong, and where no office answers; the exporter is ended then."""
    if MISSING:
        return
    print(f"the probe took {value(shell, 'probe_duration_seconds')} s here, with others at work")
    shell.run("cp /etc/prometheus/office.password right && echo wrong >/etc/prometheus/office.password")
    judge("with a wrong password the probe fails", value(shell, "probe_success") == "0")
    shell.run("cp right /etc/prometheus/office.password")
    judge("with the right one it succeeds again", value(shell, "probe_success") == "1")
    done = shell.run(PROBE.replace("city", "court"))
    judge("where no office answers the probe fails", "\nprobe_success 0\n" in done.out, done.out)
    done = shell.run(PROBE.replace("alive", "records/1"))
    judge("its password reads no record", "\nprobe_success 0\n" in done.out, done.out)
    shell.run("kill $(cat exporter.pid)")


def asks_alone(shell: Shell) -> None:
    """What the name monitor gets at its own path and at others."""
    call = ("curl --silent --output /dev/null --write-out %{http_code} --cacert /etc/nginx/office/office.crt "
            '--user "monitor:$MONITOR" --header "Origin: https://localhost" https://localhost/city/')
    seen = [shell.run(call + path).out for path in ("alive", "records/1", "due/2025-01-01", "acts --data-binary '[]'")]
    wanted = ["200", "401", "401", "401"]
    judge("the name monitor may ask whether the office is well, and nothing else", seen == wanted, f"{seen}")


def has_backup(shell: Shell) -> None:
    """In place of the timer: a copy of tonight, and one that is too old."""
    os.makedirs(BACKUPS, exist_ok=True)
    shell.run(f"cp city.db {BACKUPS}/20250102T023000Z.db && touch -d '2 days ago' {BACKUPS}/*.db")
    done = shell.run(f"find {BACKUPS} -name '*Z.db' -mmin -1560 | grep .")
    judge("an old copy alone is no backup of today", done.status == 1 and done.out == "", f"{done}")
    shell.run(f"cp city.db {BACKUPS}/20250103T023000Z.db")


def fewer_are_seen(shell: Shell) -> None:
    """A copy of a new office after one of the right office."""
    shell.run(f"office init {BACKUPS}/20250104T023000Z.db; rm -f {BACKUPS}/*-wal")
    done = shell.run(f"deploy/monitor/fewer {BACKUPS}")
    judge("a copy with fewer records than the one before is told", done.status == 1
          and done.out.startswith("records: 0 in "), f"{done}")
    shell.run(f"rm {BACKUPS}/20250104T023000Z.db")


def run_is_seen(shell: Shell) -> None:
    """A copy with an open run."""
    shell.path("run.json").write_text(RUN)
    shell.run("cp city.db open.db && office apply open.db run.json")
    done = shell.run(f"sqlite3 'file:open.db?immutable=1' {OPEN}")
    judge("a run that is open is seen", done.out == "3\n", f"{done}")


ROWS = [
    Row("curl --fail --silent --show-error --max-time 60", like=r'\{.*"number":1,.*\}'),
    Row("htpasswd -ciB -C 10 /etc/nginx/office/monitor.htpasswd monitor"),
    Row("chgrp www-data /etc/nginx/office/monitor.htpasswd"),
    Row("chmod 640 /etc/nginx/office/monitor.htpasswd", then=asks_alone),
    Row("install -m 640 -g prometheus", skip=MISSING),
    Row("printf %s \"$MONITOR\"", skip=MISSING),
    Row("cp deploy/monitor/blackbox.yml", skip=MISSING),
    Row("echo 'ARGS=", skip=MISSING),
    Row("systemctl restart prometheus-blackbox-exporter", skip="without systemd", then=exporter_starts),
    Row("curl --silent 'http://127.0.0.1:9115/probe", skip=MISSING, prints="probe_success 1\n", then=is_probed),
    Row("systemctl is-active", skip="without systemd", then=has_backup),
    Row("deploy/monitor/fewer", prints="", then=fewer_are_seen),
    Row("find /var/lib/office/city -name '*.before-*Z'", prints=""),
    Row("find /var/lib/office-backups/city -name '*Z.db' -mmin", like=r"\S+/city/20250103T023000Z\.db\n"),
    Row("sqlite3 \"file:$(ls -t /var/lib/office-backups", prints="", then=run_is_seen),
    Row("journalctl --unit office@city", skip="without systemd; tests/package/run fills a disk"),
    Row("office-copies --brief", skip="without the package; tests/package/run upgrades one"),
    Row("df --output=avail", like=r" *\d+\n"),
    Row("systemctl", skip="without systemd"),
    Row("apt-get", skip="the packages are there"),
    Row("mkdir -m 700 registers"),
    Row(f"office-overdue {city.FILE} registers", like=r"registers/overdue-\d{4}-\d\d-\d\d\.csv\n"),
    Row("office-awaiting city.db", like=r"sent,run,record,ref,class,schedule,length,sha256\n2022-05-02,1,19,BLD.*\n"),
    Row("cp companions/registers/city.mail"),
    Row(f"office-todo {city.FILE} registers", like=r"registers/todo-\d{4}-\d\d-\d\d\.txt\n"),
]


def run(shell: Shell) -> None:
    service.has_run(shell)
    city.serve_by_nginx(shell)
    run_page(shell, PAGE, ROWS)
    city.end(shell)
