"""docs/BACKUP.md: copies beside a service, restores, what ends, and a compaction."""
import http.client
import os
import re
import subprocess
import time

from pages import city, service
from pages.commands import TOP, commands
from pages.expected import Row, run_page
from pages.files import FIRST, judge_alone
from kit.judging import judge
from pages.shell import Shell

PAGE = "docs/BACKUP.md"
BACKUPS = "/var/lib/office-backups/city"
LEFT = "find /var/lib /var/cache"

BUSY = """while :; do
    curl --silent --data-binary '[{"act":"open-run","day":"2023-11-20","by":"busy"}]' http://127.0.0.1:8081/acts
    curl --silent -X POST http://127.0.0.1:8081/run/resume
done"""


def backed_up(shell: Shell) -> None:
    """office-backup beside a service whose file changes all the time."""
    shell.run("cp city.db copies/city.db")
    busy = subprocess.Popen(["bash", "-c", BUSY], stdout=subprocess.DEVNULL, stderr=subprocess.DEVNULL)
    try:
        done = shell.run(f"office-backup {city.FILE} busy.db && office certificate busy.db 2 | head -1")
    finally:
        busy.kill()
        busy.wait()
    judge("office-backup copies an office that is busy", (done.status, done.out) == (0, "CERTIFICATE 2\n"), f"{done}")
    done = shell.run(f"office init {city.FILE}")
    locked = (done.status, done.err) == (3, "office: fault 31\n")
    judge("another office gets fault 31 while one serves", locked, done.err)
    done = shell.run(f"sqlite3 {city.FILE} 'SELECT count(*) FROM records'")
    judge("sqlite3 says that the database is locked", done.status != 0 and "locked" in done.err, done.err)


def is_second(shell: Shell) -> None:
    same = shell.path("second/city.db").read_bytes() == shell.path("city.db").read_bytes()
    judge("the second machine has the copy", same)


def own_alone(shell: Shell) -> None:
    """The mode of new files for what follows, until `is_own`: each command has a shell of its own."""
    shell.umask = 0o077


def is_own(shell: Shell) -> None:
    judge("the copy is for its owner alone", shell.path("backup.db").stat().st_mode & 0o077 == 0)
    shell.umask = -1


def is_stopped(shell: Shell) -> None:
    """In place of systemd: the office of the unit is stopped, which closes FILE."""
    shell.servers[-1].terminate()
    status = shell.end()
    size = os.path.getsize(f"{city.FILE}-wal")
    judge("a stop closes FILE", (status, size) == (0, 41), f"status {status}, {size} bytes")


def is_restored(shell: Shell) -> None:
    judge_alone(shell, "office-restore", city.FILE, city.ALL)
    # the name of what was there has the second in it, and is not given twice
    time.sleep(1.1)


def has_kept(shell: Shell) -> None:
    """What is old, in both layouts: the last good copies stay, however old."""
    judge("what a restore put aside is there", any("before" in it for it in os.listdir(os.path.dirname(city.FILE))))
    shell.run(f"mkdir -p {BACKUPS} && cp city.db {BACKUPS}/20200101T000000Z.db && "
              f"cp city.db {BACKUPS}-20200102T000000Z.db && chown office: {BACKUPS}/*.db {BACKUPS}-*.db")


def has_moved(shell: Shell) -> None:
    there = sorted(os.listdir(BACKUPS))
    judge("the copies of the earlier layout are in the folder, and none was removed",
          there == ["20200101T000000Z.db", "20200102T000000Z.db"], f"{there}")


def is_decrypted(shell: Shell) -> None:
    judge("the key gives the copy back, byte for byte",
          shell.path("back.db").read_bytes() == shell.path("city.db").read_bytes())


def left_is_seen(shell: Shell) -> None:
    """What was cut off is listed, as this and earlier versions name it; an office with a dot in its name is not."""
    left = [f"{BACKUPS}/.office-backup.abcdef", f"{BACKUPS}-20200102T000000Z.db.abcdef"]
    other = "/var/lib/office/town.office"
    shell.run(f"mkdir -p {' '.join(left)} {other} && touch -d '2 days ago' {' '.join(left)} {other}")
    listed = shell.run(next(it.line for it in commands(PAGE) if it.line.startswith(LEFT))).out.split()
    shell.run(f"rmdir {' '.join(left)} {other}")
    judge("what was cut off is listed, and no office", sorted(listed) == sorted(left), f"{listed}")


def is_compact(shell: Shell) -> None:
    judge_alone(shell, "office-compact", city.FILE, city.ALL)
    city.serve(shell)


def is_shredded(shell: Shell) -> None:
    left = [it for it in os.listdir(os.path.dirname(city.FILE)) if re.search(r"before-\w+Z(-wal)?$", it)]
    judge("no old file is left", not left and os.path.exists(city.FILE), f"{left}")


def killed(shell: Shell) -> None:
    """An act that was answered by a service that is killed then is there when both files are opened again."""
    shell.serve("./office serve killed.db 8090 10")
    conn = http.client.HTTPConnection("127.0.0.1", 8090, timeout=60)
    conn.request("POST", "/acts", (TOP / "examples/first/acts.json").read_bytes())
    status = conn.getresponse().status
    shell.end(kill=True)
    log = shell.path("killed.db-wal")
    judge("a killed service leaves its log beside FILE", status == 200 and log.stat().st_size > 0)
    done = shell.run("office init killed.db && office resume killed.db && office certificate killed.db 1 | head -1")
    judge("and FILE with its log has every act", done.out == "version 2\ncertificate 1\nCERTIFICATE 1\n", f"{done}")
    judge_alone(shell, "a kill and an opening", "killed.db", {**FIRST, "runs": 1, "entries": 1, "certificates": 1})


ROWS = [
    Row("office init archive.db", prints="version 2\n"),
    Row("office resume archive.db", status=1, prints=""),
    Row("systemctl", skip="without systemd"),
    Row("umask 077", then=own_alone),
    Row("office-backup archive.db backup.db", prints="", then=is_own),
    Row("office-backup /var/lib/office/city/office.db city.db", then=backed_up),
    Row("rsync --archive", then=is_second),
    Row("sqlite3 city.db 'PRAGMA integrity_check'", prints="ok\n"),
    Row("sqlite3 city.db 'SELECT count(*) FROM records'", prints="33\n"),
    Row("office init city.db", prints="version 2\n"),
    Row("office-scrub city.db", like=r"copy: city\.db\ncontents compared: \d+\ncertificates compared: \d+\n"),
    Row("office-restore archive.db backup.db",
        like=r"what COPY takes back: \S+\.since\nwhat was there: \S+/archive\.db\.before-\w+\n", then=is_stopped),
    Row(f"office-restore {city.FILE} city.db",
        like=r"\d+\truns whose numbers will be used again\n\d+\tcertificates that are saved here\n"
             r"what COPY takes back: \S+\.since\nwhat was there: \S+\.before-\w+\n", then=is_restored),
    Row(f"office-restore --since-was-read {city.FILE} city.db", like=r"(.*\n)?what was there: \S+\.before-\w+\n",
        then=has_kept),
    Row("office-since archive.db backup.db compared", prints=""),
    Row("chattr +a /var/log/office/acts.log", skip="there is no journal here; tests/nginx/try sets it up"),
    Row("nft list ruleset", skip="tests/nginx/try loads the rules"),
    Row("BACKUP_DAYS=30 office-prune", prints=""),
    Row("BEFORE_DAYS=30 office-prune", prints=""),
    Row("install -d -o office -g office -m 700 /var/lib/office-backups/city"),
    Row("find /var/lib/office-backups -maxdepth 1", then=has_moved),
    Row("age-keygen -o archive.key"),
    Row("age-keygen -y archive.key", prints=""),
    Row("install -m 644 city.recipients"),
    Row("install -d -o office -g office -m 700 /var/lib/office-encrypted/city"),
    Row("office-encrypt", like=r"(encrypted: /var/lib/office-encrypted/city/\w+\.db\.age\n){2}"),
    Row("age --decrypt", prints="", then=is_decrypted),
    Row(LEFT, prints="", then=left_is_seen),
    Row(f"office-compact {city.FILE}", like=r"(.*\n)?records: 33, the same\n.*", then=is_compact),
    Row("BEFORE_DAYS=0 office-prune", like=r"(removed: \S+\n)+", then=is_shredded),
]


def run(shell: Shell) -> None:
    service.has_run(shell)
    city.serve(shell)
    run_page(shell, PAGE, ROWS)
    shell.end(kill=True)
    killed(shell)
