"""The office `city` as docs/INSTALL.md and docs/SERVICE.md put it on a machine, for the pages that begin there."""
import os
import re

from pages.commands import TOP
from kit.judging import judge
from pages.shell import Shell

FILE = "/var/lib/office/city/office.db"
READINGS = "/run/office/city/readings"
CALL = f"office-serve --stop-seconds 60 --readings {READINGS} {FILE} 8081"
# as the unit does
AS_OFFICE = "setpriv --reuid=office --regid=office --init-groups --"
# the records of the city archive
ALL = {"records": 33}


def unit_words() -> str:
    """How the unit calls the program, for the office city."""
    unit = (TOP / "deploy/systemd/office@.service").read_text()
    words = re.search(r"^ExecStart=/usr/local/bin/(.*)$", unit, re.M)[1].replace("%i", "city")
    # without the drop-ins of an office that decides there are no more options
    words = words.replace("$OFFICE_OPTIONS ", "")
    for name, value in re.findall(r"^(\w+)=(\w+)$", (TOP / "deploy/systemd/city.conf").read_text(), re.M):
        words = words.replace(f"${{{name}}}", value)
    return words


def is_there() -> bool:
    """Whether a page before this one has put the office there."""
    return os.path.exists(FILE) and os.path.exists("/etc/nginx/sites-enabled/office")


def make(shell: Shell) -> None:
    """Makes the office, with the records of the city archive."""
    os.makedirs(os.path.dirname(FILE), exist_ok=True)
    shell.run(f"office apply {FILE} examples/city_archive/story.json; chown office: {FILE} {FILE}-wal")


def serve(shell: Shell) -> None:
    """In place of systemd: what the unit calls. There root makes the socket for readings, here the office's user does."""
    shell.run(f"install -d -o office {os.path.dirname(READINGS)}")
    line = shell.serve(f"{AS_OFFICE} {CALL}")
    judge("the office of the unit listens", line == "listening 127.0.0.1:8081\n", line)


def serve_by_nginx(shell: Shell) -> None:
    """The office, behind nginx, and a copy of it in the folder of the page."""
    serve(shell)
    done = shell.run(f"nginx && office-backup {FILE} city.db")
    judge("nginx starts, and office-backup copies the office", done.status == 0, done.err)


def end(shell: Shell) -> None:
    shell.run("nginx -s quit")
    shell.end(kill=True)
