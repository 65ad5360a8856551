"""docs/SERVICE.md: a row for each of its commands, and in between what systemd would do."""
import json
import os

from pages import city, install
from pages.expected import Row, run_page
from kit.judging import judge
from pages.shell import Shell

PAGE = "docs/SERVICE.md"


def city_serves(shell: Shell) -> None:
    """In place of systemd: what the unit calls, with the office of the city archive."""
    units = [f"/etc/systemd/system/{it}" for it in os.listdir("/etc/systemd/system") if it.startswith("office-")]
    done = shell.run(f"systemd-analyze verify --man=no {' '.join(sorted(units))}")
    judge("systemd-analyze takes the other units", done.status == 0 and len(units) > 1, done.err)
    judge("the unit calls what is run here", city.unit_words() == city.CALL, city.unit_words())
    done = shell.run(city.CALL)
    judge("without FILE the unit's command does not start", done.status == 2 and "office init" in done.err, done.err)
    city.make(shell)
    city.serve(shell)


def is_first(shell: Shell) -> None:
    """The first office is the user's alone; another one, with records, comes in its place."""
    seen = shell.run(f"stat -c '%U %a' {os.path.dirname(city.FILE)} {city.FILE}").out
    judge("the first office is for the user alone", seen == "office 700\noffice 600\n", seen)
    shell.run(f"rm {city.FILE} {city.FILE}-wal")
    city_serves(shell)


def nginx_starts(shell: Shell) -> None:
    """In place of systemd: Debian's nginx, with the site."""
    done = shell.run("nginx")
    judge("nginx starts with the site", done.status == 0, done.err)


def is_due_list(shell: Shell) -> None:
    done = shell.run('curl --silent http://127.0.0.1:8081/due/2025-01-01')
    judge("it is a due list", done.out.startswith("[{") and json.loads(done.out)[0]["record"] > 0, done.out)
    proxied(shell)


# what nginx answers: the words of curl, the path, the status
PROXIED = [
    ("", "city/records/1", "401"),
    ('--user "registrar:$PASSWORD"', "city/records/1", "200"),
    ('--user "registrar:$PASSWORD"', "court/records/1", "502"),
    ('--user "registrar:$PASSWORD"', "records/1", "404"),
    ("", "city/web/", "401"),
    ('--user "registrar:$PASSWORD"', "city/web/", "200"),
    ('--user "registrar:$PASSWORD"', "court/web/texts/en.json", "200"),
    ("", "court/web/texts/en.json", "200"),
    ('--user "registrar:$PASSWORD"', "city/replica", "404"),
    ('--user "registrar:$PASSWORD" --data-binary "[]"', "city/acts", "403"),
    ('--user "registrar:$PASSWORD" --data-binary "[]" --header "Origin: https://elsewhere"', "city/acts", "403"),
]


def proxied(shell: Shell) -> None:
    """Two offices behind one nginx: the first answers, the second is 502 until it is there."""
    call = "curl --silent --output /dev/null --write-out %{http_code} --cacert /etc/nginx/office/office.crt"
    for words, path, wanted in PROXIED:
        done = shell.run(f"{call} {words} https://localhost/{path}")
        judge(f"nginx: /{path} {words or 'without a password'} is {wanted}", done.out == wanted, done.out)
    shell.serve("./office serve court.db 8082 1")
    done = shell.run(f'{call} --user "registrar:$PASSWORD" https://localhost/court/certificates/1')
    judge("nginx: a second office answers for itself", done.out == "404", done.out)
    shell.end()


def is_copied(shell: Shell) -> None:
    """In place of the timer: a copy for the catalogue."""
    done = shell.run(f"office-backup {city.FILE} city.db")
    judge("office-backup copies the office", done.status == 0, done.err)


# one line a command, in the order of the page; the longest beginning of two comes first
ROWS = [
    Row("adduser --system --group"),
    Row("mkdir -p /etc/office"),
    Row("cp deploy/systemd/city.conf"),
    Row("cp -r deploy/systemd/office*.service*"),
    Row("install -D -m 644 deploy/systemd/office-.service.d"),
    Row("cp -r companions/copies/units/office-"),
    Row("cp -r companions/office_common"),
    Row("cp -r companions/copies/office_copies"),
    Row("install -m 755 companions/office-shared"),
    Row("install -m 755 companions/copies/office-"),
    Row("install -d -o office -g office -m 700 /var/lib/office/city"),
    Row("runuser -u office -- office init", prints="version 2\n", then=is_first),
    Row("systemd-analyze verify --man=no /etc/systemd/system/office@.service"),
    Row("systemctl restart nginx", skip="without systemd", then=nginx_starts),
    Row("systemctl", skip="without systemd"),
    Row("apt-get", skip="the packages are there"),
    Row("mkdir -p /etc/nginx/office"),
    Row("cp -rT page /usr/local/share/office/web"),
    Row("cp deploy/nginx/http.conf deploy/nginx/server.conf deploy/nginx/actors.conf"),
    Row("cp deploy/nginx/acts.js"),
    Row("addgroup --system office-read"),
    Row("curl --silent --unix-socket /run/office/city/readings", skip="without systemd; tests/office_serve asks there"),
    Row("cp deploy/nginx/fail2ban", skip="tests/nginx/try reads a log by the filter"),
    Row("fail2ban-regex", skip="tests/nginx/try reads a log by the filter"),
    Row("cp deploy/nginx/vault.conf"),
    Row("cp deploy/nginx/offices.conf"),
    Row("ln -sf ../sites-available/office"),
    Row("rm -f /etc/nginx/sites-enabled/default"),
    Row("openssl req -x509"),
    Row("htpasswd -ciB -C 10 /etc/nginx/office/office.htpasswd"),
    Row("chgrp www-data /etc/nginx/office/office.htpasswd"),
    Row("chmod 640 /etc/nginx/office/office.htpasswd"),
    Row("sed -i 's/worker_connections"),
    Row("cp deploy/nginx/limits.conf"),
    Row("install -d -m 755 /var/log/office"),
    Row("install -m 640 -o www-data -g adm /dev/null /var/log/nginx/office.access.log"),
    Row("install -m 640 -o www-data -g adm /dev/null /var/log/nginx/office.error.log"),
    Row("install -m 640 -o www-data -g adm /dev/null /var/log/office/acts.log"),
    Row("chattr +a /var/log/office/acts.log"),
    Row("cp deploy/nginx/office-acts"),
    Row("nginx -t"),
    Row("curl --silent --show-error --cacert /etc/nginx/office/office.crt --config - https:",
        like=r"\[\{.*\}\]", then=is_due_list),
    Row("curl --silent --show-error --cacert /etc/nginx/office/office.crt --config - --header", prints="[]"),
    Row("cp deploy/nginx/office.nft"),
    # tests/nginx/try looks what the rules do
    Row("nft -f /etc/office.nft", skip="these rules would close the port that is asked next"),
    Row("echo 'include \"/etc/office.nft\"' >> /etc/nftables.conf"),
    Row("install -d -o office -g www-data -m 2750 /var/lib/office-catalogues/city", then=is_copied),
    Row("office-catalogue city.db /var/lib/office-catalogues/city", prints=""),
    Row("curl --silent --compressed --cacert /etc/nginx/office/office.crt", like=r'.*"records":33\}\s*\]\}\s*'),
]


def run(shell: Shell) -> None:
    if not os.path.exists("/usr/local/bin/office"):
        install.run(shell)
    run_page(shell, PAGE, ROWS)
    city.end(shell)


def has_run(place: Shell) -> None:
    """For a page that begins where this one ends."""
    if not city.is_there():
        with Shell(place.folder / "before") as shell:
            run(shell)
