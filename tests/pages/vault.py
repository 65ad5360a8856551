"""docs/VAULT.md: a vault is set up, a file goes in and comes out, is checked, swept, copied and restored."""
import json

from pages.expected import Row, run_page
from kit.judging import judge
from pages.shell import Shell

PAGE = "docs/VAULT.md"
VAULT, SECOND, ADDRESS = "/var/lib/office-vaults/city", "/var/lib/office-vault-backups/city", "/run/office/city/readings"
# what the unit office-vault@city runs, at a socket that this trial asks in nginx's place
SERVE = f"runuser -u office-vault -g www-data -G office-read -- office-vault serve {VAULT} /var/lib/vault-trial/socket --office {ADDRESS}"
ASK = "curl -s --unix-socket /var/lib/vault-trial/socket http://vault"


def said(shell: Shell, name: str, command: str, wanted: str, status: int = 0) -> str:
    """Runs what the page says in a sentence, and judges whether its output has these words."""
    done = shell.run(command)
    judge(f"{PAGE}: {name}", done.status == status and wanted in done.out, f"{done}")
    return done.out


def units_are_taken(shell: Shell) -> None:
    done = shell.run("systemd-analyze verify --man=no /etc/systemd/system/office-vault*@.*")
    judge(f"{PAGE}: systemd-analyze takes the units", done.status == 0, done.err)


def serve(shell: Shell) -> None:
    """The service, as the unit starts it; the folders have the modes of the page's table."""
    shell.serve(SERVE)
    said(shell, "the objects are for nginx to read", f"stat -c '%U:%G %a' {VAULT}/objects/00", "office-vault:www-data 2750")
    said(shell, "what the sweeps remember is not", f"stat -c '%U %a' {VAULT}/going", "office-vault 700")
    said(shell, "limits", f"{ASK}/vault/limits", '{"most":107374182400,"room":')


def filed(shell: Shell) -> None:
    """The manifest that `put` printed becomes the content of a record."""
    acts = """python3 - > acts.json << END
import base64, json, pathlib
one = {"day": "2026-01-02"}
text = base64.b64encode(pathlib.Path("manifest.txt").read_bytes()).decode()
print(json.dumps([
    {"act": "add-schedule", **one, "code": "S", "trigger": "added", "unit": "years", "count": 1, "offset": "none", "action": "keep"},
    {"act": "add-class", **one, "code": "C", "title": "C", "schedule": "S"},
    {"act": "add-aggregation", **one, "ref": "A", "title": "A", "class": "C"},
    {"act": "add-record", **one, "ref": "R", "title": "R", "originated": "2026-01-02", "aggregation": 1, "class": None,
     "schedule": None, "content": text}]))
END
curl -s --data-binary @acts.json http://127.0.0.1:8081/acts"""
    said(shell, "the record is filed", acts, '{"number":1}')
    files = json.loads(said(shell, "its files are listed", f"{ASK}/records/1/files", "plan.tif"))
    judge(f"{PAGE}: both are there", [it["there"] for it in files] == [True, True], str(files))
    said(shell, "a file is sent by nginx", f"{ASK}/records/1/files/2 -D - -o /dev/null", "X-Accel-Redirect")


def swept(shell: Shell) -> None:
    """A sweep, as the unit runs it: nothing that is named goes. Then the second vault, and a restore."""
    sweep = f"runuser -u office-vault -G office-read -- office-vault sweep {VAULT} {ADDRESS}"
    said(shell, "a sweep", sweep, "NAMED 2\nWAITING 0\nGONE 0\n")


def restored(shell: Shell) -> None:
    """A file that is lost is named, and comes back from the second vault; the sweep says what was restored."""
    mirror = "runuser -u office -G www-data -- office-vault mirror"
    said(shell, "a mirror", f"{mirror} {VAULT} {SECOND}", "damaged 0")
    shell.run(f"find {VAULT}/objects -type f -size +700k -delete")
    said(shell, "what is missing is named", f"office-vault check {VAULT} {ADDRESS}", "which is missing", 1)
    said(shell, "it comes back", f"office-vault mirror {SECOND} {VAULT}", "damaged 0")
    said(shell, "nothing is missing then", f"office-vault check {VAULT} {ADDRESS}", "wrong 0")
    said(shell, "a sweep after it", f"runuser -u office-vault -G office-read -- office-vault sweep --restored {VAULT} {ADDRESS}", "GONE 0")


ROWS = [
    Row("adduser --system --group --no-create-home --home /nonexistent office-vault"),
    Row("adduser office-vault office-read"),
    Row("cp -r companions/vault/office_vault"),
    Row("install -m 755 companions/vault/office-vault"),
    Row("cp -r deploy/systemd/office-.service.d"),
    Row("cp companions/vault/units/office-vault", then=units_are_taken),
    Row("install -d -m 755 /var/lib/office-vaults"),
    Row("install -d -o office-vault -g www-data -m 2750"),
    Row("runuser -u office-vault -- office-vault make /var/lib/office-vaults/city", prints="", then=serve),
    Row("systemctl", skip="without systemd"),
    Row("curl --user registrar", skip="tests/vault/run nginx asks through nginx"),
    Row("office-vault sweep /srv/vault", skip="without members"),
    Row("office-vault put", prints="", then=filed),
    Row("office-vault check", like=r"objects 2, named 2, unnamed 0, wrong 0\n", then=swept),
    Row("install -d -m 755 /var/lib/office-vault-backups"),
    Row("install -d -o office -g office -m 700"),
    Row("runuser -u office -- office-vault make /var/lib/office-vault-backups/city", prints="", then=restored),
]


def run(shell: Shell) -> None:
    shell.run("mkdir -p /usr/local/lib/office; id office || adduser --system --group --no-create-home office; addgroup --system office-read; adduser --system --group --no-create-home office-vault; install -d -o office-vault /var/lib/vault-trial")
    shell.run("head -c 300032 /dev/urandom > scan.pdf; head -c 800000 /dev/urandom > plan.tif")
    shell.run("install -m 755 companions/serve/office-serve /usr/local/bin; ./office init city.db")
    shell.serve("companions/serve/office-serve --readings /run/office/city/readings city.db 8081")
    run_page(shell, PAGE, ROWS)
    shell.end(kill=True)
    shell.end(kill=True)
