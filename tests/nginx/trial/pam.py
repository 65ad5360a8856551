"""Passwords that PAM asks for, in place of a file: each request asks once, and what asks for no name asks PAM neither."""
import pathlib
import shutil

from kit.judging import judge, same
from kit.waiting import comes
from trial import place
from trial.place import NAMES, PASSWORD, ask, post, run

MODULE = pathlib.Path("/usr/lib/nginx/modules/ngx_http_auth_pam_module.so")
CONFIGURED = ("/etc/nginx/office/server.conf", "/etc/nginx/office/pam.conf")
CALLS = pathlib.Path("/run/pam-calls")
LOG, MARK, REQUESTS = pathlib.Path("/var/log/nginx/office.access.log"), "before-the-guesses", 6
CHECK = pathlib.Path("/run/pam-check")
SERVICE = "auth required pam_exec.so expose_authtok quiet /run/pam-check\naccount required pam_permit.so\n"
SCRIPT = f"""#!/bin/sh
echo "$PAM_USER" >>{CALLS}
[ "$(tr -d '\\000')" = "{PASSWORD}" ]
"""


def set_up() -> None:
    """Changes the files of nginx as docs/ACCESS.md says."""
    pathlib.Path("/etc/pam.d/office").write_text(SERVICE)
    CHECK.write_text(SCRIPT)
    CHECK.chmod(0o755)
    CALLS.touch()
    CALLS.chmod(0o666)
    for it in CONFIGURED:
        shutil.copy(it, f"{it}.before")
    run("sed -i 's/^auth_basic \"office\";/auth_pam \"office\";/; "
        f"s|^auth_basic_user_file {NAMES};|auth_pam_service_name \"office\";|' {CONFIGURED[0]}")
    run(f"sed -i 's/^#auth_pam off;/auth_pam off;/' {CONFIGURED[1]}")
    place.reload()


def calls() -> list[str]:
    """Returns who was asked about since the last time."""
    names = CALLS.read_text().split()
    CALLS.write_text("")
    return names


def passwords(folder: str) -> None:
    if not MODULE.exists():
        print("not run here, without libnginx-mod-http-auth-pam: passwords by PAM")
        return
    set_up()
    same("PAM: a right password is taken", ask("GET", f"{folder}records/1").status, 200)
    same("PAM is asked once for it", calls(), ["registrar"])
    same("PAM: a wrong one is not", ask("GET", f"{folder}records/1", password="wrong").status, 401)
    same("PAM: nor none", ask("GET", f"{folder}records/1", name=None).status, 401)
    calls()
    same("PAM: an act", post(f"{folder}acts", []).status, 200)
    same("asks once too, though nginx passes it on within", calls(), ["registrar"])
    same("PAM: a file of the page takes no name", ask("GET", f"{folder}web/office.js", name=None).status, 200)
    same("PAM: the monitor has its own password", ask("GET", f"{folder}alive", name="monitor").status, 200)
    same("and nobody else is taken there", ask("GET", f"{folder}alive").status, 401)
    same("for neither PAM is asked", calls(), [])
    for it in CONFIGURED:
        shutil.move(f"{it}.before", it)
    place.reload()


def logged() -> list[str]:
    """Returns the whole lines of nginx's log."""
    return LOG.read_text().rpartition("\n")[0].splitlines()


def guesses(folder: str) -> None:
    """fail2ban's filter counts wrong passwords, and nothing else of the log."""
    if shutil.which("fail2ban-regex") is None:
        print("not run here, without fail2ban: its filter")
        return
    # nginx writes a line behind its answer
    ask("GET", f"{folder}records/1", fields={"User-Agent": MARK})
    comes(lambda: any(MARK in line for line in logged()))
    begin = len(logged())
    ask("GET", f"{folder}records/1", name=None)
    ask("GET", f"{folder}records/1")
    ask("GET", f"{folder}records/1", fields={"User-Agent": 'x" 401 0 "y'})
    for name in ("registrar", "a b", 'c" 200 0'):
        ask("GET", f"{folder}records/1", name=name, password="wrong")
    comes(lambda: len(logged()) >= begin + REQUESTS)
    new = pathlib.Path("/run/guesses")
    new.write_text("\n".join(logged()[begin:]) + "\n")
    done = run(f"fail2ban-regex {new} deploy/nginx/fail2ban/filter.d/office.conf")
    judge("fail2ban counts the three wrong passwords", "Lines: 6 lines, 0 ignored, 3 matched, 3 missed" in done.stdout,
          done.stdout[-700:])
