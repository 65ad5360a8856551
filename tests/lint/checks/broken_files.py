"""Files to break, each with the check that must be red and name the file and the line."""
from __future__ import annotations

from typing import NamedTuple

NO_PROGRAM = "this is (no program"


class Break(NamedTuple):
    """A change of a file: what is there, what is put in its place, the check, and where it must point.

    Without a text that is there, the new one becomes the last line. `place` is the file and a text of the line to which
    the check points; without it that is the line of the change.
    """

    file: str
    old: str
    new: str
    check: str
    place: tuple[str, str] | None = None


BREAKS = (
    # what no check saw when each was appended to a file of its own
    Break("page/office.js", "", NO_PROGRAM, "javascript"),
    Break("companions/gate/office_gate/serving.py", "", NO_PROGRAM, "python"),
    Break("companions/vault/office_vault/objects.py", "", NO_PROGRAM, "python"),
    Break("companions/members/replica/log.py", "", NO_PROGRAM, "python"),
    Break("companions/sheets/office-convert", "", NO_PROGRAM, "python"),
    Break("deploy/packaging/make", "", NO_PROGRAM, "python"),
    Break("tests/run", "", NO_PROGRAM, "python"),
    # Python and types
    Break("companions/office_common/child.py", "", "import base64", "pyflakes"),
    Break("companions/registers/office-awaiting", "", "print(never_named)", "pyflakes"),
    Break("companions/seals/office_seal/chain.py", "", "def widened(number: int) -> str:\n    return number",
          "mypy", ("companions/seals/office_seal/chain.py", "    return number\n")),
    Break("tests/lint/known.txt", "mypy companions/seals/office_seal/stamping.py 1", "mypy companions/seals/office_seal/stamping.py 2",
          "mypy"),
    Break("tests/lint/known.txt", "tsc page/ask.js 2", "tsc page/asks.js 2", "tsc"),
    Break("page/plain/days.js", "", "floor({}, 1, \"a\");", "tsc"),
    # scripts
    Break("companions/copies/office-backup", "", "( echo ) )", "shell"),
    Break("companions/copies/office-encrypt", "", "rm $1 $(cat $nowhere)", "shellcheck"),
    Break("deploy/packaging/postinst", "", "fi", "hooks", ("deploy/packaging/postinst", "#!/bin/sh")),
    Break("deploy/packaging/completion", "", "( echo ) )", "shell"),
    Break("deploy/packaging/completion", "", "( echo ) )", "completion"),
    Break("tests/refused_memory/refused_memory.c", "", "int never(void) { return }", "c"),
    # the page
    Break("page/views/due.js", "", 'import "./nowhere.js";', "imports"),
    Break("page/index.html", "</section>", "", "html", ("page/index.html", "</main>")),
    Break("page/index.html", "</main>", '<p id="view"></p><p id="view"></p></main>', "html"),
    Break("page/css/todo.css", "", ".todo { color: red", "css"),
    Break("page/css/todo.css", "", ".todo { color red; }", "css"),
    Break("page/texts/de.json", '    "skip": "Zum Inhalt springen",\n', "", "texts", ("page/texts/de.json", '"page": {')),
    Break("page/texts/de.json", '"Seite {page} von {pages}"', '"Seite {page}"', "texts"),
    Break("page/texts/en.json", '"lang": "en",', '"lang": "en",\n  "neverNamed": "Nobody names this",', "texts",
          ("page/texts/en.json", '"neverNamed"')),
    Break("page/views/due.js", "", 'export const NEVER = t("due.neverThere");', "texts"),
    Break("page/texts/en.json", '"lang": "en",', '"lang": "en", "lang": "en",', "json"),
    Break("page/icon.svg", "</svg>", "</sgv>", "xml"),
    # data and pages
    Break("examples/first/acts.json", "[\n", "[,\n", "json"),
    Break("docs/openapi.yaml", "      summary: Do acts, one after another\n", "", "openapi", ("docs/openapi.yaml",
          "operationId: performActs")),
    Break("deploy/monitor/blackbox.yml", "  office:\n", "  office: [\n", "yaml", ("deploy/monitor/blackbox.yml",
          "timeout: 20s")),
    Break("docs/ERRORS.md", "", "[nowhere](nowhere.md)", "tests/links"),
    # what other programs of a machine read
    Break("deploy/systemd/office@.service", "PrivateNetwork=yes", "PrivateNetworks=yes", "units"),
    Break("deploy/systemd/office-.service.d/hardening.conf", "NoNewPrivileges=yes", "NoNewPrivilege=yes", "units"),
    Break("deploy/systemd/office-.service.d/hardening.conf", "NoNewPrivileges=yes\n", "", "hardening",
          ("companions/copies/units/office-backup@.service", "# Copies the office NAME once")),
    Break("companions/copies/units/office-scrub@.service", "PrivateNetwork=yes\n", "", "hardening",
          ("companions/copies/units/office-scrub@.service", "# Compares the contents of the newest backup")),
    Break("companions/gate/units/office-gate@.service", "[Service]", "[Servce]", "units"),
    Break("companions/copies/units/office-scrub@.timer", "OnCalendar=", "OnCalendar=every ", "units"),
    Break("companions/copies/units/office-scrub@.service", "PartOf=office-all@%i.target\n", "", "units",
          ("companions/copies/units/office-scrub@.service", "# Compares the contents of the newest backup")),
    Break("companions/gate/units/office-gate@.socket", "sockets.target office-all@%i.target", "sockets.target", "units"),
    Break("deploy/nginx/gated.conf", "return 404;", "retrun 404;", "nginx"),
    Break("deploy/nginx/server.conf", "ssl_session_tickets off;", "ssl_session_tickets off", "nginx",
          ("deploy/nginx/server.conf", "server_tokens off;")),
    Break("deploy/nginx/acts.js", "", NO_PROGRAM, "javascript"),
    Break("deploy/nginx/office.nft", "chain office_ports {", "chian office_ports {", "nft"),
    Break("companions/gate/office-journal.logrotate", "monthly", "monthy", "logrotate"),
    Break("deploy/nginx/fail2ban/filter.d/office.conf", "401", "403", "fail2ban"),
    Break("deploy/monitor/office.rules.yml", 'probe_success{job="office"} == 0', 'probe_success{job="office" == 0',
          "prometheus"),
    Break("deploy/systemd/city.conf", "PORT=8081", "PORT 8081", "environment"),
    Break("companions/members/setup/keepalived.conf", "    user office\n}\n", "    user office\n", "keepalived",
          ("companions/members/setup/keepalived.conf", "vrrp_script office_member_answers {")),
    Break("companions/gate/city.access", "role registry may", "role registry mya", "access"),
    Break("companions/members/setup/city.json", '"listen": 8181', '"listen": "8181"', "members"),
    # the package
    Break("deploy/packaging/files", "companions/registers/office-yearend  ", "companions/office-yearends ", "lists"),
    Break("companions/nowhere.py", "", "pass", "lists"),
    Break("companions/copies/office-prune", "# office-prune FOLDER|FILE\n#\n", "# office-prune FOLDER|FILE\n", "manual",
          ("companions/copies/office-prune", "# Removes copies whose time has come.")),
    Break("deploy/packaging/copyright", "Copyright (C) 2026 the owners of Hakirohe", "", "copyright",
          ("deploy/packaging/copyright", "The records disposal office")),
    Break("CHANGELOG.md", "## 1.0.0 (", "## 1.0 0 (", "changelog"),
    # planted mistakes
    Break("companions/gate/office_gate/deciding.py", "        if not may[kind]:\n", "        if kind not in may:\n",
          "mutants",
          ("tests/gate/planted/roles.mutants", "## the kind of an act is not looked at\n")),
    Break("page/plain/forecast.js", 'row.held === null ? "destroy" : "skip"', 'row.held !== null ? "skip" : "destroy"',
          "mutants",
          ("tests/web/planted/forecast.mutants", "## a run is foreseen without its holds\n")),
    Break("companions/office_common/files.py", "suppress(Refused, OSError), locked(left)",
          "suppress(OSError, Refused), locked(left)", "tests/transfer/mutants --applies",
          ("tests/transfer/planted.mutants", "## one run takes away what another writes\n")),
)
