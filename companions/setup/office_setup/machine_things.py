"""Parts that the offices of a machine share: the site of nginx, its certificate, logs, and the rules of nftables."""
import re
from collections.abc import Callable, Iterator, Sequence
from pathlib import Path

from office_common.errors import USAGE, Refused
from office_setup import keys, ports, texts
from office_setup.declared import Office
from office_setup.machine import NGINX, OFFICES, ROOT_OWNED, Machine, Owner
from office_setup.made import Made
from office_setup.things import Deed, Entry, File, Folder, Link, Log, Once, Thing, Unit

LINKED = ("http.conf", "server.conf", "acts.js", "reject.conf", "pam.conf", "vault.conf", "gate_http.conf", "gate.conf",
          "gate_lines.conf", "signed_gate.conf", "signed_name.conf", "signed_http.conf", "sign_in.conf", "sign_in.js")
"""files of nginx that are the product's, used where the package has them"""
LIMITS = "/etc/nginx/modules-enabled/90-office.conf"
SITE, ENABLED = "/etc/nginx/sites-available/office", "/etc/nginx/sites-enabled/office"
ROTATIONS = {"/etc/logrotate.d/office-acts": "nginx/office-acts",
             "/etc/logrotate.d/office-journal": "gate/office-journal.logrotate",
             "/etc/logrotate.d/office-sign-in": "signin/office-sign-in.logrotate"}
ACTS = "/var/log/office/acts.log"
NGINX_LOGS = ("/var/log/nginx/office.access.log", "/var/log/nginx/office.error.log")
LOG_OWNER = Owner("www-data", "adm", 0o640)
RULES, GATE_RULES, ALL_RULES = "/etc/office.nft", "/etc/office-gate.nft", "/etc/nftables.conf"
CONNECTIONS = re.compile(r"(worker_connections\s+)\d+;")
ENOUGH = r"worker_connections\s+(819[2-9]|8[2-9]\d\d|9\d{3}|\d{5,});"
PART = re.compile(r"^\s*location /([a-z0-9-]+)/ \{", re.M)
PORT = re.compile(r"tcp dport (\{[^}]*\}|\d+) meta skuid != ")


def check_site(machine: Machine, offices: Sequence[Office], made: Made) -> None:
    """Refuses to replace a handmade site that serves an undeclared office."""
    file = machine.at(SITE)
    if not file.is_file() or made.is_as_made(SITE):
        return
    names = {office.name for office in offices}
    parts = PART.findall(file.read_text(encoding="utf-8", errors="replace"))
    if not parts:
        raise Refused(USAGE, f"{SITE} serves no office in a folder of its own, and its addresses would change: move it away")
    strange = [name for name in parts if name not in names]
    if strange:
        raise Refused(USAGE, f"{SITE} has the office {strange[0]}, which would be without a site: begin with "
                      f"`office-setup new {strange[0]}`, or move that site away")


def check_certificate(machine: Machine, office: Office) -> None:
    """Refuses a certificate or a key that is not there."""
    for key, path in (("certificate", office.tls.certificate), ("key", office.tls.key)):
        if path is not None and not machine.at(path).is_file():
            raise office.refuse(key, f"there is no file {path}")


# ---- nginx


def links(machine: Machine) -> Iterator[Thing]:
    """Returns the links to the product's files, so that an upgrade of the package upgrades them."""
    share = machine.share()
    for name in LINKED:
        yield Link(machine, f"{NGINX}/{name}", f"{share}/nginx/{name}").for_nginx()
    yield Link(machine, LIMITS, f"{share}/nginx/limits.conf").for_nginx()
    for path, source in ROTATIONS.items():
        yield Link(machine, path, f"{share}/{source}")


def certificate(machine: Machine, office: Office) -> list[Thing]:
    tls = office.tls
    if tls.certificate is None or tls.key is None:
        return [keys.site_key(machine, tls.site)]
    return [Link(machine, keys.CERTIFICATE, tls.certificate).for_nginx(), Link(machine, keys.KEY, tls.key).for_nginx()]


def logs(machine: Machine) -> Iterator[Thing]:
    """Returns the logs. They name who requested which record, so they get their modes before nginx opens them."""
    yield Folder(machine, "/var/log/office")
    for path in NGINX_LOGS:
        yield Once(machine, path, str, LOG_OWNER)
    older = sorted(path.name for path in machine.at("/var/log/office").glob("acts.log-*"))
    for name in ("acts.log", *older):
        yield Log(machine, f"/var/log/office/{name}", LOG_OWNER)


def nginx(machine: Machine, offices: Sequence[Office]) -> Iterator[Thing]:
    """Returns all that nginx reads."""
    yield Folder(machine, OFFICES)
    yield Folder(machine, NGINX)
    yield from links(machine)
    yield Entry(machine, "/etc/nginx/nginx.conf", ENOUGH, lambda text: CONNECTIONS.sub(r"\g<1>8192;", text),
                "worker_connections 8192;").for_nginx()
    yield Once(machine, f"{NGINX}/actors.conf", texts.of_all, ROOT_OWNED).for_nginx()
    yield File(machine, f"{NGINX}/vaults.conf", lambda: texts.vaults(offices)).for_nginx()
    yield File(machine, f"{NGINX}/sign_in_site.map", lambda: texts.sign_in_site(offices)).for_nginx()
    yield File(machine, f"{NGINX}/gate_tokens.conf", lambda: texts.tokens(machine, offices),
               Owner("root", "root", 0o600)).for_nginx()
    yield from certificate(machine, offices[0])
    yield from logs(machine)
    yield File(machine, SITE, lambda: texts.site(machine, offices)).for_nginx()
    yield Link(machine, ENABLED, "../sites-available/office").for_nginx()


# ---- nftables


def loaded_ports(machine: Machine) -> set[int]:
    """Returns the ports that the loaded rules leave to the gates."""
    done = machine.run("nft", "list", "chain", "inet", "office_gate", "gated_ports")
    part = PORT.search(done.text)
    return {int(number) for number in re.findall(r"\d+", part[1])} if part and not done.status else set()


def are_loaded(machine: Machine, numbers: Sequence[int]) -> bool:
    done = machine.run("nft", "list", "chain", "inet", "office", "office_ports")
    return done.status == 0 and "reject" in done.text and loaded_ports(machine) == set(numbers)


def nftables(machine: Machine, offices: Sequence[Office]) -> Iterator[Thing]:
    """Returns the rules of nftables: the files, their loading at boot, and the loaded rules."""
    numbers = sorted(ports.all_of(machine, offices).values())
    load = tuple(("nft", "-f", str(machine.at(path))) for path in (RULES, GATE_RULES))
    yield File(machine, RULES, lambda: texts.rules(machine), then=load)
    yield File(machine, GATE_RULES, lambda: texts.gate_rules(machine, numbers), then=load)
    for path in (RULES, GATE_RULES):
        line = f'include "{path}"'
        yield Entry(machine, ALL_RULES, f"^{re.escape(line)}", with_line(line), line)

    def do() -> list[str]:
        for command in load:
            machine.must(*command)
        return []
    yield Deed("the rules of nftables: they are not loaded", lambda: are_loaded(machine, numbers), do)
    yield AtBoot(machine, "nftables.service")


def with_line(line: str) -> Callable[[str], str]:
    """Returns a function that adds a line at the end of a text."""
    def add(text: str) -> str:
        end = "" if not text or text.endswith("\n") else "\n"
        return f"{text}{end}{line}\n"
    return add


class AtBoot(Unit):
    """A unit that is enabled and not started now: nftables.service would discard the rules of others."""

    def difference(self) -> str | None:
        state = self.machine.run("systemctl", "is-enabled", self.name).text
        return None if state == "enabled" else f"{self.name}: does not start with the machine"

    def make(self, made: Made) -> list[str]:
        self.machine.must("systemctl", "enable", self.name)
        return []


def product_links(machine: Machine) -> list[Path]:
    """Returns the links that nginx and logrotate read without the site, and that of the site."""
    return [machine.at(path) for path in (ENABLED, LIMITS, *ROTATIONS)]
